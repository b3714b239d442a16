//! Made by tools/limit-table.py from crates/event_log/src/ids.rt, which says what each is.
#![allow(dead_code)]
pub const CPUS: usize = 16;
pub const THREADS: usize = 256;
pub const BUFFERS: usize = 16;
pub const CAPACITY: usize = 32;
pub const TRACE: usize = 65_536;
pub const ENTRIES: usize = 1_048_576;
