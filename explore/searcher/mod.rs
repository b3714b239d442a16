//! A searcher through all states of a plan: the step table, its laws, and the search. It reads no
//! file, prints nothing and knows no clock; `explore.rs` does that.

pub mod audit;
pub mod buffers;
pub mod coding;
pub mod interning;
pub mod laws;
pub mod mistakes;
pub mod pieces;
pub mod plan;
pub mod questions;
pub mod reasons;
pub mod renaming;
pub mod report;
pub mod schedules;
pub mod search;
pub mod table;
pub mod toml;
pub mod traces;
