//! The console as a whole: a reader, a bounded buffer and a writer.

ghost use Rattle.std.specs.Prelude.{IfOk};
ghost use Rattle.console.specs.Passing.{HavePassed};

use crate::ends::End;
use cpu_workers::{NativeReport, WorkerError, run_native};
use std::alloc::Global;
use std::io::{Read, Write};
use std::sync::Wait;
use std::thread::Threads;

/// How many bytes are between the typist and the printer at most.
pub const CAPACITY: u8 = 32;

/// Passes the bytes of a reader through one bounded buffer to a writer, and returns both ends: the
/// typist and the printer.
///
/// If neither end failed, what the writer holds has grown by the bytes that the reader had, in
/// their order. That is a fact about readers and writers whose bytes a contract can name, such as a
/// slice and a vector. No contract names the bytes of the standard streams.
///
/// It waits for both ends, so it need not return.
///
/// Errors: `NoMemory` if an allocation failed, `NoThread` if a thread could not be started. Then no
/// byte was taken.
pub fn pass_on<R, T, W>(
    rt: &R,
    alloc: Global,
    input: T,
    output: W,
) -> Result<NativeReport<End<T, W>>, WorkerError>
where
    R: Threads + Wait + Sync,
    T: Read + Drop + Send,
    W: Write + Drop + Send,
    ensures { IfOk result (λ r. HavePassed T.remaining W.contents input output r.natives.items) }
{
    let mut ends = Vec::with_capacity(alloc, 2)?;
    ends.push_reserved(End::Typist(input, Ok(())));
    ends.push_reserved(End::Printer(output, Ok(())));
    run_native(rt, alloc, &[CAPACITY], ends)
}
