//! The two ends of the console. The typist reads bytes and sends them; the printer receives them
//! and writes them. Neither takes memory. Each waits for the other at the buffer, so neither need
//! return.

ghost use Rattle.std.specs.Prelude.{◌≡◌, ◌<◌, [], length};
ghost use Rattle.cpu_workers.specs.Callers.{IsSameCaller};
ghost use Rattle.console.specs.Ends.{HasPrinted, HasTyped};

use crate::bytes::{byte_of, message_of, next_byte};
use cpu_workers::{Caller, Hints, Native};
use event_log::BufId;
use layer_traits::{CallLayer, IpcLaw};
use std::io::{self, Error, ErrorKind, Read, Write};
use std::sync::Wait;

/// One end of the console, and how it ended.
#[derive(Drop)]
pub enum End<T, W> {
    /// Sends each byte of a reader.
    Typist(T, io::Result<()>),
    /// Writes each byte that it receives.
    Printer(W, io::Result<()>),
}

impl<T, W> End<T, W> {
    /// Returns how it ended: an error of its reader or writer, or `BrokenPipe` if the typist found
    /// the buffer closed.
    pub fn ended(&self) -> io::Result<()> {
        match self {
            End::Typist(_, ended) | End::Printer(_, ended) => *ended,
        }
    }
}

impl<T: Read + Drop, W: Write + Drop> Native for End<T, W> {
    ghost use Rattle.std.specs.Prelude.{◌<◌, length};
    ghost use Rattle.console.specs.Kept.{KeepsBytes};

    // There is a buffer 0.
    ghost Needs = { λ end caps. 0 < length caps };

    // The typist has sent the bytes of its reader; the printer has written those that it received.
    ghost Kept = { KeepsBytes T.remaining W.contents };

    fn run<I: CallLayer<IpcLaw> + Drop, R: Wait>(&mut self, rt: &R, caller: &mut Caller<I>)
    where
        I::Machine: Drop + Hints,
    {
        match self {
            End::Typist(input, ended) => *ended = type_all(rt, caller, input),
            End::Printer(output, ended) => *ended = print_all(rt, caller, output),
        }
    }
}

/// Sends each byte of a reader, one a message, until the reader ends.
#[tactic(auto, using(crate::proofs::EndSteps::typist_steps))]
fn send_all<I: CallLayer<IpcLaw> + Drop, R: Wait, T: Read>(
    rt: &R,
    caller: &mut Caller<I>,
    input: &mut T,
) -> io::Result<()>
where
    I::Machine: Drop + Hints,
    requires buffer { 0 < length caller.old.caps }
    requires fresh { caller.old.calls ≡ [] }
    ensures typed { HasTyped (T.remaining input.old) (T.remaining input.new) caller.new.calls result }
    ensures same { IsSameCaller caller.old caller.new }
{
    for _ in 0..u64::MAX {
        let Some(byte) = next_byte(input)? else {
            return Ok(());
        };
        match caller.send(rt, BufId(0), &message_of(byte)) {
            Ok(()) => {}
            Err(_) => return Err(Error::from(ErrorKind::BrokenPipe)),
        }
    }
    Err(Error::from(ErrorKind::FileTooLarge))
}

/// Sends each byte of a reader, and then closes the buffer.
///
/// Requires: the caller has made no call, and there is a buffer 0. Errors: those of the reader, and
/// `BrokenPipe` if the buffer is closed. Then the bytes that were sent are the first of those that
/// were taken from the reader.
pub fn type_all<I: CallLayer<IpcLaw> + Drop, R: Wait, T: Read>(
    rt: &R,
    caller: &mut Caller<I>,
    input: &mut T,
) -> io::Result<()>
where
    I::Machine: Drop + Hints,
    requires buffer { 0 < length caller.old.caps }
    requires fresh { caller.old.calls ≡ [] }
    ensures typed { HasTyped (T.remaining input.old) (T.remaining input.new) caller.new.calls result }
    ensures same { IsSameCaller caller.old caller.new }
{
    let ended = send_all(rt, caller, input);
    caller.close(rt, BufId(0));
    ended
}

/// Writes each byte that it receives, until the buffer is closed and empty.
#[tactic(auto, using(crate::proofs::EndSteps::printer_steps))]
fn receive_all<I: CallLayer<IpcLaw> + Drop, R: Wait, W: Write>(
    rt: &R,
    caller: &mut Caller<I>,
    output: &mut W,
) -> io::Result<()>
where
    I::Machine: Drop + Hints,
    requires buffer { 0 < length caller.old.caps }
    requires fresh { caller.old.calls ≡ [] }
    ensures printed { HasPrinted (W.contents output.old) (W.contents output.new) caller.new.calls result }
    ensures same { IsSameCaller caller.old caller.new }
{
    for _ in 0..u64::MAX {
        match caller.recv(rt, BufId(0)) {
            None => return Ok(()),
            Some(message) => output.write_all(&[byte_of(&message)])?,
        }
    }
    Err(Error::from(ErrorKind::FileTooLarge))
}

/// Writes each byte that it receives, until the buffer is closed and empty. Then it closes the
/// buffer, so that the typist does not wait for a printer that has failed.
///
/// Requires: the caller has made no call, and there is a buffer 0. Errors: those of the writer.
pub fn print_all<I: CallLayer<IpcLaw> + Drop, R: Wait, W: Write>(
    rt: &R,
    caller: &mut Caller<I>,
    output: &mut W,
) -> io::Result<()>
where
    I::Machine: Drop + Hints,
    requires buffer { 0 < length caller.old.caps }
    requires fresh { caller.old.calls ≡ [] }
    ensures printed { HasPrinted (W.contents output.old) (W.contents output.new) caller.new.calls result }
    ensures same { IsSameCaller caller.old caller.new }
{
    let ended = receive_all(rt, caller, output);
    caller.close(rt, BufId(0));
    ended
}
