//! What the tests ask of the tracer: the entries of traces in one order, and the text of one buffer with room for one message.

use arrayvec::ArrayVec;
use event_log::{Entry, Msg};
use std::alloc::Global;
use std::io::Write;
use tracer::{GatherError, Sink, WriteFault, gather, write_trace};

/// The entries of these traces in one order.
pub fn gathered(alloc: Global, traces: &[&[Entry]]) -> Result<Vec<Entry>, GatherError> {
    let mut entries = Vec::new(alloc);
    for entry in gather(alloc, traces)? {
        entries.push(*entry)?;
    }
    Ok(entries)
}

/// Writes the text of these entries, and of the messages that are left.
pub fn written<W: Write>(
    sink: &mut Sink<W>,
    order: &[&Entry],
    left: &[Msg],
) -> Result<(), WriteFault> {
    let mut items = ArrayVec::new();
    for message in left {
        items.push(*message);
    }
    write_trace(sink, &[1], order, &[items])
}
