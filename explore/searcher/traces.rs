//! The traces of CPUs, each kept once as the trace before its last entry and that entry; and the
//! text in which `mctower run` prints them.

use super::buffers::{Kind, Message};
use super::interning::Texts;
use super::table::{Halt, Place, System};
use std::collections::VecDeque;

/// A call that took effect.
#[derive(Clone, Copy, Debug, PartialEq, Eq)]
pub struct Entry {
    pub cpu: u8,
    pub thread: u8,
    pub kind: Kind,
    pub buffer: u8,
    pub message: Message,
    pub op: u32,
    pub position: u32,
}

impl Entry {
    /// The lowest version of the trace text that can spell it.
    fn version(&self) -> u8 {
        match self.kind {
            _ if self.message.words().len() > 1 => 3,
            Kind::Send | Kind::Receive => 1,
            _ => 2,
        }
    }
}

/// The number of a trace.
pub type TraceId = u32;

/// The trace with no entries.
pub const NO_ENTRIES: TraceId = 0;

struct Node {
    earlier: TraceId,
    length: u32,
    entry: Entry,
}

/// Traces, each kept once. Number 0 is the trace with no entries.
#[derive(Default)]
pub struct Traces {
    nodes: Vec<Node>,
    keys: Texts,
}

impl Traces {
    /// The table with the empty trace.
    pub fn new() -> Traces {
        Traces::default()
    }

    /// How many entries a trace has.
    pub fn length(&self, trace: TraceId) -> u32 {
        if trace == NO_ENTRIES { 0 } else { self.nodes[trace as usize - 1].length }
    }

    /// A trace with one entry more.
    pub fn longer(&mut self, trace: TraceId, entry: Entry) -> TraceId {
        let mut key = trace.to_le_bytes().to_vec();
        key.extend_from_slice(&[entry.cpu, entry.thread, entry.kind as u8, entry.buffer]);
        key.extend_from_slice(&entry.op.to_le_bytes());
        key.extend_from_slice(&entry.position.to_le_bytes());
        entry.message.words().iter().for_each(|word| key.extend_from_slice(&word.to_le_bytes()));
        let number = self.keys.number(&key);
        if number as usize == self.nodes.len() {
            self.nodes.push(Node { earlier: trace, length: self.length(trace) + 1, entry });
        }
        number + 1
    }

    /// The last entry of a trace that has one, and the trace before it.
    pub fn last(&self, trace: TraceId) -> Option<(&Entry, TraceId)> {
        if trace == NO_ENTRIES {
            return None;
        }
        let node = &self.nodes[trace as usize - 1];
        Some((&node.entry, node.earlier))
    }

    /// The entries of a trace, oldest first.
    pub fn entries(&self, trace: TraceId) -> Vec<&Entry> {
        let mut entries = Vec::with_capacity(self.length(trace) as usize);
        let mut at = trace;
        while let Some((entry, earlier)) = self.last(at) {
            entries.push(entry);
            at = earlier;
        }
        entries.reverse();
        entries
    }

    /// The bytes that are kept.
    pub fn memory(&self) -> usize {
        self.nodes.capacity() * std::mem::size_of::<Node>() + self.keys.memory()
    }
}

/// The entries of all CPUs in the order that takes, at each point, the first trace whose next entry
/// is its buffer's next; `None` if there is no order.
fn gathered<'s>(system: &'s System) -> Option<Vec<&'s Entry>> {
    let mut left: Vec<VecDeque<&Entry>> =
        system.cpus.iter().map(|cpu| system.traces.entries(cpu.trace).into_iter().collect()).collect();
    let mut due = vec![0; system.plan.capacities.len()];
    let mut order = Vec::new();
    while left.iter().any(|trace| !trace.is_empty()) {
        let is_next = |trace: &&mut VecDeque<&Entry>| trace.front().map_or(false, |it| it.op == due[it.buffer as usize]);
        let entry = left.iter_mut().find(is_next)?.pop_front()?;
        due[entry.buffer as usize] = entry.op + 1;
        order.push(entry);
    }
    Some(order)
}

/// The trace text that `mctower run` prints.
pub fn trace_text(system: &System) -> String {
    let Some(order) = gathered(system) else { return "error: NoOrder(6)\n".to_string() };
    let buffers = 0..system.plan.capacities.len();
    let version = order.iter().map(|entry| entry.version()).max().unwrap_or(1);
    let mut text = format!("mctower-trace {version}\nbuffers {}\n", buffers.len());
    for b in buffers.clone() {
        text += &format!("cap {b} {}\n", system.plan.capacities[b]);
    }
    for entry in order {
        let Entry { cpu, thread, kind, buffer, message, op, position } = entry;
        text += &format!("e {cpu} {thread} {} {buffer} {message} {op} {position}\n", kind.word());
    }
    for b in buffers {
        let items: String = system.buffer(b).items.iter().map(|item| format!(" {item}")).collect();
        text += &format!("left {b}{items}\n");
    }
    text + "end\n"
}

/// A place as state lines have it.
pub fn place_text(place: Place) -> String {
    match place {
        Place::Ready(c) => format!("Ready({c})"),
        Place::Running(c) => format!("Running({c})"),
        Place::Pending(c) => format!("Pending({c})"),
        Place::Hand(c) => format!("Hand({c})"),
        Place::LockSleeper(b) => format!("LockSleeper({b})"),
        Place::WaitRecv(b) => format!("WaitRecv({b})"),
        Place::WaitSend(b) => format!("WaitSend({b})"),
        Place::Ended => "Ended".to_string(),
    }
}

/// The state lines that `mctower run` prints.
pub fn state_text(system: &System) -> String {
    let mut text = String::new();
    for c in 0..system.cpus.len() {
        let halt = match system.halt(c) {
            None => "live",
            Some(Halt::AllEnded) => "AllEnded",
            Some(Halt::TraceFull) => "TraceFull",
        };
        text += &format!("cpu {c} {halt}\n");
    }
    for (t, guest) in system.guests.iter().enumerate() {
        text += &format!("thread {t} {}\n", place_text(guest.place));
    }
    text + &format!("quiet {}\n", if system.is_quiet() { "yes" } else { "no" })
}
