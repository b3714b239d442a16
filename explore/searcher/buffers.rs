//! Messages, and the block of a buffer.

use super::plan::{Side, REGISTERS};
use super::table::Queue;
use std::fmt;

/// A message of one to eight words; a call that has none has the message of no words.
#[derive(Clone, Copy, Debug, PartialEq, Eq)]
pub struct Message {
    count: u8,
    words: [u64; REGISTERS],
}

impl Message {
    /// A message of these words, at most eight.
    pub fn of(words: &[u64]) -> Message {
        let mut message = Message { count: words.len() as u8, words: [0; REGISTERS] };
        message.words[..words.len()].copy_from_slice(words);
        message
    }

    /// The message of a call that has none.
    pub fn none() -> Message {
        Message::of(&[])
    }

    /// Its words, in order.
    pub fn words(&self) -> &[u64] {
        &self.words[..self.count as usize]
    }

    /// The words, and zeros in place of those that are missing.
    pub fn padded(&self) -> [u64; REGISTERS] {
        self.words
    }
}

impl fmt::Display for Message {
    fn fmt(&self, out: &mut fmt::Formatter) -> fmt::Result {
        if self.count == 0 {
            return write!(out, "-");
        }
        let words: Vec<String> = self.words().iter().map(u64::to_string).collect();
        write!(out, "{}", words.join(","))
    }
}

/// What a call did when it took effect. The last two are of calls that found their buffer closed.
#[derive(Clone, Copy, Debug, PartialEq, Eq)]
#[repr(u8)]
pub enum Kind {
    Send,
    Receive,
    Close,
    SendClosed,
    ReceiveClosed,
}

/// The kinds, by their number.
pub const KINDS: [Kind; 5] = [Kind::Send, Kind::Receive, Kind::Close, Kind::SendClosed, Kind::ReceiveClosed];

impl Kind {
    /// The word of a trace text.
    pub fn word(self) -> &'static str {
        ["send", "recv", "close", "sendc", "recvc"][self as usize]
    }

    /// The kind with which its positions are counted.
    pub fn group(self) -> Kind {
        match self {
            Kind::SendClosed => Kind::Send,
            Kind::ReceiveClosed => Kind::Receive,
            kind => kind,
        }
    }

    /// The call, as a sentence names it.
    pub fn call(self) -> &'static str {
        ["send", "receive", "close", "send", "receive"][self as usize]
    }
}

/// The block of a buffer. The arrays are by side: receivers, then senders.
#[derive(Clone, Debug)]
pub struct Buffer {
    pub capacity: usize,
    pub owner: Option<u8>,
    pub sleepers: Queue,
    pub waiting: [Queue; 2],
    pub lines: [Queue; 2],
    pub items: Vec<Message>,
    pub is_closed: bool,
    /// Calls that took effect, closes, and positions drawn on each side.
    pub effects: u32,
    pub closes: u32,
    pub positions: [u32; 2],
}

impl Buffer {
    /// An open, empty buffer.
    pub fn new(capacity: usize) -> Buffer {
        Buffer {
            capacity,
            owner: None,
            sleepers: Queue::new(),
            waiting: [Queue::new(), Queue::new()],
            lines: [Queue::new(), Queue::new()],
            items: Vec::new(),
            is_closed: false,
            effects: 0,
            closes: 0,
            positions: [0; 2],
        }
    }

    /// Whether a call of a side may take effect.
    pub fn allows(&self, side: Side) -> bool {
        self.is_closed || if side == Side::Receivers { !self.items.is_empty() } else { self.items.len() < self.capacity }
    }

    /// The first of a side's line, if it is among those that wait.
    pub fn first_waiting(&self, side: Side) -> Option<u8> {
        let first = self.lines[side as usize].first().copied();
        first.filter(|t| self.waiting[side as usize].contains(t))
    }

    /// Whether the first of a side's line waits although its call is allowed.
    pub fn has_lost_wake_up(&self, side: Side) -> bool {
        self.owner.is_none() && self.first_waiting(side).is_some() && self.allows(side)
    }
}
