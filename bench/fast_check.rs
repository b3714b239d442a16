//! A checker of trace texts that is written for speed, to measure `mctower check` against: one pass
//! over the bytes of each line, parts of 64 KB, no copies. It gives a verdict on the entries of
//! well-formed texts. It takes the lines before them as they are, and does not read those after them.
//!
//! fast_check < trace

#[path = "../plans/limits.rs"]
mod limits;

use limits::{CAPACITY, CPUS, THREADS};
use std::io::Read;

const PART: usize = 65_536;
/// Words of a message at most, fixed by the format.
const WORDS: usize = 8;
/// So many digits stay below 2^64.
const SHORT: usize = 19;

#[derive(Clone, Copy)]
struct Message {
    count: usize,
    words: [u64; WORDS],
}

impl Message {
    fn of(word: u64) -> Message {
        let mut words = [0; WORDS];
        words[0] = word;
        Message { count: 1, words }
    }

    fn words(&self) -> &[u64] {
        &self.words[..self.count]
    }
}

#[derive(Clone, Copy, PartialEq)]
enum Kind {
    Send,
    Recv,
    Close,
    SendClosed,
    RecvClosed,
}

impl Kind {
    /// Which calls have their positions counted together: sends, receives or closes.
    fn group(self) -> usize {
        match self {
            Kind::Send | Kind::SendClosed => 0,
            Kind::Recv | Kind::RecvClosed => 1,
            Kind::Close => 2,
        }
    }

    fn has_message(self) -> bool {
        !matches!(self, Kind::Close | Kind::RecvClosed)
    }
}

struct Buffer {
    capacity: usize,
    items: [Message; CAPACITY],
    start: usize,
    len: usize,
    ops: u64,
    calls: [u64; 3],
}

impl Buffer {
    fn new(capacity: usize) -> Buffer {
        Buffer { capacity, items: [Message::of(0); CAPACITY], start: 0, len: 0, ops: 0, calls: [0; 3] }
    }

    #[inline(always)]
    fn put(&mut self, message: Message) -> Option<()> {
        if self.len == self.capacity {
            return None;
        }
        self.items[(self.start + self.len) % CAPACITY] = message;
        self.len += 1;
        Some(())
    }

    #[inline(always)]
    fn take(&mut self, message: &Message) -> Option<()> {
        if self.len == 0 || self.items[self.start].words() != message.words() {
            return None;
        }
        self.start = (self.start + 1) % CAPACITY;
        self.len -= 1;
        Some(())
    }

    #[inline(always)]
    fn enter(&mut self, kind: Kind, message: Message, op: u64, pos: u64) -> Option<()> {
        if op != self.ops || pos != self.calls[kind.group()] {
            return None;
        }
        let closed = self.calls[2] > 0;
        match kind {
            Kind::Send if closed => return None,
            Kind::Send => self.put(message)?,
            Kind::Recv => self.take(&message)?,
            Kind::SendClosed | Kind::RecvClosed if !closed => return None,
            Kind::RecvClosed if self.len > 0 => return None,
            Kind::Close | Kind::SendClosed | Kind::RecvClosed => {}
        }
        self.ops += 1;
        self.calls[kind.group()] += 1;
        Some(())
    }
}

/// A line that is read from the front on.
struct Line<'a> {
    text: &'a [u8],
    at: usize,
}

impl Line<'_> {
    #[inline(always)]
    fn number(&mut self) -> Option<u64> {
        let from = self.at;
        let mut at = from;
        let mut number: u64 = 0;
        while at < self.text.len() {
            let digit = self.text[at].wrapping_sub(b'0');
            if digit > 9 {
                break;
            }
            number = if at - from >= SHORT {
                number.checked_mul(10)?.checked_add(u64::from(digit))?
            } else {
                number * 10 + u64::from(digit)
            };
            at += 1;
        }
        if at == from || (at - from > 1 && self.text[from] == b'0') {
            return None;
        }
        self.at = at;
        Some(number)
    }

    #[inline(always)]
    fn byte(&mut self, byte: u8) -> Option<()> {
        if self.text.get(self.at) != Some(&byte) {
            return None;
        }
        self.at += 1;
        Some(())
    }

    #[inline(always)]
    fn kind(&mut self) -> Option<Kind> {
        let rest = &self.text[self.at..];
        let (kind, length) = if rest.starts_with(b"send ") {
            (Kind::Send, 5)
        } else if rest.starts_with(b"recv ") {
            (Kind::Recv, 5)
        } else if rest.starts_with(b"close ") {
            (Kind::Close, 6)
        } else if rest.starts_with(b"sendc ") {
            (Kind::SendClosed, 6)
        } else if rest.starts_with(b"recvc ") {
            (Kind::RecvClosed, 6)
        } else {
            return None;
        };
        self.at += length;
        Some(kind)
    }

    #[inline(always)]
    fn message(&mut self, version: u8) -> Option<Message> {
        let mut message = Message::of(self.number()?);
        while self.byte(b',').is_some() {
            if message.count == WORDS || version < 3 {
                return None;
            }
            message.words[message.count] = self.number()?;
            message.count += 1;
        }
        Some(message)
    }

    #[inline(always)]
    fn value(&mut self, kind: Kind, version: u8) -> Option<Message> {
        if kind.has_message() {
            return self.message(version);
        }
        self.byte(b'-')?;
        Some(Message::of(0))
    }
}

/// Which line may come.
enum Next {
    Head,
    Count,
    Capacity(usize),
    Entry,
    Behind,
}

struct Judge {
    next: Next,
    version: u8,
    buffers: Vec<Buffer>,
}

impl Judge {
    fn entry(&mut self, text: &[u8]) -> Option<()> {
        let mut line = Line { text, at: 2 };
        let cpu = line.number()?;
        line.byte(b' ')?;
        let thread = line.number()?;
        line.byte(b' ')?;
        if cpu >= CPUS as u64 || thread >= THREADS as u64 {
            return None;
        }
        let kind = line.kind()?;
        let buffer = line.number()? as usize;
        line.byte(b' ')?;
        let message = line.value(kind, self.version)?;
        line.byte(b' ')?;
        let op = line.number()?;
        line.byte(b' ')?;
        let pos = line.number()?;
        if line.at != text.len() {
            return None;
        }
        self.buffers.get_mut(buffer)?.enter(kind, message, op, pos)
    }

    fn capacity(&mut self, count: usize, text: &[u8]) -> Option<()> {
        let mut line = Line { text, at: 4 };
        line.number()?;
        line.byte(b' ')?;
        self.buffers.push(Buffer::new(line.number()? as usize));
        if self.buffers.len() == count {
            self.next = Next::Entry;
        }
        Some(())
    }

    fn line(&mut self, text: &[u8]) -> Option<()> {
        match self.next {
            Next::Head => {
                self.version = text.last()? - b'0';
                self.next = Next::Count;
            }
            Next::Count => self.next = Next::Capacity(Line { text, at: 8 }.number()? as usize),
            Next::Capacity(count) => return self.capacity(count, text),
            Next::Entry if text.starts_with(b"e ") => return self.entry(text),
            Next::Entry | Next::Behind => self.next = Next::Behind,
        }
        Some(())
    }
}

/// Where the first line feed is. It is looked for 32 bytes at a time, which are compared all at once.
#[inline(always)]
fn line_feed(text: &[u8]) -> Option<usize> {
    let mut at = 0;
    while at + 32 <= text.len() && !text[at..at + 32].iter().fold(false, |found, byte| found | (*byte == b'\n')) {
        at += 32;
    }
    while at < text.len() {
        if text[at] == b'\n' {
            return Some(at);
        }
        at += 1;
    }
    None
}

/// Judges the lines that end in the part. Gives how many bytes they have, or the number of the line
/// with a fault.
fn judge_part(judge: &mut Judge, part: &[u8], number: &mut u64) -> Result<usize, u64> {
    let mut at = 0;
    while let Some(length) = line_feed(&part[at..]) {
        *number += 1;
        judge.line(&part[at..at + length]).ok_or(*number)?;
        at += length + 1;
    }
    Ok(at)
}

fn main() -> std::io::Result<()> {
    let mut judge = Judge { next: Next::Head, version: 1, buffers: vec![] };
    let mut part = vec![0u8; PART];
    let (mut filled, mut number) = (0, 0);
    let mut input = std::io::stdin().lock();
    loop {
        let count = input.read(&mut part[filled..])?;
        filled += count;
        match judge_part(&mut judge, &part[..filled], &mut number) {
            Ok(judged) => {
                part.copy_within(judged..filled, 0);
                filled -= judged;
            }
            Err(number) => {
                println!("no {number}");
                return Ok(());
            }
        }
        if count == 0 {
            break;
        }
        if filled == part.len() {
            part.resize(2 * filled, 0);
        }
    }
    println!("yes");
    Ok(())
}
