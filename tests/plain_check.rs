//! A plain Rust program that judges a trace text of any version, to measure `mctower check` against and to hold it beside:
//! the same grammar, the same reasons in the same order, no contracts. It ends with status 3 where its answer is a no.
//!
//! plain_check < trace

mod buffer;
#[path = "../plans/limits.rs"]
mod limits;

use buffer::{Buffer, Message};
use limits::{BUFFERS, CAPACITY, CPUS, ENTRIES, THREADS};
use std::collections::VecDeque;
use std::io::Read;

const SPELLING: &str = "Spelling(30)";
const RANGE: &str = "Range(31)";

/// The pieces of a line, just as many as are wanted.
fn pieces<const N: usize>(line: &[u8]) -> Result<[&[u8]; N], &'static str> {
    let mut found = [&line[..0]; N];
    let mut given = line.split(|byte| *byte == b' ');
    for piece in &mut found {
        *piece = given.next().ok_or(SPELLING)?;
    }
    if given.next().is_some() { Err(SPELLING) } else { Ok(found) }
}

fn is_number(piece: &[u8]) -> bool {
    piece.iter().all(u8::is_ascii_digit) && (piece.len() == 1 || !matches!(piece, [] | [b'0', ..]))
}

/// The number of a piece that spells one, from least to most.
fn number(piece: &[u8], least: u64, most: u64) -> Result<u64, &'static str> {
    let mut n: u64 = 0;
    for digit in piece {
        n = n.checked_mul(10).and_then(|n| n.checked_add(u64::from(digit - b'0'))).ok_or(RANGE)?;
    }
    if (least..=most).contains(&n) { Ok(n) } else { Err(RANGE) }
}

/// The words of a message's spelling.
fn words_of(piece: &[u8]) -> impl Iterator<Item = &[u8]> {
    piece.split(|byte| *byte == b',')
}

/// Whether a piece spells a message in a text of this version: the third has several words.
fn is_message(piece: &[u8], version: u64) -> bool {
    words_of(piece).all(is_number) && (version == 3 || !piece.contains(&b','))
}

/// The message of a piece that spells one.
fn message(piece: &[u8]) -> Result<Message, &'static str> {
    let mut found = Message { words: [0; 8], count: 0 };
    for word in words_of(piece) {
        *found.words.get_mut(found.count).ok_or(RANGE)? = number(word, 0, u64::MAX)?;
        found.count += 1;
    }
    Ok(found)
}

fn spelled<const N: usize>(line: &[u8], word: &[u8]) -> Result<[u64; N], &'static str> {
    let rest = line.strip_prefix(word).ok_or(SPELLING)?;
    let mut found = [0; N];
    for (slot, piece) in found.iter_mut().zip(pieces::<N>(rest)?) {
        if !is_number(piece) {
            return Err(SPELLING);
        }
        *slot = number(piece, 0, u64::MAX).unwrap_or(u64::MAX);
    }
    Ok(found)
}

/// What is read before the line that comes.
struct Judge {
    version: u64,
    lowest: u64,
    entries: usize,
    buffers: Vec<Buffer>,
}

impl Judge {
    fn entry(&mut self, line: &[u8]) -> Result<(), &'static str> {
        let [_, cpu, thread, kind, b, value, op, pos] = pieces::<8>(line)?;
        let (call, least_version, has_value) = match kind {
            b"send" => (0, 1, true),
            b"recv" => (1, 1, true),
            b"close" => (2, 2, false),
            b"sendc" => (0, 2, true),
            b"recvc" => (1, 2, false),
            _ => return Err(SPELLING),
        };
        let has_numbers = [cpu, thread, b, op, pos].iter().all(|piece| is_number(piece));
        let has_its_value = if has_value { is_message(value, self.version) } else { value == b"-" };
        if !has_numbers || !has_its_value || least_version > self.version {
            return Err(SPELLING);
        }
        number(cpu, 0, CPUS as u64 - 1)?;
        number(thread, 0, THREADS as u64 - 1)?;
        let b = number(b, 0, self.buffers.len() as u64 - 1)? as usize;
        let message = if has_value { message(value)? } else { Message { words: [0; 8], count: 1 } };
        let last = ENTRIES as u64 - 1;
        let (op, pos) = (number(op, 0, last)?, number(pos, 0, last)?);
        self.entries += 1;
        if self.entries > ENTRIES {
            return Err(RANGE);
        }
        self.lowest = self.lowest.max(if message.count > 1 { 3 } else { least_version });
        let buffer = &mut self.buffers[b];
        if op != buffer.ops {
            return Err("Op(32)");
        }
        if pos != buffer.calls[call] {
            return Err("Pos(33)");
        }
        // sendc and recvc are of a closed buffer, send is of an open one
        if call < 2 && kind != b"recv" && buffer.is_closed() != (least_version == 2) {
            return Err("CloseState(39)");
        }
        match kind {
            b"send" if buffer.items.len() == buffer.capacity => return Err("Full(34)"),
            b"send" => buffer.items.push_back(message),
            b"recv" => match buffer.items.pop_front() {
                None => return Err("EmptyTake(35)"),
                Some(first) if first != message => return Err("WrongValue(36)"),
                Some(_) => {}
            },
            b"recvc" if !buffer.items.is_empty() => return Err("NotEmpty(40)"),
            _ => {}
        }
        buffer.ops += 1;
        buffer.calls[call] += 1;
        Ok(())
    }

    /// The line that tells what is left in buffer b.
    fn left(&self, line: &[u8], b: usize) -> Result<(), &'static str> {
        let mut given = line.split(|byte| *byte == b' ');
        if given.next() != Some(b"left") || given.next() != Some(b.to_string().as_bytes()) || !given.clone().all(|piece| is_message(piece, self.version)) {
            return Err(SPELLING);
        }
        let (mut items, mut is_right) = (self.buffers[b].items.iter(), true);
        for piece in given {
            let message = message(piece)?;
            is_right &= items.next() == Some(&message);
        }
        if is_right && items.next().is_none() { Ok(()) } else { Err("Left(37)") }
    }
}

fn judge(text: &[u8]) -> Result<(), (usize, &'static str)> {
    let (mut at, mut rest) = (0, text);
    let mut next = || {
        at += 1;
        let end = rest.iter().position(|byte| *byte == b'\n').ok_or((at, SPELLING))?;
        let line = &rest[..end];
        rest = &rest[end + 1..];
        Ok((at, line, rest.is_empty()))
    };
    let (_, head, _) = next()?;
    let version = match head {
        b"mctower-trace 1" => 1,
        b"mctower-trace 2" => 2,
        b"mctower-trace 3" => 3,
        _ => return Err((1, SPELLING)),
    };
    let mut state = Judge { version, lowest: 1, entries: 0, buffers: Vec::with_capacity(BUFFERS) };
    let [count] = spelled(next()?.1, b"buffers ").map_err(|reason| (2, reason))?;
    if !(1..=BUFFERS as u64).contains(&count) {
        return Err((2, RANGE));
    }
    for b in 0..count {
        let (i, line, _) = next()?;
        let [number, capacity] = spelled(line, b"cap ").map_err(|reason| (i, reason))?;
        if number != b {
            return Err((i, SPELLING));
        }
        if !(1..=CAPACITY as u64).contains(&capacity) {
            return Err((i, RANGE));
        }
        state.buffers.push(Buffer { capacity: capacity as usize, items: VecDeque::with_capacity(CAPACITY), ops: 0, calls: [0; 3] });
    }
    let mut left = 0;
    while left < state.buffers.len() {
        let (i, line, _) = next()?;
        if left == 0 && (line == b"e" || line.starts_with(b"e ")) {
            state.entry(line).map_err(|reason| (i, reason))?;
        } else {
            state.left(line, left).map_err(|reason| (i, reason))?;
            left += 1;
        }
    }
    match next()? {
        (i, b"end", _) if state.lowest < version => Err((i, "Version(38)")),
        (_, b"end", true) => Ok(()),
        (i, b"end", false) => Err((i + 1, SPELLING)),
        (i, ..) => Err((i, SPELLING)),
    }
}

fn main() {
    let mut text = Vec::new();
    std::io::stdin().read_to_end(&mut text).unwrap();
    match judge(&text) {
        Ok(()) => println!("yes"),
        Err((line, reason)) => {
            println!("no {line} {reason}");
            std::process::exit(3);
        }
    }
}
