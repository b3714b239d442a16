//! Pieces of a state as texts of bytes, which are kept once each, and back.

use super::buffers::{Buffer, Message, KINDS};
use super::plan::REGISTERS;
use super::table::{Block, Cpu, Guest, Place, Queue, Section, STAGES, WORKS};

/// Whether a state is kept with its history: how many calls took effect and how many positions were
/// drawn, also by whom. No step reads it, apart from the room of traces.
#[derive(Clone, Copy, PartialEq, Eq, Debug)]
pub enum History {
    Kept,
    LeftOut,
}

fn put_u32(out: &mut Vec<u8>, number: u32) {
    out.extend_from_slice(&number.to_le_bytes());
}

fn put_option(out: &mut Vec<u8>, thread: Option<u8>) {
    out.extend_from_slice(&[thread.is_some() as u8, thread.unwrap_or(0)]);
}

fn put_queue(out: &mut Vec<u8>, queue: &Queue) {
    out.extend_from_slice(&(queue.len() as u16).to_le_bytes());
    out.extend_from_slice(queue);
}

fn put_words(out: &mut Vec<u8>, words: &[u64]) {
    words.iter().for_each(|word| out.extend_from_slice(&word.to_le_bytes()));
}

fn put_message(out: &mut Vec<u8>, message: &Message) {
    out.push(message.words().len() as u8);
    put_words(out, message.words());
}

fn put_place(out: &mut Vec<u8>, place: Place) {
    out.extend_from_slice(&match place {
        Place::Ready(c) => [0, c],
        Place::Running(c) => [1, c],
        Place::Pending(c) => [2, c],
        Place::Hand(c) => [3, c],
        Place::LockSleeper(b) => [4, b],
        Place::WaitRecv(b) => [5, b],
        Place::WaitSend(b) => [6, b],
        Place::Ended => [7, 0],
    });
}

/// Writes a CPU, without its trace.
pub fn put_cpu(out: &mut Vec<u8>, cpu: &Cpu, history: History) {
    put_option(out, cpu.current);
    put_option(out, cpu.hand);
    if history == History::Kept {
        put_u32(out, cpu.begun as u32);
    }
    put_queue(out, &cpu.ready);
    let Some(section) = &cpu.section else { return };
    out.extend_from_slice(&[section.work as u8, section.lock as u8, section.is_inside as u8, section.copy.is_some() as u8]);
    match section.copy.as_deref() {
        None => {}
        Some(Block::Pending(queue)) => out.extend_from_slice(queue),
        Some(Block::Buffer(buffer)) => put_buffer(out, buffer, history),
    }
}

/// Writes a thread. Without history it has what it did only until its call returns.
pub fn put_guest(out: &mut Vec<u8>, guest: &Guest, history: History, lines: u32) {
    let is_kept = history == History::Kept;
    put_u32(out, if is_kept { guest.line } else { guest.line.min(lines) });
    out.push(guest.stage as u8);
    put_place(out, guest.place);
    if is_kept {
        put_u32(out, guest.position);
    }
    let is_read = is_kept || STAGES[8..].contains(&guest.stage);
    match guest.effect {
        Some((kind, message)) if is_read => {
            out.push(1 + kind as u8);
            put_message(out, &message);
        }
        _ => out.push(0),
    }
    let used = guest.registers.iter().enumerate().filter(|&(_, &word)| word != 0);
    out.push(used.clone().map(|(i, _)| 1 << i).sum());
    used.for_each(|(_, &word)| put_words(out, &[word]));
}

fn put_buffer(out: &mut Vec<u8>, buffer: &Buffer, history: History) {
    put_option(out, buffer.owner);
    out.push(buffer.is_closed as u8);
    if history == History::Kept {
        [buffer.effects, buffer.closes, buffer.positions[0], buffer.positions[1]].iter().for_each(|&it| put_u32(out, it));
    }
    put_queue(out, &buffer.sleepers);
    buffer.waiting.iter().chain(&buffer.lines).for_each(|queue| put_queue(out, queue));
    out.push(buffer.items.len() as u8);
    buffer.items.iter().for_each(|item| put_message(out, item));
}

/// Writes a lock: the CPUs in its line, and its block.
pub fn put_lock(out: &mut Vec<u8>, line: &Queue, block: &Block, history: History) {
    put_queue(out, line);
    match block {
        Block::Pending(queue) => out.extend_from_slice(queue),
        Block::Buffer(buffer) => put_buffer(out, buffer, history),
    }
}

/// Reads what was written.
pub struct Bytes<'b>(pub &'b [u8]);

impl<'b> Bytes<'b> {
    fn take(&mut self, count: usize) -> &'b [u8] {
        let (taken, rest) = self.0.split_at(count);
        self.0 = rest;
        taken
    }

    fn byte(&mut self) -> u8 {
        self.take(1)[0]
    }

    fn number(&mut self) -> u32 {
        let mut bytes = [0; 4];
        bytes.copy_from_slice(self.take(4));
        u32::from_le_bytes(bytes)
    }

    fn word(&mut self) -> u64 {
        let mut bytes = [0; 8];
        bytes.copy_from_slice(self.take(8));
        u64::from_le_bytes(bytes)
    }

    fn option(&mut self) -> Option<u8> {
        match self.take(2) {
            [0, _] => None,
            bytes => Some(bytes[1]),
        }
    }

    fn queue(&mut self, queue: &mut Queue) {
        let bytes = self.take(2);
        let length = bytes[0] as usize | (bytes[1] as usize) << 8;
        queue.clear();
        queue.extend_from_slice(self.take(length));
    }

    fn rest(&mut self, queue: &mut Queue) {
        queue.clear();
        queue.extend_from_slice(self.take(self.0.len()));
    }

    fn message(&mut self) -> Message {
        let mut words = [0; REGISTERS];
        let count = self.byte() as usize;
        words[..count].iter_mut().for_each(|word| *word = self.word());
        Message::of(&words[..count])
    }

    fn place(&mut self) -> Place {
        let bytes = self.take(2);
        let number = bytes[1];
        match bytes[0] {
            0 => Place::Ready(number),
            1 => Place::Running(number),
            2 => Place::Pending(number),
            3 => Place::Hand(number),
            4 => Place::LockSleeper(number),
            5 => Place::WaitRecv(number),
            6 => Place::WaitSend(number),
            _ => Place::Ended,
        }
    }

    /// Reads a CPU. `is_buffer` says of the number of a lock whether it is a buffer's, with its block.
    pub fn cpu(&mut self, cpu: &mut Cpu, history: History, locks: &[Block]) {
        cpu.current = self.option();
        cpu.hand = self.option();
        cpu.begun = if history == History::Kept { self.number() as i32 } else { 0 };
        self.queue(&mut cpu.ready);
        cpu.section = None;
        if self.0.is_empty() {
            return;
        }
        let (work, lock, is_inside, has_copy) = (WORKS[self.byte() as usize], self.byte() as usize, self.byte() != 0, self.byte() != 0);
        let mut copy = if has_copy { Some(Box::new(locks[lock].clone())) } else { None };
        if let Some(block) = &mut copy {
            self.block(block, history);
        }
        cpu.section = Some(Section { work, lock, is_inside, copy });
    }

    /// Reads a thread.
    pub fn guest(&mut self, guest: &mut Guest, history: History) {
        guest.line = self.number();
        guest.stage = STAGES[self.byte() as usize];
        guest.place = self.place();
        guest.position = if history == History::Kept { self.number() } else { 0 };
        guest.effect = match self.byte() {
            0 => None,
            kind => Some((KINDS[kind as usize - 1], self.message())),
        };
        let used = self.byte();
        for (i, register) in guest.registers.iter_mut().enumerate() {
            *register = if used >> i & 1 == 1 { self.word() } else { 0 };
        }
    }

    fn buffer(&mut self, buffer: &mut Buffer, history: History) {
        buffer.owner = self.option();
        buffer.is_closed = self.byte() != 0;
        if history == History::Kept {
            buffer.effects = self.number();
            buffer.closes = self.number();
            buffer.positions = [self.number(), self.number()];
        } else {
            buffer.effects = 0;
            buffer.closes = 0;
            buffer.positions = [0; 2];
        }
        self.queue(&mut buffer.sleepers);
        buffer.waiting.iter_mut().chain(&mut buffer.lines).for_each(|queue| self.queue(queue));
        let count = self.byte();
        buffer.items.clear();
        buffer.items.extend((0..count).map(|_| self.message()));
    }

    fn block(&mut self, block: &mut Block, history: History) {
        match block {
            Block::Pending(queue) => self.rest(queue),
            Block::Buffer(buffer) => self.buffer(buffer, history),
        }
    }

    /// Reads a lock into its line and its block.
    pub fn lock(&mut self, line: &mut Queue, block: &mut Block, history: History) {
        self.queue(line);
        self.block(block, history);
    }
}
