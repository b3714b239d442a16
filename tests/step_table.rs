//! The step table as plain Rust, for two programs: `tests/plain_tower.rs`, which a schedule steps, and
//! `bench/plain_threads.rs`, with a thread for each CPU. Here stand what a plan says, what a thread's
//! program does by itself, what each section of a call does to its buffer's block, and the trace text.
//! It shares no line with the tower. Sections are inlined where they are called, so that each program
//! is as fast as one with a table of its own. It reads the subset of plans that bench/make.py writes, and
//! arrays that go on in the next line behind a comma.

#[path = "../plans/limits.rs"]
mod limits;

use self::limits::CAPACITY;
use std::collections::VecDeque;
use std::fmt;
use std::io::Write;

pub const REGISTERS: usize = 8;

/// What a buffer carries: a word for each register, of which the first `count` are sent.
#[derive(Clone, Copy)]
pub struct Message {
    words: [u64; REGISTERS],
    count: usize,
}

/// What stands where a call had no message.
const NO_MESSAGE: Message = Message { words: [0; REGISTERS], count: 1 };

impl Message {
    fn of(words: &[u64]) -> Message {
        let mut message = Message { words: [0; REGISTERS], count: words.len() };
        message.words[..words.len()].copy_from_slice(words);
        message
    }
}

impl fmt::Display for Message {
    fn fmt(&self, out: &mut fmt::Formatter) -> fmt::Result {
        write!(out, "{}", self.words[0])?;
        self.words[1..self.count].iter().try_for_each(|word| write!(out, ",{word}"))
    }
}

/// The registers of a message call.
#[derive(Clone, Copy, PartialEq)]
pub enum Registers {
    One(usize),
    First(usize),
}

/// A side of a buffer: its receivers are 0, its senders 1.
pub type Side = usize;
pub const RECEIVERS: Side = 0;
const SENDERS: Side = 1;

#[derive(Clone, Copy, PartialEq)]
pub enum Instruction {
    Set(usize, u64),
    Add(usize, usize),
    Sub(usize, usize),
    Jnz(usize, usize),
    Send(usize, Registers, Option<usize>),
    Recv(usize, Registers, Option<usize>),
    Close(usize),
    Yield,
    Exit,
}

impl Instruction {
    /// The buffer of a call, and the side on which the call stands. A close does as a send.
    pub fn called(self) -> Option<(usize, Side)> {
        match self {
            Instruction::Send(b, ..) | Instruction::Close(b) => Some((b, SENDERS)),
            Instruction::Recv(b, ..) => Some((b, RECEIVERS)),
            _ => None,
        }
    }
}

/// An effect of a call: the last two are of calls that found their buffer closed.
#[derive(Clone, Copy, PartialEq)]
pub enum Kind {
    Send,
    Recv,
    Close,
    SendClosed,
    RecvClosed,
}

#[derive(Clone, Copy)]
pub struct Entry {
    cpu: u8,
    thread: u8,
    kind: Kind,
    buffer: u8,
    message: Message,
    op: u64,
    pos: u64,
}

impl Entry {
    /// The lowest version of the text that can spell it.
    fn version(&self) -> u8 {
        match self.kind {
            _ if self.message.count > 1 => 3,
            Kind::Send | Kind::Recv => 1,
            _ => 2,
        }
    }
}

/// The section that a call does next.
#[derive(Clone, Copy, PartialEq)]
pub enum Stage {
    Between,
    Acquires,
    Enters,
    Shuts,
    Tries,
    Waits,
    AcquiresAgain,
    Signals,
    SignalsOwn,
    Releases,
    Returns,
}

/// A thread: its program and how far it is.
pub struct Guest {
    program: Vec<Instruction>,
    pub line: usize,
    registers: [u64; REGISTERS],
    pub stage: Stage,
    position: u64,
    effect: Option<(Kind, Message)>,
}

impl Guest {
    pub fn new(program: Vec<Instruction>) -> Guest {
        Guest { program, line: 0, registers: [0; REGISTERS], stage: Stage::Between, position: 0, effect: None }
    }

    pub fn instruction(&self) -> Instruction {
        self.program.get(self.line).copied().unwrap_or(Instruction::Exit)
    }

    /// Whether its next step begins a call of a buffer.
    pub fn begins_call(&self) -> bool {
        self.stage == Stage::Between && self.instruction().called().is_some()
    }

    /// What its call sends.
    fn message(&self) -> Message {
        match self.instruction() {
            Instruction::Send(_, Registers::One(r), _) => Message::of(&self.registers[r..=r]),
            Instruction::Send(_, Registers::First(n), _) => Message::of(&self.registers[..n]),
            _ => NO_MESSAGE,
        }
    }

    /// Ends its call: puts what came where the instruction says, and goes to the next line, or to the target of a call that found its
    /// buffer closed.
    #[inline(always)]
    pub fn end_call(&mut self) {
        let mut next = self.line + 1;
        match (self.instruction(), self.effect) {
            (Instruction::Recv(_, Registers::One(r), _), Some((Kind::Recv, message))) => self.registers[r] = message.words[0],
            (Instruction::Recv(_, Registers::First(_), _), Some((Kind::Recv, message))) => self.registers = message.words,
            (Instruction::Send(_, _, Some(target)), Some((Kind::SendClosed, _))) => next = target,
            (Instruction::Recv(_, _, Some(target)), Some((Kind::RecvClosed, _))) => next = target,
            _ => {}
        }
        self.line = next;
        self.stage = Stage::Between;
    }

    /// Does an instruction that is no call; tells whether the thread ends by it.
    pub fn compute(&mut self, instruction: Instruction) -> bool {
        match instruction {
            Instruction::Set(d, n) => self.registers[d] = n,
            Instruction::Add(d, s) => self.registers[d] = self.registers[d].wrapping_add(self.registers[s]),
            Instruction::Sub(d, s) => self.registers[d] = self.registers[d].wrapping_sub(self.registers[s]),
            Instruction::Jnz(s, k) => {
                self.line = if self.registers[s] != 0 { k } else { self.line + 1 };
                return false;
            }
            _ => return true,
        }
        self.line += 1;
        false
    }

    /// The entry of the effect that its call has had.
    #[inline(always)]
    pub fn entry(&self, cpu: usize, thread: usize, buffer: usize, op: u64, pos: u64) -> Entry {
        let (kind, message) = self.effect.unwrap();
        Entry { cpu: cpu as u8, thread: thread as u8, kind, buffer: buffer as u8, message, op, pos }
    }
}

/// What a section does beyond its block and its thread's stage.
pub enum Done {
    Nothing,
    Wakes(Option<usize>),
    /// Its thread sleeps: among those that wait where its stage is `AcquiresAgain`, else among the sleepers of the lock.
    Sleeps(Option<usize>),
    TakesEffect { op: u64, pos: u64 },
}

/// A buffer's block; the arrays are by side.
pub struct Buffer {
    capacity: usize,
    owner: Option<usize>,
    pub sleepers: VecDeque<usize>,
    waiting: [VecDeque<usize>; 2],
    line: [VecDeque<usize>; 2],
    items: VecDeque<Message>,
    is_closed: bool,
    effects: u64,
    closes: u64,
    positions: [u64; 2],
}

impl Buffer {
    pub fn new(capacity: usize) -> Buffer {
        let queue = || VecDeque::with_capacity(64);
        Buffer {
            capacity,
            owner: None,
            sleepers: queue(),
            waiting: [queue(), queue()],
            line: [queue(), queue()],
            items: VecDeque::with_capacity(CAPACITY),
            is_closed: false,
            effects: 0,
            closes: 0,
            positions: [0; 2],
        }
    }

    /// Whether a side may go on: receivers where there are items, senders where there is room, both where the buffer is closed.
    fn may_go(&self, side: Side) -> bool {
        self.is_closed || if side == RECEIVERS { !self.items.is_empty() } else { self.items.len() < self.capacity }
    }

    /// Hands the lock to the first sleeper, who is woken; with no sleeper it is free.
    #[inline(always)]
    fn release(&mut self) -> Option<usize> {
        self.owner = self.sleepers.pop_front();
        self.owner
    }

    /// Wakes the front of a side, if it waits and may go on.
    #[inline(always)]
    fn signal(&mut self, side: Side) -> Option<usize> {
        let &t = self.line[side].front()?;
        let woken = self.waiting[side].contains(&t) && self.may_go(side);
        if woken {
            self.waiting[side].retain(|&u| u != t);
        }
        woken.then_some(t)
    }

    #[inline(always)]
    fn acquire(&mut self, t: usize) -> Done {
        if self.owner.is_some() {
            self.sleepers.push_back(t);
            return Done::Sleeps(None);
        }
        self.owner = Some(t);
        Done::Nothing
    }

    #[inline(always)]
    fn enter(&mut self, t: usize, side: Side, guest: &mut Guest) -> Done {
        self.line[side].push_back(t);
        guest.position = self.positions[side];
        self.positions[side] += 1;
        Done::Nothing
    }

    #[inline(always)]
    fn try_call(&mut self, t: usize, side: Side, guest: &mut Guest) -> Done {
        if self.line[side].front() != Some(&t) || !self.may_go(side) {
            guest.stage = Stage::Waits;
            return Done::Nothing;
        }
        let offered = guest.message();
        self.line[side].pop_front();
        let effect = match side {
            SENDERS if self.is_closed => (Kind::SendClosed, offered),
            SENDERS => {
                self.items.push_back(offered);
                (Kind::Send, offered)
            }
            _ => self.items.pop_front().map_or((Kind::RecvClosed, NO_MESSAGE), |first| (Kind::Recv, first)),
        };
        self.take_effect(guest, effect, guest.position)
    }

    #[inline(always)]
    fn shut(&mut self, guest: &mut Guest) -> Done {
        let pos = self.closes;
        self.is_closed = true;
        self.closes += 1;
        self.take_effect(guest, (Kind::Close, NO_MESSAGE), pos)
    }

    #[inline(always)]
    fn take_effect(&mut self, guest: &mut Guest, effect: (Kind, Message), pos: u64) -> Done {
        let op = self.effects;
        self.effects += 1;
        guest.effect = Some(effect);
        guest.stage = Stage::Signals;
        Done::TakesEffect { op, pos }
    }

    #[inline(always)]
    fn wait(&mut self, t: usize, side: Side) -> Done {
        self.waiting[side].push_back(t);
        Done::Sleeps(self.release())
    }

    /// Does the section that the call of thread `t` does next. A close signals as a send does, the receivers first.
    #[inline(always)]
    pub fn section(&mut self, t: usize, side: Side, guest: &mut Guest) -> Done {
        let stage = guest.stage;
        guest.stage = match stage {
            Stage::Acquires if matches!(guest.instruction(), Instruction::Close(_)) => Stage::Shuts,
            Stage::Acquires => Stage::Enters,
            Stage::Enters | Stage::AcquiresAgain => Stage::Tries,
            Stage::Waits => Stage::AcquiresAgain,
            Stage::Signals => Stage::SignalsOwn,
            Stage::SignalsOwn => Stage::Releases,
            Stage::Releases => Stage::Returns,
            stage => stage,
        };
        match stage {
            Stage::Acquires | Stage::AcquiresAgain => self.acquire(t),
            Stage::Enters => self.enter(t, side, guest),
            Stage::Shuts => self.shut(guest),
            Stage::Tries => self.try_call(t, side, guest),
            Stage::Waits => self.wait(t, side),
            Stage::Signals => Done::Wakes(self.signal(1 - side)),
            Stage::SignalsOwn => Done::Wakes(self.signal(side)),
            Stage::Releases => Done::Wakes(self.release()),
            Stage::Between | Stage::Returns => unreachable!(),
        }
    }
}

pub fn number(text: &str) -> usize {
    text.trim().parse().unwrap()
}

fn instruction(line: &str) -> Instruction {
    let p: Vec<&str> = line.split(' ').collect();
    let register = |i: usize| number(&p[i][1..]);
    let target = |i: usize| p.get(i).map(|piece| number(piece));
    match p[0] {
        "set" => Instruction::Set(register(1), p[2].parse().unwrap()),
        "add" => Instruction::Add(register(1), register(2)),
        "sub" => Instruction::Sub(register(1), register(2)),
        "jnz" => Instruction::Jnz(register(1), number(p[2])),
        "send" => Instruction::Send(number(p[1]), Registers::One(register(2)), target(3)),
        "sendm" => Instruction::Send(number(p[1]), Registers::First(number(p[2])), target(3)),
        "recv" => Instruction::Recv(number(p[1]), Registers::One(register(2)), target(3)),
        "recvm" => Instruction::Recv(number(p[1]), Registers::First(REGISTERS), target(2)),
        "close" => Instruction::Close(number(p[1])),
        "yield" => Instruction::Yield,
        _ => Instruction::Exit,
    }
}

fn inside(line: &str) -> &str {
    &line[line.find('[').unwrap() + 1..line.rfind(']').unwrap()]
}

/// What a plan says: the CPUs, the room of each trace, the capacity of each buffer, each thread's home and program.
pub struct Plan {
    pub cpus: usize,
    pub limit: usize,
    pub capacities: Vec<usize>,
    pub threads: Vec<(usize, Vec<Instruction>)>,
}

pub fn read_plan(text: &str) -> Plan {
    let mut plan = Plan { cpus: 0, limit: 0, capacities: vec![], threads: vec![] };
    let mut home = 0;
    let text = text.replace(",\n", ", ").replace("{ ", "\n").replace(", program = ", "\nprogram = ");
    for line in text.lines() {
        let Some((key, value)) = line.split_once(" = ") else { continue };
        match key {
            "cpus" => plan.cpus = number(value),
            "trace" => plan.limit = number(value),
            "buffers" => plan.capacities = inside(value).split(',').map(number).collect(),
            "cpu" => home = number(value),
            "program" => {
                let lines = inside(value).split(',').map(|s| instruction(s.trim().trim_matches('"')));
                plan.threads.push((home, lines.collect()));
            }
            _ => {}
        }
    }
    plan
}

/// The entries in the order that takes, at each point, the first CPU whose next entry has the op
/// number that its buffer waits for.
fn gather(traces: &[&[Entry]], buffers: usize) -> Vec<Entry> {
    let mut at = vec![0; traces.len()];
    let mut waits = vec![0; buffers];
    let mut order = Vec::with_capacity(traces.iter().map(|trace| trace.len()).sum());
    while let Some(c) = (0..traces.len()).find(|&c| traces[c].get(at[c]).is_some_and(|e| e.op == waits[e.buffer as usize])) {
        let entry = traces[c][at[c]];
        waits[entry.buffer as usize] += 1;
        at[c] += 1;
        order.push(entry);
    }
    order
}

/// Writes the line of an entry.
pub fn write_entry(e: &Entry, out: &mut impl Write) -> std::io::Result<()> {
    write!(out, "e {} {} ", e.cpu, e.thread)?;
    match e.kind {
        Kind::Send => write!(out, "send {} {}", e.buffer, e.message)?,
        Kind::Recv => write!(out, "recv {} {}", e.buffer, e.message)?,
        Kind::Close => write!(out, "close {} -", e.buffer)?,
        Kind::SendClosed => write!(out, "sendc {} {}", e.buffer, e.message)?,
        Kind::RecvClosed => write!(out, "recvc {} -", e.buffer)?,
    }
    writeln!(out, " {} {}", e.op, e.pos)
}

fn write_left(b: usize, buffer: &Buffer, out: &mut impl Write) -> std::io::Result<()> {
    write!(out, "left {b}")?;
    buffer.items.iter().try_for_each(|message| write!(out, " {message}"))?;
    writeln!(out)
}

/// Writes the trace text of what the CPUs have noted and of what the buffers hold.
pub fn write_trace(traces: &[&[Entry]], buffers: &[Buffer], out: &mut impl Write) -> std::io::Result<()> {
    let order = gather(traces, buffers.len());
    let version = order.iter().map(Entry::version).max().unwrap_or(1);
    writeln!(out, "mctower-trace {version}\nbuffers {}", buffers.len())?;
    for (b, buffer) in buffers.iter().enumerate() {
        writeln!(out, "cap {b} {}", buffer.capacity)?;
    }
    order.iter().try_for_each(|entry| write_entry(entry, out))?;
    buffers.iter().enumerate().try_for_each(|(b, buffer)| write_left(b, buffer, out))?;
    writeln!(out, "end")
}
