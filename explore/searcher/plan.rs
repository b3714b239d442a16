//! Plans and the programs of their threads, with the refusals of `mctower`, each with its number.

#[path = "../../plans/limits.rs"]
mod limits;

use self::limits::{BUFFERS, CAPACITY, CPUS, THREADS, TRACE};
use super::toml::{read_document, Table, Value};
use std::fmt;

// A state packs a CPU into four bits, keeps the owners of 16 buffers, and marks 256 threads and 32 locks.
const _: () = assert!(CPUS <= 16 && BUFFERS <= 16 && THREADS <= 256);

/// The most CPUs of a plan.
pub const MOST_CPUS: i64 = CPUS as i64;
/// Fixed by the format.
const MOST_LINES: usize = 256;
/// Registers of a thread, and the most words of a message: fixed by the format.
pub const REGISTERS: usize = 8;

/// The registers of a message call.
#[derive(Clone, Copy, Debug, PartialEq, Eq)]
pub enum Registers {
    One(usize),
    First(usize),
}

/// A line of a program. Buffers, registers and lines are numbers from 0.
#[derive(Clone, Copy, Debug, PartialEq, Eq)]
pub enum Instruction {
    Set { to: usize, value: u64 },
    Add { to: usize, from: usize },
    Sub { to: usize, from: usize },
    Jump { unless_zero: usize, target: usize },
    Send { buffer: usize, from: Registers, target: Option<usize> },
    Receive { buffer: usize, to: Registers, target: Option<usize> },
    Close { buffer: usize },
    Yield,
    Exit,
}

/// A side of a buffer.
#[derive(Clone, Copy, Debug, PartialEq, Eq)]
pub enum Side {
    Receivers = 0,
    Senders = 1,
}

impl Side {
    /// The side across.
    pub fn other(self) -> Side {
        match self {
            Side::Receivers => Side::Senders,
            Side::Senders => Side::Receivers,
        }
    }
}

impl Instruction {
    /// The buffer of a call and the side on which its thread is. A close signals as a send does.
    pub fn call(self) -> Option<(usize, Side)> {
        match self {
            Instruction::Send { buffer, .. } | Instruction::Close { buffer } => Some((buffer, Side::Senders)),
            Instruction::Receive { buffer, .. } => Some((buffer, Side::Receivers)),
            _ => None,
        }
    }

    /// Whether it closes a buffer.
    pub fn is_close(self) -> bool {
        matches!(self, Instruction::Close { .. })
    }
}

/// A thread of a plan: its home CPU and its program, also as it is spelled.
pub struct Thread {
    pub home: usize,
    pub program: Vec<Instruction>,
    pub lines: Vec<String>,
}

/// A plan within its limits, those of `plans/limits.rs`.
pub struct Plan {
    pub cpus: usize,
    /// How many entries the trace of a CPU has room for.
    pub room: u32,
    pub capacities: Vec<usize>,
    pub threads: Vec<Thread>,
}

/// Why `mctower` refuses a plan: its own words, then where and why.
#[derive(Debug)]
pub struct Refusal {
    pub words: String,
    pub line: Option<usize>,
    pub why: String,
}

impl fmt::Display for Refusal {
    fn fmt(&self, out: &mut fmt::Formatter) -> fmt::Result {
        let place = self.line.map_or(String::new(), |line| format!("line {line}: "));
        write!(out, "{}: {place}{}", self.words, self.why)
    }
}

fn refuse<T>(words: String, line: Option<usize>, why: String) -> Result<T, Refusal> {
    Err(Refusal { words, line, why })
}

/// What a key must be.
struct Key<'k> {
    name: &'k str,
    /// How refusals name it.
    shown: String,
    expected: String,
}

impl<'k> Key<'k> {
    fn new(name: &'k str, shown: &str, expected: &str) -> Key<'k> {
        Key { name, shown: shown.to_string(), expected: expected.to_string() }
    }

    fn find<'t>(&self, table: &'t Table) -> Result<(&'t Value, usize), Refusal> {
        match table.get(self.name) {
            Some(found) => Ok(found),
            None => self.missing(None, format!("the key {} is missing: expected {}", self.name, self.expected)),
        }
    }

    fn missing<T>(&self, line: Option<usize>, why: String) -> Result<T, Refusal> {
        refuse(format!("MissingKey(21) {}", self.shown), line, why)
    }

    fn wrong_kind<T>(&self, value: &Value, line: usize) -> Result<T, Refusal> {
        self.missing(Some(line), format!("{} is {}: expected {}", self.name, value.kind(), self.expected))
    }

    fn out_of_range<T>(&self, line: usize) -> Result<T, Refusal> {
        refuse(format!("OutOfRange(22) {}", self.shown), Some(line), format!("expected {}", self.expected))
    }

    fn integer(&self, table: &Table, least: i64, most: i64) -> Result<i64, Refusal> {
        match self.find(table)? {
            (&Value::Integer(number), _) if (least..=most).contains(&number) => Ok(number),
            (Value::Integer(_), line) => self.out_of_range(line),
            (value, line) => self.wrong_kind(value, line),
        }
    }

    fn array<'t>(&self, table: &'t Table, is_item: impl Fn(&Value) -> bool) -> Result<(&'t [Value], usize), Refusal> {
        match self.find(table)? {
            (Value::Array(items), line) => match items.iter().find(|item| !is_item(item)) {
                Some(strange) => self.wrong_kind(strange, line),
                None => Ok((items, line)),
            },
            (value, line) => self.wrong_kind(value, line),
        }
    }
}

/// Reads a plan, refused in the order of `mctower run`.
pub fn read_plan(raw: &[u8]) -> Result<Plan, Refusal> {
    let Ok(text) = std::str::from_utf8(raw) else {
        return refuse("BadToml(20)".to_string(), None, "the text is not UTF-8".to_string());
    };
    let document = match read_document(text) {
        Ok(document) => document,
        Err(fault) => return refuse("BadToml(20)".to_string(), Some(fault.line), fault.to_string()),
    };
    let cpus = Key::new("cpus", "cpus", &format!("an integer, 1 to {CPUS}")).integer(&document, 1, MOST_CPUS)?;
    let room = Key::new("trace", "trace", &format!("an integer, 1 to {TRACE}")).integer(&document, 1, TRACE as i64)?;
    let capacities = read_capacities(&document)?;
    read_lock(&document)?;
    let threads = read_threads(&document, cpus, capacities.len())?;
    Ok(Plan { cpus: cpus as usize, room: room as u32, capacities, threads })
}

fn read_capacities(document: &Table) -> Result<Vec<usize>, Refusal> {
    let key = Key::new("buffers", "buffers", &format!("1 to {BUFFERS} integers, each 1 to {CAPACITY}"));
    let (items, line) = key.array(document, |item| matches!(item, Value::Integer(_)))?;
    let numbers: Vec<i64> = items.iter().filter_map(|it| if let Value::Integer(n) = it { Some(*n) } else { None }).collect();
    if numbers.is_empty() || numbers.len() > BUFFERS || numbers.iter().any(|it| !(1..=CAPACITY as i64).contains(it)) {
        return key.out_of_range(line);
    }
    Ok(numbers.iter().map(|&it| it as usize).collect())
}

fn read_lock(document: &Table) -> Result<(), Refusal> {
    let key = Key::new("lock", "lock", "\"ticket\" or \"grant\"");
    match document.get("lock") {
        None => Ok(()),
        Some((Value::Text(name), _)) if name == "ticket" || name == "grant" => Ok(()),
        Some((Value::Text(_), line)) => key.out_of_range(line),
        Some((value, line)) => key.wrong_kind(value, line),
    }
}

fn read_threads(document: &Table, cpus: i64, buffers: usize) -> Result<Vec<Thread>, Refusal> {
    let key = Key::new("thread", "thread", &format!("1 to {THREADS} tables, each below a line [[thread]]"));
    let (tables, line) = key.array(document, |item| matches!(item, Value::Table(_)))?;
    if tables.is_empty() || tables.len() > THREADS {
        return key.out_of_range(line);
    }
    let tables = tables.iter().filter_map(|it| if let Value::Table(table) = it { Some(table) } else { None });
    tables.enumerate().map(|(number, table)| read_thread(number, table, cpus, buffers)).collect()
}

fn read_thread(number: usize, table: &Table, cpus: i64, buffers: usize) -> Result<Thread, Refusal> {
    let expected = format!("an integer, 0 to {}", cpus - 1);
    let home = Key::new("cpu", &format!("thread {number} cpu"), &expected).integer(table, 0, cpus - 1)?;
    let key = Key::new("program", &format!("thread {number} program"), "an array of strings, one for each instruction");
    let (items, line) = key.array(table, |item| matches!(item, Value::Text(_)))?;
    let lines: Vec<String> = items.iter().filter_map(|it| if let Value::Text(text) = it { Some(text.clone()) } else { None }).collect();
    if lines.is_empty() || lines.len() > MOST_LINES {
        let fault = if lines.is_empty() { "line 0 Empty(15)".to_string() } else { format!("line {MOST_LINES} TooLong(14)") };
        return refuse(format!("Guest(23) thread {number} {fault}"), Some(line), format!("a program has 1 to {MOST_LINES} lines"));
    }
    let mut program = Vec::with_capacity(lines.len());
    for (i, text) in lines.iter().enumerate() {
        match read_instruction(text, lines.len()) {
            Ok(instruction) => program.push(instruction),
            Err((fault, why)) => {
                return refuse(format!("Guest(23) thread {number} line {i} {fault}"), Some(line), format!("\"{text}\": {why}"));
            }
        }
    }
    match program.iter().filter_map(|it| it.call()).find(|&(buffer, _)| buffer >= buffers) {
        Some((buffer, _)) => refuse(format!("OutOfRange(22) {}", key.shown), Some(line), format!("the plan has no buffer {buffer}")),
        None => Ok(Thread { home: home as usize, program, lines }),
    }
}

type Faulty = (&'static str, String);

/// Whether a text spells a number: `0`, or digits of which the first is not `0`.
pub fn is_number(text: &str) -> bool {
    !text.is_empty() && text.bytes().all(|it| it.is_ascii_digit()) && (text.len() == 1 || !text.starts_with('0'))
}

fn register(piece: &str) -> Result<usize, Faulty> {
    let found = (0..REGISTERS).find(|i| piece == format!("r{i}"));
    found.ok_or_else(|| ("BadRegister(11)", format!("{piece} is no register: expected r0 to r7")))
}

fn number(piece: &str, least: u64, most: u64) -> Result<u64, Faulty> {
    let found = if is_number(piece) { piece.parse().ok() } else { None };
    found
        .filter(|it| (least..=most).contains(it))
        .ok_or_else(|| ("BadNumber(12)", format!("{piece}: expected a number, {least} to {most}")))
}

fn buffer(piece: &str) -> Result<usize, Faulty> {
    number(piece, 0, BUFFERS as u64 - 1).map(|it| it as usize)
}

fn target(piece: &str, lines: usize) -> Result<usize, Faulty> {
    if !is_number(piece) {
        return Err(("BadNumber(12)", format!("{piece}: expected a line of the program")));
    }
    let line = piece.parse().ok().filter(|&it: &usize| it < lines);
    line.ok_or_else(|| ("BadTarget(13)", format!("{piece}: expected a line of the program, 0 to {}", lines - 1)))
}

/// Reads a line of a program that has so many lines; refuses it by the first piece that is wrong.
fn read_instruction(text: &str, lines: usize) -> Result<Instruction, Faulty> {
    let pieces: Vec<&str> = text.split(' ').collect();
    let optional = |i: usize| pieces.get(i).map(|piece| target(piece, lines)).transpose();
    Ok(match pieces[..] {
        ["set", to, value] => Instruction::Set { to: register(to)?, value: number(value, 0, u64::MAX)? },
        ["add", to, from] => Instruction::Add { to: register(to)?, from: register(from)? },
        ["sub", to, from] => Instruction::Sub { to: register(to)?, from: register(from)? },
        ["jnz", it, line] => Instruction::Jump { unless_zero: register(it)?, target: target(line, lines)? },
        ["send", b, from] | ["send", b, from, _] => {
            Instruction::Send { buffer: buffer(b)?, from: Registers::One(register(from)?), target: optional(3)? }
        }
        ["sendm", b, count] | ["sendm", b, count, _] => {
            let (buffer, count) = (buffer(b)?, number(count, 1, REGISTERS as u64)? as usize);
            Instruction::Send { buffer, from: Registers::First(count), target: optional(3)? }
        }
        ["recv", b, to] | ["recv", b, to, _] => {
            Instruction::Receive { buffer: buffer(b)?, to: Registers::One(register(to)?), target: optional(3)? }
        }
        ["recvm", b] | ["recvm", b, _] => {
            Instruction::Receive { buffer: buffer(b)?, to: Registers::First(REGISTERS), target: optional(2)? }
        }
        ["close", b] => Instruction::Close { buffer: buffer(b)? },
        ["yield"] => Instruction::Yield,
        ["exit"] => Instruction::Exit,
        _ => return Err(("UnknownWord(10)", "this is no instruction, or has too few or too many pieces".to_string())),
    })
}
