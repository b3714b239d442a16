//! A state as a row of numbers: each CPU, each trace, each thread and each lock is a piece, which
//! is kept once; and all states as a tree of pairs, so that a state more takes about 50 bytes with its way.

use super::coding::{put_cpu, put_guest, put_lock, Bytes, History};
use super::interning::{Pairs, Texts};
use super::laws::{broken_by, part_of_cpu, part_of_guest, part_of_lock, Laws, Part};
use super::mistakes::Mistake;
use super::plan::Plan;
use super::table::System;

/// What stands at each place of a row.
#[derive(Clone, Copy, Debug)]
pub enum At {
    Cpu(usize),
    Trace(usize),
    Guest(usize),
    Lock(usize),
}

/// The places of a row. What steps of one CPU change is close together: the CPU, its trace, its
/// threads and its pending queue; then come the buffers. Without history there are no traces.
pub struct Places {
    order: Vec<At>,
    cpus: Vec<usize>,
    traces: Vec<usize>,
    guests: Vec<usize>,
    locks: Vec<usize>,
}

impl Places {
    fn new(plan: &Plan, history: History) -> Places {
        let mut order = Vec::new();
        for c in 0..plan.cpus {
            order.push(At::Cpu(c));
            if history == History::Kept {
                order.push(At::Trace(c));
            }
            order.extend((0..plan.threads.len()).filter(|&t| plan.threads[t].home == c).map(At::Guest));
            order.push(At::Lock(c));
        }
        order.extend((0..plan.capacities.len()).map(|b| At::Lock(plan.cpus + b)));
        let (cpus, guests, locks) = (plan.cpus, plan.threads.len(), plan.cpus + plan.capacities.len());
        let mut places = Places { order, cpus: vec![0; cpus], traces: vec![0; cpus], guests: vec![0; guests], locks: vec![0; locks] };
        for (place, &at) in places.order.iter().enumerate() {
            match at {
                At::Cpu(c) => places.cpus[c] = place,
                At::Trace(c) => places.traces[c] = place,
                At::Guest(t) => places.guests[t] = place,
                At::Lock(lock) => places.locks[lock] = place,
            }
        }
        places
    }

    /// How many places there are.
    pub fn count(&self) -> usize {
        self.order.len()
    }

    /// What is at a place.
    pub fn at(&self, place: usize) -> At {
        self.order[place]
    }

    /// The place of something.
    pub fn of(&self, at: At) -> usize {
        match at {
            At::Cpu(c) => self.cpus[c],
            At::Trace(c) => self.traces[c],
            At::Guest(t) => self.guests[t],
            At::Lock(lock) => self.locks[lock],
        }
    }
}

/// A system that is loaded from rows, and the pieces that were met so far.
pub struct Pieces<'p> {
    pub system: System<'p>,
    pub history: History,
    pub places: Places,
    texts: Texts,
    parts: Vec<Part>,
    /// The row of the loaded state.
    pub row: Vec<u32>,
    scratch: Vec<u8>,
}

impl<'p> Pieces<'p> {
    /// The system of a plan before its first step.
    pub fn new(plan: &'p Plan, mistake: Option<Mistake>, history: History) -> Pieces<'p> {
        let system = System::new(plan, mistake, history == History::LeftOut);
        let places = Places::new(plan, history);
        let mut pieces = Pieces { system, history, places, texts: Texts::default(), parts: Vec::new(), row: Vec::new(), scratch: Vec::new() };
        pieces.row = (0..pieces.places.count()).map(|place| pieces.number_of(place)).collect();
        pieces
    }

    /// The number of the piece that the system has at a place.
    pub fn number_of(&mut self, place: usize) -> u32 {
        let at = self.places.at(place);
        if let At::Trace(c) = at {
            return self.system.cpus[c].trace;
        }
        let mut text = std::mem::replace(&mut self.scratch, Vec::new());
        write_piece(&mut text, &self.system, place, at, self.history);
        let number = self.texts.number(&text);
        if number as usize == self.parts.len() {
            self.parts.push(part_of(&self.system, at));
        }
        self.scratch = text;
        number
    }

    /// The number of a piece that another system of the plan has at a place, with its text.
    pub fn keep(&mut self, text: &[u8], system: &System, at: At) -> u32 {
        let number = self.texts.number(text);
        if number as usize == self.parts.len() {
            self.parts.push(part_of(system, at));
        }
        number
    }

    /// Makes a piece the system's.
    pub fn put(&mut self, place: usize, number: u32) {
        let at = self.places.at(place);
        if let At::Trace(c) = at {
            self.system.cpus[c].trace = number;
        } else {
            let (_, text) = self.texts.get(number).split_at(2);
            read_piece(text, &mut self.system, at, self.history);
        }
        self.row[place] = number;
    }

    /// Makes a state the system's.
    pub fn load(&mut self, row: &[u32]) {
        for (place, &number) in row.iter().enumerate() {
            if self.row[place] != number {
                self.put(place, number);
            }
        }
    }

    /// Takes the pieces that the last steps of CPU `c` changed into the row; adds their places.
    pub fn take_changes(&mut self, c: usize, changed: &mut Vec<usize>) {
        changed.clear();
        changed.push(self.places.of(At::Cpu(c)));
        if self.system.changed.has_entry && self.history == History::Kept {
            changed.push(self.places.of(At::Trace(c)));
        }
        changed.extend(self.system.changed.guests.iter().map(|&t| self.places.of(At::Guest(t as usize))));
        changed.extend(self.system.changed.lock.map(|lock| self.places.of(At::Lock(lock))));
        for &place in changed.iter() {
            self.row[place] = self.number_of(place);
        }
    }

    /// The laws that the loaded state breaks, apart from those of the order and of stillness.
    pub fn broken(&self) -> Laws {
        let told = self.row.iter().zip(&self.places.order).filter(|(_, at)| !matches!(at, At::Trace(_)));
        broken_by(told.map(|(&number, _)| &self.parts[number as usize]), self.places.guests.len())
    }

    /// A piece of a row as a text.
    pub fn text(&self, number: u32) -> &[u8] {
        self.texts.get(number)
    }

    /// The bytes that are kept.
    pub fn memory(&self) -> usize {
        self.texts.memory() + self.parts.capacity() * std::mem::size_of::<Part>() + self.system.traces.memory()
    }
}

/// What a system says of the laws at a place.
fn part_of(system: &System, at: At) -> Part {
    match at {
        At::Cpu(c) => part_of_cpu(system, c),
        At::Guest(t) => part_of_guest(system, t),
        At::Lock(lock) => part_of_lock(system, lock),
        At::Trace(_) => unreachable!("traces are no texts"),
    }
}

/// Writes the piece of a place. It begins with its place, so no two places share one.
pub fn write_piece(text: &mut Vec<u8>, system: &System, place: usize, at: At, history: History) {
    text.clear();
    text.extend_from_slice(&(place as u16).to_le_bytes());
    match at {
        At::Cpu(c) => put_cpu(text, &system.cpus[c], history),
        At::Guest(t) => put_guest(text, &system.guests[t], history, system.plan.threads[t].program.len() as u32),
        At::Lock(lock) => put_lock(text, &system.lines[lock], &system.blocks[lock], history),
        At::Trace(_) => {}
    }
}

/// Reads the piece of a place, without its place, into a system.
pub fn read_piece(text: &[u8], system: &mut System, at: At, history: History) {
    match at {
        At::Cpu(c) => {
            let blocks = &system.blocks;
            Bytes(text).cpu(&mut system.cpus[c], history, blocks);
            if history == History::LeftOut {
                system.cpus[c].trace = super::traces::NO_ENTRIES;
            }
        }
        At::Guest(t) => Bytes(text).guest(&mut system.guests[t], history),
        At::Lock(lock) => Bytes(text).lock(&mut system.lines[lock], &mut system.blocks[lock], history),
        At::Trace(_) => {}
    }
}

/// Rows of numbers, each kept once: a row is the leaves of a tree, and each node of the tree is the
/// number of a pair. The root's number is the row's.
pub struct Rows {
    width: usize,
    inner: Pairs,
    roots: Pairs,
}

impl Rows {
    /// Rows of at least two numbers.
    pub fn new(width: usize) -> Rows {
        Rows { width, inner: Pairs::default(), roots: Pairs::default() }
    }

    /// The nodes of a tree that holds a row: node `i` has the children `2 * i` and `2 * i + 1`.
    pub fn tree(&mut self, row: &[u32]) -> Vec<u32> {
        let mut nodes = vec![0; self.width];
        nodes.extend_from_slice(row);
        for i in (2..self.width).rev() {
            nodes[i] = self.inner.number(nodes[2 * i], nodes[2 * i + 1]).0;
        }
        nodes
    }

    /// The number of the row in a tree whose nodes stand, apart from those above these places; and
    /// whether the row is new.
    pub fn number(&mut self, nodes: &mut [u32], row: &[u32], changed: &[usize], due: &mut Vec<usize>) -> (u32, bool) {
        due.clear();
        for &place in changed {
            let leaf = self.width + place;
            if nodes[leaf] != row[place] {
                nodes[leaf] = row[place];
                add_due(due, leaf / 2);
            }
        }
        while let Some(i) = due.pop() {
            if i > 1 {
                nodes[i] = self.inner.number(nodes[2 * i], nodes[2 * i + 1]).0;
                add_due(due, i / 2);
            }
        }
        self.roots.number(nodes[2], nodes[3])
    }

    /// The number of a row, if it is kept.
    pub fn known(&self, row: &[u32]) -> Option<u32> {
        let mut nodes = vec![0; self.width];
        nodes.extend_from_slice(row);
        for i in (2..self.width).rev() {
            nodes[i] = self.inner.known(nodes[2 * i], nodes[2 * i + 1])?;
        }
        self.roots.known(nodes[2], nodes[3])
    }

    /// The nodes of the tree of a row that is kept.
    pub fn nodes_of(&self, number: u32, nodes: &mut Vec<u32>) {
        nodes.resize(2 * self.width, 0);
        let (left, right) = self.roots.get(number);
        nodes[2] = left;
        nodes[3] = right;
        for i in 2..self.width {
            let (left, right) = self.inner.get(nodes[i]);
            nodes[2 * i] = left;
            nodes[2 * i + 1] = right;
        }
    }

    /// The row of a number.
    pub fn row(&self, number: u32) -> Vec<u32> {
        let mut nodes = Vec::new();
        self.nodes_of(number, &mut nodes);
        nodes.split_off(self.width)
    }

    /// The bytes that are kept.
    pub fn memory(&self) -> usize {
        self.inner.memory() + self.roots.memory()
    }

    /// How much more memory its tables may take when they grow next.
    pub fn growth(&self) -> usize {
        self.inner.growth() + self.roots.growth()
    }
}

/// Adds a node to those that are due, the largest last, once.
fn add_due(due: &mut Vec<usize>, node: usize) {
    if let Err(i) = due.binary_search(&node) {
        due.insert(i, node);
    }
}
