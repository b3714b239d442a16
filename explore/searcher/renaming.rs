//! Renames CPUs with equal programs: of all states that differ only so, one is kept.

use super::coding::History;
use super::pieces::{read_piece, write_piece, At, Pieces};
use super::plan::Plan;
use super::table::{Block, Cpu, Guest, Place, Queue, System};
use super::traces::{Entry, TraceId, Traces, NO_ENTRIES};

/// The most renamings that are tried on a state.
const MOST: usize = 720;
const UNKNOWN: u32 = u32::MAX;

/// A new number for each CPU, and so for each thread.
#[derive(Clone, Debug)]
pub struct Renaming {
    pub cpus: Vec<usize>,
    threads: Vec<u8>,
}

/// Renamings of a plan's CPUs, of which the first renames nothing, with the pieces renamed so far.
pub struct Renamings<'p> {
    pub all: Vec<Renaming>,
    pieces: Vec<Vec<u32>>,
    traces: Vec<Vec<TraceId>>,
    scratch: System<'p>,
    row: Vec<u32>,
}

/// All orders of some CPUs.
fn orders(cpus: &[usize]) -> Vec<Vec<usize>> {
    if cpus.is_empty() {
        return vec![Vec::new()];
    }
    let mut all = Vec::new();
    for i in 0..cpus.len() {
        let mut rest = cpus.to_vec();
        let first = rest.remove(i);
        all.extend(orders(&rest).into_iter().map(|order| {
            let mut whole = vec![first];
            whole.extend(order);
            whole
        }));
    }
    all
}

/// The CPUs with equal programs, class by class; of large classes as many as keep renamings few.
pub fn classes(plan: &Plan) -> Vec<Vec<usize>> {
    let programs = |c: usize| plan.threads.iter().filter(|it| it.home == c).map(|it| &it.program).collect::<Vec<_>>();
    let mut classes: Vec<Vec<usize>> = Vec::new();
    let mut count = 1;
    for c in 0..plan.cpus {
        match classes.iter_mut().find(|class| programs(class[0]) == programs(c)) {
            None => classes.push(vec![c]),
            Some(class) if count * (class.len() + 1) <= MOST => {
                class.push(c);
                count *= class.len();
            }
            Some(_) => {}
        }
    }
    classes.retain(|class| class.len() > 1);
    classes
}

fn all_renamings(plan: &Plan) -> Vec<Renaming> {
    let mut all = vec![(0..plan.cpus).collect::<Vec<_>>()];
    for class in classes(plan) {
        let orders = orders(&class);
        let renamed = |cpus: &Vec<usize>| {
            let (cpus, class) = (cpus.clone(), class.clone());
            orders.clone().into_iter().map(move |order| {
                let mut new = cpus.clone();
                class.iter().zip(&order).for_each(|(&c, &d)| new[c] = d);
                new
            })
        };
        all = all.iter().flat_map(renamed).collect();
    }
    all.into_iter().map(|cpus| Renaming { threads: renamed_threads(plan, &cpus), cpus }).collect()
}

/// The threads of a renamed CPU are those of the other, in their order.
fn renamed_threads(plan: &Plan, cpus: &[usize]) -> Vec<u8> {
    let at_home = |c: usize| (0..plan.threads.len()).filter(move |&t| plan.threads[t].home == c);
    let mut threads: Vec<u8> = (0..plan.threads.len()).map(|t| t as u8).collect();
    for (c, &d) in cpus.iter().enumerate() {
        at_home(c).zip(at_home(d)).for_each(|(t, u)| threads[t] = u as u8);
    }
    threads
}

impl Renaming {
    fn lock(&self, lock: usize) -> usize {
        self.cpus.get(lock).copied().unwrap_or(lock)
    }

    fn thread(&self, t: &mut u8) {
        *t = self.threads[*t as usize];
    }

    fn queue(&self, queue: &mut Queue) {
        queue.iter_mut().for_each(|t| self.thread(t));
    }

    fn place(&self, place: Place) -> Place {
        let cpu = |c: u8| self.cpus[c as usize] as u8;
        match place {
            Place::Ready(c) => Place::Ready(cpu(c)),
            Place::Running(c) => Place::Running(cpu(c)),
            Place::Pending(c) => Place::Pending(cpu(c)),
            Place::Hand(c) => Place::Hand(cpu(c)),
            place => place,
        }
    }

    fn block(&self, block: &mut Block) {
        match block {
            Block::Pending(queue) => self.queue(queue),
            Block::Buffer(buffer) => {
                buffer.owner.iter_mut().for_each(|t| self.thread(t));
                self.queue(&mut buffer.sleepers);
                buffer.waiting.iter_mut().chain(&mut buffer.lines).for_each(|queue| self.queue(queue));
            }
        }
    }

    fn cpu(&self, cpu: &mut Cpu) {
        cpu.current.iter_mut().chain(&mut cpu.hand).chain(&mut cpu.ready).for_each(|t| self.thread(t));
        if let Some(section) = &mut cpu.section {
            section.lock = self.lock(section.lock);
            section.copy.iter_mut().for_each(|block| self.block(block));
        }
    }

    fn guest(&self, guest: &mut Guest) {
        guest.place = self.place(guest.place);
    }

    /// Where what is at a place goes.
    fn at(&self, at: At) -> At {
        match at {
            At::Cpu(c) => At::Cpu(self.cpus[c]),
            At::Trace(c) => At::Trace(self.cpus[c]),
            At::Guest(t) => At::Guest(self.threads[t] as usize),
            At::Lock(lock) => At::Lock(self.lock(lock)),
        }
    }

    /// Renames what a system has at a place, and puts it where it goes.
    fn move_in(&self, system: &mut System, at: At) -> At {
        let to = self.at(at);
        match (at, to) {
            (At::Cpu(c), At::Cpu(d)) => {
                self.cpu(&mut system.cpus[c]);
                system.cpus.swap(c, d);
            }
            (At::Guest(t), At::Guest(u)) => {
                self.guest(&mut system.guests[t]);
                system.guests.swap(t, u);
            }
            (At::Lock(one), At::Lock(other)) => {
                system.lines[one].iter_mut().for_each(|c| *c = self.cpus[*c as usize] as u8);
                self.block(&mut system.blocks[one]);
                system.lines.swap(one, other);
                system.blocks.swap(one, other);
            }
            _ => {}
        }
        to
    }

    fn trace(&self, trace: TraceId, known: &mut Vec<TraceId>, traces: &mut Traces) -> TraceId {
        let number = trace as usize;
        if known.len() <= number {
            known.resize(number + 1, UNKNOWN);
        }
        if known[number] == UNKNOWN {
            known[number] = match traces.last(trace).map(|(entry, earlier)| (*entry, earlier)) {
                None => NO_ENTRIES,
                Some((entry, earlier)) => {
                    let earlier = self.trace(earlier, known, traces);
                    let (cpu, thread) = (self.cpus[entry.cpu as usize] as u8, self.threads[entry.thread as usize]);
                    traces.longer(earlier, Entry { cpu, thread, ..entry })
                }
            };
        }
        known[number]
    }
}

impl<'p> Renamings<'p> {
    /// The renamings of a plan.
    pub fn new(plan: &'p Plan, history: History) -> Renamings<'p> {
        let all = all_renamings(plan);
        let scratch = System::new(plan, None, history == History::LeftOut);
        Renamings { pieces: vec![Vec::new(); all.len()], traces: vec![Vec::new(); all.len()], all, scratch, row: Vec::new() }
    }

    /// The number of a piece renamed, and the place where it goes.
    fn renamed(&mut self, i: usize, place: usize, number: u32, pieces: &mut Pieces) -> (usize, u32) {
        let at = pieces.places.at(place);
        let renaming = &self.all[i];
        let to = renaming.at(at);
        let place = pieces.places.of(to);
        if let At::Trace(_) = at {
            return (place, renaming.trace(number, &mut self.traces[i], &mut pieces.system.traces));
        }
        let known = &mut self.pieces[i];
        if known.len() <= number as usize {
            known.resize(number as usize + 1, UNKNOWN);
        }
        if known[number as usize] == UNKNOWN {
            read_piece(&pieces.text(number)[2..], &mut self.scratch, at, pieces.history);
            renaming.move_in(&mut self.scratch, at);
            let mut text = Vec::new();
            write_piece(&mut text, &self.scratch, place, to, pieces.history);
            known[number as usize] = pieces.keep(&text, &self.scratch, to);
        }
        (place, known[number as usize])
    }

    /// Makes a row the least of those that differ from it by renaming; returns which renaming did it.
    pub fn make_least(&mut self, row: &mut Vec<u32>, pieces: &mut Pieces) -> usize {
        let mut least = row.clone();
        let mut best = 0;
        for i in 1..self.all.len() {
            let mut other = std::mem::replace(&mut self.row, Vec::new());
            other.resize(row.len(), 0);
            for (place, &number) in row.iter().enumerate() {
                let (to, renamed) = self.renamed(i, place, number, pieces);
                other[to] = renamed;
            }
            if other < least {
                std::mem::swap(&mut other, &mut least);
                best = i;
            }
            self.row = other;
        }
        *row = least;
        best
    }

    /// The bytes that are kept.
    pub fn memory(&self) -> usize {
        self.pieces.iter().chain(&self.traces).map(|known| known.capacity() * 4).sum()
    }
}
