//! Goes through the states of a plan by their distance, and keeps a shortest way to each.

use super::buffers::Buffer;
use super::coding::History;
use super::laws::{broken_at, broken_by_effect, has_grown, is_stillness_false, Law, Laws, LAWS, OF_THE_ORDER};
use super::mistakes::Mistake;
use super::pieces::{Pieces, Rows};
use super::plan::Plan;
use super::questions::Question;
use super::renaming::Renamings;
use super::schedules::{calmed, merged, Run};
use super::table::{Stage, System};

/// Steps of a whole section: it draws, enters and ends.
const SECTION: u32 = 3;
/// How many states are gone through between two reports on progress.
const TICK: u64 = 4096;

/// How to search.
#[derive(Clone, Copy)]
pub struct Options {
    pub mistake: Option<Mistake>,
    /// Whether a move is a whole section, or a step outside of sections.
    pub by_sections: bool,
    pub history: History,
    /// Whether states that differ by renaming CPUs with equal programs are one.
    pub renames: bool,
    /// The most bytes that states may take.
    pub memory: usize,
    /// The most steps of a schedule.
    pub within: Option<u32>,
}

/// How a search ended.
#[derive(Clone, Copy, Debug, PartialEq, Eq)]
pub enum End {
    Found,
    /// There are no more states.
    All,
    /// The limit of memory was met.
    Memory,
    /// Longer schedules than were allowed reach more states.
    Within,
    Cancelled,
}

/// How far a search is.
pub struct Progress {
    pub states: usize,
    pub queue: usize,
    pub memory: usize,
    pub distance: u32,
}

/// A state, or a move from a state by its CPU and the steps that it takes.
#[derive(Clone, Copy, Debug, PartialEq, Eq)]
pub enum Target {
    State(u32),
    Move { origin: u32, cpu: usize, taken: u32 },
}

/// The states that were reached, each with its number in the order in which it was met.
pub struct Search<'p> {
    pub options: Options,
    pub pieces: Pieces<'p>,
    rows: Rows,
    renamings: Option<Renamings<'p>>,
    boot: Vec<u32>,
    /// Of each state: the one before it on a shortest way, the CPU that led here with the laws of
    /// the order that are broken, and the steps of the way.
    came: Vec<u32>,
    via: Vec<u8>,
    distance: Vec<u32>,
    /// States whose moves are still to be taken, by their distance modulo 4.
    due: [Vec<u32>; 4],
    queue: usize,
    pub moves: u64,
    pub farthest: u32,
    is_cut: bool,
    judges: bool,
    question: Option<Question>,
    found: Option<(u32, Target)>,
    by_state: [Option<u32>; LAWS.len()],
    by_move: [Option<(u32, Target)>; LAWS.len()],
    quiet: Vec<u32>,
    scratch: Scratch,
}

/// Lists that each move fills anew.
#[derive(Default)]
struct Scratch {
    origin: Vec<u32>,
    nodes: Vec<u32>,
    changed: Vec<usize>,
    due: Vec<usize>,
}

impl<'p> Search<'p> {
    /// A search that has not begun.
    pub fn new(plan: &'p Plan, options: Options) -> Search<'p> {
        let pieces = Pieces::new(plan, options.mistake, options.history);
        let boot = pieces.row.clone();
        let renamings = if options.renames { Some(Renamings::new(plan, options.history)) } else { None };
        Search {
            options,
            rows: Rows::new(boot.len()),
            pieces,
            renamings,
            boot,
            came: Vec::new(),
            via: Vec::new(),
            distance: Vec::new(),
            due: [Vec::new(), Vec::new(), Vec::new(), Vec::new()],
            queue: 0,
            moves: 0,
            farthest: 0,
            is_cut: false,
            judges: false,
            question: None,
            found: None,
            by_state: [None; LAWS.len()],
            by_move: [None; LAWS.len()],
            quiet: Vec::new(),
            scratch: Scratch::default(),
        }
    }

    /// How many states were met.
    pub fn len(&self) -> usize {
        self.came.len()
    }

    /// The steps of a shortest schedule to a state.
    pub fn distance(&self, number: u32) -> u32 {
        self.distance[number as usize]
    }

    /// Looks for a nearest state that is asked for.
    pub fn find(&mut self, question: Question, tick: &mut dyn FnMut(&Progress) -> bool) -> End {
        self.judges = question.asks_for_laws();
        self.question = Some(question);
        self.run(tick)
    }

    /// Goes through all states, and keeps where each law is broken first and which states are quiet.
    pub fn judge(&mut self, tick: &mut dyn FnMut(&Progress) -> bool) -> End {
        self.judges = true;
        self.run(tick)
    }

    fn run(&mut self, tick: &mut dyn FnMut(&Progress) -> bool) -> End {
        self.start();
        let (mut d, mut count) = (0, 0_u64);
        while self.queue > 0 {
            for number in std::mem::replace(&mut self.due[d as usize % 4], Vec::new()) {
                if self.found.map_or(false, |(far, _)| far <= d || (!self.options.by_sections && far == d + 1)) {
                    return End::Found;
                }
                self.queue -= 1;
                if self.distance[number as usize] != d {
                    continue; // met anew on a shorter way
                }
                if !self.has_memory() {
                    return End::Memory;
                }
                count += 1;
                if count % TICK == 0 && !tick(&self.progress(d)) {
                    return End::Cancelled;
                }
                self.farthest = d;
                self.expand(number, d);
            }
            d += 1;
        }
        match (self.found, self.is_cut) {
            (Some(_), _) => End::Found,
            (None, true) => End::Within,
            (None, false) => End::All,
        }
    }

    fn progress(&self, distance: u32) -> Progress {
        Progress { states: self.len(), queue: self.queue, memory: self.memory(), distance }
    }

    fn start(&mut self) {
        let row = self.boot.clone();
        self.pieces.load(&row);
        self.scratch.nodes = self.rows.tree(&row);
        let all: Vec<usize> = Vec::new();
        self.rows.number(&mut self.scratch.nodes, &row, &all, &mut self.scratch.due);
        self.add(0, 0, 0, Laws::default());
        if !self.options.by_sections {
            self.look_at(0, 0);
        }
    }

    fn add(&mut self, origin: u32, cpu: usize, distance: u32, of_the_order: Laws) {
        let number = self.came.len() as u32;
        self.came.push(origin);
        self.via.push(cpu as u8 | ((of_the_order.0 >> Law::NothingLost as u8) as u8 & 15) << 4);
        self.distance.push(distance);
        self.make_due(number, distance);
    }

    fn make_due(&mut self, number: u32, distance: u32) {
        self.due[distance as usize % 4].push(number);
        self.queue += 1;
    }

    /// The laws of the order that a state breaks, as far as history tells.
    fn of_the_order(&self, number: u32) -> Laws {
        Laws((self.via[number as usize] as u16 >> 4) << Law::NothingLost as u8)
    }

    /// Looks at the loaded state.
    fn look_at(&mut self, number: u32, distance: u32) {
        let mut broken = Laws::default();
        if self.judges {
            broken = self.pieces.broken().and(self.of_the_order(number));
            if is_stillness_false(&self.pieces.system) {
                broken.add(Law::QuietIsStill);
            }
            for law in broken.iter() {
                self.by_state[law as usize].get_or_insert(number);
            }
        }
        match &self.question {
            None if self.judges && self.pieces.system.is_quiet() => self.quiet.push(number),
            Some(question) if self.found.is_none() && question.holds(&self.pieces.system, broken) => {
                self.found = Some((distance, Target::State(number)));
            }
            _ => {}
        }
    }

    /// Takes each move from a state.
    fn expand(&mut self, number: u32, d: u32) {
        let mut origin = std::mem::replace(&mut self.scratch.origin, Vec::new());
        self.rows.nodes_of(number, &mut origin);
        let width = origin.len() / 2;
        self.pieces.load(&origin[width..]);
        if self.options.by_sections {
            self.look_at(number, d);
        }
        for c in 0..self.pieces.system.cpus.len() {
            if self.pieces.system.can_step(c) {
                self.take(number, d, c, &origin);
                for i in 0..self.scratch.changed.len() {
                    let place = self.scratch.changed[i];
                    self.pieces.put(place, origin[width + place]);
                }
            }
        }
        self.scratch.origin = origin;
    }

    /// Takes a move of a CPU from the loaded state, and keeps where it leads.
    fn take(&mut self, origin: u32, d: u32, c: usize, nodes: &[u32]) {
        let before = self.buffer_before(c);
        let taken = take_move(&mut self.pieces.system, c, self.options.by_sections);
        self.pieces.take_changes(c, &mut self.scratch.changed);
        if self.options.within.map_or(false, |most| d + taken > most) {
            self.is_cut = true;
            return;
        }
        self.moves += 1;
        if self.judges && self.pieces.system.changed.has_entry {
            self.judge_move(Target::Move { origin, cpu: c, taken }, d + taken, before);
        }
        let (number, is_new) = self.number_of_row(nodes);
        if is_new {
            let of_the_order = if self.judges { self.order_after(origin, c) } else { Laws::default() };
            self.add(origin, c, d + taken, of_the_order);
            if !self.options.by_sections {
                self.look_at(number, d + taken);
            }
        } else if self.distance[number as usize] > d + taken {
            self.distance[number as usize] = d + taken;
            self.came[number as usize] = origin;
            self.via[number as usize] = self.via[number as usize] & 0xF0 | c as u8;
            self.make_due(number, d + taken);
        }
    }

    /// The number of the loaded state, and whether it is new. The nodes are those of its origin.
    fn number_of_row(&mut self, nodes: &[u32]) -> (u32, bool) {
        let Scratch { nodes: mine, changed, due, .. } = &mut self.scratch;
        match &mut self.renamings {
            None => {
                mine.copy_from_slice(nodes);
                self.rows.number(mine, &self.pieces.row, changed, due)
            }
            Some(renamings) => {
                let mut row = self.pieces.row.clone();
                renamings.make_least(&mut row, &mut self.pieces);
                *mine = self.rows.tree(&row);
                self.rows.number(mine, &row, &[], due)
            }
        }
    }

    /// Without history: the buffer at which the next move of a CPU may take effect, as it is.
    fn buffer_before(&self, c: usize) -> Option<(usize, Buffer)> {
        if !self.judges || self.options.history == History::Kept {
            return None;
        }
        let system = &self.pieces.system;
        let t = system.cpus[c].current?;
        let stage = system.guests[t as usize].stage;
        if stage != Stage::Try && stage != Stage::Shut {
            return None;
        }
        system.call(t).map(|(b, _)| (b, system.buffer(b).clone()))
    }

    /// Keeps which laws a move breaks in which a call takes effect.
    fn judge_move(&mut self, target: Target, distance: u32, before: Option<(usize, Buffer)>) {
        let (system, mut broken) = (&self.pieces.system, Laws::default());
        let Target::Move { cpu, .. } = target else { return };
        match (before, system.traces.last(system.cpus[cpu].trace)) {
            (Some((b, before)), Some((entry, _))) => broken = broken_by_effect(&before, entry, system.buffer(b)),
            (None, _) if !has_grown(system, cpu) => broken.add(Law::OrderGrows),
            _ => {}
        }
        for law in broken.iter() {
            let known = &mut self.by_move[law as usize];
            if known.map_or(true, |(far, _)| distance < far) {
                *known = Some((distance, target));
            }
        }
        let is_asked = self.question.as_ref().map_or(false, |question| question.is_of_move(broken));
        if is_asked && self.found.map_or(true, |(far, _)| distance < far) {
            self.found = Some((distance, target));
        }
    }

    /// The laws of the order that are broken after a move of a CPU from a state.
    fn order_after(&self, origin: u32, c: usize) -> Laws {
        let (system, before) = (&self.pieces.system, self.of_the_order(origin));
        let has_copies = self.options.mistake.map_or(false, Mistake::is_of_the_lock);
        let is_end = system.cpus[c].section.is_none();
        if self.options.history == History::LeftOut || !is_end || !(has_copies || system.changed.has_entry) {
            return before;
        }
        let buffers = 0..system.plan.capacities.len();
        let touched = system.changed.lock.and_then(|lock| lock.checked_sub(system.plan.cpus));
        let is_due = |b: &usize| !before.is_empty() || touched == Some(*b);
        buffers.filter(is_due).fold(Laws::default(), |all, b| all.and(broken_at(system, b)))
    }

    // Memory.

    /// The bytes that the search takes.
    pub fn memory(&self) -> usize {
        let lists = self.came.capacity() * 4 + self.via.capacity() + self.distance.capacity() * 4;
        let due: usize = self.due.iter().map(|list| list.capacity() * 4).sum();
        let renamings = self.renamings.as_ref().map_or(0, Renamings::memory);
        self.pieces.memory() + self.rows.memory() + lists + due + renamings
    }

    /// Whether one state more, with all its moves, stays within the limit.
    fn has_memory(&self) -> bool {
        let grows = self.came.len() + self.pieces.system.cpus.len() > self.came.capacity();
        let lists = if grows { self.came.capacity() * 9 } else { 0 };
        let is_numbered = self.came.len() < u32::MAX as usize - 1024;
        is_numbered && self.memory() + self.rows.growth() + lists <= self.options.memory
    }

    // What was found.

    /// The state or the move that was asked for.
    pub fn found(&self) -> Option<Target> {
        self.found.map(|(_, target)| target)
    }

    /// Where a law is broken first.
    pub fn breach(&self, law: Law) -> Option<Target> {
        let by_state = self.by_state[law as usize].map(Target::State);
        by_state.or(self.by_move[law as usize].map(|(_, target)| target))
    }

    /// Whether a law was judged: within sections no state is seen, and without history laws of the
    /// order are judged only where CPUs wait for their turn at locks.
    pub fn judged(&self, law: Law) -> bool {
        let is_of_the_order = OF_THE_ORDER.contains(&law);
        let has_copies = self.options.mistake.map_or(false, Mistake::is_of_the_lock);
        !(law == Law::OneInside && self.options.by_sections)
            && !(is_of_the_order && has_copies && self.options.history == History::LeftOut)
    }

    /// The quiet states, the nearest first.
    pub fn quiet(&self) -> Vec<u32> {
        self.quiet.clone()
    }

    /// The row of a state.
    pub fn row(&self, number: u32) -> Vec<u32> {
        self.rows.row(number)
    }

    /// The number of a row of this search's pieces, if its state was met.
    pub fn known(&self, row: &[u32]) -> Option<u32> {
        self.rows.known(row)
    }

    /// Makes a row the one that is kept of those that differ by renaming.
    pub fn make_least(&mut self, row: &mut Vec<u32>) {
        if let Some(renamings) = &mut self.renamings {
            renamings.make_least(row, &mut self.pieces);
        }
    }

    /// The steps of a shortest schedule.
    pub fn runs_to(&mut self, target: Target) -> Vec<Run> {
        let (last, more) = match target {
            Target::State(number) => (number, None),
            Target::Move { origin, cpu, taken } => (origin, Some((cpu, taken as usize))),
        };
        let mut moves: Vec<Run> = more.into_iter().collect();
        let mut number = last;
        while number != 0 {
            let origin = self.came[number as usize];
            let taken = self.distance[number as usize] - self.distance[origin as usize];
            moves.push(((self.via[number as usize] & 15) as usize, taken as usize));
            number = origin;
        }
        moves.reverse();
        if self.options.renames { self.as_it_runs(&moves) } else { merged(moves.into_iter()) }
    }

    /// The moves of states that were renamed, as moves of the plan's own CPUs.
    fn as_it_runs(&mut self, moves: &[Run]) -> Vec<Run> {
        let boot = self.boot.clone();
        self.pieces.load(&boot);
        let mut names: Vec<usize> = (0..self.pieces.system.cpus.len()).collect();
        let mut runs = Vec::with_capacity(moves.len());
        let mut changed = Vec::new();
        for &(cpu, taken) in moves {
            let c = names.iter().position(|&name| name == cpu).unwrap_or(cpu);
            for _ in 0..taken {
                take_move(&mut self.pieces.system, c, false);
                self.pieces.take_changes(c, &mut changed);
            }
            runs.push((c, taken));
            let mut row = self.pieces.row.clone();
            if let Some(renamings) = &mut self.renamings {
                let i = renamings.make_least(&mut row, &mut self.pieces);
                names = renamings.all[i].cpus.clone();
            }
        }
        merged(runs.into_iter())
    }

    /// The steps of a shortest schedule with few changes of the CPU.
    pub fn calm_runs_to(&mut self, target: Target) -> Vec<Run> {
        let runs = self.runs_to(target);
        if let Target::Move { .. } = target {
            return runs;
        }
        let Some(end) = self.row_after(&runs) else { return runs };
        calmed(runs, |moved| self.row_after(moved).map_or(false, |row| row == end))
    }

    /// Loads the state after runs of steps; its row, if each step changes something.
    pub fn row_after(&mut self, runs: &[Run]) -> Option<Vec<u32>> {
        let boot = self.boot.clone();
        self.pieces.load(&boot);
        let is_taken = runs.iter().all(|&(c, times)| {
            (0..times).all(|_| {
                let can_step = self.pieces.system.can_step(c);
                if can_step {
                    self.pieces.system.step(c);
                }
                can_step
            })
        });
        let row: Vec<u32> = (0..self.pieces.row.len()).map(|place| self.pieces.number_of(place)).collect();
        self.pieces.row = row.clone();
        if is_taken { Some(row) } else { None }
    }

}

/// Takes a step of a CPU, or its whole section; returns how many steps that is.
fn take_move(system: &mut System, c: usize, by_sections: bool) -> u32 {
    system.changed.clear();
    system.step(c);
    if !by_sections || system.cpus[c].section.is_none() {
        return 1;
    }
    while system.cpus[c].section.is_some() {
        system.step(c);
    }
    SECTION
}
