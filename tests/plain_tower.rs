//! A plain Rust program of the whole step table, to measure `mctower run` against and to compare it
//! with: the same sections, the same trace text and state lines, no contracts, flat tables. With
//! `log` it also stores each atomic event in a log of fixed room, as the machine of `mctower` does.
//! With `each` it prints text and states after each step from none on, all on standard output, and
//! behind each of them a line `after N`, which goes on with the entry of the call that took effect in
//! that step, if one did. Built with `--cfg stretch` it takes a look that misses for
//! all steps of its CPU that follow, since nobody else acts between them.
//!
//! plain_tower SCHEDULE [log] < plan > trace 2> states
//! plain_tower SCHEDULE each < plan > traces-and-states

mod step_table;

use std::collections::VecDeque;
use std::io::{Read, Write};
use step_table::{Buffer, Done, Entry, Guest, Instruction, RECEIVERS, Side, Stage, number, read_plan};

#[derive(Clone, Copy, PartialEq)]
enum Place {
    Running,
    Ready,
    Hand(usize),
    Pending,
    LockSleeper(usize),
    WaitRecv(usize),
    WaitSend(usize),
    Ended,
}

#[derive(Clone, Copy)]
enum Section {
    None,
    Drawn { lock: usize, ticket: u64 },
    Held { lock: usize },
}

struct Cpu {
    current: Option<usize>,
    hand: Option<usize>,
    ready: VecDeque<usize>,
    pending: VecDeque<usize>,
    live: usize,
    begun: usize,
    section: Section,
    trace: Vec<Entry>,
}

#[derive(Default, Clone, Copy)]
struct Lock {
    next: u64,
    serving: u64,
}

/// Locks are numbered: first each CPU's pending queue, then each buffer.
struct Kernel<const LOGS: bool> {
    limit: usize,
    locks: Vec<Lock>,
    buffers: Vec<Buffer>,
    guests: Vec<Guest>,
    homes: Vec<usize>,
    places: Vec<Place>,
    cpus: Vec<Cpu>,
    log: Vec<[u8; 4]>,
    log_room: usize,
}

impl<const LOGS: bool> Kernel<LOGS> {
    fn note(&mut self, c: usize, lock: usize, kind: u8, mark: u8) {
        if LOGS {
            assert!(self.log.len() < self.log_room);
            self.log.push([c as u8, lock as u8, kind, mark]);
        }
    }

    fn wake(&mut self, c: usize, t: usize) {
        if self.homes[t] == c {
            self.places[t] = Place::Ready;
            self.cpus[c].ready.push_back(t);
        } else {
            self.places[t] = Place::Hand(c);
            self.cpus[c].hand = Some(t);
        }
    }

    /// What the call of t does in the Free of its section.
    fn call_section(&mut self, c: usize, t: usize, b: usize, side: Side) {
        let woken = match self.buffers[b].section(t, side, &mut self.guests[t]) {
            Done::Nothing => return,
            Done::Wakes(woken) => woken,
            Done::Sleeps(woken) => {
                self.places[t] = match self.guests[t].stage {
                    Stage::AcquiresAgain if side == RECEIVERS => Place::WaitRecv(b),
                    Stage::AcquiresAgain => Place::WaitSend(b),
                    _ => Place::LockSleeper(b),
                };
                self.cpus[c].current = None;
                woken
            }
            Done::TakesEffect { op, pos } => {
                let cpu = &mut self.cpus[c];
                cpu.begun -= 1;
                return cpu.trace.push(self.guests[t].entry(c, t, b, op, pos));
            }
        };
        if let Some(u) = woken {
            self.wake(c, u);
        }
        if self.guests[t].stage == Stage::Returns && self.cpus[c].hand.is_none() {
            self.guests[t].end_call();
        }
    }

    fn drain(&mut self, c: usize) {
        while let Some(s) = self.cpus[c].pending.pop_front() {
            self.places[s] = Place::Ready;
            self.cpus[c].ready.push_back(s);
        }
    }

    /// The edit of the section that ends now, with what it does to the CPU's own.
    fn free(&mut self, c: usize) {
        if let Some(s) = self.cpus[c].hand.take() {
            let home = self.homes[s];
            self.places[s] = Place::Pending;
            self.cpus[home].pending.push_back(s);
            if let Some(t) = self.cpus[c].current {
                if self.guests[t].stage == Stage::Returns {
                    self.guests[t].end_call();
                }
            }
            return;
        }
        let Some(t) = self.cpus[c].current else { return self.drain(c) };
        if let Some((b, side)) = self.guests[t].instruction().called() {
            return self.call_section(c, t, b, side);
        }
        self.drain(c);
        self.guests[t].line += 1;
        self.places[t] = Place::Ready;
        self.cpus[c].ready.push_back(t);
        self.cpus[c].current = None;
    }

    fn draw(&mut self, c: usize, lock: usize) {
        let ticket = self.locks[lock].next;
        self.locks[lock].next = ticket.wrapping_add(1);
        self.cpus[c].section = Section::Drawn { lock, ticket };
        self.note(c, lock, 0, 0);
    }

    fn compute(&mut self, c: usize, t: usize, instruction: Instruction) {
        if self.guests[t].compute(instruction) {
            self.places[t] = Place::Ended;
            self.cpus[c].current = None;
            self.cpus[c].live -= 1;
        }
    }

    fn is_full(&self, c: usize) -> bool {
        let Some(t) = self.cpus[c].current else { return false };
        self.guests[t].begins_call() && self.cpus[c].trace.len() + self.cpus[c].begun == self.limit
    }

    /// Why the CPU is halted, if it is.
    fn halted(&self, c: usize) -> Option<&'static str> {
        let cpu = &self.cpus[c];
        if !matches!(cpu.section, Section::None) || cpu.hand.is_some() {
            return None;
        }
        if cpu.live == 0 {
            return Some("AllEnded");
        }
        if self.is_full(c) { Some("TraceFull") } else { None }
    }

    fn step(&mut self, c: usize) {
        match self.cpus[c].section {
            Section::Drawn { lock, ticket } => {
                self.note(c, lock, 1, 0);
                if self.locks[lock].serving == ticket {
                    self.cpus[c].section = Section::Held { lock };
                }
            }
            Section::Held { lock } => {
                self.cpus[c].section = Section::None;
                self.locks[lock].serving = self.locks[lock].serving.wrapping_add(1);
                self.free(c);
                self.note(c, lock, 2, 1);
            }
            Section::None => self.begin(c),
        }
    }

    /// Takes the steps in front that are a waiting CPU's: each is one more look that misses. Returns how
    /// many it took.
    fn look_on(&mut self, c: usize, steps: &[u8]) -> usize {
        let Section::Drawn { lock, ticket } = self.cpus[c].section else { return 0 };
        if self.locks[lock].serving == ticket {
            return 0;
        }
        let looks = steps.iter().take_while(|&&step| usize::from(step) == c).count();
        if LOGS {
            assert!(self.log.len() + looks <= self.log_room);
            self.log.resize(self.log.len() + looks, [c as u8, lock as u8, 1, 0]);
        }
        looks
    }

    /// Takes all steps of a schedule.
    fn run(&mut self, steps: &[u8]) {
        let mut taken = 0;
        while let Some(&step) = steps.get(taken) {
            let c = usize::from(step);
            self.step(c);
            taken += 1;
            if cfg!(stretch) {
                taken += self.look_on(c, &steps[taken..]);
            }
        }
    }

    fn begin(&mut self, c: usize) {
        if let Some(s) = self.cpus[c].hand {
            return self.draw(c, self.homes[s]);
        }
        if self.cpus[c].live == 0 {
            return;
        }
        let Some(t) = self.cpus[c].current else {
            let Some(t) = self.cpus[c].ready.pop_front() else { return self.draw(c, c) };
            self.places[t] = Place::Running;
            self.cpus[c].current = Some(t);
            return;
        };
        match self.guests[t].instruction() {
            Instruction::Send(b, ..) | Instruction::Recv(b, ..) | Instruction::Close(b) => {
                if self.guests[t].stage == Stage::Between {
                    if self.is_full(c) {
                        return;
                    }
                    self.guests[t].stage = Stage::Acquires;
                    self.cpus[c].begun += 1;
                }
                self.draw(c, self.cpus.len() + b);
            }
            Instruction::Yield => self.draw(c, c),
            instruction => self.compute(c, t, instruction),
        }
    }

    fn is_quiet(&self) -> bool {
        (0..self.cpus.len()).all(|c| {
            let cpu = &self.cpus[c];
            let rests = cpu.current.is_none() && cpu.ready.is_empty() && cpu.hand.is_none() && matches!(cpu.section, Section::None);
            cpu.pending.is_empty() && if self.halted(c).is_some() { cpu.live == 0 } else { rests }
        })
    }

    fn write_trace(&self, out: &mut impl Write) -> std::io::Result<()> {
        let traces: Vec<&[Entry]> = self.cpus.iter().map(|cpu| cpu.trace.as_slice()).collect();
        step_table::write_trace(&traces, &self.buffers, out)
    }

    fn write_all(&self, out: &mut impl Write) -> std::io::Result<()> {
        self.write_trace(out)?;
        self.write_states(out)
    }

    fn write_states(&self, out: &mut impl Write) -> std::io::Result<()> {
        for c in 0..self.cpus.len() {
            writeln!(out, "cpu {c} {}", self.halted(c).unwrap_or("live"))?;
        }
        for (t, (place, home)) in self.places.iter().zip(&self.homes).enumerate() {
            match place {
                Place::Running => writeln!(out, "thread {t} Running({home})")?,
                Place::Ready => writeln!(out, "thread {t} Ready({home})")?,
                Place::Hand(c) => writeln!(out, "thread {t} Hand({c})")?,
                Place::Pending => writeln!(out, "thread {t} Pending({home})")?,
                Place::LockSleeper(b) => writeln!(out, "thread {t} LockSleeper({b})")?,
                Place::WaitRecv(b) => writeln!(out, "thread {t} WaitRecv({b})")?,
                Place::WaitSend(b) => writeln!(out, "thread {t} WaitSend({b})")?,
                Place::Ended => writeln!(out, "thread {t} Ended")?,
            }
        }
        writeln!(out, "quiet {}", if self.is_quiet() { "yes" } else { "no" })
    }
}

fn new_cpu(limit: usize) -> Cpu {
    let queue = || VecDeque::with_capacity(64);
    let trace = Vec::with_capacity(limit);
    Cpu { current: None, hand: None, ready: queue(), pending: queue(), live: 0, begun: 0, section: Section::None, trace }
}

fn boot<const LOGS: bool>(text: &str, room: usize) -> Kernel<LOGS> {
    let plan = read_plan(text);
    let mut kernel = Kernel {
        limit: plan.limit,
        locks: vec![Lock::default(); plan.cpus + plan.capacities.len()],
        buffers: plan.capacities.iter().map(|&capacity| Buffer::new(capacity)).collect(),
        guests: vec![],
        homes: plan.threads.iter().map(|(home, _)| *home).collect(),
        places: vec![Place::Ready; plan.threads.len()],
        cpus: (0..plan.cpus).map(|_| new_cpu(plan.limit)).collect(),
        log: Vec::with_capacity(room),
        log_room: room,
    };
    for (t, (home, program)) in plan.threads.into_iter().enumerate() {
        kernel.guests.push(Guest::new(program));
        kernel.cpus[home].ready.push_back(t);
        kernel.cpus[home].live += 1;
    }
    kernel
}

fn steps(schedule: &str) -> Vec<u8> {
    let mut steps = vec![];
    for item in schedule.split(',').filter(|item| !item.is_empty()) {
        let (c, n) = item.split_once('*').unwrap_or((item, "1"));
        steps.extend(std::iter::repeat(number(c) as u8).take(number(n)));
    }
    steps
}

fn run<const LOGS: bool>(plan: &str, schedule: &str) -> std::io::Result<()> {
    let steps = steps(schedule);
    let mut kernel: Kernel<LOGS> = boot(plan, if LOGS { steps.len() } else { 0 });
    kernel.run(&steps);
    let mut out = std::io::BufWriter::new(std::io::stdout().lock());
    kernel.write_trace(&mut out)?;
    out.flush()?;
    let mut states = std::io::BufWriter::new(std::io::stderr().lock());
    kernel.write_states(&mut states)?;
    states.flush()
}

fn run_each(plan: &str, schedule: &str) -> std::io::Result<()> {
    let mut out = std::io::BufWriter::new(std::io::stdout().lock());
    let mut kernel: Kernel<false> = boot(plan, 0);
    let steps = steps(schedule);
    kernel.write_all(&mut out)?;
    writeln!(out, "after 0")?;
    for (taken, &c) in steps.iter().enumerate() {
        let c = usize::from(c);
        let known = kernel.cpus[c].trace.len();
        kernel.step(c);
        kernel.write_all(&mut out)?;
        write!(out, "after {} ", taken + 1)?;
        match kernel.cpus[c].trace.get(known) {
            Some(entry) => step_table::write_entry(entry, &mut out)?,
            None => writeln!(out)?,
        }
    }
    out.flush()
}

fn main() -> std::io::Result<()> {
    let words: Vec<String> = std::env::args().skip(1).collect();
    let mut plan = String::new();
    std::io::stdin().read_to_string(&mut plan)?;
    match words.get(1).map(String::as_str) {
        Some("log") => run::<true>(&plan, &words[0]),
        Some("each") => run_each(&plan, &words[0]),
        _ => run::<false>(&plan, &words[0]),
    }
}
