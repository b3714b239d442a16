//! A plain Rust program of the step table in threads, to measure `mctower threads` against: the same
//! sections behind the same words of the same locks, a thread for each CPU that waits and parks as a worker
//! of `mctower` does, and the same text; no contracts, no layers. It takes turns without an end. With
//! `manners` its CPUs back off before they request a buffer's lock, where that pays, as those of `mctower`
//! do; without, they request it at once.
//!
//! plain_threads ticket|grant [manners] < plan > trace 2> stops

#[path = "../plans/limits.rs"]
mod limits;
mod manners;
#[path = "../tests/step_table.rs"]
mod step_table;

use limits::CPUS;
use manners::Asks;
use std::cell::UnsafeCell;
use std::collections::VecDeque;
use std::hint;
use std::io::{Read, Write};
use std::sync::{Barrier, OnceLock};
use std::sync::atomic::{AtomicU64, Ordering::SeqCst};
use std::thread::{self, Thread};
use step_table::{Buffer, Done, Entry, Guest, Instruction, Plan, Side, Stage, read_plan, write_trace};

/// How often a worker looks before it lets others run.
const SPINS: u32 = 10_000;

/// How often an idle CPU checks its bell before it parks, with so many spin loops between two checks.
const CHECKS: u16 = 1_000;
const LOOPS: u16 = 10;

/// Where an idle CPU parks. A CPU that has sent a thread home rings the bell there.
#[repr(align(128))]
struct Bell {
    rings: AtomicU64,
    parked: AtomicU64,
    thread: OnceLock<Thread>,
}

impl Bell {
    fn new() -> Bell {
        Bell { rings: AtomicU64::new(0), parked: AtomicU64::new(0), thread: OnceLock::new() }
    }

    fn rings(&self) -> u64 {
        self.rings.load(SeqCst)
    }

    fn ring(&self) {
        self.rings.fetch_add(1, SeqCst);
        if self.parked.load(SeqCst) != 0 && self.parked.swap(0, SeqCst) != 0 {
            self.thread.get().unwrap().unpark();
        }
    }

    /// Parks until the bell was rung more often than this.
    fn park(&self, rung: u64) {
        self.parked.store(1, SeqCst);
        while self.rings() == rung {
            thread::park();
        }
        self.parked.store(0, SeqCst);
    }
}

#[derive(Clone, Copy)]
enum Section {
    None,
    Drawn { lock: usize, ticket: u64 },
    Held { lock: usize, ticket: u64 },
}

#[repr(align(64))]
struct Word(AtomicU64);

/// A lock's words: of a lock with grant words each waiter has its own, and of one with tickets the
/// first is the number that is served.
struct Lock {
    next: Word,
    words: [Word; CPUS],
}

impl Lock {
    fn new<const GRANT: bool>() -> Lock {
        Lock { next: Word(AtomicU64::new(0)), words: std::array::from_fn(|k| Word(AtomicU64::new(u64::from(GRANT && k == 0)))) }
    }

    fn draw(&self) -> u64 {
        self.next.0.fetch_add(1, SeqCst)
    }

    fn is_mine<const GRANT: bool>(&self, ticket: u64) -> bool {
        if GRANT {
            self.words[ticket as usize % CPUS].0.load(SeqCst) == ticket.wrapping_add(1)
        } else {
            self.words[0].0.load(SeqCst) == ticket
        }
    }

    fn give_on<const GRANT: bool>(&self, ticket: u64) {
        if GRANT {
            self.words[ticket.wrapping_add(1) as usize % CPUS].0.store(ticket.wrapping_add(2), SeqCst);
        } else {
            self.words[0].0.fetch_add(1, SeqCst);
        }
    }
}

/// What who is inside the section of its lock touches alone.
#[repr(align(64))]
struct Slot<T>(UnsafeCell<T>);

unsafe impl<T: Send> Sync for Slot<T> {}

impl<T> Slot<T> {
    /// Only inside the section of the slot's lock.
    #[allow(clippy::mut_from_ref)]
    fn inside(&self) -> &mut T {
        unsafe { &mut *self.0.get() }
    }
}

/// Locks are numbered: first each CPU's pending queue, then each buffer.
struct Shared {
    locks: Vec<Lock>,
    pending: Vec<Slot<VecDeque<usize>>>,
    buffers: Vec<Slot<Buffer>>,
    homes: Vec<usize>,
    bells: Vec<Bell>,
}

/// A CPU and its home threads.
struct Worker<'a, const GRANT: bool> {
    shared: &'a Shared,
    c: usize,
    limit: usize,
    current: Option<usize>,
    hand: Option<usize>,
    ready: VecDeque<usize>,
    live: usize,
    begun: usize,
    is_mannered: bool,
    asks: Vec<Asks>,
    section: Section,
    trace: Vec<Entry>,
    guests: Vec<Option<Guest>>,
    /// How often the bell was rung before the newest poll of the pending queue, and how many waits have passed since checks of it last succeeded.
    rung: u64,
    waits: u16,
}

impl<const GRANT: bool> Worker<'_, GRANT> {
    fn guest(&self, t: usize) -> &Guest {
        self.guests[t].as_ref().unwrap()
    }

    fn guest_mut(&mut self, t: usize) -> &mut Guest {
        self.guests[t].as_mut().unwrap()
    }

    fn wake(&mut self, t: usize) {
        if self.shared.homes[t] == self.c {
            self.ready.push_back(t);
        } else {
            self.hand = Some(t);
        }
    }

    /// What the call of t does in the Free of its section.
    fn call_section(&mut self, t: usize, b: usize, side: Side) {
        let shared = self.shared;
        let woken = match shared.buffers[b].inside().section(t, side, self.guest_mut(t)) {
            Done::Nothing => return,
            Done::Wakes(woken) => woken,
            Done::Sleeps(woken) => {
                self.current = None;
                if self.guest(t).stage != Stage::AcquiresAgain {
                    self.asks[b].found_owner(shared.buffers[b].inside().sleepers.front() == Some(&t));
                }
                woken
            }
            Done::TakesEffect { op, pos } => {
                self.begun -= 1;
                let entry = self.guest(t).entry(self.c, t, b, op, pos);
                return self.trace.push(entry);
            }
        };
        if matches!(self.guest(t).stage, Stage::Returns | Stage::AcquiresAgain) {
            self.asks[b].gave = woken.is_some();
        }
        if let Some(u) = woken {
            self.wake(u);
        }
        self.end_returned(t);
    }

    /// Ends the call of t, if all that is left of it was to send home whom it woke.
    fn end_returned(&mut self, t: usize) {
        if self.guest(t).stage == Stage::Returns && self.hand.is_none() {
            self.guest_mut(t).end_call();
        }
    }

    fn drain(&mut self) {
        let shared = self.shared;
        self.ready.append(shared.pending[self.c].inside());
    }

    /// The edit of the section that ends now, with what it does to the CPU's own.
    fn free(&mut self) {
        if let Some(s) = self.hand.take() {
            let shared = self.shared;
            shared.pending[shared.homes[s]].inside().push_back(s);
            if let Some(t) = self.current {
                self.end_returned(t);
            }
            return;
        }
        let Some(t) = self.current else { return self.drain() };
        if let Some((b, side)) = self.guest(t).instruction().called() {
            return self.call_section(t, b, side);
        }
        self.drain();
        self.guest_mut(t).line += 1;
        self.ready.push_back(t);
        self.current = None;
    }

    fn draw(&mut self, lock: usize) {
        self.section = Section::Drawn { lock, ticket: self.shared.locks[lock].draw() };
    }

    /// Draws at the lock of buffer `b` for the call of thread `t`.
    fn draw_at_buffer(&mut self, t: usize, b: usize) {
        let lock = self.shared.pending.len() + b;
        if self.is_mannered && matches!(self.guest(t).stage, Stage::Acquires | Stage::AcquiresAgain) {
            self.asks[b].ask(&self.shared.locks[lock].next.0);
        }
        let ticket = self.shared.locks[lock].draw();
        self.asks[b].note_draw(ticket);
        self.section = Section::Drawn { lock, ticket };
    }

    fn compute(&mut self, t: usize, instruction: Instruction) {
        if self.guest_mut(t).compute(instruction) {
            self.current = None;
            self.live -= 1;
        }
    }

    fn is_full(&self) -> bool {
        let Some(t) = self.current else { return false };
        self.guest(t).begins_call() && self.trace.len() + self.begun == self.limit
    }

    /// Why the CPU is halted, if it is.
    fn halted(&self) -> Option<&'static str> {
        if self.is_busy() || self.hand.is_some() {
            return None;
        }
        if self.live == 0 {
            return Some("AllEnded");
        }
        if self.is_full() { Some("TraceFull") } else { None }
    }

    fn is_busy(&self) -> bool {
        !matches!(self.section, Section::None)
    }

    /// Whether nobody runs on the CPU, is ready there or is to be sent home by it.
    fn is_idle(&self) -> bool {
        self.current.is_none() && self.hand.is_none() && self.ready.is_empty()
    }

    fn step(&mut self) {
        let shared = self.shared;
        match self.section {
            Section::Drawn { lock, ticket } => {
                if shared.locks[lock].is_mine::<GRANT>(ticket) {
                    self.section = Section::Held { lock, ticket };
                }
            }
            Section::Held { lock, ticket } => {
                self.section = Section::None;
                self.free();
                shared.locks[lock].give_on::<GRANT>(ticket);
                if lock < shared.pending.len() && lock != self.c {
                    shared.bells[lock].ring();
                }
            }
            Section::None => self.begin(),
        }
    }

    fn begin(&mut self) {
        if let Some(s) = self.hand {
            return self.draw(self.shared.homes[s]);
        }
        let Some(t) = self.current else {
            let Some(t) = self.ready.pop_front() else { return self.draw(self.c) };
            self.current = Some(t);
            return;
        };
        match self.guest(t).instruction() {
            Instruction::Send(b, ..) | Instruction::Recv(b, ..) | Instruction::Close(b) => {
                if self.guest(t).stage == Stage::Between {
                    self.guest_mut(t).stage = Stage::Acquires;
                    self.begun += 1;
                }
                self.draw_at_buffer(t, b);
            }
            Instruction::Yield => self.draw(self.c),
            instruction => self.compute(t, instruction),
        }
    }

    /// Whether the bell was rung since the newest poll of the pending queue began. In some waits it is checked for a while.
    fn is_rung_soon(&mut self) -> bool {
        let bell = &self.shared.bells[self.c];
        if bell.rings() != self.rung {
            return true;
        }
        self.waits = self.waits % 4_096 + 1;
        if self.waits.is_power_of_two() {
            for _ in 0..CHECKS {
                (0..LOOPS).for_each(|_| hint::spin_loop());
                if bell.rings() != self.rung {
                    self.waits = 0;
                    return true;
                }
            }
        }
        false
    }

    /// After a turn that left the CPU idle: it parks unless its bell is rung soon.
    fn after_idle(&mut self) {
        if !self.is_rung_soon() && self.live > 0 {
            self.shared.bells[self.c].park(self.rung);
        }
    }

    /// Takes turns until the CPU is halted. It lets other threads run where it has looked in vain for long, and parks where it is idle.
    fn work(&mut self) -> &'static str {
        let mut spins = SPINS;
        let _ = self.shared.bells[self.c].thread.set(thread::current());
        loop {
            if !self.is_busy() {
                if let Some(stop) = self.halted() {
                    return stop;
                }
                if self.is_idle() {
                    self.rung = self.shared.bells[self.c].rings();
                }
            }
            self.step();
            if self.is_busy() && spins > 0 {
                spins -= 1;
            } else if self.is_busy() {
                thread::yield_now();
                spins = 1;
            } else {
                if self.is_idle() {
                    self.after_idle();
                }
                spins = SPINS;
            }
        }
    }
}

fn shared_of<const GRANT: bool>(plan: &Plan) -> Shared {
    Shared {
        locks: (0..plan.cpus + plan.capacities.len()).map(|_| Lock::new::<GRANT>()).collect(),
        pending: (0..plan.cpus).map(|_| Slot(UnsafeCell::new(VecDeque::with_capacity(64)))).collect(),
        buffers: plan.capacities.iter().map(|&capacity| Slot(UnsafeCell::new(Buffer::new(capacity)))).collect(),
        homes: plan.threads.iter().map(|(home, _)| *home).collect(),
        bells: (0..plan.cpus).map(|_| Bell::new()).collect(),
    }
}

fn worker_of<'a, const GRANT: bool>(plan: &Plan, shared: &'a Shared, c: usize, is_mannered: bool) -> Worker<'a, GRANT> {
    let guest = |(home, program): &(usize, Vec<Instruction>)| (*home == c).then(|| Guest::new(program.clone()));
    let guests: Vec<Option<Guest>> = plan.threads.iter().map(guest).collect();
    let ready: VecDeque<usize> = (0..guests.len()).filter(|&t| guests[t].is_some()).collect();
    let (live, section, trace) = (ready.len(), Section::None, Vec::with_capacity(plan.limit));
    let asks = vec![Asks::new(); plan.capacities.len()];
    Worker { shared, c, limit: plan.limit, current: None, hand: None, ready, live, begun: 0, is_mannered, asks, section, trace, guests, rung: 0, waits: 0 }
}

fn run<const GRANT: bool>(plan: &Plan, is_mannered: bool) -> std::io::Result<()> {
    let shared = shared_of::<GRANT>(plan);
    let start = Barrier::new(plan.cpus);
    let done: Vec<(&'static str, Vec<Entry>)> = thread::scope(|scope| {
        let workers: Vec<_> = (0..plan.cpus)
            .map(|c| {
                let (shared, start) = (&shared, &start);
                scope.spawn(move || {
                    let mut worker = worker_of::<GRANT>(plan, shared, c, is_mannered);
                    start.wait();
                    (worker.work(), worker.trace)
                })
            })
            .collect();
        workers.into_iter().map(|worker| worker.join().unwrap()).collect()
    });
    let (stops, traces): (Vec<&str>, Vec<Vec<Entry>>) = done.into_iter().unzip();
    let buffers: Vec<Buffer> = shared.buffers.into_iter().map(|slot| slot.0.into_inner()).collect();
    let mut out = std::io::BufWriter::new(std::io::stdout().lock());
    write_trace(&traces.iter().map(Vec::as_slice).collect::<Vec<_>>(), &buffers, &mut out)?;
    out.flush()?;
    for (c, stop) in stops.iter().enumerate() {
        eprintln!("cpu {c} {stop}");
    }
    Ok(())
}

fn main() -> std::io::Result<()> {
    let mut plan = String::new();
    std::io::stdin().read_to_string(&mut plan)?;
    let plan = read_plan(&plan);
    let words: Vec<String> = std::env::args().skip(1).collect();
    match words.iter().map(String::as_str).collect::<Vec<_>>()[..] {
        ["ticket"] => run::<false>(&plan, false),
        ["ticket", "manners"] => run::<false>(&plan, true),
        ["grant"] => run::<true>(&plan, false),
        ["grant", "manners"] => run::<true>(&plan, true),
        _ => panic!("plain_threads ticket|grant [manners] < plan"),
    }
}
