//! Plain Rust locks over `AtomicU64`, to measure `mctower count` against: n threads, started
//! together, each of which adds 1 to one number k times inside a lock, a ticket lock or one with a
//! grant word for each waiter. A thread that waits polls as often as a worker of `count` before it
//! yields, with a pause between two polls, so that its polls take about as long.
//!
//! plain_count CPUS TIMES ROUNDS [ticket|grant]

#[path = "../plans/limits.rs"]
mod limits;

use limits::CPUS;
use std::cell::UnsafeCell;
use std::sync::Barrier;
use std::sync::atomic::{AtomicU64, Ordering::SeqCst};

const POLLS: u32 = 10_000;

#[repr(align(64))]
struct Word(AtomicU64);

fn word(value: u64) -> Word {
    Word(AtomicU64::new(value))
}

fn wait_for(word: &Word, wanted: u64) {
    let mut polls = POLLS;
    while word.0.load(SeqCst) != wanted {
        if polls > 0 {
            polls -= 1;
            std::hint::spin_loop();
        } else {
            std::thread::yield_now();
        }
    }
}

/// A lock: what happens to the number between `enter`, which gives a ticket, and `leave`.
trait Lock: Sync {
    fn new() -> Self;
    fn enter(&self) -> u64;
    fn leave(&self, ticket: u64);
}

struct Tickets {
    next: Word,
    serving: Word,
}

impl Lock for Tickets {
    fn new() -> Tickets {
        Tickets { next: word(0), serving: word(0) }
    }

    fn enter(&self) -> u64 {
        let ticket = self.next.0.fetch_add(1, SeqCst);
        wait_for(&self.serving, ticket);
        ticket
    }

    fn leave(&self, _ticket: u64) {
        self.serving.0.fetch_add(1, SeqCst);
    }
}

struct Grants {
    next: Word,
    words: [Word; CPUS],
}

impl Lock for Grants {
    fn new() -> Grants {
        Grants { next: word(0), words: std::array::from_fn(|k| word(u64::from(k == 0))) }
    }

    fn enter(&self) -> u64 {
        let ticket = self.next.0.fetch_add(1, SeqCst);
        wait_for(&self.words[ticket as usize % CPUS], ticket + 1);
        ticket
    }

    fn leave(&self, ticket: u64) {
        self.words[(ticket + 1) as usize % CPUS].0.store(ticket + 2, SeqCst);
    }
}

struct Locked<L> {
    lock: L,
    number: UnsafeCell<u64>,
}

unsafe impl<L: Sync> Sync for Locked<L> {}

fn section<L: Lock>(locked: &Locked<L>) {
    let ticket = locked.lock.enter();
    unsafe { *locked.number.get() += 1 };
    locked.lock.leave(ticket);
}

fn count<L: Lock>(cpus: usize, times: usize) -> u64 {
    let locked = Locked { lock: L::new(), number: UnsafeCell::new(0) };
    let start = Barrier::new(cpus);
    std::thread::scope(|scope| {
        for _ in 0..cpus {
            scope.spawn(|| {
                start.wait();
                (0..times).for_each(|_| section(&locked));
            });
        }
    });
    locked.number.into_inner()
}

fn main() {
    let words: Vec<String> = std::env::args().skip(1).collect();
    let numbers: Vec<usize> = words.iter().take(3).map(|a| a.parse().unwrap()).collect();
    let (cpus, times, rounds) = (numbers[0], numbers[1], numbers[2]);
    let tickets = words.get(3).is_none_or(|lock| lock == "ticket");
    for _ in 0..rounds {
        println!("table {}", if tickets { count::<Tickets>(cpus, times) } else { count::<Grants>(cpus, times) });
    }
}
