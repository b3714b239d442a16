//! Locks that a program would take in place of those of `mctower count`: n threads, started
//! together, each of which adds 1 to one number k times inside a lock. Prints the number.
//!
//! lock_peers LOCK CPUS TIMES [POLLS]
//!
//! LOCK is `pthread_mutex`, `pthread_spin`, `std` (the standard library's Mutex), `mcs` (a queue of
//! one node for each waiter) or `parked` (tickets, and each waiter sleeps on a futex of its own).
//! The last two are FIFO. POLLS is how often a waiter of these two polls before it yields or sleeps
//! (default: 10,000). It needs Linux on x86-64.
//!
//! rustc -O lock_peers.rs

#[path = "../plans/limits.rs"]
mod limits;

use limits::CPUS;
use std::cell::UnsafeCell;
use std::env;
use std::hint;
use std::ptr;
use std::sync::atomic::{AtomicBool, AtomicPtr, AtomicU32, AtomicU64, Ordering::SeqCst};
use std::sync::{Barrier, Mutex};
use std::thread;

/// How often a waiter polls, as a worker of `count` does.
const POLLS: u32 = 10_000;

/// A value in cache lines of its own.
#[repr(align(64))]
struct Padded<T>(T);

/// A lock: `inside` runs the section while the caller is its only owner.
trait Lock: Sync {
    fn inside(&self, section: &dyn Fn());
}

impl Lock for Mutex<()> {
    fn inside(&self, section: &dyn Fn()) {
        let _owner = self.lock().unwrap();
        section();
    }
}

/// Room for a lock of the C library, which takes at most 40 bytes. Zeros are a free mutex.
struct Foreign(UnsafeCell<[u64; 8]>);

unsafe impl Sync for Foreign {}

impl Foreign {
    fn new() -> Foreign {
        Foreign(UnsafeCell::new([0; 8]))
    }
}

extern "C" {
    fn pthread_mutex_lock(mutex: *mut [u64; 8]) -> i32;
    fn pthread_mutex_unlock(mutex: *mut [u64; 8]) -> i32;
    fn pthread_spin_init(lock: *mut [u64; 8], shared: i32) -> i32;
    fn pthread_spin_lock(lock: *mut [u64; 8]) -> i32;
    fn pthread_spin_unlock(lock: *mut [u64; 8]) -> i32;
    fn syscall(number: i64, ...) -> i64;
}

struct PthreadMutex(Padded<Foreign>);

impl Lock for PthreadMutex {
    fn inside(&self, section: &dyn Fn()) {
        let mutex = (self.0).0.0.get();
        unsafe { pthread_mutex_lock(mutex) };
        section();
        unsafe { pthread_mutex_unlock(mutex) };
    }
}

struct PthreadSpin(Padded<Foreign>);

impl PthreadSpin {
    fn new() -> PthreadSpin {
        let lock = Foreign::new();
        unsafe { pthread_spin_init(lock.0.get(), 0) };
        PthreadSpin(Padded(lock))
    }
}

impl Lock for PthreadSpin {
    fn inside(&self, section: &dyn Fn()) {
        let lock = (self.0).0.0.get();
        unsafe { pthread_spin_lock(lock) };
        section();
        unsafe { pthread_spin_unlock(lock) };
    }
}

/// A waiter of an MCS lock, on the waiter's stack.
struct Node {
    next: AtomicPtr<Node>,
    waits: AtomicBool,
}

struct Mcs {
    last: Padded<AtomicPtr<Node>>,
    polls: u32,
}

impl Mcs {
    /// Puts the node behind the last one, and waits until the one before it hands the lock over.
    fn enter(&self, node: &Node) {
        let before = self.last.0.swap(ptr::from_ref(node).cast_mut(), SeqCst);
        if before.is_null() {
            return;
        }
        unsafe { (*before).next.store(ptr::from_ref(node).cast_mut(), SeqCst) };
        let mut polls = self.polls;
        while node.waits.load(SeqCst) {
            if polls > 0 {
                polls -= 1;
                hint::spin_loop();
            } else {
                thread::yield_now();
            }
        }
    }

    /// Frees the lock, or hands it to the node behind this one.
    fn leave(&self, node: &Node) {
        let own = ptr::from_ref(node).cast_mut();
        if node.next.load(SeqCst).is_null() {
            if self.last.0.compare_exchange(own, ptr::null_mut(), SeqCst, SeqCst).is_ok() {
                return;
            }
            while node.next.load(SeqCst).is_null() {
                hint::spin_loop();
            }
        }
        unsafe { (*node.next.load(SeqCst)).waits.store(false, SeqCst) };
    }
}

impl Lock for Mcs {
    fn inside(&self, section: &dyn Fn()) {
        let node = Node { next: AtomicPtr::new(ptr::null_mut()), waits: AtomicBool::new(true) };
        self.enter(&node);
        section();
        self.leave(&node);
    }
}

/// Tickets. The owner tells the next waiter its turn in the waiter's own word. The lowest bit of a
/// word says that its waiter sleeps.
struct Parked {
    next: Padded<AtomicU64>,
    words: [Padded<AtomicU32>; CPUS],
    polls: u32,
}

/// Linux's system call on futexes, and what it does to one that is private to the process.
const FUTEX: i64 = 202;
const WAIT: i32 = 128;
const WAKE: i32 = 129;

impl Parked {
    fn new(polls: u32) -> Parked {
        let words: [Padded<AtomicU32>; CPUS] = std::array::from_fn(|_| Padded(AtomicU32::new(0)));
        words[0].0.store(turn(0), SeqCst);
        Parked { next: Padded(AtomicU64::new(0)), words, polls }
    }

    fn word(&self, ticket: u64) -> &AtomicU32 {
        &self.words[ticket as usize % CPUS].0
    }

    /// Returns whether it is the ticket's turn after so many polls.
    fn polled(&self, ticket: u64) -> bool {
        let word = self.word(ticket);
        (0..=self.polls).any(|_| {
            hint::spin_loop();
            word.load(SeqCst) == turn(ticket)
        })
    }

    /// Sleeps until it is the ticket's turn.
    fn sleep(&self, ticket: u64) {
        let word = self.word(ticket);
        loop {
            let seen = word.load(SeqCst);
            if seen == turn(ticket) {
                return;
            }
            let sleeps = seen | 1;
            if seen == sleeps || word.compare_exchange(seen, sleeps, SeqCst, SeqCst).is_ok() {
                unsafe { syscall(FUTEX, ptr::from_ref(word), WAIT, sleeps, ptr::null::<u64>()) };
            }
        }
    }

    /// Hands the lock to the waiter of the next ticket, and wakes it if it sleeps.
    fn leave(&self, ticket: u64) {
        let word = self.word(ticket + 1);
        if word.swap(turn(ticket + 1), SeqCst) & 1 == 1 {
            unsafe { syscall(FUTEX, ptr::from_ref(word), WAKE, 1) };
        }
    }
}

/// What a word holds in the turn of this ticket.
fn turn(ticket: u64) -> u32 {
    (ticket as u32).wrapping_add(1).wrapping_mul(2)
}

impl Lock for Parked {
    fn inside(&self, section: &dyn Fn()) {
        let ticket = self.next.0.fetch_add(1, SeqCst);
        if !self.polled(ticket) {
            self.sleep(ticket);
        }
        section();
        self.leave(ticket);
    }
}

/// The number, which only the owner of the lock touches.
struct Number(UnsafeCell<u64>);

unsafe impl Sync for Number {}

impl Number {
    /// Only inside a section.
    fn increment(&self) {
        unsafe { *self.0.get() += 1 };
    }
}

fn count(lock: &dyn Lock, cpus: usize, times: usize) -> u64 {
    let number = Padded(Number(UnsafeCell::new(0)));
    let start = Barrier::new(cpus);
    thread::scope(|scope| {
        for _ in 0..cpus {
            scope.spawn(|| {
                start.wait();
                (0..times).for_each(|_| lock.inside(&|| number.0.increment()));
            });
        }
    });
    number.0.0.into_inner()
}

fn main() {
    let words: Vec<String> = env::args().skip(1).collect();
    let (cpus, times) = (words[1].parse().unwrap(), words[2].parse().unwrap());
    let polls = words.get(3).map_or(POLLS, |word| word.parse().unwrap());
    let lock: Box<dyn Lock> = match words[0].as_str() {
        "pthread_mutex" => Box::new(PthreadMutex(Padded(Foreign::new()))),
        "pthread_spin" => Box::new(PthreadSpin::new()),
        "std" => Box::new(Mutex::new(())),
        "mcs" => Box::new(Mcs { last: Padded(AtomicPtr::new(ptr::null_mut())), polls }),
        "parked" => Box::new(Parked::new(polls)),
        _ => panic!("lock_peers LOCK CPUS TIMES [POLLS]"),
    };
    println!("table {}", count(&*lock, cpus, times));
}
