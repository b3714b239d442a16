//! What the machine itself allows, beside which docs/PERFORMANCE.md sets our programs: how long a
//! word takes from one processor to another, a change of threads on one, and reading a text once.
//!
//! limits lines N: two threads write one word in turn, each waiting for the other's number
//! limits switches N: the same, and who waits lets the other run: `taskset -c 0 limits switches N`
//! limits bytes FILE: counts the lines of a file
//!
//! Prints nanoseconds a hand-over, a change of threads, a byte. rustc -O limits.rs

use std::sync::atomic::{AtomicU64, Ordering::SeqCst};
use std::thread;
use std::time::Instant;

#[repr(align(64))]
struct Word(AtomicU64);

/// Writes each second number up to `all`, each once the one before it stands there.
fn play(word: &Word, first: u64, all: u64, wait: fn()) {
    for n in (first..all).step_by(2) {
        while word.0.load(SeqCst) != n {
            wait();
        }
        word.0.store(n + 1, SeqCst);
    }
}

fn turns(all: u64, wait: fn()) -> f64 {
    let word = Word(AtomicU64::new(0));
    let start = Instant::now();
    thread::scope(|scope| {
        scope.spawn(|| play(&word, 0, all, wait));
        scope.spawn(|| play(&word, 1, all, wait));
    });
    start.elapsed().as_nanos() as f64 / all as f64
}

fn bytes(file: &str) -> f64 {
    let start = Instant::now();
    let text = std::fs::read(file).unwrap();
    let lines = text.iter().filter(|&&byte| byte == b'\n').count();
    assert!(lines > 0);
    start.elapsed().as_nanos() as f64 / text.len() as f64
}

fn main() {
    let words: Vec<String> = std::env::args().skip(1).collect();
    let number = || words[1].parse().unwrap();
    let each = match words[0].as_str() {
        "lines" => turns(number(), std::hint::spin_loop),
        "switches" => turns(number(), thread::yield_now),
        _ => bytes(&words[1]),
    };
    println!("{each:.2}");
}
