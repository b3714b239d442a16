//! The same as bench/embed.c, for bench/embed.sh: over std's `sync_channel`, whose receivers share one behind a mutex, or with `--cfg crossbeam` over
//! crossbeam-channel's `bounded`.
use std::sync::atomic::{AtomicBool, Ordering};
use std::time::{Duration, Instant};

#[derive(Clone, Copy)]
struct Message {
    #[allow(dead_code)]
    count: usize,
    words: [u64; 8],
}

#[cfg(crossbeam)]
mod channel {
    pub use crossbeam_channel::{bounded, Receiver, Sender};
    pub fn received<T>(from: &Receiver<T>) -> Option<T> {
        from.recv().ok()
    }
}

#[cfg(not(crossbeam))]
mod channel {
    use std::sync::mpsc::{sync_channel, SyncSender};
    use std::sync::{Arc, Mutex};
    pub type Sender<T> = SyncSender<T>;
    pub type Receiver<T> = Arc<Mutex<std::sync::mpsc::Receiver<T>>>;
    pub fn bounded<T>(capacity: usize) -> (Sender<T>, Receiver<T>) {
        let (to, from) = sync_channel(capacity);
        (to, Arc::new(Mutex::new(from)))
    }
    pub fn received<T>(from: &Receiver<T>) -> Option<T> {
        from.lock().unwrap().recv().ok()
    }
}

use channel::{bounded, received, Receiver, Sender};

static IS_OVER: AtomicBool = AtomicBool::new(false);

fn send_all(to: Sender<Message>) -> (u64, u64) {
    let (mut sum, mut many) = (0, 0);
    while !IS_OVER.load(Ordering::Relaxed) {
        to.send(Message { count: 1, words: [many, 0, 0, 0, 0, 0, 0, 0] }).unwrap();
        sum += many;
        many += 1;
    }
    (sum, many)
}

fn receive_all(from: Receiver<Message>) -> (u64, u64) {
    let (mut sum, mut many) = (0, 0);
    while let Some(message) = received(&from) {
        sum += message.words[0];
        many += 1;
    }
    (sum, many)
}

/// Seconds of processor time so far.
fn busy() -> f64 {
    let text = std::fs::read_to_string("/proc/self/stat").unwrap();
    let words: Vec<&str> = text.rsplit(") ").next().unwrap().split(' ').collect();
    (words[11].parse::<f64>().unwrap() + words[12].parse::<f64>().unwrap()) / 100.0
}

fn main() {
    let words: Vec<f64> = std::env::args().skip(1).map(|word| word.parse().unwrap()).collect();
    let (producers, consumers, capacity) = (words[0] as usize, words[1] as usize, words[2] as usize);
    let began = Instant::now();
    let (to, from) = bounded::<Message>(capacity);
    let total = |all: (u64, u64), own: (u64, u64)| (all.0 + own.0, all.1 + own.1);
    let (sent, got) = std::thread::scope(|s| {
        let senders: Vec<_> = (0..producers).map(|_| to.clone()).map(|to| s.spawn(move || send_all(to))).collect();
        drop(to);
        let receivers: Vec<_> = (0..consumers).map(|_| from.clone()).map(|from| s.spawn(move || receive_all(from))).collect();
        std::thread::sleep(Duration::from_secs_f64(words[3]));
        IS_OVER.store(true, Ordering::Relaxed);
        let sent = senders.into_iter().map(|it| it.join().unwrap()).fold((0, 0), total);
        (sent, receivers.into_iter().map(|it| it.join().unwrap()).fold((0, 0), total))
    });
    let took = began.elapsed().as_secs_f64();
    assert_eq!(sent, got);
    println!("{:.0} {:.2}", got.1 as f64 / took, busy() / took);
}
