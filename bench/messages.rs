//! Messages between threads through bounded first-in first-out buffers, each a Mutex with two
//! Condvars or a `sync_channel` of the standard library: what a program would take in place of
//! `mctower threads`.
//!
//! messages BUFFERS CAPACITY MESSAGES [sync_channel]: for each buffer one thread sends so many
//! messages and another one receives them and adds them up. Prints the sum.
//!
//! rustc -O messages.rs

use std::collections::VecDeque;
use std::env;
use std::sync::{Arc, Condvar, Mutex, mpsc};
use std::thread;

struct Buffer {
    items: Mutex<VecDeque<u64>>,
    capacity: usize,
    has_room: Condvar,
    has_items: Condvar,
}

impl Buffer {
    fn new(capacity: usize) -> Buffer {
        let items = Mutex::new(VecDeque::with_capacity(capacity));
        Buffer { items, capacity, has_room: Condvar::new(), has_items: Condvar::new() }
    }

    fn send(&self, message: u64) {
        let is_full = |items: &mut VecDeque<u64>| items.len() == self.capacity;
        let items = self.items.lock().unwrap();
        let mut items = self.has_room.wait_while(items, is_full).unwrap();
        items.push_back(message);
        self.has_items.notify_one();
    }

    fn receive(&self) -> u64 {
        let items = self.items.lock().unwrap();
        let mut items = self.has_items.wait_while(items, |items| items.is_empty()).unwrap();
        let message = items.pop_front().unwrap();
        self.has_room.notify_one();
        message
    }
}

/// The two ends of a buffer.
type Sends = Box<dyn Fn(u64) + Send>;
type Receives = Box<dyn Fn() -> u64 + Send>;

/// Opens a buffer that is a Mutex with two Condvars.
fn condvars(capacity: usize) -> (Sends, Receives) {
    let sends = Arc::new(Buffer::new(capacity));
    let receives = Arc::clone(&sends);
    (Box::new(move |message| sends.send(message)), Box::new(move || receives.receive()))
}

/// Opens a buffer that is a channel of the standard library.
fn channel(capacity: usize) -> (Sends, Receives) {
    let (sends, receives) = mpsc::sync_channel(capacity);
    let send = move |message| sends.send(message).unwrap();
    (Box::new(send), Box::new(move || receives.recv().unwrap()))
}

fn main() {
    let usage = "messages BUFFERS CAPACITY MESSAGES [sync_channel]";
    let words: Vec<String> = env::args().skip(1).collect();
    let open = match words.get(3).map(String::as_str) {
        None => condvars,
        Some("sync_channel") => channel,
        Some(_) => panic!("{}", usage),
    };
    let numbers: Vec<u64> = words.iter().take(3).map(|word| word.parse().expect(usage)).collect();
    let [buffers, capacity, messages] = numbers[..] else { panic!("{}", usage) };
    let mut senders = Vec::new();
    let mut receivers = Vec::new();
    for _ in 0..buffers {
        let (send, receive) = open(capacity as usize);
        senders.push(thread::spawn(move || (1..=messages).rev().for_each(send)));
        receivers.push(thread::spawn(move || (0..messages).map(|_| receive()).sum::<u64>()));
    }
    for sender in senders {
        sender.join().unwrap();
    }
    println!("{}", receivers.into_iter().map(|receiver| receiver.join().unwrap()).sum::<u64>());
}
