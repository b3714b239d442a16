//! Queues of threads, and a plain twin that keeps its threads in an array and moves them.

use arrayvec::ArrayVec;
use event_log::{THREADS, Tid};
use std::process::Abort;
use std::test::*;
use thread_blocks::ThreadQueue;

/// A queue that keeps its threads side by side, the first one first, and closes the gaps.
#[derive(Drop)]
struct Twin {
    threads: ArrayVec<Tid, THREADS>,
}

impl Twin {
    fn new() -> Twin {
        Twin {
            threads: ArrayVec::new(),
        }
    }

    fn contains(&self, t: Tid) -> bool {
        self.threads.iter().any(|other| *other == t)
    }

    fn front(&self) -> Option<Tid> {
        self.threads.first().copied()
    }

    fn push(&mut self, t: Tid) {
        self.threads.push(t);
    }

    fn pop(&mut self) -> Option<Tid> {
        if self.threads.is_empty() {
            return None;
        }
        Some(self.threads.remove(0))
    }

    fn remove(&mut self, t: Tid) -> bool {
        let found = self.contains(t);
        self.threads.retain(|other| *other != t);
        found
    }

    fn drain_into(&mut self, to: &mut Twin) {
        for t in self.threads.as_slice() {
            to.push(*t);
        }
        self.threads.clear();
    }
}

/// A queue of these threads, the first one in front.
fn queue_of(threads: &[u8]) -> ThreadQueue {
    let mut queue = ThreadQueue::new();
    for t in threads {
        queue.push(Tid(*t));
    }
    queue
}

/// Takes all threads out of a queue: these, the first one first.
fn pops(rt: &impl Abort, queue: &mut ThreadQueue, threads: &[u8]) {
    for t in threads {
        assert_eq!(rt; queue.pop(), Some(Tid(*t)), "of {threads:?}");
    }
    assert_eq!(rt;
        (queue.len(), queue.front(), queue.pop()),
        (0, None, None),
        "behind {threads:?}"
    );
}

#[test]
fn a_thread_is_taken_out_from_between_two(rt: HostRuntime) {
    let mut queue = queue_of(&[3, 1, 2]);
    assert!(rt; queue.contains(Tid(1)));
    assert!(rt; queue.remove(Tid(1)));
    assert!(rt; !queue.remove(Tid(1)));
    assert_eq!(rt; (queue.len(), queue.front()), (2, Some(Tid(3))));
    let mut taken = queue.take();
    pops(&rt, &mut queue, &[]);
    assert_eq!(rt; taken.len(), 2);
    let mut to = ThreadQueue::new();
    taken.drain_into(&mut to);
    assert_eq!(rt; taken.len(), 0);
    pops(&rt, &mut to, &[3, 2]);
}

#[test]
fn a_queue_is_drained_behind_another(rt: HostRuntime) {
    let mut queue = queue_of(&[3, 2]);
    let mut to = queue_of(&[5]);
    queue.drain_into(&mut to);
    pops(&rt, &mut queue, &[]);
    pops(&rt, &mut to, &[5, 3, 2]);
}

// The highest number stands in front.
#[test]
fn all_threads_stand_in_a_queue(rt: HostRuntime) {
    let mut queue = ThreadQueue::new();
    for n in (0..THREADS).rev() {
        queue.push(Tid(n as u8));
    }
    assert_eq!(rt; queue.len(), THREADS);
    assert!(rt; queue.remove(Tid(31)));
    for n in (0..THREADS).rev() {
        if n != 31 {
            assert_eq!(rt; queue.pop(), Some(Tid(n as u8)));
        }
    }
    pops(&rt, &mut queue, &[]);
}

/// A written generator: the high bits of a linear congruence modulo 2^64.
#[derive(Drop)]
struct Dice {
    state: u64,
}

impl Dice {
    fn below(&mut self, bound: usize) -> usize {
        self.state = self
            .state
            .wrapping_mul(6_364_136_223_846_793_005)
            .wrapping_add(1_442_695_040_888_963_407);
        (self.state >> 33) as usize % bound
    }
}

/// Does one call on both queues, and compares what they answer.
fn one_call(rt: &impl Abort, dice: &mut Dice, queue: &mut ThreadQueue, twin: &mut Twin) {
    let t = Tid(dice.below(THREADS) as u8);
    match dice.below(8) {
        0 => assert_eq!(rt; queue.pop(), twin.pop()),
        1 | 2 => assert_eq!(rt; queue.remove(t), twin.remove(t)),
        3 => {
            let mut moved = ThreadQueue::new();
            queue.drain_into(&mut moved);
            *queue = moved;
            let mut twin_moved = Twin::new();
            twin.drain_into(&mut twin_moved);
            *twin = twin_moved;
        }
        _ => {
            assert_eq!(rt; queue.contains(t), twin.contains(t));
            if !queue.contains(t) {
                queue.push(t);
                twin.push(t);
            }
        }
    }
    assert_eq!(rt;
        (queue.len(), queue.front()),
        (twin.threads.len(), twin.front())
    );
}

#[test]
fn twenty_thousand_calls_are_answered_as_by_the_twin(rt: HostRuntime) {
    let mut dice = Dice { state: 2026 };
    let mut queue = ThreadQueue::new();
    let mut twin = Twin::new();
    for call in 0..20_000 {
        one_call(&rt, &mut dice, &mut queue, &mut twin);
        if call % 500 == 0 {
            for _ in 0..THREADS {
                assert_eq!(rt; queue.pop(), twin.pop());
            }
        }
    }
}
