//! How a CPU asks for a buffer's lock, a policy like that of `mctower`. Where its asks keep finding an
//! owner, it pauses before it asks, until no CPU draws at the lock.

use std::hint;
use std::sync::atomic::{AtomicU64, Ordering::SeqCst};

/// After so many asks it is judged whether to wait before the next ones.
const WATCHED: u16 = 32;

/// After so many waits it is judged whether they pay, which they do where so many asks came for each of them.
const WAITS: u16 = 8;
const PAYS: u16 = 4;

/// How many asks pass unwatched after waits that did not pay, at first and at most.
const FIRST_REST: u16 = 500;
const LAST_REST: u16 = 32_000;

/// For how many pauses the sleeper to whom the CPU handed the lock may take to come.
const PATIENCE: u16 = 4;

/// How many pauses a wait has at most, and how many spin loops a pause has.
const MOST_PAUSES: u16 = 100;
const LOOPS: u16 = 96;

/// What a CPU keeps of its asks for the lock of one buffer.
#[derive(Clone)]
pub struct Asks {
    /// What the lock's `next` held after its last draw there.
    drawn: u64,
    /// Whether it has just handed the lock to a sleeper.
    pub gave: bool,
    /// Whether it waits.
    waits: bool,
    /// How often it has asked since it began to count.
    asked: u16,
    /// How many of these asks found an owner or, where it waits, waited.
    counted: u16,
    /// How many asks it lets pass before it counts again.
    rest: u16,
    /// How many it lets pass where its next waits do not pay.
    next_rest: u16,
}

impl Asks {
    pub fn new() -> Asks {
        Asks { drawn: 0, gave: false, waits: false, asked: 0, counted: 0, rest: 0, next_rest: FIRST_REST }
    }

    /// Before the CPU asks for the lock of which this is `next`.
    #[inline(always)]
    pub fn ask(&mut self, next: &AtomicU64) {
        if self.rest > 0 {
            self.rest -= 1;
            return;
        }
        self.asked = self.asked.saturating_add(1);
        if self.waits {
            self.wait(next);
        } else if self.asked >= WATCHED {
            self.count_anew(self.counted >= WATCHED / 2);
        }
    }

    /// After the CPU drew this ticket at the lock.
    #[inline(always)]
    pub fn note_draw(&mut self, ticket: u64) {
        self.drawn = ticket.wrapping_add(1);
    }

    /// An ask has found an owner. Where others sleep there too, more than two CPUs are at the lock, and no wait of one of them lets the
    /// others through.
    pub fn found_owner(&mut self, alone: bool) {
        if !self.waits {
            self.counted = if alone { self.counted + 1 } else { 0 };
        }
    }

    fn count_anew(&mut self, waits: bool) {
        self.waits = waits;
        self.asked = 0;
        self.counted = 0;
    }

    /// Waits, if another CPU was at the lock since the CPU's last draw there, or is to come.
    #[inline(never)]
    fn wait(&mut self, next: &AtomicU64) {
        let seen = next.load(SeqCst);
        let is_alone = seen == self.drawn;
        if (is_alone && !self.gave) || (self.counted >= WAITS && !self.goes_on_waiting()) {
            return;
        }
        self.counted += 1;
        await_still(next, seen, if is_alone { PATIENCE } else { 1 });
    }

    /// Whether the waits pay. Where they do not, it rests, each time for twice as long.
    fn goes_on_waiting(&mut self) -> bool {
        let pays = self.asked >= WAITS * PAYS;
        self.count_anew(pays);
        if pays {
            self.next_rest = FIRST_REST;
            return true;
        }
        self.rest = self.next_rest;
        self.next_rest = (self.next_rest * 2).min(LAST_REST);
        false
    }
}

/// Pauses until `next` stands still for so many pauses before it moves, or for one after that.
fn await_still(next: &AtomicU64, first: u64, patience: u16) {
    let (mut seen, mut left) = (first, patience);
    for _ in 0..MOST_PAUSES {
        (0..LOOPS).for_each(|_| hint::spin_loop());
        let now = next.load(SeqCst);
        left = if now == seen { left - 1 } else { 1 };
        if left == 0 {
            return;
        }
        seen = now;
    }
}
