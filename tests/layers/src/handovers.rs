//! Two natives that hand one message to each other, each after a random delay. The one that waits polls at some
//! delays and parks at others. A lost wake-up leaves both parked, and the test does not end.

use cpu_workers::{Caller, Hints, Native, run_native};
use event_log::{BufId, Msg};
use layer_traits::{CallLayer, IpcLaw};
use std::sync::Wait;
use std::sync::atomic::{AtomicU64, Ordering};
use std::test::*;
use std::thread::Threads;

/// How many messages each native sends: 10,000 hand-overs in all.
const ROUNDS: u64 = 5_000;

/// The longest delay, in additions to a word: about a millisecond, where an idle CPU parks within a tenth of one.
const LONGEST: u64 = 100_000;

/// A native that sends to one buffer and receives from the other, in turns.
#[derive(Drop)]
struct Player {
    serves: bool,
    seed: u64,
    right: u64,
}

/// Spends a random time, and returns the seed of the next.
fn delay(seed: u64) -> u64 {
    let next = seed
        .wrapping_mul(6_364_136_223_846_793_005)
        .wrapping_add(1_442_695_040_888_963_407);
    let word = AtomicU64::new(0);
    for _ in 0..(next >> 33) % LONGEST {
        word.fetch_add(1, Ordering::SeqCst);
    }
    next
}

/// Waits for the message of this round, and tells whether it came.
fn comes<I: CallLayer<IpcLaw> + Drop, R: Wait>(
    rt: &R,
    caller: &mut Caller<I>,
    from: BufId,
    round: u64,
) -> bool
where
    I::Machine: Drop + Hints,
{
    match caller.recv(rt, from) {
        Some(message) => message.first() == round,
        None => false,
    }
}

impl Native for Player {
    ghost Needs = { tt };

    ghost Kept = { tt };

    fn run<I: CallLayer<IpcLaw> + Drop, R: Wait>(&mut self, rt: &R, caller: &mut Caller<I>)
    where
        I::Machine: Drop + Hints,
    {
        let (to, from) = if self.serves {
            (BufId(0), BufId(1))
        } else {
            (BufId(1), BufId(0))
        };
        for round in 0..ROUNDS {
            let came = self.serves || comes(rt, caller, from, round);
            self.seed = delay(self.seed);
            let went = caller.send(rt, to, &Msg::one(round)).is_ok();
            let back = !self.serves || comes(rt, caller, from, round);
            if came && went && back {
                self.right = self.right.saturating_add(1);
            }
        }
    }
}

#[test]
fn ten_thousand_hand_overs_lose_no_wake_up(rt: HostRuntime) -> Result<(), Fail> {
    let server = Player {
        serves: true,
        seed: 1,
        right: 0,
    };
    let returner = Player {
        serves: false,
        seed: 2,
        right: 0,
    };
    let players = Vec::from_array(rt.alloc(), [server, returner])?;
    let report = run_native(&rt, rt.alloc(), &[1, 1], players)?;
    for player in report.natives.iter() {
        assert_eq!(rt; player.right, ROUNDS);
    }
    Ok(())
}
