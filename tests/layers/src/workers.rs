//! Plans run with a worker thread for each CPU.

use boot::Boot;
use cpu_workers::{
    Gate, Go, Hints, OpenGate, Report, Stop, reports_are_lawful, reports_are_runs, run_workers,
    stop_reasons_hold, workers_lose_no_wake_up,
};
use event_log::{BufId, CpuId, Entry, Msg};
use std::process::Abort;
use std::sync::Wait;
use std::sync::atomic::{AtomicBool, AtomicU64, Ordering};
use std::test::*;
use std::thread;
use std::thread::Threads;

/// One thread that sends 7 to a buffer for one message.
const ONE_SEND: &str = r#"cpus = 1
trace = 4
buffers = [1]

[[thread]]
cpu = 0
program = ["set r0 7", "send 0 r0", "exit"]
"#;

/// One thread that sends twice, on a CPU whose trace has room for one entry.
const TWO_SENDS: &str = r#"cpus = 1
trace = 1
buffers = [32]

[[thread]]
cpu = 0
program = ["set r0 7", "send 0 r0", "send 0 r0"]
"#;

/// Two threads on two CPUs; the one sends a hundred messages to the other.
const A_HUNDRED: &str = r#"cpus = 2
trace = 200
buffers = [4]

[[thread]]
cpu = 0
program = ["set r0 100", "set r1 1", "send 0 r0", "sub r0 r1", "jnz r0 2"]

[[thread]]
cpu = 1
program = ["set r0 100", "set r1 1", "recv 0 r2", "sub r0 r1", "jnz r0 2"]
"#;

/// Two threads on two CPUs, each of which sends to a buffer of its own.
const TWO_CPUS: &str = r#"cpus = 2
trace = 4
buffers = [1, 1]

[[thread]]
cpu = 0
program = ["set r0 1", "send 0 r0"]

[[thread]]
cpu = 1
program = ["set r0 2", "send 1 r0"]
"#;

/// The same on the first and the last of eight CPUs.
const EIGHT_CPUS: &str = r#"cpus = 8
trace = 4
buffers = [1, 1]

[[thread]]
cpu = 0
program = ["set r0 1", "send 0 r0"]

[[thread]]
cpu = 7
program = ["set r0 2", "send 1 r0"]
"#;

/// The first line of a plan, by which it runs over each of the locks.
const LOCKS: [&str; 2] = ["lock = \"grant\"\n", "lock = \"ticket\"\n"];

/// More turns than any plan here takes.
const MANY: u64 = 1_000_000_000;

/// Runs the plan behind this first line.
fn ran<G: Gate + Sync>(
    rt: &(impl Abort + AllocGlobal + Threads + Wait + Sync),
    first: &str,
    plan: &str,
    turns: u64,
    gate: &G,
) -> Result<Report, Fail> {
    let text = format!(in rt.alloc(); "{first}{plan}")?;
    let boot = Boot::read(rt.alloc(), text.as_str())?;
    Ok(run_workers(rt, rt.alloc(), &boot, turns, gate)?)
}

/// Why a CPU stopped, after how many turns, and its trace.
fn left(report: &Report, cpu: u8) -> (Stop, u64, &[Entry]) {
    let at = usize::from(cpu);
    (
        report.stops[at],
        report.taken[at],
        report.traces[at].as_slice(),
    )
}

/// Whether a buffer was left with one message, of this word.
fn holds(report: &Report, buffer: u8, word: u64) -> bool {
    report.items(BufId(buffer)).as_slice() == [Msg::one(word)].as_slice()
}

/// How often a gate looks whether the other CPU has come.
const PATIENCE: u32 = 100_000_000;

/// How often one looks that knows that it waits in vain.
const SOON: u32 = 1_000;

/// A gate that lets CPU 0 and another one go on only together: CPU 0 stands inside its section until the other has taken eleven turns, and the
/// other begins once CPU 0 stands there.
#[derive(Drop)]
struct Together {
    other: CpuId,
    patience: u32,
    first_is_inside: AtomicBool,
    other_came: AtomicBool,
}

impl Together {
    fn new(other: u8, patience: u32) -> Together {
        Together {
            other: CpuId(other),
            patience,
            first_is_inside: AtomicBool::new(false),
            other_came: AtomicBool::new(false),
        }
    }

    /// Waits until the flag is set, and limits where it is not in so many looks.
    fn until(&self, flag: &AtomicBool) -> Go {
        for _ in 0..self.patience {
            if flag.load(Ordering::SeqCst) {
                return Go::Pass;
            }
            thread::yield_now();
        }
        Go::Limit
    }
}

impl Gate for Together {
    ghost MayAnswer = { tt };

    fn pass(&self, cpu: CpuId, turn: u64) -> Go {
        if cpu.0 == 0 && turn == 3 {
            self.first_is_inside.store(true, Ordering::SeqCst);
            return self.until(&self.other_came);
        }
        if cpu == self.other && turn == 11 {
            self.other_came.store(true, Ordering::SeqCst);
        }
        if cpu == self.other && turn == 0 {
            return self.until(&self.first_is_inside);
        }
        Go::Pass
    }
}

// CPU 0 and the other one both run to their ends while each waits for the other. Those between them have no thread.
#[test]
fn two_cpus_at_once(rt: HostRuntime) -> Result<(), Fail> {
    for first in LOCKS {
        for (plan, other) in [(TWO_CPUS, 1), (EIGHT_CPUS, 7)] {
            let report = ran(&rt, first, plan, MANY, &Together::new(other, PATIENCE))?;
            assert!(rt; holds(&report, 0, 1) && holds(&report, 1, 2), "{first}");
            for cpu in 0..=other {
                let (stop, turns, trace) = left(&report, cpu);
                let wanted = if cpu == 0 || cpu == other {
                    (21, 1)
                } else {
                    (0, 0)
                };
                assert_eq!(rt; stop, Stop::AllEnded, "CPU {cpu}, {first}");
                assert_eq!(rt; (turns, trace.len()), wanted, "CPU {cpu}, {first}");
            }
        }
    }
    Ok(())
}

// So a body that lets one CPU after the other run on one thread ends with a `Held`.
#[test]
fn each_of_two_cpus_is_held_without_the_other(rt: HostRuntime) {
    let gate = Together::new(1, SOON);
    assert_eq!(rt; gate.pass(CpuId(1), 0), Go::Limit);
    assert_eq!(rt; gate.pass(CpuId(0), 3), Go::Limit);
}

/// A gate that counts how often it is asked, and answers `Limit` at one turn alone.
#[derive(Drop)]
struct Counting {
    asked: AtomicU64,
    limit_at: u64,
}

impl Counting {
    fn new(limit_at: u64) -> Counting {
        Counting {
            asked: AtomicU64::new(0),
            limit_at,
        }
    }
}

impl Gate for Counting {
    ghost MayAnswer = { tt };

    fn pass(&self, _cpu: CpuId, turn: u64) -> Go {
        self.asked.fetch_add(1, Ordering::SeqCst);
        if turn == self.limit_at {
            Go::Limit
        } else {
            Go::Pass
        }
    }
}

/// Runs a plan of one CPU, whose sends are all of 7: why it stopped, after how many turns, and how often it sent.
fn of_one_cpu<G: Gate + Sync>(
    rt: &(impl Abort + AllocGlobal + Threads + Wait + Sync),
    plan: &str,
    turns: u64,
    gate: &G,
) -> Result<(Stop, u64, usize), Fail> {
    let report = ran(rt, "", plan, turns, gate)?;
    let (stop, taken, trace) = left(&report, 0);
    for entry in trace {
        assert_eq!(rt; entry.value, Msg::one(7));
    }
    assert_eq!(rt; report.items(BufId(0)).len(), trace.len());
    Ok((stop, taken, trace.len()))
}

// A worker ends its section past its turns, and a full trace stops it.
#[test]
fn a_worker_of_one_cpu_stops(rt: HostRuntime) -> Result<(), Fail> {
    let ten = of_one_cpu(&rt, ONE_SEND, 10, &OpenGate)?;
    assert_eq!(rt; ten, (Stop::TurnsUsed, 11, 1));
    let five = of_one_cpu(&rt, ONE_SEND, 5, &OpenGate)?;
    assert_eq!(rt; five, (Stop::TurnsUsed, 5, 0));
    let full = of_one_cpu(&rt, TWO_SENDS, 1000, &OpenGate)?;
    assert_eq!(rt; full, (Stop::TraceFull, 20, 1));
    Ok(())
}

#[test]
fn a_gate_holds_a_worker_before_its_first_turn(rt: HostRuntime) -> Result<(), Fail> {
    let gate = Counting::new(0);
    let held = of_one_cpu(&rt, ONE_SEND, 1000, &gate)?;
    assert_eq!(rt; held, (Stop::Held, 0, 0));
    assert_eq!(rt; gate.asked.load(Ordering::SeqCst), 1);
    Ok(())
}

// The `Limit` comes inside a section, which two more turns end. Where that are as many turns as were given, or more, the worker stops as held all the
// same.
#[test]
fn a_held_worker_asks_its_gate_no_more(rt: HostRuntime) -> Result<(), Fail> {
    for turns in [1000, 5, 4] {
        let gate = Counting::new(3);
        let held = of_one_cpu(&rt, ONE_SEND, turns, &gate)?;
        assert_eq!(rt; held, (Stop::Held, 5, 0), "{turns} turns");
        assert_eq!(rt; gate.asked.load(Ordering::SeqCst), 4, "{turns} turns");
    }
    Ok(())
}

// The word of an entry counts down to 1.
#[test]
fn a_hundred_messages_come_in_order(rt: HostRuntime) -> Result<(), Fail> {
    for first in LOCKS {
        let report = ran(&rt, first, A_HUNDRED, MANY, &OpenGate)?;
        assert!(rt; report.items(BufId(0)).is_empty(), "{first}");
        for cpu in 0..2 {
            let (stop, _, trace) = left(&report, cpu);
            assert_eq!(rt;
                (stop, trace.len()),
                (Stop::AllEnded, 100),
                "CPU {cpu}, {first}"
            );
            for (at, entry) in trace.iter().enumerate() {
                assert_eq!(rt;
                    entry.value,
                    Msg::one(100 - at as u64),
                    "CPU {cpu}, {first}"
                );
            }
        }
    }
    Ok(())
}

#[test]
fn an_open_gate_lets_every_turn_pass(rt: HostRuntime) {
    assert_eq!(rt; OpenGate.pass(CpuId(0), 0), Go::Pass);
    assert_eq!(rt; OpenGate.pass(CpuId(7), u64::MAX), Go::Pass);
    assert_eq!(rt; OpenGate.open_for(CpuId(7), 3), u64::MAX);
    // One that says nothing is to be asked.
    assert_eq!(rt; Counting::new(0).open_for(CpuId(7), 3), 0);
}

/// A machine that tells nothing beside its events.
struct Mute;

impl Hints for Mute {}

#[test]
fn a_machine_that_says_nothing_hints_at_no_draw(rt: HostRuntime) {
    assert_eq!(rt; Mute.next_hint(BufId(0)), 0);
}

#[test]
fn each_law_of_workers_can_be_called(_rt: HostRuntime) {
    reports_are_lawful(&OpenGate);
    reports_are_runs(&OpenGate);
    cpu_workers::actions_extend_order();
    cpu_workers::prefixes_keep_order();
    stop_reasons_hold();
    workers_lose_no_wake_up();
}
