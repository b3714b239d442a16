//! What is refused memory or a thread: machines of words, systems, counts, workers and natives. Each test passes with its answer, or with the refusal and
//! nothing done. `tests/refuse.sh` runs each with every single allocation refused, and with every start of a thread refused.

use crate::add_one::AddOne;
use boot::{Boot, BootError, LockKind};
use cpu::System;
use cpu_workers::counting::{CountFault, count_or_leave, count_table};
use cpu_workers::{Caller, Gate, Go, Hints, Native, Report, run_native, run_workers};
use event_log::{BufId, CpuId, LockId, Msg, NoMemory};
use ipc_calls::{Ipc, MonitorOver, MonitorTowerEdit};
use layer_traits::{CallLayer, IpcLaw, Owned};
use plain_layers::PlainIpc;
use plain_machine::{LockWords, Plain};
use spinlock::Ticket;
use std::alloc::Global;
use std::process::Abort;
use std::sync::Wait;
use std::sync::atomic::{AtomicU64, Ordering};
use std::thread::Threads;
use table_machine::{Shared, TableWords, TicketWords, WaiterWords};

/// Message calls over monitors on ticket locks.
type Monitors = Ipc<MonitorOver<Ticket<Plain<MonitorTowerEdit>>>>;

/// A receiver on CPU 0, and on CPU 1 a thread that sends 7.
const FROM_AFAR: &str = r#"cpus = 2
trace = 4
buffers = [1]
[[thread]]
cpu = 0
program = ["recv 0 r0"]
[[thread]]
cpu = 1
program = ["set r0 7", "send 0 r0"]
"#;

/// Two threads on two CPUs, each of which sends to a buffer of its own, in 21 turns.
const TWO_CPUS: &str = r#"cpus = 2
trace = 4
buffers = [1, 1]

[[thread]]
cpu = 0
program = ["set r0 1", "send 0 r0"]

[[thread]]
cpu = 1
program = ["set r0 2", "send 1 r0"]
"#;

/// The first line of a plan that names its lock; a plan without one has a lock with grant words.
const TICKET: &str = "lock = \"ticket\"\n";

const LOCK: LockId = LockId::Buffer(BufId(3));

const OTHER: LockId = LockId::Pending(CpuId(1));

/// A machine that one thread owns, with one lock, whose block is 7.
fn machine(alloc: Global) -> Result<Plain<AddOne, LockWords>, NoMemory> {
    let mut blocks = Vec::new(alloc);
    blocks.push((LOCK, 7))?;
    Plain::open(alloc, blocks, 2)
}

#[test]
fn a_refused_allocation_of_a_machine_is_no_memory(rt: HostRuntime) {
    match machine(rt.alloc()) {
        Ok(machine) => assert_eq!(rt; machine.home(LOCK), Some(&7)),
        Err(NoMemory { .. }) => {}
    }
}

/// Opens a table of two CPUs with two blocks, and closes it again.
fn opens_and_closes<K: TableWords>(alloc: Global) -> Result<Vec<(LockId, u64)>, NoMemory> {
    let blocks = vec![in alloc; (OTHER, 7), (LOCK, 40)]?;
    let (shared, keys) = Shared::<AddOne, K>::open(alloc, blocks, 2)?;
    Ok(shared.close(keys))
}

#[test]
fn a_refused_allocation_of_shared_words_is_no_memory(rt: HostRuntime) {
    for closed in [
        opens_and_closes::<TicketWords>(rt.alloc()),
        opens_and_closes::<WaiterWords>(rt.alloc()),
    ] {
        match closed {
            Ok(blocks) => assert!(rt; blocks.as_slice() == [(OTHER, 7), (LOCK, 40)].as_slice()),
            Err(NoMemory { .. }) => {}
        }
    }
}

/// Opens a system over these message calls, and takes a step of each CPU.
fn calls_open<I: Owned + Drop>(rt: &impl Abort, alloc: Global) -> Result<(), NoMemory>
where
    I::Machine: Drop,
{
    let boot = match Boot::read(alloc, FROM_AFAR) {
        Ok(boot) => boot,
        Err(BootError::NoMemory(refused)) => return Err(refused),
        Err(_) => panic!(rt; "the plan is refused"),
    };
    let mut system: System<I> = System::open(alloc, &boot, 2)?;
    assert!(rt; system.run(&[CpuId(0), CpuId(1)]).is_ok());
    Ok(())
}

#[test]
fn a_refused_allocation_of_a_system_is_no_memory(rt: HostRuntime) {
    match calls_open::<PlainIpc>(&rt, rt.alloc()) {
        Ok(()) => {}
        Err(NoMemory { .. }) => {}
    }
}

#[test]
fn a_refused_allocation_of_monitors_is_no_memory(rt: HostRuntime) {
    match calls_open::<Monitors>(&rt, rt.alloc()) {
        Ok(()) => {}
        Err(NoMemory { .. }) => {}
    }
}

// With no thread to start, each allocation is the table's, or that of the supplies for workers: its refusal is told as want of memory.
#[test]
fn a_refused_allocation_of_the_table_is_no_memory(rt: HostRuntime) {
    match count_table(&rt, rt.alloc(), 0, 5, LockKind::Grant) {
        Ok(counted) => assert_eq!(rt; counted.number(), 0),
        Err(fault) => assert!(rt; matches!(fault, CountFault::NoMemory(_))),
    }
}

// A thread whose own memory is refused is one that could not be started. After a refusal no section was done.
#[test]
fn after_a_refused_allocation_or_start_the_number_is_0(rt: HostRuntime) {
    match count_or_leave(&rt, rt.alloc(), 2, 5, LockKind::Grant) {
        Ok(counted) => assert_eq!(rt; counted.number(), 10),
        Err(not) => {
            if let Some(left) = not.left {
                assert_eq!(rt; left.number(), 0);
            }
        }
    }
}

/// A gate that is open and counts how often it is asked.
#[derive(Drop)]
struct Counting {
    asked: AtomicU64,
}

impl Gate for Counting {
    ghost MayAnswer = { tt };

    fn pass(&self, _cpu: CpuId, _turn: u64) -> Go {
        self.asked.fetch_add(1, Ordering::SeqCst);
        Go::Pass
    }
}

/// Whether buffer 0 was left with 1 in it, and buffer 1 with 2.
fn holds_one_and_two(report: &Report) -> bool {
    report.items(BufId(0)).as_slice() == [Msg::one(1)].as_slice()
        && report.items(BufId(1)).as_slice() == [Msg::one(2)].as_slice()
}

/// Runs the two CPUs behind this first line, with memory or a thread refused perhaps: whether they took all their turns, or the refusal was told and no
/// worker had asked for a turn.
fn ends_or_never_asks<T: AllocGlobal + Threads + Wait + Sync>(rt: &T, first: &str) -> bool {
    let Ok(text) = format!(in rt.alloc(); "{first}{TWO_CPUS}") else {
        return true;
    };
    let boot = match Boot::read(rt.alloc(), text.as_str()) {
        Ok(boot) => boot,
        Err(error) => return matches!(error, BootError::NoMemory(_)),
    };
    let gate = Counting {
        asked: AtomicU64::new(0),
    };
    let ran = run_workers(rt, rt.alloc(), &boot, 1_000_000, &gate);
    let asked = gate.asked.load(Ordering::SeqCst);
    match ran {
        Ok(report) => asked == 42 && holds_one_and_two(&report),
        Err(_) => asked == 0,
    }
}

#[test]
fn workers_with_a_refused_allocation(rt: HostRuntime) {
    assert!(rt; ends_or_never_asks(&rt, ""));
}

#[test]
fn workers_at_ticket_locks_with_a_refused_allocation(rt: HostRuntime) {
    assert!(rt; ends_or_never_asks(&rt, TICKET));
}

/// A native that counts that it ran, and makes no call.
#[derive(Drop)]
struct Tally<'a> {
    ran: &'a AtomicU64,
}

impl Native for Tally<'_> {
    ghost Needs = { tt };

    ghost Kept = { tt };

    fn run<I: CallLayer<IpcLaw> + Drop, R: Wait>(&mut self, _rt: &R, _caller: &mut Caller<I>)
    where
        I::Machine: Drop + Hints,
    {
        self.ran.fetch_add(1, Ordering::SeqCst);
    }
}

/// Runs two natives, with memory or a thread refused perhaps: whether both ran and came back, or the refusal was told and neither had run.
fn both_run_or_neither<T: AllocGlobal + Threads + Wait + Sync>(rt: &T) -> bool {
    let ran = AtomicU64::new(0);
    let Ok(natives) = Vec::from_array(rt.alloc(), [Tally { ran: &ran }, Tally { ran: &ran }]) else {
        return true;
    };
    let left = run_native(rt, rt.alloc(), &[4], natives);
    let count = ran.load(Ordering::SeqCst);
    match left {
        Ok(report) => count == 2 && report.natives.len() == 2 && report.items(BufId(0)).is_empty(),
        Err(_) => count == 0,
    }
}

#[test]
fn natives_with_a_refused_allocation(rt: HostRuntime) {
    assert!(rt; both_run_or_neither(&rt));
}
