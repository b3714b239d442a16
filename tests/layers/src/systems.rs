//! Whole systems over one-step message calls: worked plans end as they do over the tower of ticket locks, with a step where the tower takes one for
//! each action of a call.

use crate::texts::written;
use arrayvec::ArrayVec;
use boot::Boot;
use cpu::System;
use event_log::{BufId, CpuId, Tid};
use ipc_calls::{Ipc, OpensBuffers, calls_are_whole};
use layer_traits::{Owned, Place, Reason};
use plain_layers::{Attempt, PlainFifo, PlainIpc, PlainSleep, ipc_is_whole};
use std::alloc::Global;
use std::process::Abort;
use std::test::*;
use tracer::{Sink, gather};

/// Plans with as many CPUs as threads and one buffer with room for one; a plan's first line says what it shows. Behind each stands which CPU takes
/// each step, then the trace text, and then for each number why this CPU takes no more steps and where this thread stands.
const ROWS: &str =
    r#"# One thread that sends 7 into a buffer with room for one, and ends. Before its send took effect it runs.
cpus = 1
trace = 4
buffers = [1]
[[thread]]
cpu = 0
program = ["set r0 7", "send 0 r0", "exit"]
-- 00
mctower-trace 1
buffers 1
cap 0 1
left 0
end
--
goes on; running Some(0)
quiet false, closed false, busy None
==
# It sends and ends.
cpus = 1
trace = 4
buffers = [1]
[[thread]]
cpu = 0
program = ["set r0 7", "send 0 r0", "exit"]
-- 0000
mctower-trace 1
buffers 1
cap 0 1
e 0 0 send 0 7 0 0
left 0 7
end
--
all ended; ended None
quiet true, closed false, busy None
==
# The same with as many steps as the tower takes for it: a CPU whose threads have all ended takes no more.
cpus = 1
trace = 4
buffers = [1]
[[thread]]
cpu = 0
program = ["set r0 7", "send 0 r0", "exit"]
-- 000000000000000000000
mctower-trace 1
buffers 1
cap 0 1
e 0 0 send 0 7 0 0
left 0 7
end
--
all ended; ended None
quiet true, closed false, busy None
==
# One thread that sends 7 twice into a buffer with room for one. The second send finds it full, and its thread waits.
cpus = 1
trace = 4
buffers = [1]
[[thread]]
cpu = 0
program = ["set r0 7", "send 0 r0", "send 0 r0", "exit"]
-- 0000
mctower-trace 1
buffers 1
cap 0 1
e 0 0 send 0 7 0 0
left 0 7
end
--
goes on; waits to send Some(0)
quiet true, closed false, busy None
==
# A receiver on CPU 0, and on CPU 1 a thread that sends 7. The receiver of an empty buffer waits.
cpus = 2
trace = 4
buffers = [1]
[[thread]]
cpu = 0
program = ["recv 0 r0"]
[[thread]]
cpu = 1
program = ["set r0 7", "send 0 r0"]
-- 00
mctower-trace 1
buffers 1
cap 0 1
left 0
end
--
goes on; waits to receive Some(0)
goes on; ready Some(1)
quiet false, closed false, busy None
==
# The receiver waits, the sender wakes it and sends it home, and it receives.
cpus = 2
trace = 4
buffers = [1]
[[thread]]
cpu = 0
program = ["recv 0 r0"]
[[thread]]
cpu = 1
program = ["set r0 7", "send 0 r0"]
-- 0011110000
mctower-trace 1
buffers 1
cap 0 1
e 1 1 send 0 7 0 0
e 0 0 recv 0 7 1 0
left 0
end
--
all ended; ended None
all ended; ended None
quiet true, closed false, busy None
==
# One thread that sends two words as one message, and receives them as they were sent.
cpus = 1
trace = 4
buffers = [1]
[[thread]]
cpu = 0
program = ["set r0 7", "set r1 8", "sendm 0 2", "recvm 0"]
-- 000000
mctower-trace 3
buffers 1
cap 0 1
e 0 0 send 0 7,8 0 0
e 0 0 recv 0 7,8 1 0
left 0
end
--
all ended; ended None
quiet true, closed false, busy None
==
# A receiver on CPU 0, and on CPU 1 a thread that closes the buffer. The receiver waits, the close wakes it and sends it home,
# and it finds the buffer closed.
cpus = 2
trace = 4
buffers = [1]
[[thread]]
cpu = 0
program = ["recv 0 r0"]
[[thread]]
cpu = 1
program = ["close 0"]
-- 001110000
mctower-trace 2
buffers 1
cap 0 1
e 1 1 close 0 - 0 0
e 0 0 recvc 0 - 1 0
left 0
end
--
all ended; ended None
all ended; ended None
quiet true, closed true, busy None
==
# One thread that sends 7, closes the buffer, sends again and receives twice. A closed buffer takes no message, gives the one that
# it has, and then answers that it is closed.
cpus = 1
trace = 8
buffers = [1]
[[thread]]
cpu = 0
program = ["set r0 7", "send 0 r0", "close 0", "send 0 r0", "recv 0 r1", "recv 0 r1"]
-- 00000000
mctower-trace 2
buffers 1
cap 0 1
e 0 0 send 0 7 0 0
e 0 0 close 0 - 1 0
e 0 0 sendc 0 7 2 1
e 0 0 recv 0 7 3 0
e 0 0 recvc 0 - 4 1
left 0
end
--
all ended; ended None
quiet true, closed true, busy None
==
# Three receivers, each on a CPU of its own, and on CPU 3 a thread that closes the buffer. The close wakes the first, the first
# wakes the second, and so on.
cpus = 4
trace = 4
buffers = [1]
[[thread]]
cpu = 0
program = ["recv 0 r0"]
[[thread]]
cpu = 1
program = ["recv 0 r0"]
[[thread]]
cpu = 2
program = ["recv 0 r0"]
[[thread]]
cpu = 3
program = ["close 0"]
-- 001122333000011112222
mctower-trace 2
buffers 1
cap 0 1
e 3 3 close 0 - 0 0
e 0 0 recvc 0 - 1 0
e 1 1 recvc 0 - 2 1
e 2 2 recvc 0 - 3 2
left 0
end
--
all ended; ended None
all ended; ended None
all ended; ended None
all ended; ended None
quiet true, closed true, busy None
==
# A thread that sends 7 twice into room for one, another that sends 8, and on CPU 2 one that closes the buffer and receives twice.
# Two senders wait at a full buffer. The close wakes the first, which wakes the second.
cpus = 3
trace = 4
buffers = [1]
[[thread]]
cpu = 0
program = ["set r0 7", "send 0 r0", "send 0 r0"]
[[thread]]
cpu = 1
program = ["set r0 8", "send 0 r0"]
[[thread]]
cpu = 2
program = ["close 0", "recv 0 r0", "recv 0 r0"]
-- 00001112200001111222
mctower-trace 2
buffers 1
cap 0 1
e 0 0 send 0 7 0 0
e 2 2 close 0 - 1 0
e 0 0 sendc 0 7 2 1
e 1 1 sendc 0 8 3 2
e 2 2 recv 0 7 4 0
e 2 2 recvc 0 - 5 1
left 0
end
--
all ended; ended None
all ended; ended None
all ended; ended None
quiet true, closed true, busy None
"#;

/// Appends the steps of a word to a schedule: digits of CPUs, and behind a `*` how often they come.
fn read_steps(steps: &mut Vec<CpuId>, word: &str) -> Result<(), Fail> {
    let (digits, times) = match word.split_once('*') {
        None => (word, 1),
        Some((digits, times)) => (digits, times.parse::<u32>()?),
    };
    for _ in 0..times {
        for digit in digits.bytes() {
            steps.push(CpuId(digit.wrapping_sub(b'0')))?;
        }
    }
    Ok(())
}

/// Why a CPU takes no step, or that it goes on.
fn reason_text(halted: Option<Reason>) -> &'static str {
    match halted {
        None => "goes on",
        Some(Reason::AllEnded) => "all ended",
        Some(Reason::TraceFull) => "trace full",
        Some(Reason::StepsUsed) => "steps used",
    }
}

/// Where a thread stands, and the number of the CPU or the buffer that it stands at, if it has not ended.
fn place_text(place: Place) -> (&'static str, Option<u8>) {
    match place {
        Place::Running(cpu) => ("running", Some(cpu.0)),
        Place::Ready(cpu) => ("ready", Some(cpu.0)),
        Place::Pending(cpu) => ("pending", Some(cpu.0)),
        Place::Hand(cpu) => ("in the hand", Some(cpu.0)),
        Place::LockSleeper(buffer) => ("sleeps", Some(buffer.0)),
        Place::WaitRecv(buffer) => ("waits to receive", Some(buffer.0)),
        Place::WaitSend(buffer) => ("waits to send", Some(buffer.0)),
        Place::Ended => ("ended", None),
    }
}

/// The trace text of a system of so many CPUs.
fn trace_text<I: Owned + Drop>(
    alloc: Global,
    system: &System<I>,
    cpus: u8,
) -> Result<ArrayVec<u8, 256>, Fail>
where
    I::Machine: Drop,
{
    let mut traces = Vec::new(alloc);
    for cpu in 0..cpus {
        traces.push(system.trace(CpuId(cpu)))?;
    }
    let order = gather(alloc, traces.as_slice())?;
    let mut page = ArrayVec::new();
    let left = system.buffer(BufId(0));
    written(&mut Sink::new(&mut page), order.as_slice(), left.as_slice())?;
    Ok(page)
}

/// How a system of so many CPUs stands, as its row says it.
fn told<I: Owned + Drop>(alloc: Global, system: &System<I>, cpus: u8) -> Result<String, Fail>
where
    I::Machine: Drop,
{
    let page = trace_text(alloc, system, cpus)?;
    let mut text = String::from_utf8_lossy(alloc, page.as_slice())?;
    text.push_str("--\n")?;
    for number in 0..cpus {
        let halted = reason_text(system.halted(CpuId(number)));
        let (place, at) = place_text(system.place(Tid(number)));
        text.push_str(format!(in alloc; "{halted}; {place} {at:?}\n")?.as_str())?;
    }
    let (quiet, closed) = (system.is_quiet(), system.is_closed(BufId(0)));
    let busy = system.busy(BufId(0));
    text.push_str(format!(in alloc; "quiet {quiet}, closed {closed}, busy {busy:?}\n")?.as_str())?;
    Ok(text)
}

/// Runs a row: the system ends as the row says.
fn goes<I: Owned + Drop>(rt: &(impl Abort + AllocGlobal), row: &str) -> Result<(), Fail>
where
    I::Machine: Drop,
{
    let alloc = rt.alloc();
    let Some((plan, rest)) = row.split_once("-- ") else {
        return Err(Fail::new(row));
    };
    let Some((schedule, wanted)) = rest.split_once('\n') else {
        return Err(Fail::new(row));
    };
    let mut steps = Vec::new(alloc);
    for word in schedule.split(' ') {
        read_steps(&mut steps, word)?;
    }
    let boot = Boot::read(alloc, plan)?;
    let mut system: System<I> = System::open(alloc, &boot, steps.len())?;
    assert!(rt; system.run(steps.as_slice()).is_ok(), "a step of {row}");
    let told = told(alloc, &system, boot.cpus())?;
    assert_eq!(rt; told.as_str(), wanted, "{plan}");
    Ok(())
}

/// Runs these rows over message calls.
pub fn rows_go<I: Owned + Drop>(rt: &(impl Abort + AllocGlobal), rows: &str) -> Result<(), Fail>
where
    I::Machine: Drop,
{
    for row in rows.split("==\n") {
        goes::<I>(rt, row)?;
    }
    Ok(())
}

// A step for each instruction, for each switch and each taking of a queue, and one for the end of a thread.
#[test]
fn one_step_systems_run_as_the_tower_does(rt: HostRuntime) -> Result<(), Fail> {
    ipc_is_whole();
    calls_are_whole::<PlainIpc>();
    rows_go::<PlainIpc>(&rt, ROWS)
}

// From the most polls whose events can be counted on.
#[test]
fn a_machine_with_more_room_than_there_can_be_is_refused(rt: HostRuntime) {
    type Buffers = PlainFifo<PlainSleep<Attempt>>;
    for room in [usize::MAX / 2, usize::MAX / 2 + 1, usize::MAX] {
        let buffers = <Buffers as OpensBuffers>::open(rt.alloc(), 1, &[1], &[CpuId(0)], room);
        assert!(rt; buffers.is_err(), "buffers with room for {room}");
        let calls = <Ipc<Buffers> as Owned>::open(rt.alloc(), 1, &[1], &[CpuId(0)], room);
        assert!(rt; calls.is_err(), "calls with room for {room}");
    }
}
