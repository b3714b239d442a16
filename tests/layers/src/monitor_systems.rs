//! Whole systems over monitors, and the same over queuing locks and conditions: worked plans end alike over both. Random plans end over monitors as
//! plans/monitor.py says, a short Python model, and `check` accepts each trace. 10,000 hand-overs lose no wake-up over either.

use crate::monitor_rows::{BOTH, ROWS};
use boot::Boot;
use cpu::System;
use event_log::{BufId, CpuId, Tid};
use ipc_calls::{Ipc, MonitorOver, MonitorTowerEdit, TowerEdit, TowerOver};
use layer_traits::{Owned, Place, Reason};
use plain_machine::Plain;
use spinlock::Ticket;
use std::alloc::Global;
use std::process::Abort;
use std::test::*;
use tracer::{Sink, Verdict, check, gather, write_trace};

/// Message calls over queuing locks and conditions.
type Fifos = Ipc<TowerOver<Ticket<Plain<TowerEdit>>>>;

/// Message calls over monitors.
type Monitors = Ipc<MonitorOver<Ticket<Plain<MonitorTowerEdit>>>>;

/// Appends the steps of an item of a schedule, as `0*13`.
fn put_steps(steps: &mut Vec<CpuId>, item: &str) -> Result<(), Fail> {
    let (cpu, times) = match item.split_once('*') {
        None => (item, 1),
        Some((cpu, times)) => (cpu, times.parse::<u32>()?),
    };
    let cpu = CpuId(cpu.parse::<u8>()?);
    for _ in 0..times {
        steps.push(cpu)?;
    }
    Ok(())
}

/// The state line's word for a CPU.
fn stop_text(halted: Option<Reason>) -> &'static str {
    match halted {
        None => "live",
        Some(Reason::AllEnded) => "AllEnded",
        Some(Reason::TraceFull) => "TraceFull",
        Some(Reason::StepsUsed) => "StepsUsed",
    }
}

/// The state line's word for a place, and the number of the CPU or the buffer behind it.
fn place_text(place: Place) -> (&'static str, Option<u8>) {
    match place {
        Place::Running(cpu) => ("Running", Some(cpu.0)),
        Place::Ready(cpu) => ("Ready", Some(cpu.0)),
        Place::Pending(cpu) => ("Pending", Some(cpu.0)),
        Place::Hand(cpu) => ("Hand", Some(cpu.0)),
        Place::LockSleeper(buffer) => ("LockSleeper", Some(buffer.0)),
        Place::WaitRecv(buffer) => ("WaitRecv", Some(buffer.0)),
        Place::WaitSend(buffer) => ("WaitSend", Some(buffer.0)),
        Place::Ended => ("Ended", None),
    }
}

/// The trace text of a system of this plan.
fn trace_text<I: Owned + Drop>(
    alloc: Global,
    system: &System<I>,
    boot: &Boot,
) -> Result<Vec<u8>, Fail>
where
    I::Machine: Drop,
{
    let mut traces = Vec::new(alloc);
    for cpu in 0..boot.cpus() {
        traces.push(system.trace(CpuId(cpu)))?;
    }
    let order = gather(alloc, traces.as_slice())?;
    let caps = boot.caps();
    let mut left = Vec::new(alloc);
    for buffer in 0..caps.len() {
        left.push(system.buffer(BufId(buffer as u8)))?;
    }
    let mut page = Vec::new(alloc);
    let mut sink = Sink::new(&mut page);
    write_trace(
        &mut sink,
        caps.as_slice(),
        order.as_slice(),
        left.as_slice(),
    )?;
    Ok(page)
}

/// The state lines of a system of this plan.
fn state_text<I: Owned + Drop>(
    alloc: Global,
    system: &System<I>,
    boot: &Boot,
) -> Result<String, Fail>
where
    I::Machine: Drop,
{
    let mut text = String::new(alloc);
    for cpu in 0..boot.cpus() {
        let stop = stop_text(system.halted(CpuId(cpu)));
        text.push_str(format!(in alloc; "cpu {cpu} {stop}\n")?.as_str())?;
    }
    for thread in 0..boot.threads() as u8 {
        let line = match place_text(system.place(Tid(thread))) {
            (place, None) => format!(in alloc; "thread {thread} {place}\n")?,
            (place, Some(at)) => format!(in alloc; "thread {thread} {place}({at})\n")?,
        };
        text.push_str(line.as_str())?;
    }
    let quiet = if system.is_quiet() { "yes" } else { "no" };
    text.push_str(format!(in alloc; "quiet {quiet}\n")?.as_str())?;
    Ok(text)
}

/// Runs a row: the system ends as the row says, and `check` accepts its trace.
fn goes<I: Owned + Drop>(rt: &(impl Abort + AllocGlobal), row: &str) -> Result<(), Fail>
where
    I::Machine: Drop,
{
    let alloc = rt.alloc();
    let Some((plan, rest)) = row.split_once("-- ") else {
        return Err(Fail::new(row));
    };
    let Some((schedule, wanted)) = rest.split_once('\n') else {
        return Err(Fail::new(row));
    };
    let mut steps = Vec::new(alloc);
    for item in schedule.split(',') {
        put_steps(&mut steps, item)?;
    }
    let boot = Boot::read(alloc, plan)?;
    let mut system: System<I> = System::open(alloc, &boot, steps.len())?;
    assert!(rt; system.run(steps.as_slice()).is_ok(), "a step of {row}");
    let page = trace_text(alloc, &system, &boot)?;
    assert_eq!(rt; check(page.as_slice()), Verdict::Yes, "{plan}");
    let mut told = String::from_utf8_lossy(alloc, page.as_slice())?;
    told.push_str("--\n")?;
    told.push_str(state_text(alloc, &system, &boot)?.as_str())?;
    assert_eq!(rt; told.as_str(), wanted, "{plan}");
    Ok(())
}

/// Runs these rows.
fn rows_go<I: Owned + Drop>(rt: &(impl Abort + AllocGlobal), rows: &str) -> Result<(), Fail>
where
    I::Machine: Drop,
{
    for row in rows.split("==\n") {
        goes::<I>(rt, row)?;
    }
    Ok(())
}

#[test]
fn worked_plans_end_alike_over_both_bodies(rt: HostRuntime) -> Result<(), Fail> {
    rows_go::<Fifos>(&rt, BOTH)?;
    rows_go::<Monitors>(&rt, BOTH)
}

#[test]
fn random_plans_end_over_monitors_as_the_model_says(rt: HostRuntime) -> Result<(), Fail> {
    rows_go::<Monitors>(&rt, ROWS)
}

/// Two threads that hand 5,000 messages to each other, one after the other, through buffers for one: 10,000 hand-overs.
const PLAYERS: &str = r#"cpus = 2
trace = 65536
buffers = [1, 1]
[[thread]]
cpu = 0
program = ["set r0 5000", "set r1 1", "send 0 r0", "recv 1 r2", "sub r0 r1", "jnz r0 2", "close 0"]
[[thread]]
cpu = 1
program = ["recv 0 r0 3", "send 1 r0", "jnz r0 0", "exit"]
"#;

/// How many steps are drawn at a time, and how often. A run that needs more has lost a wake-up.
const STEPS: usize = 1_000;

const TURNS: usize = 1_500;

/// Draws the steps of two CPUs, each a few times in a row, and returns the seed of the next.
fn drawn(steps: &mut Vec<CpuId>, seed: u64) -> u64 {
    let mut seed = seed;
    for step in steps.iter_mut() {
        seed = seed
            .wrapping_mul(6_364_136_223_846_793_005)
            .wrapping_add(1_442_695_040_888_963_407);
        *step = CpuId((seed >> 63) as u8);
    }
    seed
}

/// Lets two CPUs hand messages to each other under a random schedule, until both have ended.
fn hand_over<I: Owned + Drop>(rt: &(impl Abort + AllocGlobal), seed: u64) -> Result<(), Fail>
where
    I::Machine: Drop,
{
    let boot = Boot::read(rt.alloc(), PLAYERS)?;
    let mut system: System<I> = System::open(rt.alloc(), &boot, STEPS * TURNS)?;
    let mut steps = Vec::from_array(rt.alloc(), [CpuId(0); STEPS])?;
    let mut seed = seed;
    for _ in 0..TURNS {
        seed = drawn(&mut steps, seed);
        assert!(rt; system.run(steps.as_slice()).is_ok());
        let first = system.halted(CpuId(0));
        if first.is_some() && system.halted(CpuId(1)).is_some() {
            break;
        }
    }
    assert!(rt; matches!(system.place(Tid(0)), Place::Ended));
    assert!(rt; matches!(system.place(Tid(1)), Place::Ended));
    assert_eq!(rt; system.trace(CpuId(0)).len(), 10_001);
    assert_eq!(rt; system.trace(CpuId(1)).len(), 10_001);
    Ok(())
}

#[test]
fn ten_thousand_hand_overs_between_cpus(rt: HostRuntime) -> Result<(), Fail> {
    hand_over::<Fifos>(&rt, 1)?;
    hand_over::<Monitors>(&rt, 2)
}
