//! Threads that sleep and are woken, run over ticket locks and over one-step schedulers.

use crate::openings::{Opens, TICKET_POLLS, TicketSched};
use event_log::{BufId, CpuId, NoMemory, Tid};
use layer_traits::{
    BufferCall, MessageSlot, OwnedThreadLayer, Pass, Payload, SleepLaw, Sleeps, ThreadLayer,
    WaitList, Wake,
};
use plain_layers::PlainSched;
use sleep_wakeup::{SleepEdit, Sleeper, sleep_blocks};
use std::alloc::Global;
use std::process::Abort;
use std::test::*;

/// Its caller waits among the receivers, or wakes another thread from there.
#[derive(Clone, Copy)]
struct Nap {
    caller: Tid,
    wakes: Option<Tid>,
}

impl Sleeps for Nap {
    type Block = u8;

    type Out = Nap;

    type Request = Nap;

    type Response = Nap;

    ghost protocol = { tt };

    ghost abstract_call = { tt };

    ghost abstract_answer = { tt };

    fn caller(nap: &Nap) -> Tid {
        nap.caller
    }

    fn whole(nap: &Nap, _message_slot: &MessageSlot) -> Nap {
        *nap
    }

    fn apply_request(
        nap: &Nap,
        _first: Option<Tid>,
        _block: &mut u8,
        _message_slot: &mut MessageSlot,
    ) -> Nap {
        *nap
    }

    fn joins(nap: &Nap) -> Option<WaitList> {
        nap.wakes.is_none().then_some(WaitList::Receivers)
    }

    fn leaves(nap: &Nap) -> Wake {
        match nap.wakes {
            None => Wake::Nobody,
            Some(other) => Wake::Receiver(other),
        }
    }
}

const B: BufId = BufId(0);

const CPU_0: CpuId = CpuId(0);

const CPU_1: CpuId = CpuId(1);

const T0: Tid = Tid(0);

const T1: Tid = Tid(1);

const T2: Tid = Tid(2);

/// The homes of threads 0, 1 and 2.
const HOMES: [CpuId; 3] = [CPU_0, CPU_1, CPU_0];

/// What a poll is seen to do.
#[derive(Clone, Copy, Debug, PartialEq, Eq)]
enum Seen {
    /// The section has not answered.
    GoesOn,
    /// The section answered: whether its caller fell asleep, and whom it woke.
    Did(bool, Option<Tid>),
    /// It answered before its last poll.
    Early,
}

/// One CPU's part, of which a section takes so many polls.
#[derive(Drop)]
struct Seat<S> {
    part: S,
    polls: usize,
}

/// Polls a section once.
fn polled<S: ThreadLayer<SleepLaw<Nap>>>(
    seat: &mut Seat<S>,
    m: &mut S::Machine,
    edit: Nap,
) -> Seen {
    match seat
        .part
        .poll(m, BufferCall { buffer: B, edit }, &mut Payload::new())
    {
        None => Seen::GoesOn,
        Some(outcome) => Seen::Did(outcome.slept, outcome.woke),
    }
}

/// Polls it as often as a section takes.
fn section<S: ThreadLayer<SleepLaw<Nap>>>(
    seat: &mut Seat<S>,
    m: &mut S::Machine,
    edit: Nap,
) -> Seen {
    for _ in 1..seat.polls {
        if polled(seat, m, edit) != Seen::GoesOn {
            return Seen::Early;
        }
    }
    polled(seat, m, edit)
}

/// Thread 0 goes to sleep.
const SLEEP: Nap = Nap {
    caller: T0,
    wakes: None,
};

/// A thread wakes thread 0.
fn wake(caller: Tid) -> Nap {
    Nap {
        caller,
        wakes: Some(T0),
    }
}

/// Whether a pass is done in one poll.
fn passes<S: ThreadLayer<SleepLaw<Nap>>>(
    seat: &mut Seat<S>,
    m: &mut S::Machine,
    pass: Pass,
) -> bool {
    seat.part.pass(m, pass, &mut Payload::new()).is_some()
}

/// A machine of two CPUs and one buffer, whose block is 7, and the seats of its CPUs.
fn opened<S: Opens<SleepEdit<Nap>>>(
    alloc: Global,
    polls: usize,
) -> Result<(S::Machine, Seat<Sleeper<Nap, S>>, Seat<Sleeper<Nap, S>>), NoMemory> {
    let blocks = sleep_blocks(alloc, vec![in alloc; 7]?)?;
    let m = S::open(alloc, blocks, 2, &HOMES, 40)?;
    let home = Seat {
        part: Sleeper::part(CPU_0, &HOMES, 1),
        polls,
    };
    let away = Seat {
        part: Sleeper::part(CPU_1, &HOMES, 1),
        polls,
    };
    Ok((m, home, away))
}

/// Thread 0 falls asleep in the polls of a section, and its CPU has no current thread. Then thread 1 of another CPU wakes it in as many, after
/// which it stands in that CPU's hand alone, and sends it home in as many more.
fn a_thread_is_woken_from_afar<S: Opens<SleepEdit<Nap>> + Drop>(
    rt: &(impl Abort + AllocGlobal),
    polls: usize,
) -> Result<(), Fail>
where
    S::Machine: Drop,
{
    let (mut m, mut home, mut away) = opened::<S>(rt.alloc(), polls)?;
    assert!(rt; passes(&mut away, &mut m, Pass::Switch));
    assert_eq!(rt; away.part.current(), Some(T1));
    assert!(rt; passes(&mut home, &mut m, Pass::Switch));
    assert_eq!(rt; home.part.current(), Some(T0));
    assert_eq!(rt; section(&mut home, &mut m, SLEEP), Seen::Did(true, None));
    assert_eq!(rt; home.part.current(), None);
    for poll in 1..polls {
        assert_eq!(rt;
            polled(&mut away, &mut m, wake(T1)),
            Seen::GoesOn,
            "poll {poll}"
        );
        assert_eq!(rt; away.part.hand(), None, "poll {poll}");
    }
    assert_eq!(rt; polled(&mut away, &mut m, wake(T1)), Seen::GoesOn);
    assert_eq!(rt; away.part.hand(), Some(T0));
    assert_eq!(rt; (home.part.current(), home.part.hand()), (None, None));
    assert!(rt; !home.part.own_threads().is_ready(T0));
    assert_eq!(rt;
        section(&mut away, &mut m, wake(T1)),
        Seen::Did(false, Some(T0))
    );
    assert_eq!(rt; away.part.hand(), None);
    Ok(())
}

/// Thread 0 falls asleep, and thread 2 of the same CPU wakes it: it is ready there after that same poll, and thread 2 may end.
fn a_thread_is_woken_at_home<S: Opens<SleepEdit<Nap>> + Drop>(
    rt: &(impl Abort + AllocGlobal),
    polls: usize,
) -> Result<(), Fail>
where
    S::Machine: Drop,
{
    let (mut m, mut home, _away) = opened::<S>(rt.alloc(), polls)?;
    assert!(rt; passes(&mut home, &mut m, Pass::Switch));
    assert_eq!(rt; home.part.current(), Some(T0));
    assert_eq!(rt; section(&mut home, &mut m, SLEEP), Seen::Did(true, None));
    assert!(rt; passes(&mut home, &mut m, Pass::Switch));
    assert_eq!(rt; home.part.current(), Some(T2));
    assert_eq!(rt;
        section(&mut home, &mut m, wake(T2)),
        Seen::Did(false, Some(T0))
    );
    assert!(rt; home.part.own_threads().is_ready(T0));
    assert_eq!(rt; (home.part.current(), home.part.hand()), (Some(T2), None));
    assert!(rt; passes(&mut home, &mut m, Pass::End));
    assert!(rt; home.part.own_threads().has_ended(T2));
    assert_eq!(rt; home.part.current(), None);
    Ok(())
}

/// Whether thread 0 waits to receive, and what the lock guards, as the machine tells it.
fn abstract_answer<S: Opens<SleepEdit<Nap>>>(m: &S::Machine) -> Option<(bool, u8)> {
    let block = Sleeper::<Nap, S>::block_in(m, B)?;
    Some((block.receivers.contains(T0), *block.above))
}

/// Thread 0 sleeps: the machine tells in which line, and the part has no block and no queue in its hands.
fn a_machine_tells_who_sleeps<S: Opens<SleepEdit<Nap>> + Drop>(
    rt: &(impl Abort + AllocGlobal),
    polls: usize,
) -> Result<(), Fail>
where
    S::Machine: Drop,
{
    let (mut m, mut home, _away) = opened::<S>(rt.alloc(), polls)?;
    assert!(rt; passes(&mut home, &mut m, Pass::Switch));
    assert_eq!(rt; home.part.current(), Some(T0));
    assert_eq!(rt; section(&mut home, &mut m, SLEEP), Seen::Did(true, None));
    assert_eq!(rt; abstract_answer::<S>(&m), Some((true, 7)));
    assert!(rt; home.part.block_here(B).is_none());
    assert_eq!(rt; Sleeper::<Nap, S>::pends_in(&m, CPU_1, T0), Some(false));
    assert_eq!(rt; home.part.pends_here(CPU_1, T0), None);
    Ok(())
}

/// Each scene over a machine of these schedulers.
fn threads_sleep_and_wake<S: Opens<SleepEdit<Nap>> + Drop>(
    rt: &(impl Abort + AllocGlobal),
    polls: usize,
) -> Result<(), Fail>
where
    S::Machine: Drop,
{
    a_thread_is_woken_from_afar::<S>(rt, polls)?;
    a_thread_is_woken_at_home::<S>(rt, polls)?;
    a_machine_tells_who_sleeps::<S>(rt, polls)
}

#[test]
fn threads_sleep_and_wake_over_ticket_locks(rt: HostRuntime) -> Result<(), Fail> {
    threads_sleep_and_wake::<TicketSched<SleepEdit<Nap>>>(&rt, TICKET_POLLS)
}

#[test]
fn threads_sleep_and_wake_in_one_step(rt: HostRuntime) -> Result<(), Fail> {
    threads_sleep_and_wake::<PlainSched<SleepEdit<Nap>>>(&rt, 1)
}
