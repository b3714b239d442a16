//! Queuing locks and conditions over ticket locks and over one-step schedulers, and the one-step queuing lock: a lock is handed from owner to owner;
//! a wait frees its lock, and is over once the thread was woken.

use crate::openings::{Opens, TICKET_POLLS, TicketSched};
use condvar::Cond;
use event_log::{BufId, CpuId, NoMemory, Tid};
use layer_traits::{
    BufferCall, CvEdit, CvLaw, CvLeave, CvReply, Guarded, MessageSlot, Outcome, OwnedThreadLayer,
    Pass, Payload, QLockCall, QLockLaw, QLockReply, Side, SleeperLaw, ThreadLayer,
};
use plain_layers::{PlainKernel, PlainQLock, PlainQLockCall, PlainSched, plain_locks};
use queuing_lock::{QLock, QLockSection, lock_blocks};
use sleep_wakeup::{SleepEdit, Sleeper, sleep_blocks};
use std::alloc::Global;
use std::process::Abort;
use std::test::*;

/// Reads the block: the thread that stands at the front of either line.
#[derive(Clone, Copy)]
struct Reads {
    caller: Tid,
}

impl Guarded for Reads {
    type Block = Tid;

    type Out = Tid;

    type Request = Reads;

    type Response = Tid;

    ghost monitor_rules = { tt };

    ghost abstract_call = { tt };

    ghost abstract_answer = { tt };

    fn caller(reads: &Reads) -> Tid {
        reads.caller
    }

    fn whole(reads: &Reads, _message_slot: &MessageSlot) -> Reads {
        *reads
    }

    fn apply_request(_reads: &Reads, block: &mut Tid, _message_slot: &mut MessageSlot) -> Tid {
        *block
    }

    fn ready(_side: Side, block: &Tid) -> Option<Tid> {
        Some(*block)
    }
}

/// A call on a lock with conditions, as its layers take it, and as an edit.
type Call = QLockCall<CvEdit<Reads>, CvLeave>;

type Calls = QLockSection<CvEdit<Reads>, CvLeave>;

/// What a call answers.
type Answer = Outcome<QLockReply<CvReply<Tid>>>;

/// Queuing locks over a scheduler.
type Locks<S> = QLock<Sleeper<Calls, S>>;

const B: BufId = BufId(0);

const T0: Tid = Tid(0);

const T1: Tid = Tid(1);

/// Thread 0 is at home on CPU 0, thread 1 on CPU 1, and thread 2 on CPU 2.
const HOMES: [CpuId; 3] = [CpuId(0), CpuId(1), CpuId(2)];

/// What a thread does with the lock of the buffer.
#[derive(Clone, Copy)]
enum Does {
    Acquires,
    Reads,
    /// It wakes the front of the receivers.
    Signals,
    Leaves,
    /// It leaves, and waits among the receivers.
    Waits,
}

/// What a poll is seen to do.
#[derive(Clone, Copy, Debug, PartialEq, Eq)]
enum Seen {
    /// The call has not answered, and its caller runs.
    GoesOn,
    /// The call has not answered, and its caller sleeps or waits.
    Sleeps,
    Acquired,
    Read(Tid),
    /// The signal woke this thread.
    Signalled(Option<Tid>),
    /// This thread was woken to own the lock.
    Left(Option<Tid>),
    /// The wait is over.
    Waited,
    /// Another answer than any that is asked for.
    Otherwise,
    /// The call answered before its last poll.
    Early,
}

/// One CPU's part, of which a section takes so many polls, and its own thread.
#[derive(Drop)]
struct Seat<Q> {
    part: Q,
    thread: Tid,
    polls: usize,
}

/// A layer of queuing locks, with conditions or without.
trait Locking: SleeperLaw<Above = Tid, Call = BufferCall<Call>, Answer = Answer> {}

impl Locking for QLockLaw<CvEdit<Reads>> {}

impl Locking for CvLaw<Reads> {}

/// The owner of the lock, as the machine tells it.
fn owner<L: Locking, Q: OwnedThreadLayer<L>>(m: &Q::Machine) -> Option<Option<Tid>> {
    Some(Q::block_in(m, B)?.owner)
}

/// What the lock guards, as the machine tells it.
fn above<L: Locking, Q: OwnedThreadLayer<L>>(m: &Q::Machine) -> Option<Tid> {
    Some(*Q::block_in(m, B)?.above)
}

/// Whether the machine tells that `t` sleeps for the lock.
fn sleeps<L: Locking, Q: OwnedThreadLayer<L>>(m: &Q::Machine, t: Tid) -> Option<bool> {
    Some(Q::block_in(m, B)?.sleepers.contains(t))
}

/// Whether the machine tells that `t` waits to receive.
fn waits<L: Locking, Q: OwnedThreadLayer<L>>(m: &Q::Machine, t: Tid) -> Option<bool> {
    Some(Q::block_in(m, B)?.receivers.contains(t))
}

fn call_of(does: Does, t: Tid) -> Call {
    match does {
        Does::Acquires => QLockCall::Acquire(t),
        Does::Reads => QLockCall::Inside(CvEdit::Edit(Reads { caller: t })),
        Does::Signals => QLockCall::Inside(CvEdit::SignalFront(t, Side::Receivers)),
        Does::Leaves => QLockCall::Release(CvLeave::Leave(t)),
        Does::Waits => QLockCall::Release(CvLeave::Wait(t, Side::Receivers)),
    }
}

fn seen_of(answer: Answer) -> Seen {
    match answer.out {
        QLockReply::Acquired => Seen::Acquired,
        QLockReply::Did(CvReply::Did(read)) => Seen::Read(read),
        QLockReply::Did(CvReply::Signalled(_, _)) => Seen::Signalled(answer.woke),
        QLockReply::Released(CvReply::Left) => Seen::Left(answer.woke),
        QLockReply::Released(CvReply::Waited(_)) => Seen::Waited,
        QLockReply::Queued | QLockReply::Did(_) | QLockReply::Released(_) => Seen::Otherwise,
    }
}

/// Polls a call of the seat's thread once.
fn polled<L: Locking, Q: OwnedThreadLayer<L>>(
    seat: &mut Seat<Q>,
    m: &mut Q::Machine,
    does: Does,
) -> Seen {
    let call = BufferCall {
        buffer: B,
        edit: call_of(does, seat.thread),
    };
    match seat.part.poll(m, call, &mut Payload::new()) {
        Some(answer) => seen_of(answer),
        None if seat.part.current().is_some() => Seen::GoesOn,
        None => Seen::Sleeps,
    }
}

/// Polls it as often as a section takes.
fn section<L: Locking, Q: OwnedThreadLayer<L>>(
    seat: &mut Seat<Q>,
    m: &mut Q::Machine,
    does: Does,
) -> Seen {
    for _ in 1..seat.polls {
        if polled(seat, m, does) != Seen::GoesOn {
            return Seen::Early;
        }
    }
    polled(seat, m, does)
}

/// Whether one poll of a pass is its last.
fn passes<L: Locking, Q: OwnedThreadLayer<L>>(
    seat: &mut Seat<Q>,
    m: &mut Q::Machine,
    pass: Pass,
) -> bool {
    seat.part.pass(m, pass, &mut Payload::new()).is_some()
}

/// Whether the taking of the CPU's queue is over after just the polls of a section.
fn drains<L: Locking, Q: OwnedThreadLayer<L>>(seat: &mut Seat<Q>, m: &mut Q::Machine) -> bool {
    for _ in 1..seat.polls {
        if passes(seat, m, Pass::Drain) {
            return false;
        }
    }
    passes(seat, m, Pass::Drain)
}

/// A machine of three CPUs and one buffer, whose block is thread 0.
fn machine<S: Opens<SleepEdit<Calls>>>(alloc: Global) -> Result<S::Machine, NoMemory> {
    let locked = lock_blocks(alloc, vec![in alloc; T0]?)?;
    S::open(alloc, sleep_blocks(alloc, locked)?, 3, &HOMES, 60)
}

/// The same of one-step queuing locks.
fn plain_machine(
    alloc: Global,
) -> Result<PlainKernel<PlainQLockCall<CvEdit<Reads>, CvLeave>>, NoMemory> {
    let locks = plain_locks(alloc, vec![in alloc; T0]?)?;
    PlainKernel::open(alloc, locks, 3, &HOMES, 60)
}

/// The seat of a CPU at boot, whose thread runs.
fn seat<L: Locking, Q: OwnedThreadLayer<L>>(
    rt: &impl Abort,
    m: &mut Q::Machine,
    cpu: u8,
    polls: usize,
) -> Seat<Q> {
    let mut seat = Seat {
        part: Q::part(CpuId(cpu), &HOMES, 1),
        thread: Tid(cpu),
        polls,
    };
    assert!(rt; passes(&mut seat, m, Pass::Switch));
    assert_eq!(rt; seat.part.current(), Some(seat.thread));
    seat
}

/// The lock passes from thread 0 to thread 1, for which thread 2 then sleeps. Thread 1 is told that it owns the lock only once it runs again on
/// its CPU.
fn is_handed_on<L: Locking, Q: OwnedThreadLayer<L> + Drop>(
    rt: &impl Abort,
    m: &mut Q::Machine,
    polls: usize,
) {
    let mut zero: Seat<Q> = seat(rt, m, 0, polls);
    let mut one: Seat<Q> = seat(rt, m, 1, polls);
    let mut two: Seat<Q> = seat(rt, m, 2, polls);
    assert_eq!(rt; section(&mut zero, m, Does::Acquires), Seen::Acquired);
    assert_eq!(rt; section(&mut one, m, Does::Acquires), Seen::Sleeps);
    assert_eq!(rt; sleeps::<_, Q>(m, T1), Some(true));
    assert_eq!(rt; section(&mut zero, m, Does::Leaves), Seen::GoesOn);
    assert_eq!(rt; zero.part.hand(), Some(T1));
    assert_eq!(rt; owner::<_, Q>(m), Some(Some(T1)));
    assert_eq!(rt; section(&mut zero, m, Does::Leaves), Seen::Left(Some(T1)));
    assert_eq!(rt; zero.part.hand(), None);
    assert_eq!(rt; section(&mut two, m, Does::Acquires), Seen::Sleeps);
    assert_eq!(rt; (one.part.current(), one.part.at_once()), (None, false));
    assert!(rt; drains(&mut one, m));
    assert!(rt; !one.part.at_once());
    assert!(rt; passes(&mut one, m, Pass::Switch));
    assert_eq!(rt; (one.part.current(), one.part.at_once()), (Some(T1), true));
    assert_eq!(rt; polled(&mut one, m, Does::Acquires), Seen::Acquired);
    assert_eq!(rt; owner::<_, Q>(m), Some(Some(T1)));
}

/// Thread 0 waits, by which the lock has no owner, and is woken by thread 1: it comes into CPU 1's hand and is then sent home. Its wait is over
/// once it runs again.
fn is_woken<C: OwnedThreadLayer<CvLaw<Reads>> + Drop>(
    rt: &impl Abort,
    m: &mut C::Machine,
    polls: usize,
) {
    let mut zero: Seat<C> = seat(rt, m, 0, polls);
    let mut one: Seat<C> = seat(rt, m, 1, polls);
    assert_eq!(rt; section(&mut zero, m, Does::Acquires), Seen::Acquired);
    assert_eq!(rt; section(&mut zero, m, Does::Waits), Seen::Sleeps);
    assert_eq!(rt; waits::<_, C>(m, T0), Some(true));
    assert_eq!(rt; owner::<_, C>(m), Some(None));
    assert_eq!(rt; section(&mut one, m, Does::Acquires), Seen::Acquired);
    assert_eq!(rt; section(&mut one, m, Does::Signals), Seen::GoesOn);
    assert_eq!(rt; one.part.hand(), Some(T0));
    assert_eq!(rt; waits::<_, C>(m, T0), Some(false));
    assert_eq!(rt;
        section(&mut one, m, Does::Signals),
        Seen::Signalled(Some(T0))
    );
    assert_eq!(rt; one.part.hand(), None);
    assert_eq!(rt; section(&mut one, m, Does::Leaves), Seen::Left(None));
    assert!(rt; drains(&mut zero, m));
    assert!(rt; passes(&mut zero, m, Pass::Switch));
    assert_eq!(rt; zero.part.current(), Some(T0));
    assert_eq!(rt; polled(&mut zero, m, Does::Waits), Seen::Waited);
}

/// Thread 0 acquires and reads: the machine tells of the lock, and the part has no block in its hands. Then it begins to leave, and looks again.
fn is_told<L: Locking, Q: OwnedThreadLayer<L> + Drop>(
    rt: &impl Abort,
    m: &mut Q::Machine,
    polls: usize,
) {
    let mut zero: Seat<Q> = seat(rt, m, 0, polls);
    let local = zero.part.own_threads();
    assert!(rt; !local.is_ready(T0) && !local.has_ended(T0));
    assert_eq!(rt; section(&mut zero, m, Does::Acquires), Seen::Acquired);
    assert_eq!(rt; section(&mut zero, m, Does::Reads), Seen::Read(T0));
    assert_eq!(rt; above::<_, Q>(m), Some(T0));
    assert_eq!(rt; Q::pends_in(m, CpuId(1), T0), Some(false));
    assert!(rt; zero.part.block_here(B).is_none());
    assert_eq!(rt; zero.part.pends_here(CpuId(1), T0), None);
    assert!(rt; !zero.part.at_once());
    assert_eq!(rt; polled(&mut zero, m, Does::Leaves), Seen::GoesOn);
    assert!(rt; zero.part.is_busy());
    assert!(rt; zero.part.look(m));
}

#[test]
fn a_lock_is_handed_on_over_ticket_locks(rt: HostRuntime) -> Result<(), Fail> {
    type S = TicketSched<SleepEdit<Calls>>;
    is_handed_on::<_, Locks<S>>(&rt, &mut machine::<S>(rt.alloc())?, TICKET_POLLS);
    is_handed_on::<_, Cond<Locks<S>>>(&rt, &mut machine::<S>(rt.alloc())?, TICKET_POLLS);
    Ok(())
}

#[test]
fn a_lock_is_handed_on_in_one_step(rt: HostRuntime) -> Result<(), Fail> {
    type S = PlainSched<SleepEdit<Calls>>;
    is_handed_on::<_, Locks<S>>(&rt, &mut machine::<S>(rt.alloc())?, 1);
    is_handed_on::<_, Cond<Locks<S>>>(&rt, &mut machine::<S>(rt.alloc())?, 1);
    Ok(())
}

#[test]
fn a_waiter_is_woken_over_ticket_locks(rt: HostRuntime) -> Result<(), Fail> {
    type S = TicketSched<SleepEdit<Calls>>;
    is_woken::<Cond<Locks<S>>>(&rt, &mut machine::<S>(rt.alloc())?, TICKET_POLLS);
    Ok(())
}

#[test]
fn a_waiter_is_woken_in_one_step(rt: HostRuntime) -> Result<(), Fail> {
    type S = PlainSched<SleepEdit<Calls>>;
    is_woken::<Cond<Locks<S>>>(&rt, &mut machine::<S>(rt.alloc())?, 1);
    Ok(())
}

#[test]
fn a_machine_tells_of_its_lock(rt: HostRuntime) -> Result<(), Fail> {
    type S = TicketSched<SleepEdit<Calls>>;
    is_told::<_, Locks<S>>(&rt, &mut machine::<S>(rt.alloc())?, TICKET_POLLS);
    is_told::<_, Cond<Locks<S>>>(&rt, &mut machine::<S>(rt.alloc())?, TICKET_POLLS);
    Ok(())
}

#[test]
fn a_lock_of_plain_data_is_handed_on(rt: HostRuntime) -> Result<(), Fail> {
    type Q = PlainQLock<CvEdit<Reads>>;
    is_handed_on::<_, Q>(&rt, &mut plain_machine(rt.alloc())?, 1);
    is_handed_on::<_, Cond<Q>>(&rt, &mut plain_machine(rt.alloc())?, 1);
    is_woken::<Cond<Q>>(&rt, &mut plain_machine(rt.alloc())?, 1);
    let mut m = plain_machine(rt.alloc())?;
    let mut zero: Seat<Q> = seat(&rt, &mut m, 0, 1);
    assert_eq!(&rt; section(&mut zero, &mut m, Does::Acquires), Seen::Acquired);
    assert_eq!(&rt; section(&mut zero, &mut m, Does::Reads), Seen::Read(T0));
    assert_eq!(&rt; above::<_, Q>(&m), Some(T0));
    assert_eq!(&rt; Q::pends_in(&m, CpuId(1), T0), Some(false));
    assert!(&rt; zero.part.block_here(B).is_none());
    assert_eq!(&rt; zero.part.pends_here(CpuId(1), T0), None);
    assert!(&rt; !zero.part.is_busy() && !zero.part.look(&mut m));
    Ok(())
}
