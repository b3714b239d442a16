//! Schedulers, run over ticket locks and over each one-step machine in its layer's place.

use crate::openings::{Opens, TICKET_POLLS, TicketSched};
use event_log::{BufId, CPUS, CpuId, LockId, NoMemory, Tid};
use layer_traits::{
    Layer, Moves, OwnedLayer, Pass, Payload, QueueEdit, SchedAnswer, SchedCall, SchedLaw,
    SplitEdit, WaitList,
};
use plain_layers::{PlainLock, PlainQueues, PlainSched};
use plain_machine::{GrantLockWords, GrantPlain};
use scheduler::Sched;
use shared_queue::SharedQueues;
use spinlock::Grant;
use std::alloc::Global;
use std::process::Abort;
use std::test::*;

/// A nap at a buffer: its caller sleeps in the one place there, or wakes who sleeps in it. It answers whether its caller fell asleep, and whom it woke.
#[derive(Clone, Copy)]
pub struct Nap {
    by: Tid,
    wakes: bool,
}

impl Nap {
    pub fn sleep(by: Tid) -> Nap {
        Nap { by, wakes: false }
    }

    pub fn wake(by: Tid) -> Nap {
        Nap { by, wakes: true }
    }
}

impl SplitEdit for Nap {
    type Block = Option<Tid>;

    type Out = (bool, Option<Tid>);

    type Request = Nap;

    type Response = (bool, Option<Tid>);

    ghost protocol = { tt };

    ghost abstract_call = { tt };

    ghost abstract_answer = { tt };

    fn whole(nap: &Nap, _payload: &Payload) -> Nap {
        *nap
    }

    fn apply_request(
        nap: &Nap,
        block: &mut Option<Tid>,
        _payload: &mut Payload,
    ) -> (bool, Option<Tid>) {
        if nap.wakes {
            return (false, block.take());
        }
        if block.is_some() {
            return (false, None);
        }
        *block = Some(nap.by);
        (true, None)
    }
}

impl Moves for Nap {
    ghost moves = { tt };

    fn slept(out: &(bool, Option<Tid>)) -> Option<WaitList> {
        out.0.then_some(WaitList::Sleepers)
    }

    fn woke(out: &(bool, Option<Tid>)) -> Option<Tid> {
        out.1
    }

    ghost wakes_sleepers = { tt };
}

const B: BufId = BufId(0);

const CPU_0: CpuId = CpuId(0);

const CPU_1: CpuId = CpuId(1);

const T0: Tid = Tid(0);

const T1: Tid = Tid(1);

const T2: Tid = Tid(2);

/// The homes of threads 0, 1 and 2.
const HOMES: [CpuId; 3] = [CPU_0, CPU_1, CPU_0];

/// What a poll is seen to do.
#[derive(Clone, Copy, Debug, PartialEq, Eq)]
enum Seen {
    /// The call has not answered.
    GoesOn,
    /// A pass is done.
    Done,
    /// A nap answered: whether its caller fell asleep, and whom it woke.
    Napped(bool, Option<Tid>),
    /// A call answered before its last poll.
    Early,
}

/// One CPU's part, of which a section takes so many polls.
#[derive(Drop)]
struct Seat<S> {
    part: S,
    polls: usize,
}

/// Polls a call once.
fn polled<S: OwnedLayer<SchedLaw<Nap>>>(
    seat: &mut Seat<S>,
    m: &mut S::Machine,
    call: SchedCall<Nap>,
) -> Seen {
    match seat.part.poll(m, call, &mut Payload::new()) {
        None => Seen::GoesOn,
        Some(SchedAnswer::Done) => Seen::Done,
        Some(SchedAnswer::Answer((slept, woke))) => Seen::Napped(slept, woke),
    }
}

/// Polls a call as often as a section takes.
fn section<S: OwnedLayer<SchedLaw<Nap>>>(
    seat: &mut Seat<S>,
    m: &mut S::Machine,
    call: SchedCall<Nap>,
) -> Seen {
    for _ in 1..seat.polls {
        if polled(seat, m, call) != Seen::GoesOn {
            return Seen::Early;
        }
    }
    polled(seat, m, call)
}

const SWITCH: SchedCall<Nap> = SchedCall::Pass(Pass::Switch);

const YIELD: SchedCall<Nap> = SchedCall::Pass(Pass::YieldNow);

const DRAIN: SchedCall<Nap> = SchedCall::Pass(Pass::Drain);

const END: SchedCall<Nap> = SchedCall::Pass(Pass::End);

/// Thread 0, which stands in hand, is pushed to its home.
const PUSH: SchedCall<Nap> = SchedCall::Pass(Pass::MakeReady(T0));

/// Thread 0 goes to sleep.
const SLEEP: SchedCall<Nap> = SchedCall::OnBuffer(
    B,
    Nap {
        by: T0,
        wakes: false,
    },
);

/// Thread 1 wakes who sleeps.
const WAKE: SchedCall<Nap> = SchedCall::OnBuffer(
    B,
    Nap {
        by: T1,
        wakes: true,
    },
);

/// A machine with one buffer, in which nobody sleeps, and the seats of its two CPUs.
fn opened<S: Opens<Nap>>(
    alloc: Global,
    polls: usize,
) -> Result<(S::Machine, Seat<S>, Seat<S>), NoMemory> {
    let m = S::open(alloc, vec![in alloc; None]?, 2, &HOMES, 40)?;
    let home = Seat {
        part: S::part(CPU_0, &HOMES, 1),
        polls,
    };
    let away = Seat {
        part: S::part(CPU_1, &HOMES, 1),
        polls,
    };
    Ok((m, home, away))
}

/// Who runs on the seat's CPU.
fn current<S: OwnedLayer<SchedLaw<Nap>>>(seat: &Seat<S>) -> Option<Tid> {
    seat.part.local_here().current()
}

/// Who stands in its hand.
fn hand<S: OwnedLayer<SchedLaw<Nap>>>(seat: &Seat<S>) -> Option<Tid> {
    seat.part.local_here().hand()
}

fn is_ready<S: OwnedLayer<SchedLaw<Nap>>>(seat: &Seat<S>, t: Tid) -> bool {
    seat.part.local_here().is_ready(t)
}

fn has_ended<S: OwnedLayer<SchedLaw<Nap>>>(seat: &Seat<S>, t: Tid) -> bool {
    seat.part.local_here().has_ended(t)
}

/// Two threads at home on one CPU take turns.
fn threads_take_turns<S: Opens<Nap> + Drop>(
    rt: &(impl Abort + AllocGlobal),
    polls: usize,
) -> Result<(), Fail>
where
    S::Machine: Drop,
{
    let (mut m, mut home, _away) = opened::<S>(rt.alloc(), polls)?;
    assert_eq!(rt; polled(&mut home, &mut m, SWITCH), Seen::Done);
    assert_eq!(rt; current(&home), Some(T0));
    assert_eq!(rt; section(&mut home, &mut m, YIELD), Seen::Done);
    assert_eq!(rt; current(&home), None);
    assert!(rt; is_ready(&home, T2) && is_ready(&home, T0));
    assert_eq!(rt; polled(&mut home, &mut m, SWITCH), Seen::Done);
    assert_eq!(rt; current(&home), Some(T2));
    assert_eq!(rt; polled(&mut home, &mut m, END), Seen::Done);
    assert!(rt; has_ended(&home, T2));
    assert!(rt; !home.part.is_busy());
    Ok(())
}

/// Thread 0 goes to sleep on CPU 0, where thread 2 then ends, and is woken by CPU 1, which pushes it to its home. CPU 0 takes it out of the
/// queue, alone, and runs it again. The machine tells who sleeps and who pends; no part has a block or a queue in its hands.
fn a_woken_thread_goes_home<S: Opens<Nap> + Drop>(
    rt: &(impl Abort + AllocGlobal),
    polls: usize,
) -> Result<(), Fail>
where
    S::Machine: Drop,
{
    let (mut m, mut home, mut away) = opened::<S>(rt.alloc(), polls)?;
    assert_eq!(rt; polled(&mut home, &mut m, SWITCH), Seen::Done);
    assert_eq!(rt; current(&home), Some(T0));
    assert_eq!(rt; section(&mut home, &mut m, SLEEP), Seen::Napped(true, None));
    assert_eq!(rt; current(&home), None);
    assert_eq!(rt; S::block_in(&m, B), Some(&Some(T0)));
    assert_eq!(rt; home.part.block_here(B), None);
    assert_eq!(rt; S::pends_in(&m, CPU_0, T0), Some(false));
    assert_eq!(rt; home.part.pends_here(CPU_0, T0), None);
    assert_eq!(rt; polled(&mut away, &mut m, SWITCH), Seen::Done);
    assert_eq!(rt; current(&away), Some(T1));
    assert_eq!(rt;
        section(&mut away, &mut m, WAKE),
        Seen::Napped(false, Some(T0))
    );
    assert_eq!(rt; hand(&away), Some(T0));
    assert_eq!(rt; section(&mut away, &mut m, PUSH), Seen::Done);
    assert_eq!(rt; hand(&away), None);
    assert_eq!(rt; S::block_in(&m, B), Some(&None));
    assert_eq!(rt; S::pends_in(&m, CPU_0, T0), Some(true));
    assert_eq!(rt; polled(&mut home, &mut m, SWITCH), Seen::Done);
    assert_eq!(rt; current(&home), Some(T2));
    assert_eq!(rt; polled(&mut home, &mut m, END), Seen::Done);
    assert!(rt; has_ended(&home, T2) && !home.part.local_here().has_ready());
    assert_eq!(rt; section(&mut home, &mut m, DRAIN), Seen::Done);
    assert!(rt; is_ready(&home, T0));
    assert_eq!(rt; polled(&mut home, &mut m, SWITCH), Seen::Done);
    assert_eq!(rt; current(&home), Some(T0));
    assert!(rt; !home.part.local_here().has_ready() && !home.part.is_busy());
    Ok(())
}

/// What goes alike over each machine.
fn goes_alike<S: Opens<Nap> + Drop>(
    rt: &(impl Abort + AllocGlobal),
    polls: usize,
) -> Result<(), Fail>
where
    S::Machine: Drop,
{
    threads_take_turns::<S>(rt, polls)?;
    a_woken_thread_goes_home::<S>(rt, polls)
}

#[test]
fn schedulers_run_over_ticket_locks(rt: HostRuntime) -> Result<(), Fail> {
    goes_alike::<TicketSched<Nap>>(&rt, TICKET_POLLS)
}

#[test]
fn one_step_sections_do_a_call_in_one_poll(rt: HostRuntime) -> Result<(), Fail> {
    goes_alike::<Sched<SharedQueues<PlainLock<QueueEdit<Nap>>>>>(&rt, 1)
}

#[test]
fn one_step_queues_do_a_call_in_one_poll(rt: HostRuntime) -> Result<(), Fail> {
    goes_alike::<Sched<PlainQueues<Nap>>>(&rt, 1)
}

#[test]
fn one_step_schedulers_do_a_call_in_one_poll(rt: HostRuntime) -> Result<(), Fail> {
    goes_alike::<PlainSched<Nap>>(&rt, 1)
}

// CPU 1 pushes thread 0, which it has in hand, into the queue of CPU 0, while CPU 0 takes that queue. The push came first, so the queue that is
// taken holds the thread. In one step each is over at once, and they cannot meet.
#[test]
fn a_push_meets_a_drain_of_the_same_queue(rt: HostRuntime) -> Result<(), Fail> {
    let (mut m, mut home, mut away) = opened::<TicketSched<Nap>>(rt.alloc(), TICKET_POLLS)?;
    assert_eq!(rt; polled(&mut home, &mut m, SWITCH), Seen::Done);
    assert_eq!(rt; section(&mut home, &mut m, SLEEP), Seen::Napped(true, None));
    assert_eq!(rt; polled(&mut home, &mut m, SWITCH), Seen::Done);
    assert_eq!(rt; current(&home), Some(T2));
    assert_eq!(rt; polled(&mut home, &mut m, END), Seen::Done);
    assert_eq!(rt; polled(&mut away, &mut m, SWITCH), Seen::Done);
    assert_eq!(rt;
        section(&mut away, &mut m, WAKE),
        Seen::Napped(false, Some(T0))
    );
    assert!(rt; !home.part.is_busy() && !away.part.is_busy());
    assert_eq!(rt; polled(&mut away, &mut m, PUSH), Seen::GoesOn);
    assert_eq!(rt; polled(&mut home, &mut m, DRAIN), Seen::GoesOn);
    assert_eq!(rt; polled(&mut home, &mut m, DRAIN), Seen::GoesOn);
    assert_eq!(rt; polled(&mut away, &mut m, PUSH), Seen::GoesOn);
    assert_eq!(rt; polled(&mut away, &mut m, PUSH), Seen::Done);
    assert_eq!(rt; hand(&away), None);
    assert_eq!(rt; polled(&mut home, &mut m, DRAIN), Seen::GoesOn);
    assert_eq!(rt; polled(&mut home, &mut m, DRAIN), Seen::Done);
    assert!(rt; is_ready(&home, T0) && !home.part.is_busy());
    Ok(())
}

/// Lets both threads of CPU 0 end.
fn all_end<S: OwnedLayer<SchedLaw<Nap>>>(rt: &impl Abort, home: &mut Seat<S>, m: &mut S::Machine) {
    for t in [T0, T2] {
        assert_eq!(rt; polled(home, m, SWITCH), Seen::Done);
        assert_eq!(rt; current(home), Some(t));
        assert_eq!(rt; polled(home, m, END), Seen::Done);
        assert!(rt; has_ended(home, t));
    }
}

// A look takes the place of the second poll, after which the queue is in the part's hands.
#[test]
fn a_look_takes_the_place_of_a_poll(rt: HostRuntime) -> Result<(), Fail> {
    let (mut m, mut home, _away) = opened::<TicketSched<Nap>>(rt.alloc(), TICKET_POLLS)?;
    all_end(&rt, &mut home, &mut m);
    assert!(rt; !home.part.is_busy());
    assert_eq!(rt; polled(&mut home, &mut m, DRAIN), Seen::GoesOn);
    assert!(rt; home.part.is_busy());
    assert_eq!(rt; home.part.pends_here(CPU_0, T0), None);
    assert!(rt; home.part.look(&mut m));
    assert_eq!(rt; home.part.pends_here(CPU_0, T0), Some(false));
    assert_eq!(rt; polled(&mut home, &mut m, DRAIN), Seen::Done);
    assert!(rt; !home.part.is_busy());
    assert!(rt; !home.part.look(&mut m));
    Ok(())
}

// The words of CPU 0's pending lock, which has a grant word for each waiter, behind two takings of its empty queue.
#[test]
fn two_drains_grant_the_third_place(rt: HostRuntime) -> Result<(), Fail> {
    type GrantSched = Sched<SharedQueues<Grant<GrantPlain<QueueEdit<Nap>>>>>;
    let (mut m, mut home, _away) = opened::<GrantSched>(rt.alloc(), TICKET_POLLS)?;
    all_end(&rt, &mut home, &mut m);
    for _ in 0..2 {
        assert_eq!(rt; section(&mut home, &mut m, DRAIN), Seen::Done);
        assert!(rt; !home.part.local_here().has_ready());
    }
    let mut words = [0; CPUS];
    words[0] = 1;
    words[1] = 2;
    words[2] = 3;
    assert_eq!(rt;
        m.words(LockId::Pending(CPU_0)),
        GrantLockWords { next: 2, words }
    );
    Ok(())
}
