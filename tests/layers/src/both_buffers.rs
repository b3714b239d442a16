//! The same scenes over both bodies of the layer of buffers. How many polls a call takes differs; what it returns, who waits and what is left do not.

use crate::seats::{CAPS, HOMES, Seat, Seen, T0, effect, passes, polls, seat, send};
use event_log::{BufId, Kind, Msg, NoMemory};
use ipc_calls::{MonitorOver, MonitorTowerEdit, OpensBuffers, TowerEdit, TowerOver};
use layer_traits::{BufferLaw, Call, OwnedBuffers, Pass, WaitList};
use plain_machine::Plain;
use spinlock::Ticket;
use std::process::Abort;
use std::test::*;

/// Buffers over queuing locks and conditions.
type Fifos = TowerOver<Ticket<Plain<TowerEdit>>>;

/// Buffers over monitors.
type Monitors = MonitorOver<Ticket<Plain<MonitorTowerEdit>>>;

/// The buffer of the scenes, with room for one message.
const B: BufId = BufId(0);

/// More polls than a call takes that returns, or whose thread waits.
const MOST: usize = 40;

/// A machine of two CPUs, and their seats. The thread of each runs.
fn opened<C: OpensBuffers + Drop>(
    rt: &(impl Abort + AllocGlobal),
) -> Result<(C::Machine, Seat<C>, Seat<C>), NoMemory>
where
    C::Machine: Drop,
{
    let mut m = C::open(rt.alloc(), 2, &CAPS, &HOMES, 200)?;
    let mut home: Seat<C> = seat(0);
    let mut away: Seat<C> = seat(1);
    assert!(rt; passes(&mut home, &mut m, Pass::Switch, 1));
    assert!(rt; passes(&mut away, &mut m, Pass::Switch, 1));
    Ok((m, home, away))
}

/// Polls a call of the seat's thread until it returns or its thread waits.
fn ends<C: OpensBuffers>(seat: &mut Seat<C>, m: &mut C::Machine, call: &Call) -> Seen {
    for _ in 0..MOST {
        let seen = polls::<BufferLaw, C>(seat, m, call, 1);
        if seen != Seen::GoesOn {
            return seen;
        }
    }
    Seen::GoesOn
}

/// Thread 0 becomes ready on its home CPU, and runs.
fn runs_again<C: OpensBuffers>(rt: &impl Abort, home: &mut Seat<C>, m: &mut C::Machine) {
    assert!(rt; passes(home, m, Pass::Drain, 3));
    assert!(rt; passes(home, m, Pass::Switch, 1));
}

/// The one message of the buffer, if there is one.
fn held<C: OpensBuffers>(m: &C::Machine) -> Option<Msg> {
    C::buffer_in(m, B)?.items.items().first().copied()
}

/// Whether the machine reports that the buffer is closed.
fn closed<C: OpensBuffers>(m: &C::Machine) -> Option<bool> {
    Some(C::buffer_in(m, B)?.closed)
}

/// The wait list that has thread 0, as the machine reports it.
fn wait_list<C: OpensBuffers>(m: &C::Machine) -> Option<WaitList> {
    C::buffer_in(m, B)?.wait_list(T0)
}

/// A receiver finds nothing and waits. A sender of the other CPU wakes it, and its message of two words comes out whole.
fn a_receiver_waits<C: OpensBuffers + Drop>(rt: &(impl Abort + AllocGlobal)) -> Result<(), Fail>
where
    C::Machine: Drop,
{
    let (mut m, mut home, mut away) = opened::<C>(rt)?;
    let words = Msg::new(&[5, 6]);
    assert_eq!(rt; ends(&mut home, &mut m, &Call::Recv(B)), Seen::Waits);
    assert!(rt; matches!(wait_list::<C>(&m), Some(WaitList::Receivers)));
    assert_eq!(rt; ends(&mut away, &mut m, &Call::Send(B, words)), Seen::Sent);
    assert_eq!(rt; held::<C>(&m), Some(words));
    runs_again(rt, &mut home, &mut m);
    assert_eq!(rt; ends(&mut home, &mut m, &Call::Recv(B)), Seen::Got(words));
    assert_eq!(rt; effect(&home), Some((Kind::Recv, words, 1, 0)));
    assert_eq!(rt; held::<C>(&m), None);
    Ok(())
}

/// A sender finds no room and waits. A receiver of the other CPU wakes it.
fn a_sender_waits<C: OpensBuffers + Drop>(rt: &(impl Abort + AllocGlobal)) -> Result<(), Fail>
where
    C::Machine: Drop,
{
    let (mut m, mut home, mut away) = opened::<C>(rt)?;
    let (first, second) = (Msg::one(1), Msg::one(2));
    assert_eq!(rt; ends(&mut home, &mut m, &send(B, 1)), Seen::Sent);
    assert_eq!(rt; ends(&mut home, &mut m, &send(B, 2)), Seen::Waits);
    assert!(rt; matches!(wait_list::<C>(&m), Some(WaitList::Senders)));
    assert_eq!(rt; ends(&mut away, &mut m, &Call::Recv(B)), Seen::Got(first));
    runs_again(rt, &mut home, &mut m);
    assert_eq!(rt; ends(&mut home, &mut m, &send(B, 2)), Seen::Sent);
    assert_eq!(rt; held::<C>(&m), Some(second));
    Ok(())
}

/// A receiver waits, and the other CPU closes the buffer, which wakes it. No call is allowed to put a message afterwards.
fn a_close_wakes_a_receiver<C: OpensBuffers + Drop>(
    rt: &(impl Abort + AllocGlobal),
) -> Result<(), Fail>
where
    C::Machine: Drop,
{
    let (mut m, mut home, mut away) = opened::<C>(rt)?;
    assert_eq!(rt; ends(&mut home, &mut m, &Call::Recv(B)), Seen::Waits);
    assert_eq!(rt; closed::<C>(&m), Some(false));
    assert_eq!(rt; ends(&mut away, &mut m, &Call::Close(B)), Seen::Shut);
    assert_eq!(rt; closed::<C>(&m), Some(true));
    runs_again(rt, &mut home, &mut m);
    assert_eq!(rt; ends(&mut home, &mut m, &Call::Recv(B)), Seen::Closed);
    assert_eq!(rt; ends(&mut away, &mut m, &send(B, 7)), Seen::Closed);
    assert_eq!(rt; held::<C>(&m), None);
    Ok(())
}

/// While a section of a part holds the buffer's block the part tells of it and the machine does not; afterwards the machine does.
fn a_block_is_in_hand<C: OpensBuffers + Drop>(rt: &(impl Abort + AllocGlobal)) -> Result<(), Fail>
where
    C::Machine: Drop,
{
    let (mut m, mut home, _away) = opened::<C>(rt)?;
    assert_eq!(rt;
        polls::<BufferLaw, C>(&mut home, &mut m, &send(B, 7), 1),
        Seen::GoesOn
    );
    assert!(rt; home.part.is_busy() && C::buffer_in(&m, B).is_some());
    assert!(rt;
        home.part.look(&mut m)
            || polls::<BufferLaw, C>(&mut home, &mut m, &send(B, 7), 1) == Seen::GoesOn
    );
    assert!(rt; C::buffer_in(&m, B).is_none());
    assert!(rt;
        home.part.buffer_here(B).is_some_and(|it| {
            it.items.items().is_empty()
                && it.owner.is_none()
                && !it.closed
                && it.wait_list(T0).is_none()
        })
    );
    assert_eq!(rt; ends(&mut home, &mut m, &send(B, 7)), Seen::Sent);
    assert_eq!(rt; held::<C>(&m), Some(Msg::one(7)));
    assert!(rt; C::buffer_in(&m, B).is_some_and(|it| it.owner.is_none()));
    Ok(())
}

#[test]
fn a_receiver_waits_over_both(rt: HostRuntime) -> Result<(), Fail> {
    a_receiver_waits::<Fifos>(&rt)?;
    a_receiver_waits::<Monitors>(&rt)
}

#[test]
fn a_sender_waits_over_both(rt: HostRuntime) -> Result<(), Fail> {
    a_sender_waits::<Fifos>(&rt)?;
    a_sender_waits::<Monitors>(&rt)
}

#[test]
fn a_close_wakes_a_receiver_over_both(rt: HostRuntime) -> Result<(), Fail> {
    a_close_wakes_a_receiver::<Fifos>(&rt)?;
    a_close_wakes_a_receiver::<Monitors>(&rt)
}

#[test]
fn a_block_is_in_hand_over_both(rt: HostRuntime) -> Result<(), Fail> {
    a_block_is_in_hand::<Fifos>(&rt)?;
    a_block_is_in_hand::<Monitors>(&rt)
}
