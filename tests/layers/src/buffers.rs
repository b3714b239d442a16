//! Message calls over the tower's layer of buffers on ticket locks: what each takes, poll by poll.

use crate::seats::{CAPS, HOMES, Seat, Seen, T0, effect, passes, polls, seat, send};
use event_log::{BufId, CpuId, Kind, Msg, NoMemory, Tid};
use ipc_calls::{OpensBuffers, TowerEdit, TowerOver};
use layer_traits::{BufferView, Call, CallLayer, OwnedBuffers, Pass, WaitList};
use plain_machine::Plain;
use spinlock::Ticket;
use std::alloc::Global;
use std::process::Abort;
use std::test::*;

/// The tower's layer of buffers.
type Buffers = TowerOver<Ticket<Plain<TowerEdit>>>;

/// The buffer of the scenes, with room for one message.
const B: BufId = BufId(0);

/// A machine of two CPUs, and their seats. The thread of each runs.
fn opened(
    rt: &(impl Abort + AllocGlobal),
) -> Result<(Plain<TowerEdit>, Seat<Buffers>, Seat<Buffers>), NoMemory> {
    let mut m = Buffers::open(rt.alloc(), 2, &CAPS, &HOMES, 200)?;
    let mut home: Seat<Buffers> = seat(0);
    let mut away: Seat<Buffers> = seat(1);
    assert!(rt; passes(&mut home, &mut m, Pass::Switch, 1));
    assert!(rt; passes(&mut away, &mut m, Pass::Switch, 1));
    Ok((m, home, away))
}

/// The messages of a buffer, of which there is at most one.
fn message(view: Option<BufferView<'_>>) -> Option<Option<Msg>> {
    Some(view?.items.items().first().copied())
}

/// The owner that a view tells, whether the buffer is closed, and whether thread 0 does not wait.
fn told(view: Option<BufferView<'_>>) -> Option<(Option<Tid>, bool, bool)> {
    let view = view?;
    Some((view.owner, view.closed, view.wait_list(T0).is_none()))
}

/// What the machine tells that the buffer holds.
fn holds(m: &Plain<TowerEdit>) -> Option<Option<Msg>> {
    message(Buffers::buffer_in(m, B))
}

/// Whether the machine tells that the buffer is closed.
fn closed(m: &Plain<TowerEdit>) -> Option<bool> {
    Some(Buffers::buffer_in(m, B)?.closed)
}

/// The owner that the machine tells.
fn owner(m: &Plain<TowerEdit>) -> Option<Option<Tid>> {
    Some(Buffers::buffer_in(m, B)?.owner)
}

/// The waiting list that has thread 0, as the machine tells it.
fn wait_list(m: &Plain<TowerEdit>) -> Option<WaitList> {
    Buffers::buffer_in(m, B)?.wait_list(T0)
}

/// Thread 0 becomes ready at home, and runs.
fn runs_again(rt: &impl Abort, home: &mut Seat<Buffers>, m: &mut Plain<TowerEdit>) {
    assert!(rt; passes(home, m, Pass::Drain, 3));
    assert!(rt; passes(home, m, Pass::Switch, 1));
}

// A send takes 18 polls and a receive 18, with the effect in the ninth.
#[test]
fn a_thread_alone_sends_and_receives(rt: HostRuntime) -> Result<(), Fail> {
    let (mut m, mut home, _away) = opened(&rt)?;
    let seven = Msg::one(7);
    assert_eq!(rt; polls(&mut home, &mut m, &send(B, 7), 8), Seen::GoesOn);
    assert_eq!(rt; effect(&home), None);
    assert_eq!(rt; polls(&mut home, &mut m, &send(B, 7), 1), Seen::GoesOn);
    assert_eq!(rt; effect(&home), Some((Kind::Send, seven, 0, 0)));
    assert_eq!(rt; polls(&mut home, &mut m, &send(B, 7), 9), Seen::Sent);
    assert_eq!(rt; holds(&m), Some(Some(seven)));
    assert_eq!(rt;
        polls(&mut home, &mut m, &Call::Recv(B), 18),
        Seen::Got(seven)
    );
    assert_eq!(rt; holds(&m), Some(None));
    Ok(())
}

// A close takes 15 polls, with the effect in the sixth. A further send puts nothing; a receive drains what was put, and the next one answers that
// the buffer is closed: each in 18.
#[test]
fn a_thread_alone_closes(rt: HostRuntime) -> Result<(), Fail> {
    let (mut m, mut home, _away) = opened(&rt)?;
    let seven = Msg::one(7);
    assert_eq!(rt; polls(&mut home, &mut m, &send(B, 7), 18), Seen::Sent);
    assert_eq!(rt; closed(&m), Some(false));
    assert_eq!(rt; polls(&mut home, &mut m, &Call::Close(B), 5), Seen::GoesOn);
    assert_eq!(rt; effect(&home), None);
    assert_eq!(rt; polls(&mut home, &mut m, &Call::Close(B), 1), Seen::GoesOn);
    assert_eq!(rt; effect(&home), Some((Kind::Close, Msg::one(0), 1, 0)));
    assert_eq!(rt; polls(&mut home, &mut m, &Call::Close(B), 9), Seen::Shut);
    assert_eq!(rt; closed(&m), Some(true));
    assert_eq!(rt; polls(&mut home, &mut m, &send(B, 8), 18), Seen::Closed);
    assert_eq!(rt; holds(&m), Some(Some(seven)));
    assert_eq!(rt;
        polls(&mut home, &mut m, &Call::Recv(B), 18),
        Seen::Got(seven)
    );
    assert_eq!(rt; holds(&m), Some(None));
    assert_eq!(rt; polls(&mut home, &mut m, &Call::Recv(B), 18), Seen::Closed);
    Ok(())
}

// A receiver finds nothing and waits after 12 polls; a sender of the other CPU wakes it, and its message of two words comes out whole.
#[test]
fn a_receiver_waits_for_a_message(rt: HostRuntime) -> Result<(), Fail> {
    let (mut m, mut home, mut away) = opened(&rt)?;
    let words = Msg::new(&[5, 6]);
    assert_eq!(rt; polls(&mut home, &mut m, &Call::Recv(B), 12), Seen::Waits);
    assert!(rt; matches!(wait_list(&m), Some(WaitList::Receivers)));
    assert_eq!(rt; holds(&m), Some(None));
    assert_eq!(rt;
        polls(&mut away, &mut m, &Call::Send(B, words), 21),
        Seen::Sent
    );
    runs_again(&rt, &mut home, &mut m);
    assert_eq!(rt;
        polls(&mut home, &mut m, &Call::Recv(B), 15),
        Seen::Got(words)
    );
    assert_eq!(rt; holds(&m), Some(None));
    Ok(())
}

// A sender finds no room and waits after 12 polls; a receiver of the other CPU wakes it.
#[test]
fn a_sender_waits_for_room(rt: HostRuntime) -> Result<(), Fail> {
    let (mut m, mut home, mut away) = opened(&rt)?;
    let (first, second) = (Msg::one(1), Msg::one(2));
    assert_eq!(rt; polls(&mut home, &mut m, &send(B, 1), 18), Seen::Sent);
    assert_eq!(rt; polls(&mut home, &mut m, &send(B, 2), 12), Seen::Waits);
    assert_eq!(rt; holds(&m), Some(Some(first)));
    assert!(rt; matches!(wait_list(&m), Some(WaitList::Senders)));
    assert_eq!(rt;
        polls(&mut away, &mut m, &Call::Recv(B), 21),
        Seen::Got(first)
    );
    runs_again(&rt, &mut home, &mut m);
    assert_eq!(rt; polls(&mut home, &mut m, &send(B, 2), 15), Seen::Sent);
    assert_eq!(rt; holds(&m), Some(Some(second)));
    Ok(())
}

// The other CPU closes the buffer in 18 polls, which wakes the receiver.
#[test]
fn a_receiver_learns_of_a_close(rt: HostRuntime) -> Result<(), Fail> {
    let (mut m, mut home, mut away) = opened(&rt)?;
    assert_eq!(rt; polls(&mut home, &mut m, &Call::Recv(B), 12), Seen::Waits);
    assert_eq!(rt; closed(&m), Some(false));
    assert_eq!(rt; polls(&mut away, &mut m, &Call::Close(B), 18), Seen::Shut);
    runs_again(&rt, &mut home, &mut m);
    assert_eq!(rt; polls(&mut home, &mut m, &Call::Recv(B), 15), Seen::Closed);
    assert_eq!(rt; closed(&m), Some(true));
    Ok(())
}

// While a section of a part holds the buffer's block the part tells of it and the machine does not; afterwards the machine does.
#[test]
fn a_block_in_hand_is_told_by_its_part(rt: HostRuntime) -> Result<(), Fail> {
    let (mut m, mut home, _away) = opened(&rt)?;
    assert_eq!(rt; polls(&mut home, &mut m, &Call::Recv(B), 1), Seen::GoesOn);
    assert!(rt; home.part.is_busy());
    assert!(rt; home.part.look(&mut m));
    assert_eq!(rt; holds(&m), None);
    assert_eq!(rt; (owner(&m), closed(&m)), (None, None));
    assert_eq!(rt; message(home.part.buffer_here(B)), Some(None));
    assert_eq!(rt; told(home.part.buffer_here(B)), Some((None, false, true)));
    assert_eq!(rt; home.part.pends_here(CpuId(1), T0), None);
    assert_eq!(rt; polls(&mut home, &mut m, &Call::Recv(B), 1), Seen::GoesOn);
    assert_eq!(rt; owner(&m), Some(Some(T0)));
    assert_eq!(rt; Buffers::pends_in(&m, CpuId(1), T0), Some(false));
    assert!(rt; !home.part.own_threads().is_ready(T0));
    Ok(())
}

#[test]
fn a_thread_that_ends_has_ended(rt: HostRuntime) -> Result<(), Fail> {
    let mut m = Buffers::open(rt.alloc(), 2, &CAPS, &HOMES, 200)?;
    let mut home: Seat<Buffers> = seat(0);
    let local = home.part.own_threads();
    assert!(rt; local.is_ready(T0) && !local.has_ended(T0));
    assert!(rt; passes(&mut home, &mut m, Pass::Switch, 1));
    assert!(rt; passes(&mut home, &mut m, Pass::End, 1));
    assert!(rt; home.part.own_threads().has_ended(T0));
    Ok(())
}
