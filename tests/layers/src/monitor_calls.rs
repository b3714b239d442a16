//! Message calls over monitors on ticket locks: what each takes, poll by poll.

use crate::seats::{CAPS, HOMES, Seat, Seen, effect, passes, polls, seat, send};
use event_log::{BufId, CpuId, Kind, Msg, NoMemory, Tid};
use ipc_calls::{MonitorOver, MonitorTowerEdit, OpensBuffers, monitor_blocks, monitor_part_over};
use layer_traits::{Call, CallLayer, OwnedBuffers, OwnedLocks, Pass, WaitList};
use plain_machine::Plain;
use spinlock::Ticket;
use std::process::Abort;
use std::test::*;

/// What a lock guards, edit by edit.
type Machine = Plain<MonitorTowerEdit>;

/// The locks of the tower, and its layer of buffers.
type Locks = Ticket<Machine>;

type Buffers = MonitorOver<Locks>;

/// The buffer of the scenes, with room for one message.
const B: BufId = BufId(0);

/// A machine of two CPUs, and their seats. The thread of each runs.
fn opened(
    rt: &(impl Abort + AllocGlobal),
) -> Result<(Machine, Seat<Buffers>, Seat<Buffers>), NoMemory> {
    let mut m = Buffers::open(rt.alloc(), 2, &CAPS, &HOMES, 200)?;
    let mut home: Seat<Buffers> = seat(0);
    let mut away: Seat<Buffers> = seat(1);
    assert!(rt; passes(&mut home, &mut m, Pass::Switch, 1));
    assert!(rt; passes(&mut away, &mut m, Pass::Switch, 1));
    Ok((m, home, away))
}

#[test]
fn a_part_at_boot_has_a_ready_thread(rt: HostRuntime) -> Result<(), Fail> {
    let m = Locks::open(rt.alloc(), monitor_blocks(rt.alloc(), 2, &[1], &HOMES)?, 8)?;
    let part = monitor_part_over::<Locks>(&m, CpuId(1), &[1], &HOMES);
    assert!(rt; part.has_ready() && part.current().is_none() && !part.is_busy());
    Ok(())
}

/// Whether the machine tells that the buffer is closed.
fn closed(m: &Machine) -> Option<bool> {
    Some(Buffers::buffer_in(m, B)?.closed)
}

/// The owner that the machine tells.
fn owner(m: &Machine) -> Option<Option<Tid>> {
    Some(Buffers::buffer_in(m, B)?.owner)
}

/// The waiting list that has `t`, as the machine tells it.
fn wait_list(m: &Machine, t: Tid) -> Option<WaitList> {
    Buffers::buffer_in(m, B)?.wait_list(t)
}

// A send and a receive that go on at once take three polls each: one section.
#[test]
fn a_thread_alone_sends_and_receives_in_one_section(rt: HostRuntime) -> Result<(), Fail> {
    let (mut m, mut home, _away) = opened(&rt)?;
    let seven = Msg::one(7);
    assert_eq!(rt; polls(&mut home, &mut m, &send(B, 7), 2), Seen::GoesOn);
    assert_eq!(rt; effect(&home), None);
    assert_eq!(rt; polls(&mut home, &mut m, &send(B, 7), 1), Seen::Sent);
    assert_eq!(rt; effect(&home), Some((Kind::Send, seven, 0, 0)));
    assert_eq!(rt;
        polls(&mut home, &mut m, &Call::Recv(B), 3),
        Seen::Got(seven)
    );
    assert_eq!(rt; polls(&mut home, &mut m, &Call::Close(B), 3), Seen::Shut);
    assert_eq!(rt; closed(&m), Some(true));
    assert_eq!(rt; polls(&mut home, &mut m, &send(B, 8), 3), Seen::Closed);
    assert_eq!(rt; polls(&mut home, &mut m, &Call::Recv(B), 3), Seen::Closed);
    Ok(())
}

// The receiver on the other CPU sleeps in its first section. The send has its effect in its first section, wakes the receiver in a second, and forwards
// it to its home in a third. Meanwhile its thread owes the wake-up.
#[test]
fn a_send_wakes_the_receiver_of_another_cpu(rt: HostRuntime) -> Result<(), Fail> {
    let (mut m, mut home, mut away) = opened(&rt)?;
    let seven = Msg::one(7);
    assert_eq!(rt; polls(&mut away, &mut m, &Call::Recv(B), 3), Seen::Waits);
    let list = wait_list(&m, Tid(1));
    assert!(rt; matches!(list, Some(WaitList::Receivers)));
    assert_eq!(rt; owner(&m), Some(None));
    assert_eq!(rt; polls(&mut home, &mut m, &send(B, 7), 3), Seen::GoesOn);
    assert_eq!(rt; effect(&home), Some((Kind::Send, seven, 0, 0)));
    assert_eq!(rt; owner(&m), Some(Some(Tid(0))));
    assert_eq!(rt; polls(&mut home, &mut m, &send(B, 7), 3), Seen::GoesOn);
    assert_eq!(rt; home.part.hand(), Some(Tid(1)));
    assert_eq!(rt; owner(&m), Some(None));
    assert_eq!(rt; polls(&mut home, &mut m, &send(B, 7), 3), Seen::Sent);
    assert_eq!(rt; polls(&mut home, &mut m, &Call::Recv(B), 3), Seen::Waits);
    assert!(rt; passes(&mut away, &mut m, Pass::Drain, 3));
    assert!(rt; passes(&mut away, &mut m, Pass::Switch, 1));
    assert_eq!(rt;
        polls(&mut away, &mut m, &Call::Recv(B), 3),
        Seen::Got(seven)
    );
    assert_eq!(rt; effect(&away), Some((Kind::Recv, seven, 1, 0)));
    Ok(())
}
