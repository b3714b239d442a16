//! Message calls over the whole tower of ticket locks.

use crate::seats::{CAPS, HOMES, Seat, Seen, T0, T1, passes, polls, seat, send};
use event_log::{BufId, CpuId, Msg, NoMemory};
use ipc_calls::{Ipc, TowerEdit, TowerOver, part_over, tower_blocks};
use layer_traits::{Call, CallLayer, Owned, OwnedLocks, Pass, Place, ReplyKind};
use plain_machine::Plain;
use spinlock::Ticket;
use std::process::Abort;
use std::test::*;

/// The locks of the tower, and its top.
type Locks = Ticket<Plain<TowerEdit>>;

type Tower = Ipc<TowerOver<Locks>>;

/// The buffer of the scenes, with room for two messages.
const B: BufId = BufId(1);

/// A machine of two CPUs, and the seat of the first. Its thread runs.
fn opened(rt: &(impl Abort + AllocGlobal)) -> Result<(Plain<TowerEdit>, Seat<Tower>), NoMemory> {
    let mut m = Tower::open(rt.alloc(), 2, &CAPS, &HOMES, 200)?;
    let mut home: Seat<Tower> = seat(0);
    assert!(rt; passes(&mut home, &mut m, Pass::Switch, 1));
    Ok((m, home))
}

#[test]
fn a_part_at_boot_has_a_ready_thread(rt: HostRuntime) -> Result<(), Fail> {
    let m = Locks::open(rt.alloc(), tower_blocks(rt.alloc(), 2, &[1], &HOMES)?, 8)?;
    let part = part_over::<Locks>(&m, CpuId(1), &[1], &HOMES);
    assert!(rt; part.has_ready() && part.current().is_none() && !part.is_busy());
    Ok(())
}

// A part tells of the places of its own threads alone.
#[test]
fn a_part_tells_where_its_thread_stands(rt: HostRuntime) -> Result<(), Fail> {
    let mut m = Tower::open(rt.alloc(), 2, &CAPS, &HOMES, 200)?;
    let mut home: Seat<Tower> = seat(0);
    assert!(rt; matches!(home.part.place_at(&m, T0), Some(Place::Ready(CpuId(0)))));
    assert!(rt; home.part.place_at(&m, T1).is_none());
    assert!(rt; passes(&mut home, &mut m, Pass::Switch, 1));
    assert!(rt; matches!(home.part.place_at(&m, T0), Some(Place::Running(CpuId(0)))));
    Ok(())
}

#[test]
fn a_message_is_sent(rt: HostRuntime) -> Result<(), Fail> {
    let (mut m, mut home) = opened(&rt)?;
    assert_eq!(rt; polls(&mut home, &mut m, &send(B, 7), 18), Seen::Sent);
    let items = Tower::buffer_in(&m, B);
    assert!(rt; items.is_some_and(|items| items.as_slice() == [Msg::one(7)].as_slice()));
    assert_eq!(rt; Tower::busy_in(&m, B), Some(None));
    assert!(rt; home.part.buffer_here(B).is_none());
    assert_eq!(rt; home.part.busy_here(B), None);
    assert!(rt; matches!(home.part.place_at(&m, T0), Some(Place::Running(CpuId(0)))));
    Ok(())
}

// Of two buffers one is closed.
#[test]
fn a_buffer_is_closed(rt: HostRuntime) -> Result<(), Fail> {
    let (mut m, mut home) = opened(&rt)?;
    assert_eq!(rt; Tower::closed_at_home(&m, B), Some(false));
    assert_eq!(rt; polls(&mut home, &mut m, &Call::Close(B), 15), Seen::Shut);
    assert_eq!(rt; Tower::closed_at_home(&m, B), Some(true));
    assert_eq!(rt; Tower::closed_at_home(&m, BufId(0)), Some(false));
    assert_eq!(rt; home.part.closed_in_hands(B), None);
    Ok(())
}

// The first run of polls is three sections, and ends with the effect; the second is three more, and ends with the reply.
#[test]
fn a_message_is_sent_by_two_runs_of_polls(rt: HostRuntime) -> Result<(), Fail> {
    let (mut m, mut home) = opened(&rt)?;
    assert_eq!(rt;
        polls(&mut home, &mut m, &Call::Recv(BufId(2)), 1),
        Seen::NoBuffer
    );
    let first = home.part.poll_on(&mut m, T0, &send(B, 7), 15);
    assert!(rt; first.reply.is_none());
    assert_eq!(rt; (first.actions, home.part.current()), (9, Some(T0)));
    let second = home.part.poll_on(&mut m, T0, &send(B, 7), 15);
    assert_eq!(rt; second.actions, 9);
    assert!(rt; matches!(second.reply, Some(ReplyKind::Sent)));
    Ok(())
}
