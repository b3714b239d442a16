//! Attempts on one buffer with room for one message: who waits at it, and how a close lets them go one after the other.

use event_log::{Kind, Msg, Tid};
use layer_traits::{MessageSlot, Side, Sleeps, Wake};
use plain_layers::{Ask, Attempt, PlainBuffer, Tried};
use std::test::*;

/// What an attempt is told.
#[derive(Clone, Copy, Debug, PartialEq, Eq)]
enum Told {
    /// Its thread waits with the receivers.
    WaitsToReceive,
    /// Its thread waits with the senders.
    WaitsToSend,
    /// It had this effect with this message, as the buffer's so many-th and its kind's so many-th, and woke this thread.
    Acts(Kind, Msg, u64, u64, Option<Tid>),
}

/// The thread that was woken. An attempt wakes no thread that sleeps for a lock.
fn woken(woke: Wake) -> Option<Tid> {
    match woke {
        Wake::Nobody | Wake::FirstSleeper => None,
        Wake::Receiver(thread) | Wake::Sender(thread) => Some(thread),
    }
}

/// What this thread is told that asks this of the buffer.
fn tries(buffer: &mut PlainBuffer, thread: u8, ask: Ask) -> Told {
    let attempt = Attempt {
        thread: Tid(thread),
        ask,
    };
    match Attempt::apply_request(&attempt, None, buffer, &mut MessageSlot::new()) {
        Tried::Refused(Side::Receivers) => Told::WaitsToReceive,
        Tried::Refused(Side::Senders) => Told::WaitsToSend,
        Tried::Acted(effect, woke) => {
            Told::Acts(
                effect.kind,
                effect.value,
                effect.op,
                effect.pos,
                woken(woke),
            )
        }
    }
}

fn sends(buffer: &mut PlainBuffer, thread: u8, word: u64) -> Told {
    tries(buffer, thread, Ask::Send(Msg::one(word)))
}

fn receives(buffer: &mut PlainBuffer, thread: u8) -> Told {
    tries(buffer, thread, Ask::Receive)
}

fn closes(buffer: &mut PlainBuffer, thread: u8) -> Told {
    tries(buffer, thread, Ask::Close)
}

/// An effect with a message of one word.
fn acts(kind: Kind, word: u64, op: u64, pos: u64, woke: Option<u8>) -> Told {
    Told::Acts(kind, Msg::one(word), op, pos, woke.map(Tid))
}

/// The message in the buffer, and whether it is closed.
fn state(buffer: &PlainBuffer) -> (Option<Msg>, bool) {
    (buffer.items().items().first().copied(), buffer.is_closed())
}

#[test]
fn a_close_wakes_the_first_receiver_who_wakes_the_next(rt: HostRuntime) {
    let mut buffer = PlainBuffer::new(1);
    for thread in 0..3 {
        assert_eq!(rt; receives(&mut buffer, thread), Told::WaitsToReceive);
    }
    assert_eq!(rt; state(&buffer), (None, false));
    assert_eq!(rt; closes(&mut buffer, 3), acts(Kind::Close, 0, 0, 0, Some(0)));
    assert_eq!(rt;
        receives(&mut buffer, 0),
        acts(Kind::RecvClosed, 0, 1, 0, Some(1))
    );
    assert_eq!(rt;
        receives(&mut buffer, 1),
        acts(Kind::RecvClosed, 0, 2, 1, Some(2))
    );
    assert_eq!(rt;
        receives(&mut buffer, 2),
        acts(Kind::RecvClosed, 0, 3, 2, None)
    );
    assert_eq!(rt; state(&buffer), (None, true));
}

// What was put before the close is taken after it, and only then a receiver is told that the buffer is closed.
#[test]
fn a_close_lets_senders_go_who_put_nothing(rt: HostRuntime) {
    let mut buffer = PlainBuffer::new(1);
    let seven = Some(Msg::one(7));
    assert_eq!(rt; sends(&mut buffer, 0, 7), acts(Kind::Send, 7, 0, 0, None));
    assert_eq!(rt; sends(&mut buffer, 1, 8), Told::WaitsToSend);
    assert_eq!(rt; sends(&mut buffer, 2, 9), Told::WaitsToSend);
    assert_eq!(rt; state(&buffer), (seven, false));
    assert_eq!(rt; closes(&mut buffer, 3), acts(Kind::Close, 0, 1, 0, Some(1)));
    assert_eq!(rt;
        sends(&mut buffer, 1, 8),
        acts(Kind::SendClosed, 8, 2, 1, Some(2))
    );
    assert_eq!(rt;
        sends(&mut buffer, 2, 9),
        acts(Kind::SendClosed, 9, 3, 2, None)
    );
    assert_eq!(rt; state(&buffer), (seven, true));
    assert_eq!(rt; receives(&mut buffer, 0), acts(Kind::Recv, 7, 4, 0, None));
    assert_eq!(rt; state(&buffer), (None, true));
    assert_eq!(rt;
        receives(&mut buffer, 0),
        acts(Kind::RecvClosed, 0, 5, 1, None)
    );
    assert_eq!(rt; closes(&mut buffer, 0), acts(Kind::Close, 0, 6, 1, None));
}

// One receiver and one sender wait, and another receiver was woken and has not called again.
#[test]
fn a_close_wakes_a_receiver_who_takes_and_wakes_the_sender(rt: HostRuntime) {
    let mut buffer = PlainBuffer::new(1);
    assert_eq!(rt; receives(&mut buffer, 0), Told::WaitsToReceive);
    assert_eq!(rt; receives(&mut buffer, 1), Told::WaitsToReceive);
    assert_eq!(rt;
        sends(&mut buffer, 2, 7),
        acts(Kind::Send, 7, 0, 0, Some(0))
    );
    assert_eq!(rt; sends(&mut buffer, 3, 8), Told::WaitsToSend);
    assert_eq!(rt; closes(&mut buffer, 2), acts(Kind::Close, 0, 1, 0, Some(1)));
    assert_eq!(rt; state(&buffer), (Some(Msg::one(7)), true));
    assert_eq!(rt;
        receives(&mut buffer, 1),
        acts(Kind::Recv, 7, 2, 0, Some(3))
    );
    assert_eq!(rt;
        sends(&mut buffer, 3, 8),
        acts(Kind::SendClosed, 8, 3, 1, None)
    );
    assert_eq!(rt;
        receives(&mut buffer, 0),
        acts(Kind::RecvClosed, 0, 4, 1, None)
    );
    assert_eq!(rt; state(&buffer), (None, true));
}

#[test]
fn a_message_of_two_words_comes_out_whole(rt: HostRuntime) {
    let mut buffer = PlainBuffer::new(1);
    let words = Msg::new(&[7, 8]);
    let sent = tries(&mut buffer, 0, Ask::Send(words));
    assert_eq!(rt; sent, Told::Acts(Kind::Send, words, 0, 0, None));
    assert_eq!(rt; state(&buffer), (Some(words), false));
    assert_eq!(rt;
        receives(&mut buffer, 1),
        Told::Acts(Kind::Recv, words, 1, 0, None)
    );
}
