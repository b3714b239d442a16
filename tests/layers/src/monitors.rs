//! Sections of one monitor: who has an effect, who waits, who is owed a wake-up, and that no newcomer passes a woken thread.

use event_log::{Kind, Msg, Tid};
use fifo_buffer::*;
use layer_traits::{MessageSlot, Side, Sleeps, Wake};
use std::test::*;

/// What a section is told.
#[derive(Clone, Copy, Debug, PartialEq, Eq)]
enum Told {
    /// Its thread waits with the receivers.
    WaitsToReceive,
    /// Its thread waits with the senders.
    WaitsToSend,
    /// Its call had this effect with this word, as the buffer's so many-th and its kind's so many-th. Its thread then owes the first of this side, 'r' or
    /// 's', a wake-up, or nobody ('-').
    Acts(Kind, u64, u64, u64, char),
    /// It woke this thread, and its own thread still owes the first of this side a wake-up.
    Wakes(Option<Tid>, char),
}

/// The side that is owed a wake-up.
fn owed(out: &MonitorReply) -> char {
    match out.owed() {
        None => '-',
        Some(Side::Receivers) => 'r',
        Some(Side::Senders) => 's',
    }
}

/// What this thread is told that asks this of the buffer.
fn asks(buffer: &mut MonitorBlock, thread: u8, ask: MonitorAsk) -> Told {
    let edit = MonitorEdit {
        thread: Tid(thread),
        ask,
    };
    let out = MonitorEdit::apply_request(&edit, None, buffer, &mut MessageSlot::new());
    match out {
        MonitorReply::Refused(Side::Receivers) => Told::WaitsToReceive,
        MonitorReply::Refused(Side::Senders) => Told::WaitsToSend,
        MonitorReply::Acted(effect, _) => {
            Told::Acts(
                effect.kind,
                effect.value.first(),
                effect.op,
                effect.pos,
                owed(&out),
            )
        }
        MonitorReply::Woke(woke, _) => {
            let woken = match woke {
                Wake::Nobody | Wake::FirstSleeper => None,
                Wake::Receiver(t) | Wake::Sender(t) => Some(t),
            };
            Told::Wakes(woken, owed(&out))
        }
    }
}

fn sends(buffer: &mut MonitorBlock, thread: u8, word: u64) -> Told {
    asks(buffer, thread, MonitorAsk::Send(Msg::one(word)))
}

fn receives(buffer: &mut MonitorBlock, thread: u8) -> Told {
    asks(buffer, thread, MonitorAsk::Receive)
}

fn wakes(buffer: &mut MonitorBlock, thread: u8, side: Side) -> Told {
    asks(buffer, thread, MonitorAsk::WakeFirst(side))
}

#[test]
fn each_law_of_monitors_can_be_called(_rt: HostRuntime) {
    monitor_sections_are_lawful();
    monitor_serves_in_order();
    monitor_loses_no_wake_up();
    free_monitors_strand_no_thread();
}

#[test]
fn a_call_that_goes_on_at_once_is_one_section(rt: HostRuntime) {
    let mut buffer = MonitorBlock::new(2);
    assert_eq!(rt;
        sends(&mut buffer, 0, 7),
        Told::Acts(Kind::Send, 7, 0, 0, '-')
    );
    assert_eq!(rt;
        sends(&mut buffer, 1, 8),
        Told::Acts(Kind::Send, 8, 1, 1, '-')
    );
    assert_eq!(rt; buffer.items().len(), 2);
    assert_eq!(rt;
        receives(&mut buffer, 2),
        Told::Acts(Kind::Recv, 7, 2, 0, '-')
    );
    assert_eq!(rt;
        receives(&mut buffer, 2),
        Told::Acts(Kind::Recv, 8, 3, 1, '-')
    );
    assert!(rt; !buffer.is_closed());
}

// Thread 0 was woken and has not called again: thread 2 finds a message, and waits behind it.
#[test]
fn no_newcomer_passes_a_woken_thread(rt: HostRuntime) {
    let mut buffer = MonitorBlock::new(1);
    assert_eq!(rt; receives(&mut buffer, 0), Told::WaitsToReceive);
    assert_eq!(rt;
        sends(&mut buffer, 1, 7),
        Told::Acts(Kind::Send, 7, 0, 0, 'r')
    );
    assert_eq!(rt; receives(&mut buffer, 2), Told::WaitsToReceive);
    assert_eq!(rt;
        wakes(&mut buffer, 1, Side::Receivers),
        Told::Wakes(Some(Tid(0)), '-')
    );
    assert_eq!(rt; receives(&mut buffer, 3), Told::WaitsToReceive);
    assert_eq!(rt;
        receives(&mut buffer, 0),
        Told::Acts(Kind::Recv, 7, 1, 0, '-')
    );
    assert_eq!(rt;
        sends(&mut buffer, 1, 8),
        Told::Acts(Kind::Send, 8, 2, 1, 'r')
    );
    assert_eq!(rt;
        wakes(&mut buffer, 1, Side::Receivers),
        Told::Wakes(Some(Tid(2)), '-')
    );
    assert_eq!(rt;
        receives(&mut buffer, 2),
        Told::Acts(Kind::Recv, 8, 3, 1, '-')
    );
}

// A receiver that leaves room for a sender, and a message for the next receiver, owes both a wake-up: the sender first.
#[test]
fn both_sides_are_owed_a_wake_up(rt: HostRuntime) {
    let mut buffer = MonitorBlock::new(2);
    assert_eq!(rt; receives(&mut buffer, 0), Told::WaitsToReceive);
    assert_eq!(rt; receives(&mut buffer, 1), Told::WaitsToReceive);
    assert_eq!(rt;
        sends(&mut buffer, 2, 7),
        Told::Acts(Kind::Send, 7, 0, 0, 'r')
    );
    assert_eq!(rt;
        wakes(&mut buffer, 2, Side::Receivers),
        Told::Wakes(Some(Tid(0)), '-')
    );
    assert_eq!(rt;
        sends(&mut buffer, 2, 8),
        Told::Acts(Kind::Send, 8, 1, 1, '-')
    );
    assert_eq!(rt; sends(&mut buffer, 3, 9), Told::WaitsToSend);
    assert_eq!(rt;
        receives(&mut buffer, 0),
        Told::Acts(Kind::Recv, 7, 2, 0, 's')
    );
    assert_eq!(rt;
        wakes(&mut buffer, 0, Side::Senders),
        Told::Wakes(Some(Tid(3)), 'r')
    );
    assert_eq!(rt;
        wakes(&mut buffer, 0, Side::Receivers),
        Told::Wakes(Some(Tid(1)), '-')
    );
    assert_eq!(rt;
        wakes(&mut buffer, 0, Side::Receivers),
        Told::Wakes(None, '-')
    );
}

// What was put before the close is taken after it; each thread that finds the buffer closed owes the next a wake-up.
#[test]
fn a_close_lets_all_go_one_after_the_other(rt: HostRuntime) {
    let mut buffer = MonitorBlock::new(1);
    assert_eq!(rt;
        sends(&mut buffer, 0, 7),
        Told::Acts(Kind::Send, 7, 0, 0, '-')
    );
    assert_eq!(rt; sends(&mut buffer, 1, 8), Told::WaitsToSend);
    assert_eq!(rt; sends(&mut buffer, 2, 9), Told::WaitsToSend);
    assert_eq!(rt;
        asks(&mut buffer, 3, MonitorAsk::Close),
        Told::Acts(Kind::Close, 0, 1, 0, 's')
    );
    assert!(rt; buffer.is_closed());
    assert_eq!(rt;
        wakes(&mut buffer, 3, Side::Senders),
        Told::Wakes(Some(Tid(1)), '-')
    );
    assert_eq!(rt;
        sends(&mut buffer, 1, 8),
        Told::Acts(Kind::SendClosed, 8, 2, 1, 's')
    );
    assert_eq!(rt;
        wakes(&mut buffer, 1, Side::Senders),
        Told::Wakes(Some(Tid(2)), '-')
    );
    assert_eq!(rt;
        sends(&mut buffer, 2, 9),
        Told::Acts(Kind::SendClosed, 9, 3, 2, '-')
    );
    assert_eq!(rt;
        receives(&mut buffer, 0),
        Told::Acts(Kind::Recv, 7, 4, 0, '-')
    );
    assert_eq!(rt;
        receives(&mut buffer, 0),
        Told::Acts(Kind::RecvClosed, 0, 5, 1, '-')
    );
}
