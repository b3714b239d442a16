//! A CPU's part of message calls under a scene, poll by poll. Its own thread has the CPU's number, and there are two CPUs.

use event_log::{BufId, CpuId, Kind, Msg, Tid};
use layer_traits::{Call, CallLaw, CallLayer, Pass, Reply};

pub const T0: Tid = Tid(0);

pub const T1: Tid = Tid(1);

/// Each CPU is the home of the thread of its number.
pub const HOMES: [CpuId; 2] = [CpuId(0), CpuId(1)];

/// The capacities of the two buffers.
pub const CAPS: [u8; 2] = [1, 2];

/// What a poll is seen to do.
#[derive(Clone, Copy, Debug, PartialEq, Eq)]
pub enum Seen {
    /// The call has not answered, and its caller runs.
    GoesOn,
    /// The call has not answered, and its caller waits.
    Waits,
    Sent,
    Got(Msg),
    Shut,
    Closed,
    NoBuffer,
    /// The call answered, or its caller waits, before its last poll.
    Early,
}

/// One CPU's part, and its own thread.
#[derive(Drop)]
pub struct Seat<C> {
    pub part: C,
    pub thread: Tid,
}

/// The seat of a CPU at boot.
pub fn seat<L: CallLaw, C: CallLayer<L>>(cpu: u8) -> Seat<C> {
    Seat {
        part: C::part(CpuId(cpu), &HOMES, 2),
        thread: Tid(cpu),
    }
}

fn polled<L: CallLaw, C: CallLayer<L>>(
    seat: &mut Seat<C>,
    m: &mut C::Machine,
    call: &Call,
) -> Seen {
    match seat.part.poll(m, seat.thread, call) {
        Some(Reply::Sent) => Seen::Sent,
        Some(Reply::Got(message)) => Seen::Got(message),
        Some(Reply::Shut) => Seen::Shut,
        Some(Reply::Closed) => Seen::Closed,
        Some(Reply::NoBuffer) => Seen::NoBuffer,
        None if seat.part.current().is_some() => Seen::GoesOn,
        None => Seen::Waits,
    }
}

/// Polls a call of the seat's thread so many times: what the last poll is seen to do.
pub fn polls<L: CallLaw, C: CallLayer<L>>(
    seat: &mut Seat<C>,
    m: &mut C::Machine,
    call: &Call,
    count: usize,
) -> Seen {
    for _ in 1..count {
        if polled(seat, m, call) != Seen::GoesOn {
            return Seen::Early;
        }
    }
    polled(seat, m, call)
}

/// Whether a pass is over after just so many polls.
pub fn passes<L: CallLaw, C: CallLayer<L>>(
    seat: &mut Seat<C>,
    m: &mut C::Machine,
    pass: Pass,
    count: usize,
) -> bool {
    for _ in 1..count {
        if seat.part.pass(m, pass).is_some() {
            return false;
        }
    }
    seat.part.pass(m, pass).is_some()
}

/// The effect of the newest call of the seat's thread, if it had one: its kind, its message, and as its buffer's and its kind's so many-th it came.
pub fn effect<L: CallLaw, C: CallLayer<L>>(seat: &Seat<C>) -> Option<(Kind, Msg, u64, u64)> {
    let effect = seat.part.effect(seat.thread)?;
    Some((effect.kind, effect.value, effect.op, effect.pos))
}

/// A send of one word.
pub fn send(buffer: BufId, word: u64) -> Call {
    Call::Send(buffer, Msg::one(word))
}
