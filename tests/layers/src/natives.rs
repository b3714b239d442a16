//! Native threads that send to one buffer and receive from it. `tests/refuse.sh` runs them on one processor too.

use arrayvec::ArrayVec;
use cpu_workers::{Caller, Hints, Native, NativeReport, run_native};
use event_log::{BufId, Msg};
use layer_traits::{CallLayer, IpcLaw};
use std::sync::Wait;
use std::test::*;
use std::thread::Threads;

/// How many messages a peer sends or receives at most.
const MOST: usize = 64;

/// A native that sends so many numbers to buffer 0, from the first one up, then receives so many, and
/// then perhaps closes the buffer. It keeps what it sent and what it received.
#[derive(Drop)]
struct Peer {
    first: u64,
    sends: u8,
    receives: u8,
    closes: bool,
    sent: ArrayVec<Msg, MOST>,
    taken: ArrayVec<Msg, MOST>,
}

impl Peer {
    fn new(first: u64, sends: u8, receives: u8, closes: bool) -> Peer {
        Peer {
            first,
            sends,
            receives,
            closes,
            sent: ArrayVec::new(),
            taken: ArrayVec::new(),
        }
    }
}

/// Sends so many numbers, from this one up, and keeps what was sent. It ends where the buffer is closed.
fn send_all<I: CallLayer<IpcLaw> + Drop, R: Wait>(
    rt: &R,
    caller: &mut Caller<I>,
    first: u64,
    count: u8,
    sent: &mut ArrayVec<Msg, MOST>,
)
where
    I::Machine: Drop + Hints,
{
    for i in 0..count {
        let message = Msg::one(first.wrapping_add(u64::from(i)));
        match caller.send(rt, BufId(0), &message) {
            Ok(()) => sent.push(message),
            Err(_) => return,
        }
    }
}

/// Receives so many messages, and keeps them. It ends where the buffer is closed and empty.
fn receive_all<I: CallLayer<IpcLaw> + Drop, R: Wait>(
    rt: &R,
    caller: &mut Caller<I>,
    count: u8,
    taken: &mut ArrayVec<Msg, MOST>,
)
where
    I::Machine: Drop + Hints,
{
    for i in 0..count {
        match caller.recv(rt, BufId(0)) {
            Some(message) => taken.push(message),
            None => return,
        }
    }
}

/// Closes the buffer, if it is to be closed.
fn close_if<I: CallLayer<IpcLaw> + Drop, R: Wait>(rt: &R, caller: &mut Caller<I>, closes: bool)
where
    I::Machine: Drop + Hints,
{
    if closes {
        caller.close(rt, BufId(0));
    }
}

impl Native for Peer {
    ghost Needs = { tt };

    ghost Kept = { tt };

    fn run<I: CallLayer<IpcLaw> + Drop, R: Wait>(&mut self, rt: &R, caller: &mut Caller<I>)
    where
        I::Machine: Drop + Hints,
    {
        send_all(rt, caller, self.first, self.sends, &mut self.sent);
        receive_all(rt, caller, self.receives, &mut self.taken);
        close_if(rt, caller, self.closes);
    }
}

/// Runs three peers over one buffer for four messages.
fn run_three<T: AllocGlobal + Threads + Wait + Sync>(
    rt: &T,
    first: Peer,
    second: Peer,
    third: Peer,
) -> Result<NativeReport<Peer>, Fail> {
    let peers = Vec::from_array(rt.alloc(), [first, second, third])?;
    Ok(run_native(rt, rt.alloc(), &[4], peers)?)
}

/// Whether the numbers below 200 and those from 200 on each stand in their order, so many of both.
fn are_in_order(messages: &[Msg], each: u64) -> bool {
    let mut next_low = 100;
    let mut next_high = 200;
    for message in messages {
        let word = message.first();
        if word == next_low && word < 200 {
            next_low = word.wrapping_add(1);
        } else if word == next_high {
            next_high = word.wrapping_add(1);
        } else {
            return false;
        }
    }
    next_low == each.wrapping_add(100) && next_high == each.wrapping_add(200)
}

#[test]
fn two_producers_and_a_consumer(rt: HostRuntime) -> Result<(), Fail> {
    let report = run_three(
        &rt,
        Peer::new(100, 20, 0, false),
        Peer::new(200, 20, 0, false),
        Peer::new(0, 0, 40, true),
    )?;
    let consumer = report.natives.get(2);
    assert!(rt; consumer.is_some_and(|peer| are_in_order(peer.taken.as_slice(), 20)));
    assert!(rt;
        report
            .natives
            .iter()
            .take(2)
            .all(|peer| peer.sent.len() == 20)
    );
    assert!(rt; report.items(BufId(0)).is_empty());
    Ok(())
}

// A receive ends where the buffer is closed and empty.
#[test]
fn a_closed_buffer_ends_a_receive(rt: HostRuntime) -> Result<(), Fail> {
    let report = run_three(
        &rt,
        Peer::new(0, 0, 0, true),
        Peer::new(0, 0, 1, false),
        Peer::new(0, 0, 1, false),
    )?;
    assert!(rt; report.natives.iter().all(|peer| peer.taken.is_empty()));
    Ok(())
}
