//! What no run of the program shows of the crates beneath: laws, logs, rings and messages, calls at which a thread does not stand, traces without an
//! order, writers that fail. Their other tests are rows of the program, in tests/.

use crate::texts::{gathered, written};
use arrayvec::ArrayVec;
use boot::{Boot, LockKind};
use event_log::*;
use guest::{Instruction, Program, Register, Source, Target, Thread};
use std::alloc::Global;
use std::io::{self, Write};
use std::marker::Brand;
use std::process::Abort;
use std::sync::ledger::Blank;
use std::test::*;
use tracer::{GatherError, Sink, WriteFault};

#[test]
fn each_law_of_events_can_be_called(_rt: HostRuntime) {
    log_orders_agree::<u8>();
    legal_logs_grow::<u8>();
    one_holds::<u8>();
    mutual_exclusion::<u8>();
    tickets_tell_indices::<u8>();
    three_are_one_section::<u8>();
    free_where_all_rest::<u8>();
    given_once_meanwhile::<u8>();
    bounded_bypass::<u8>();
    freed_once_meanwhile::<u8>();
    grants_tell_indices::<u8>();
    mutual_exclusion_grants::<u8>();
}

#[test]
fn each_law_of_systems_can_be_called(_rt: HostRuntime) {
    cpu::calls_return_alone();
    cpu::free_locks_have_no_sleepers();
    cpu::one_signal_loses_a_wake_up();
    cpu::order_loses_no_wake_up();
    cpu::premises_are_met();
    cpu::quiet_is_stuck();
    cpu::runs_alone();
    cpu::runs_of_closing();
    cpu::runs_of_three();
    cpu::runs_of_two();
    cpu::runs_of_words();
    cpu::silent_answer_loses_a_wake_up();
    cpu::stand_in_one_place();
    cpu::systems_keep_order();
    cpu::systems_lose_no_wake_up();
    cpu::systems_serve_in_order();
    cpu::table_has_one_order();
    cpu::table_keeps_real_time();
    cpu::cpus_lose_no_wake_up();
    cpu::linear_runs_keep_real_time();
    cpu::work_is_a_run();
    tracer::one_order_is_taken();
}

#[test]
fn a_log_keeps_what_it_has_room_for(rt: HostRuntime) -> Result<(), Fail> {
    for room in 0..3 {
        let mut log = EventLog::with_room(rt.alloc(), room)?;
        for cpu in 0..4 {
            let kept = usize::from(cpu) < room;
            assert_eq!(rt; log.push(CpuId(cpu)).is_ok(), kept, "room {room}");
            assert_eq!(rt; log.len(), room.min(usize::from(cpu) + 1), "room {room}");
            assert_eq!(rt; log.get(usize::from(cpu)).is_some(), kept, "room {room}");
        }
        if room > 0 {
            assert_eq!(rt; log.get(room - 1), Some(&CpuId(room as u8 - 1)));
        }
    }
    assert!(rt; EventLog::<CpuId>::with_room(rt.alloc(), usize::MAX).is_err());
    Ok(())
}

#[test]
fn each_lock_has_its_number(rt: HostRuntime) {
    for (lock, number) in [
        (LockId::Pending(CpuId(0)), 0),
        (LockId::Pending(CpuId(3)), 6),
        (LockId::Buffer(BufId(255)), 511),
    ] {
        assert_eq!(rt; lock.number(), number, "{lock:?}");
    }
}

#[test]
fn messages_are_equal_where_their_words_are(rt: HostRuntime) {
    let message = Msg::new(&[1, 2, 3]);
    message.fits();
    assert_eq!(rt; (message.len(), message.first()), (3, 1));
    assert_eq!(rt; message.words(), [1, 2, 3].as_slice());
    assert_eq!(rt; Msg::new(&[8; WORDS]).words(), [8; WORDS].as_slice());
    for (one, other, same) in [
        (Msg::new(&[7]), Msg::one(7), true),
        (Msg::none(), Msg::one(0), true),
        (Msg::default(), Msg::none(), true),
        (Msg::new(&[7, 0]), Msg::one(7), false),
    ] {
        assert_eq!(rt; one == other, same, "{one:?} and {other:?}");
    }
}

#[test]
fn cells_hold_what_was_put_in_them(rt: HostRuntime) {
    let mut ticks = Ticks::<Brand>::fresh(Blank::new(1));
    let mut cells: Cells<u8, 3> = Cells::filled(7);
    cells.set(1, 5, &mut ticks);
    assert_eq!(rt;
        (cells.get(0, &mut ticks), cells.get(1, &mut ticks)),
        (7, 5)
    );
}

#[test]
fn a_thousand_items_pass_a_ring_of_two(rt: HostRuntime) {
    let mut ring = Ring::new(0u64);
    for n in 0..1_000 {
        assert!(rt; ring.len() < 2);
        ring.put(n);
        if n > 0 {
            assert_eq!(rt; ring.take(), Some(n - 1));
        }
    }
    assert_eq!(rt; ring.items().as_slice(), [999u64].as_slice());
    assert_eq!(rt; (ring.take(), ring.take()), (Some(999), None));
}

/// Puts the item on both queues where it shall and there is room, else takes from both, and compares what they answer and hold. The twin
/// keeps its items side by side, the first one first, and closes the gap that a take leaves.
fn goes_as_its_twin(
    rt: &impl Abort,
    puts: bool,
    item: u64,
    ring: &mut Ring<u64>,
    twin: &mut ArrayVec<u64, CAPACITY>,
) {
    if puts && ring.len() < CAPACITY {
        ring.put(item);
        assert!(rt; twin.try_push(item).is_ok());
    } else {
        let first = if twin.is_empty() {
            None
        } else {
            Some(twin.remove(0))
        };
        assert_eq!(rt; ring.take(), first);
    }
    assert_eq!(rt; ring.items().as_slice(), twin.as_slice());
}

// Which call comes is the top bit of a linear congruence modulo 2^64.
#[test]
fn ten_thousand_calls_of_a_ring_are_answered_as_by_its_twin(rt: HostRuntime) {
    let mut state = 2026u64;
    let mut ring = Ring::new(0u64);
    let mut twin = ArrayVec::new();
    for item in 0..10_000 {
        state = state
            .wrapping_mul(6_364_136_223_846_793_005)
            .wrapping_add(1_442_695_040_888_963_407);
        goes_as_its_twin(&rt, state >> 63 == 1, item, &mut ring, &mut twin);
    }
}

#[test]
fn a_plan_is_read_whole(rt: HostRuntime) -> Result<(), Fail> {
    let plan =
        "cpus = 2\ntrace = 65536\nbuffers = [1, 32]\nother = 1\n[[thread]]\ncpu = 1\nprogram = [\"recv 1 r2\"]\n\
         [[thread]]\ncpu = 0\nname = \"b\"\nprogram = [\"yield\", \"exit\"]\n";
    for (line, lock) in [
        ("", LockKind::Grant),
        ("lock = \"grant\"\n", LockKind::Grant),
        ("lock = \"ticket\"\n", LockKind::Ticket),
    ] {
        let text = format!(in rt.alloc(); "{line}{plan}")?;
        let boot = Boot::read(rt.alloc(), text.as_str())?;
        assert_eq!(rt; boot.lock(), lock, "behind {line}");
        assert_eq!(rt; (boot.cpus(), boot.trace()), (2, 65536));
        assert_eq!(rt; boot.caps().as_slice(), [1u8, 32].as_slice());
        assert_eq!(rt; boot.threads(), 2);
        assert_eq!(rt;
            (boot.home(Tid(0)), boot.home(Tid(1))),
            (CpuId(1), CpuId(0))
        );
        let receives = Instruction::Recv(BufId(1), Target::One(Register::Reg2), None);
        assert_eq!(rt; boot.program(Tid(0)).instruction(0), receives);
        assert_eq!(rt; boot.program(Tid(1)).len(), 2);
    }
    Ok(())
}

#[test]
fn calls_move_the_thread_only_where_it_stands_at_them(rt: HostRuntime) -> Result<(), Fail> {
    let program = Program::read(rt.alloc(), &["send 0 r0", "recv 0 r3", "yield"])?;
    let sends = Instruction::Send(BufId(0), Source::One(Register::Reg0), None);
    let mut thread = Thread::new();
    thread.step_local(&program);
    thread.after_yield(&program);
    thread.after_recv(&program, Msg::one(7));
    thread.after_close(&program);
    assert_eq!(rt; thread.next(&program), sends);
    thread.after_send(&program);
    thread.after_recv(&program, Msg::one(7));
    assert_eq!(rt; thread.value(Register::Reg3), 7);
    thread.after_closed(&program);
    assert_eq!(rt; thread.next(&program), Instruction::Yield);
    thread.after_yield(&program);
    assert_eq!(rt; thread.next(&program), Instruction::Exit);
    Ok(())
}

/// A send by the one thread of a CPU.
fn sent(cpu: u8, buffer: u8, op: u64) -> Entry {
    Entry {
        cpu: CpuId(cpu),
        thread: Tid(cpu),
        kind: Kind::Send,
        buffer: BufId(buffer),
        value: Msg::none(),
        op,
        pos: op,
    }
}

// CPU 0's entry waits for CPU 1's first. Where each of two waits for the other there is no order.
#[test]
fn a_trace_waits_for_another(rt: HostRuntime) -> Result<(), GatherError> {
    let first = [sent(1, 0, 0), sent(1, 1, 0)];
    let order = gathered(rt.alloc(), &[&[sent(0, 0, 1)], &first])?;
    let wanted = [first[0], sent(0, 0, 1), first[1]];
    assert_eq!(rt; order.as_slice(), wanted.as_slice());
    let each_first = [sent(0, 0, 1), sent(0, 1, 0)];
    let other_first = [sent(1, 1, 1), sent(1, 0, 0)];
    let both_wait = gathered(rt.alloc(), &[&each_first, &other_first]);
    assert!(rt; matches!(both_wait, Err(GatherError::NoOrder)));
    Ok(())
}

/// A writer that takes at most `piece` bytes at a time, and no byte behind the first `room`. Where it has no room it cannot be flushed.
#[derive(Drop)]
struct Narrow {
    out: Vec<u8>,
    room: usize,
    piece: usize,
}

impl Write for Narrow {
    fn write(&mut self, buf: &[u8]) -> io::Result<usize> {
        let left = self.room.saturating_sub(self.out.len());
        if left == 0 && !buf.is_empty() {
            return Err(io::Error::from(io::ErrorKind::BrokenPipe));
        }
        let n = buf.len().min(left).min(self.piece);
        self.out.extend_from_slice(&buf[..n])?;
        Ok(n)
    }

    fn flush(&mut self) -> io::Result<()> {
        if self.room == 0 {
            return Err(io::Error::from(io::ErrorKind::BrokenPipe));
        }
        Ok(())
    }
}

fn writer_with(alloc: Global, room: usize, piece: usize) -> Narrow {
    Narrow {
        out: Vec::new(alloc),
        room,
        piece,
    }
}

/// Writes the trace of one send, whose message is left, or of one close where there is no message.
fn writes(sink: &mut Sink<&mut Narrow>, message: Option<Msg>) -> Result<(), WriteFault> {
    let entry = Entry {
        cpu: CpuId(0),
        thread: Tid(0),
        kind: if message.is_some() {
            Kind::Send
        } else {
            Kind::Close
        },
        buffer: BufId(0),
        value: message.unwrap_or(Msg::none()),
        op: 0,
        pos: 0,
    };
    match message {
        Some(message) => written(sink, &[&entry], &[message]),
        None => written(sink, &[&entry], &[]),
    }
}

/// Writes this trace to writers with less and with more room, in pieces of all sizes: it is this text, or its beginning up to where a writer has
/// room, and told as refused just where it was.
fn is_written(rt: &(impl Abort + AllocGlobal), message: Option<Msg>, text: &str) {
    for room in 0..100 {
        for piece in 1..70 {
            let mut writer = writer_with(rt.alloc(), room, piece);
            let mut sink = Sink::new(&mut writer);
            let went = writes(&mut sink, message).is_ok();
            let failed = sink.failed();
            let fits = room >= text.len();
            assert_eq!(rt;
                (went, failed),
                (fits, !fits),
                "room {room}, pieces of {piece}"
            );
            let beginning = &text.as_bytes()[..room.min(text.len())];
            assert_eq!(rt;
                writer.out.as_slice(),
                beginning,
                "room {room}, pieces of {piece}"
            );
        }
    }
}

#[test]
fn a_writer_that_fails_anywhere(rt: HostRuntime) {
    let send = "mctower-trace 1\nbuffers 1\ncap 0 1\ne 0 0 send 0 7 0 0\nleft 0 7\nend\n";
    is_written(&rt, Some(Msg::one(7)), send);
    let close = "mctower-trace 2\nbuffers 1\ncap 0 1\ne 0 0 close 0 - 0 0\nleft 0\nend\n";
    is_written(&rt, None, close);
    let words = "mctower-trace 3\nbuffers 1\ncap 0 1\ne 0 0 send 0 1,2 0 0\nleft 0 1,2\nend\n";
    is_written(&rt, Some(Msg::new(&[1, 2])), words);
}

// A writer that fails, one that takes no byte, and one that takes all.
#[test]
fn a_sink_is_flushed_until_something_is_put(rt: HostRuntime) -> Result<(), Fail> {
    for (room, piece, wanted) in [
        (0, 1, Err(WriteFault)),
        (1, 0, Err(WriteFault)),
        (1, 1, Ok(())),
    ] {
        let mut writer = writer_with(rt.alloc(), room, piece);
        let mut sink = Sink::new(&mut writer);
        let writer = format!(in rt.alloc(); "room {room}, pieces of {piece}")?;
        assert_eq!(rt; (sink.flushed(), sink.failed()), (true, false), "{writer}");
        assert_eq!(rt; sink.put(b""), Ok(()), "{writer}");
        assert_eq!(rt; (sink.flushed(), sink.failed()), (false, false), "{writer}");
        assert_eq!(rt; sink.put(b"a"), wanted, "{writer}");
        assert_eq!(rt;
            (sink.flushed(), sink.failed()),
            (false, wanted.is_err()),
            "{writer}"
        );
    }
    Ok(())
}

#[test]
fn a_flush_fails_where_the_writer_does(rt: HostRuntime) {
    for (room, wanted) in [(0, Err(WriteFault)), (1, Ok(()))] {
        let mut writer = writer_with(rt.alloc(), room, 1);
        let mut sink = Sink::new(&mut writer);
        assert_eq!(rt; sink.flush(), wanted, "room {room}");
        assert_eq!(rt;
            (sink.flushed(), sink.failed()),
            (true, room == 0),
            "room {room}"
        );
    }
}
