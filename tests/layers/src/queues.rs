//! Shared queues in one step, run without a scheduler above them: two CPUs at one queue.

use crate::scheds::Nap;
use event_log::{BufId, CpuId, Tid};
use layer_traits::{BareQueueAnswer, Layer, Payload, QueueCall};
use plain_layers::{PlainKernel, PlainQueues};
use std::test::*;
use thread_blocks::ThreadQueue;

// Thread 1 goes to sleep on CPU 0, and CPU 1 wakes it, which has it in hand then. It pushes the thread into CPU 0's queue, and CPU 0 takes it
// from there. Each call is over in its own poll.
#[test]
fn two_cpus_meet_at_one_queue(rt: HostRuntime) -> Result<(), Fail> {
    let homes = [CpuId(1), CpuId(0)];
    let mut m = PlainKernel::open(rt.alloc(), vec![in rt.alloc(); None]?, 2, &homes, 4)?;
    let mut first: PlainQueues<Nap> = PlainQueues::part(CpuId(0), &homes, 1);
    let mut second: PlainQueues<Nap> = PlainQueues::part(CpuId(1), &homes, 1);
    let mut payload = Payload::new();
    let sleeps = QueueCall::OnBuffer(BufId(0), Nap::sleep(Tid(1)));
    let slept = first.poll(&mut m, sleeps, &mut payload);
    assert!(rt; matches!(slept, Some(BareQueueAnswer::Answer((true, None)))));
    let wakes = QueueCall::OnBuffer(BufId(0), Nap::wake(Tid(0)));
    let woke = second.poll(&mut m, wakes, &mut payload);
    assert!(rt; matches!(woke, Some(BareQueueAnswer::Answer((false, Some(Tid(1)))))));
    let pushed = second.poll(&mut m, QueueCall::Push(CpuId(0), Tid(1)), &mut payload);
    assert!(rt; matches!(pushed, Some(BareQueueAnswer::Done)));
    let taken = first.poll(&mut m, QueueCall::TakeAll(CpuId(0)), &mut payload);
    assert!(rt; matches!(taken, Some(BareQueueAnswer::Taken)));
    let mut queue = ThreadQueue::new();
    payload.taken.drain_into(&mut queue);
    assert_eq!(rt; (queue.len(), queue.front()), (1, Some(Tid(1))));
    Ok(())
}
