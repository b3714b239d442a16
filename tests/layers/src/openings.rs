//! Machines on which the tests run schedulers: critical sections beneath shared queues, lists beneath queues alone, and lists beneath a scheduler.

use event_log::{CpuId, NoMemory};
use layer_traits::{Moves, OwnedLayer, OwnedLocks, QueueEdit, SchedLaw};
use plain_layers::{PlainKernel, PlainQueues, PlainSched};
use plain_machine::Plain;
use scheduler::Sched;
use shared_queue::{SharedQueues, queue_blocks};
use spinlock::Ticket;
use std::alloc::Global;

/// A scheduler over ticket locks, of which a section takes [`TICKET_POLLS`] polls.
pub type TicketSched<E> = Sched<SharedQueues<Ticket<Plain<QueueEdit<E>>>>>;

/// The polls of a section at a ticket lock: it draws, looks and frees.
pub const TICKET_POLLS: usize = 3;

/// A layer of schedulers whose machine is opened with the blocks of its buffers.
pub trait Opens<E: Moves>: OwnedLayer<SchedLaw<E>> {
    /// A machine of so many CPUs, on which nobody is pending, with a thread of each of these homes and with room for `room` events.
    fn open(
        alloc: Global,
        buffers: Vec<E::Block>,
        cpus: u8,
        homes: &[CpuId],
        room: usize,
    ) -> Result<Self::Machine, NoMemory>;
}

impl<E: Moves, L: OwnedLocks<QueueEdit<E>>> Opens<E> for Sched<SharedQueues<L>> {
    fn open(
        alloc: Global,
        buffers: Vec<E::Block>,
        cpus: u8,
        homes: &[CpuId],
        room: usize,
    ) -> Result<L::Machine, NoMemory> {
        L::open(alloc, queue_blocks(alloc, buffers, cpus, homes)?, room)
    }
}

impl<E: Moves> Opens<E> for Sched<PlainQueues<E>> {
    fn open(
        alloc: Global,
        buffers: Vec<E::Block>,
        cpus: u8,
        homes: &[CpuId],
        room: usize,
    ) -> Result<PlainKernel<E>, NoMemory> {
        PlainKernel::open(alloc, buffers, cpus, homes, room)
    }
}

impl<E: Moves> Opens<E> for PlainSched<E> {
    fn open(
        alloc: Global,
        buffers: Vec<E::Block>,
        cpus: u8,
        homes: &[CpuId],
        room: usize,
    ) -> Result<PlainKernel<E>, NoMemory> {
        PlainKernel::open(alloc, buffers, cpus, homes, room)
    }
}
