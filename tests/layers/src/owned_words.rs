//! The owned machine: sections at one lock of each kind of words.

use crate::add_one::AddOne;
use event_log::{BufId, CPUS, CpuId, LockId, NoMemory};
use layer_traits::{GrantWords, Words};
use plain_machine::{GrantLockWords, Granting, LockQueueWords, LockWords, Plain, StoredWords};
use std::alloc::Global;
use std::test::*;

const PENDING: LockId = LockId::Pending(CpuId(3));

const BUFFER: LockId = LockId::Buffer(BufId(0));

/// A machine with one lock, whose block is this number.
fn machine<K: LockQueueWords>(
    alloc: Global,
    lock: LockId,
    number: u64,
    room: usize,
) -> Result<Plain<AddOne, K>, NoMemory> {
    Plain::open(alloc, vec![in alloc; (lock, number)]?, room)
}

/// Draws, looks once, and frees if the look hit: the number that stood there.
fn adds_one<W: Words<Edit = AddOne>>(words: &mut W, cpu: CpuId, lock: LockId) -> Option<u64> {
    let ticket = words.draw(cpu, lock);
    let mut block = words.look(cpu, lock, ticket)?;
    let number = AddOne::to(&mut block);
    words.free(cpu, lock, block, W::mark(AddOne, AddOne));
    Some(number)
}

#[test]
fn a_machine_opens_with_the_block_at_home(rt: HostRuntime) -> Result<(), Fail> {
    let machine = machine::<LockWords>(rt.alloc(), PENDING, 7, 0)?;
    let fresh = LockWords {
        next: 0,
        serving: 0,
    };
    assert_eq!(rt;
        (machine.words(PENDING), machine.home(PENDING)),
        (fresh, Some(&7))
    );
    Ok(())
}

#[test]
fn a_section_adds_one(rt: HostRuntime) -> Result<(), Fail> {
    let mut machine = machine::<LockWords>(rt.alloc(), PENDING, 40, 3)?;
    assert_eq!(rt; adds_one(&mut machine, CpuId(1), PENDING), Some(40));
    let words = LockWords {
        next: 1,
        serving: 1,
    };
    assert_eq!(rt;
        (machine.words(PENDING), machine.home(PENDING)),
        (words, Some(&41))
    );
    Ok(())
}

// As where a CPU whose thread waits takes from its pending queue twice. The number goes round.
#[test]
fn two_sections_leave_two_ticket_words(rt: HostRuntime) -> Result<(), Fail> {
    let mut machine = machine::<LockWords>(rt.alloc(), BUFFER, u64::MAX, 6)?;
    assert_eq!(rt; adds_one(&mut machine, CpuId(0), BUFFER), Some(u64::MAX));
    assert_eq!(rt; adds_one(&mut machine, CpuId(0), BUFFER), Some(0));
    let words = LockWords {
        next: 2,
        serving: 2,
    };
    assert_eq!(rt;
        (machine.words(BUFFER), machine.home(BUFFER)),
        (words, Some(&1))
    );
    Ok(())
}

#[test]
fn a_granted_section_adds_one(rt: HostRuntime) -> Result<(), Fail> {
    let mut machine = machine::<Granting>(rt.alloc(), PENDING, 40, 3)?;
    let ticket = machine.take(CpuId(1), PENDING);
    let mut block = machine.peek(CpuId(1), PENDING, ticket).unwrap();
    assert_eq!(rt; AddOne::to(&mut block), 40);
    let mark = <Plain<AddOne, Granting> as GrantWords>::mark(AddOne, AddOne);
    machine.give(CpuId(1), PENDING, block, mark);
    let mut words = [0; CPUS];
    words[0] = 1;
    words[1] = 2;
    assert_eq!(rt; machine.words(PENDING), GrantLockWords { next: 1, words });
    assert_eq!(rt; machine.home(PENDING), Some(&41));
    Ok(())
}

// The second finds the lock given on by what the first stored.
#[test]
fn a_lock_is_given_on_by_a_store(rt: HostRuntime) -> Result<(), Fail> {
    let mut machine = machine::<StoredWords>(rt.alloc(), BUFFER, 40, 6)?;
    assert_eq!(rt; adds_one(&mut machine, CpuId(0), BUFFER), Some(40));
    assert_eq!(rt; adds_one(&mut machine, CpuId(0), BUFFER), Some(41));
    assert_eq!(rt; machine.home(BUFFER), Some(&42));
    Ok(())
}

#[test]
fn too_much_room_is_refused(rt: HostRuntime) {
    assert!(rt; machine::<LockWords>(rt.alloc(), PENDING, 0, usize::MAX).is_err());
}
