//! Seats at one table of shared words, which a single thread takes in turn.

use crate::add_one::AddOne;
use event_log::{BufId, CpuId, LockId, NoMemory};
use layer_traits::{GrantWords, Words};
use std::alloc::Global;
use std::process::Abort;
use std::test::*;
use table_machine::{Key, Shared, StoredWords, TableWords, TicketWords, WaiterWords, meet};

const A: CpuId = CpuId(0);

const B: CpuId = CpuId(1);

const LOCK: LockId = LockId::Buffer(BufId(3));

const OTHER: LockId = LockId::Pending(CpuId(1));

/// The blocks of the two locks, with these numbers.
fn numbers(lock: u64, other: u64) -> [(LockId, u64); 2] {
    [(LOCK, lock), (OTHER, other)]
}

/// A table of two locks with the numbers 40 and 7, and the keys of its two CPUs.
fn opened<K: TableWords>(
    alloc: Global,
) -> Result<(Shared<AddOne, K>, Key<AddOne>, Key<AddOne>), NoMemory> {
    let blocks = Vec::from_array(alloc, numbers(40, 7))?;
    let (shared, mut keys) = Shared::open(alloc, blocks, 2)?;
    let second = keys.pop().unwrap();
    let first = keys.pop().unwrap();
    Ok((shared, first, second))
}

/// Closes the table: the blocks as they are left.
fn closed<K: TableWords>(
    alloc: Global,
    shared: Shared<AddOne, K>,
    first: Key<AddOne>,
    second: Key<AddOne>,
) -> Result<Vec<(LockId, u64)>, NoMemory> {
    Ok(shared.close(vec![in alloc; first, second]?))
}

/// Adds 1 to the block that a look gave, and frees the lock with it: the number that stood there.
fn frees<W: Words<Edit = AddOne>>(words: &mut W, cpu: CpuId, lock: LockId, mut block: u64) -> u64 {
    let number = AddOne::to(&mut block);
    words.free(cpu, lock, block, W::mark(AddOne, AddOne));
    number
}

/// A whole section at a lock for which nobody waits: the number that it found.
fn adds_one<W: Words<Edit = AddOne>>(words: &mut W, cpu: CpuId, lock: LockId) -> Option<u64> {
    let ticket = words.draw(cpu, lock);
    let block = words.look(cpu, lock, ticket)?;
    Some(frees(words, cpu, lock, block))
}

/// Opens a table of so many CPUs with these blocks, and closes it again: the numbers of the keys' CPUs, and the blocks.
fn opens_and_closes(
    alloc: Global,
    blocks: Vec<(LockId, u64)>,
    cpus: u8,
) -> Result<(Vec<u8>, Vec<(LockId, u64)>), NoMemory> {
    let (shared, keys) = Shared::<AddOne, TicketWords>::open(alloc, blocks, cpus)?;
    let mut of = Vec::new(alloc);
    for key in &keys {
        of.push(key.cpu().0)?;
    }
    Ok((of, shared.close(keys)))
}

#[test]
fn a_table_may_have_no_blocks(rt: HostRuntime) -> Result<(), Fail> {
    let (of, blocks) = opens_and_closes(rt.alloc(), Vec::new(rt.alloc()), 0)?;
    assert!(rt; of.is_empty() && blocks.is_empty());
    let (of, blocks) = opens_and_closes(rt.alloc(), Vec::new(rt.alloc()), 8)?;
    assert_eq!(rt; of.as_slice(), [0u8, 1, 2, 3, 4, 5, 6, 7].as_slice());
    assert!(rt; blocks.is_empty());
    Ok(())
}

#[test]
fn blocks_come_back_in_the_order_of_open(rt: HostRuntime) -> Result<(), Fail> {
    let given = [(OTHER, 7), (LOCK, 40), (LockId::Buffer(BufId(0)), 1)];
    let (of, blocks) = opens_and_closes(rt.alloc(), Vec::from_array(rt.alloc(), given)?, 3)?;
    assert_eq!(rt; of.as_slice(), [0u8, 1, 2].as_slice());
    assert_eq!(rt; blocks.as_slice(), given.as_slice());
    Ok(())
}

#[test]
fn each_section_finds_what_the_one_before_left(rt: HostRuntime) -> Result<(), Fail> {
    let (shared, first, second) = opened::<TicketWords>(rt.alloc())?;
    let mut a = shared.seat(first);
    let mut b = shared.seat(second);
    assert_eq!(rt; adds_one(&mut a, A, LOCK), Some(40));
    meet(&mut a, &mut b);
    assert_eq!(rt; adds_one(&mut b, B, LOCK), Some(41));
    assert_eq!(rt; adds_one(&mut a, A, LOCK), Some(42));
    let (first, second) = (a.back(), b.back());
    assert_eq!(rt; (first.cpu(), second.cpu()), (A, B));
    let blocks = closed(rt.alloc(), shared, first, second)?;
    assert_eq!(rt; blocks.as_slice(), numbers(43, 7).as_slice());
    Ok(())
}

#[test]
fn a_key_takes_its_seat_again(rt: HostRuntime) -> Result<(), Fail> {
    let (shared, first, second) = opened::<TicketWords>(rt.alloc())?;
    let mut seat = shared.seat(first);
    assert_eq!(rt; adds_one(&mut seat, A, LOCK), Some(40));
    let table = seat.table();
    let mut again = table.seat(seat.back());
    assert_eq!(rt; adds_one(&mut again, A, LOCK), Some(41));
    let first = again.back();
    let blocks = closed(rt.alloc(), shared, first, second)?;
    assert_eq!(rt; blocks.as_slice(), numbers(42, 7).as_slice());
    Ok(())
}

/// The first draws before the second, which looks in vain until the first is out, and then finds what it left.
fn second_waits_for_first<W: Words<Edit = AddOne>>(
    rt: &impl Abort,
    first: (&mut W, CpuId),
    second: (&mut W, CpuId),
    ticket: u64,
    number: u64,
) {
    let (early, early_cpu) = first;
    let (late, late_cpu) = second;
    assert_eq!(rt; early.draw(early_cpu, LOCK), ticket);
    assert_eq!(rt; late.draw(late_cpu, LOCK), ticket + 1);
    assert_eq!(rt; late.look(late_cpu, LOCK, ticket + 1), None);
    assert_eq!(rt; early.look(early_cpu, LOCK, ticket), Some(number));
    assert_eq!(rt; late.look(late_cpu, LOCK, ticket + 1), None);
    frees(early, early_cpu, LOCK, number);
    assert_eq!(rt; late.look(late_cpu, LOCK, ticket + 1), Some(number + 1));
    frees(late, late_cpu, LOCK, number + 1);
}

#[test]
fn the_second_waits_until_the_first_is_out(rt: HostRuntime) -> Result<(), Fail> {
    let (shared, first, second) = opened::<TicketWords>(rt.alloc())?;
    let mut a = shared.seat(first);
    let mut b = shared.seat(second);
    second_waits_for_first(&rt, (&mut a, A), (&mut b, B), 0, 40);
    assert_eq!(rt; (shared.next_hint(LOCK), shared.next_hint(OTHER)), (2, 0));
    let (first, second) = (a.back(), b.back());
    let blocks = closed(rt.alloc(), shared, first, second)?;
    assert_eq!(rt; blocks.as_slice(), numbers(42, 7).as_slice());
    Ok(())
}

// The first CPU is inside one lock while the second does a section at the other.
#[test]
fn two_locks_are_held_at_once(rt: HostRuntime) -> Result<(), Fail> {
    let (shared, first, second) = opened::<TicketWords>(rt.alloc())?;
    let mut a = shared.seat(first);
    let mut b = shared.seat(second);
    let ticket = a.draw(A, LOCK);
    assert_eq!(rt; a.look(A, LOCK, ticket), Some(40));
    assert_eq!(rt; adds_one(&mut b, B, OTHER), Some(7));
    frees(&mut a, A, LOCK, 40);
    let (first, second) = (a.back(), b.back());
    let blocks = closed(rt.alloc(), shared, first, second)?;
    assert_eq!(rt; blocks.as_slice(), numbers(41, 8).as_slice());
    Ok(())
}

// Tickets 0 and 1 are served one after the other. The second CPU draws 2, and the first waits with 3.
#[test]
fn a_lock_is_given_on_by_a_store(rt: HostRuntime) -> Result<(), Fail> {
    let (shared, first, second) = opened::<StoredWords>(rt.alloc())?;
    let mut a = shared.seat(first);
    let mut b = shared.seat(second);
    assert_eq!(rt; adds_one(&mut a, A, LOCK), Some(40));
    assert_eq!(rt; adds_one(&mut b, B, LOCK), Some(41));
    second_waits_for_first(&rt, (&mut b, B), (&mut a, A), 2, 42);
    let (first, second) = (a.back(), b.back());
    let blocks = closed(rt.alloc(), shared, first, second)?;
    assert_eq!(rt; blocks.as_slice(), numbers(44, 7).as_slice());
    Ok(())
}

/// Adds 1 to the block that a peek gave, and gives the lock on with it.
fn gives<W: GrantWords<Edit = AddOne>>(words: &mut W, cpu: CpuId, mut block: u64) {
    AddOne::to(&mut block);
    words.give(cpu, LOCK, block, W::mark(AddOne, AddOne));
}

// The second CPU takes its ticket behind the first, and peeks in vain until the lock is given on to it.
#[test]
fn the_second_waits_at_its_own_grant_word(rt: HostRuntime) -> Result<(), Fail> {
    let (shared, first, second) = opened::<WaiterWords>(rt.alloc())?;
    let mut a = shared.seat(first);
    let mut b = shared.seat(second);
    assert_eq!(rt; (a.take(A, LOCK), b.take(B, LOCK)), (0, 1));
    assert_eq!(rt; b.peek(B, LOCK, 1), None);
    assert_eq!(rt; a.peek(A, LOCK, 0), Some(40));
    assert_eq!(rt; b.peek(B, LOCK, 1), None);
    gives(&mut a, A, 40);
    assert_eq!(rt; b.peek(B, LOCK, 1), Some(41));
    gives(&mut b, B, 41);
    let (first, second) = (a.back(), b.back());
    let blocks = closed(rt.alloc(), shared, first, second)?;
    assert_eq!(rt; blocks.as_slice(), numbers(42, 7).as_slice());
    Ok(())
}
