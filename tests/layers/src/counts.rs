//! Counting in threads.

use boot::LockKind;
use cpu_workers::counting::count_table;
use std::test::*;

#[test]
fn threads_count_together(rt: HostRuntime) -> Result<(), Fail> {
    for (cpus, times, lock, number) in [
        (2, 3, LockKind::Grant, 6),
        (2, 3, LockKind::Ticket, 6),
        (1, 1, LockKind::Grant, 1),
        (0, 1000, LockKind::Ticket, 0),
        (8, 0, LockKind::Grant, 0),
    ] {
        let counted = count_table(&rt, rt.alloc(), cpus, times, lock)?;
        assert_eq!(rt;
            (counted.number(), counted.lock()),
            (number, lock),
            "{cpus} CPUs, {times} times"
        );
    }
    Ok(())
}
