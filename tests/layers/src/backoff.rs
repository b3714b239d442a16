//! The tower over a lock with backoff: its systems keep the one order and the contents of their buffers, though no poll of the lock is one action
//! or one call.

use crate::systems::rows_go;
use ipc_calls::{Ipc, TowerEdit, TowerOver};
use plain_layers::Backoff;
use plain_machine::Plain;
use spinlock::Ticket;
use std::test::*;

/// Plans in the form of those of one-step systems.
const ROWS: &str = r#"# A thread that sends 7: more polls than over a ticket lock, and the same end.
cpus = 1
trace = 4
buffers = [1]
[[thread]]
cpu = 0
program = ["set r0 7", "send 0 r0", "exit"]
-- 0*200
mctower-trace 1
buffers 1
cap 0 1
e 0 0 send 0 7 0 0
left 0 7
end
--
all ended; ended None
quiet true, closed false, busy None
==
# The same send after thirty polls: the thread owns the buffer, and has not sent.
cpus = 1
trace = 4
buffers = [1]
[[thread]]
cpu = 0
program = ["set r0 7", "send 0 r0", "exit"]
-- 0*30
mctower-trace 1
buffers 1
cap 0 1
left 0
end
--
goes on; running Some(0)
quiet false, closed false, busy Some(Tid(0))
==
# A receiver on CPU 0 waits. A thread on CPU 1 sends 7, wakes it and sends it home, and it receives.
# The CPUs take steps in turn, since one that stops inside a lock keeps the other waiting.
cpus = 2
trace = 4
buffers = [1]
[[thread]]
cpu = 0
program = ["recv 0 r0"]
[[thread]]
cpu = 1
program = ["set r0 7", "send 0 r0"]
-- 0*100 10*400
mctower-trace 1
buffers 1
cap 0 1
e 1 1 send 0 7 0 0
e 0 0 recv 0 7 1 0
left 0
end
--
all ended; ended None
all ended; ended None
quiet true, closed false, busy None
"#;

#[test]
fn systems_run_over_a_lock_with_backoff(rt: HostRuntime) -> Result<(), Fail> {
    rows_go::<Ipc<TowerOver<Backoff<Ticket<Plain<TowerEdit>>>>>>(&rt, ROWS)
}
