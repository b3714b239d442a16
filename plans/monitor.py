#!/usr/bin/env python3
"""Runs a plan under a schedule over monitors, the second body of the layer of buffers, by a short Python program that is not proved. It prints the trace and
the state lines, as plans/kernel.py does over queuing locks and conditions. tests/layers compares whole systems over monitors with it.

    plans/monitor.py [--wrong] PLAN [SCHEDULE]

The default schedule is the one in the first lines of the plan. With --wrong a receive takes a message though a woken thread is before it.
"""
import argparse
import sys

from kernel import Buffer, Kernel, run_alone
from reading import Refusal, bytes_at
from schedules import chosen, read_run

AWAKE = "awake"


class Monitor(Buffer):
    """A buffer under a monitor. The first thread of each side sleeps (None), or a thread owes it a wake-up (that thread), or it was woken."""

    def __init__(self, capacity):
        super().__init__(capacity)
        self.front = [None, None]

    def copy(self):
        twin = super().copy()
        twin.front = list(self.front)
        return twin

    def owe(self, t):
        """After an effect of a thread it owes a wake-up to the first of each side that sleeps and could go on."""
        for side in (0, 1):
            if self.front[side] is None and self.line[side] and self.may_go(side):
                self.front[side] = t


class Monitors(Kernel):
    """The step table with monitors as its buffers: a call is one section, and each wake-up that it owes then is one more."""

    def __init__(self, plan, wrong=None):
        super().__init__(plan, wrong)
        self.blocks |= {lock: Monitor(block.capacity) for lock, block in self.blocks.items() if lock[0] == "buffer"}

    @staticmethod
    def name_of(stage, side):
        return "Call" if stage == "AcqQ" else "Wake"

    def edit_buffer(self, c, cpu, t, buffer):
        guest = self.guests[t]
        side = guest.call()[1]
        if guest.stage != "AcqQ":
            woken = side if guest.stage == "Own" else 1 - side
            self.wake_first(c, cpu, buffer, woken)
            self.go_on(cpu, t, buffer, 1 - woken)
        elif guest.instruction()[0] == "close" or self.is_done(c, cpu, t, buffer, side):
            if guest.stage == "AcqQ":
                self.shut(c, cpu, t, buffer)
            buffer.owe(t)
            self.go_on(cpu, t, buffer, 1 - side)

    def is_done(self, c, cpu, t, buffer, side):
        """Whether a call has its effect in its section. If not, its thread waits behind all that came before."""
        guest, line = self.guests[t], buffer.line[side]
        if t not in line:
            line.append(t)
        guest.position = buffer.positions[side]
        was_first = line[0] == t
        self.attempt(c, cpu, guest, t, buffer)
        if guest.stage == "Wait":
            guest.stage = "AcqQ"
            self.leave(cpu, t, f"{('WaitRecv', 'WaitSend')[side]}({guest.call()[0]})", buffer.waiting[side])
        else:
            buffer.positions[side] += 1
        if was_first:
            buffer.front[side] = None
        return guest.stage != "AcqQ"

    def wake_first(self, c, cpu, buffer, side):
        """Wakes the first of a side, if some thread owes it that."""
        if buffer.front[side] not in (None, AWAKE):
            buffer.front[side], first = AWAKE, buffer.line[side][0]
            buffer.waiting[side].remove(first)
            self.wake(c, cpu, first)

    def go_on(self, cpu, t, buffer, first):
        """A call whose thread owes a side's first a wake-up goes on with that; any other ends."""
        guest = self.guests[t]
        owed = next((side for side in (first, 1 - first) if buffer.front[side] == t), None)
        if owed is not None:
            guest.stage = "Own" if owed == guest.call()[1] else "Other"
            return
        guest.stage = "Returns"
        if cpu.hand is None:
            guest.end_call()


def main(words):
    parser = argparse.ArgumentParser(prog="monitor.py", description=__doc__, formatter_class=argparse.RawDescriptionHelpFormatter)
    parser.add_argument("--wrong", action="store_true", help="let a receive pass a woken thread")
    parser.add_argument("plan", metavar="PLAN")
    parser.add_argument("schedule", nargs="?", metavar="SCHEDULE")
    asked = parser.parse_args(words)
    try:
        raw = bytes_at(asked.plan)
        plan, items = read_run(raw, chosen(raw, asked.schedule))
    except Refusal as refusal:
        sys.stderr.write(refusal.told(asked.plan))
        return refusal.status
    kernel = Monitors(plan, "take-skips-the-turn" if asked.wrong else None)
    for c, times in items:
        for _ in range(times):
            kernel.step(c)
    sys.stdout.write(kernel.text())
    sys.stdout.flush()
    sys.stderr.write(kernel.states())
    return 0


if __name__ == "__main__":
    run_alone()
    sys.exit(main(sys.argv[1:]))
