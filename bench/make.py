#!/usr/bin/env python3
"""Writes one of the measured inputs: a plan, a schedule or a trace.

    bench/make.py plan [KIND]      half of the threads send, half receive, without end
    bench/make.py schedule [KIND]  the steps that are measured on that plan
    bench/make.py trace            524,288 entries over 16 buffers of 32 places: fills of 32 sends, then 32 receives

The kinds of plans and their schedules:

    misses    8 CPUs, 64 threads, 16 buffers. Each buffer's threads are on several CPUs, whose 128 steps end inside sections, so that nearly each
              step is a failed poll; 1,048,576 steps. This is the default
    through   the same CPUs, each with two buffers that no other CPU uses, so that messages get through
    across    as many CPUs, threads and buffers as there may be, with threads on several CPUs; 1,048,576 steps, 128 at a time
    turns     1 CPU, where one thread sends and one receives through a buffer of one place; 1,048,576 steps
    singly    the plan of through, and 65,520 steps, each on another CPU than the one before
    once      the plan of misses, and one step
"""
import argparse
import itertools
import sys
from dataclasses import dataclass
from pathlib import Path

sys.path.append(str(Path(__file__).resolve().parent.parent / "plans"))
from limits import BUFFERS, CAPACITY, CPUS, MOST_STEPS, THREADS, TRACE  # noqa: E402

STEPS = MOST_STEPS
STRETCH = 128
SINGLE_STEPS = 65_520
FILL_CPUS, FILL_BUFFERS, FILL_CAPACITY, FILLS = 8, 16, 32, 512
PROGRAM = '["set r0 1000000", "set r1 1", "{call} {buffer} r0", "add r2 r1", "jnz r1 2"]'


@dataclass
class Shape:
    """How large a plan is, and whether its messages get through: then each buffer belongs to one CPU."""

    cpus: int
    threads: int
    buffers: int
    capacity: int
    own_buffers: bool

    def placed(self, thread):
        """Returns the CPU and the buffer of a thread, and whether it receives."""
        row, column = divmod(thread, self.cpus)
        receives = row % 2 == 1
        if self.cpus == 1:
            return 0, 0, receives
        if self.own_buffers:
            share = self.buffers // self.cpus
            return column, column * share + row * share // (self.threads // self.cpus), receives
        return (column + row) % self.cpus, (column + row // 4 * self.cpus) % self.buffers, receives


MISSES = Shape(8, 64, 16, 32, False)
THROUGH = Shape(8, 64, 16, 32, True)
ACROSS = Shape(CPUS, THREADS, BUFFERS, CAPACITY, False)
SHAPES = {"misses": MISSES, "through": THROUGH, "across": ACROSS, "turns": Shape(1, 2, 1, 1, True), "singly": THROUGH, "once": MISSES}


def plan(shape):
    yield f"cpus = {shape.cpus}\ntrace = {TRACE}\nbuffers = [{', '.join([str(shape.capacity)] * shape.buffers)}]"
    for thread in range(shape.threads):
        cpu, buffer, receives = shape.placed(thread)
        call = "recv" if receives else "send"
        yield f"\n[[thread]]\ncpu = {cpu}\nprogram = {PROGRAM.format(call=call, buffer=buffer)}"


def schedule(kind):
    cpus = SHAPES[kind].cpus
    if kind == "once":
        return "0"
    if kind == "singly":
        return ",".join(str(step % cpus) for step in range(SINGLE_STEPS))
    return ",".join(f"{cpu}*{STRETCH}" for _ in range(STEPS // STRETCH // cpus) for cpu in range(cpus))


def filled(turn, buffer):
    """Yields the entries of one fill of a buffer: all its sends, then all its receives."""
    for kind, cpu, thread, first in (("send", buffer % FILL_CPUS, buffer, 0), ("recv", (buffer + 1) % FILL_CPUS, buffer + FILL_BUFFERS, FILL_CAPACITY)):
        for at in range(FILL_CAPACITY):
            position = turn * FILL_CAPACITY + at
            yield f"e {cpu} {thread} {kind} {buffer} {position * 1000003} {2 * turn * FILL_CAPACITY + first + at} {position}"


def trace():
    yield f"mctower-trace 1\nbuffers {FILL_BUFFERS}"
    yield from (f"cap {buffer} {FILL_CAPACITY}" for buffer in range(FILL_BUFFERS))
    for turn, buffer in itertools.product(range(FILLS), range(FILL_BUFFERS)):
        yield from filled(turn, buffer)
    yield from (f"left {buffer}" for buffer in range(FILL_BUFFERS))
    yield "end"


def main():
    read = argparse.ArgumentParser(description=__doc__, formatter_class=argparse.RawDescriptionHelpFormatter)
    read.add_argument("what", choices=("plan", "schedule", "trace"))
    read.add_argument("kind", nargs="?", choices=SHAPES, default="misses", help="of a plan or a schedule")
    given = read.parse_args()
    if given.what == "schedule":
        print(schedule(given.kind), end="")
    else:
        print("\n".join(plan(SHAPES[given.kind]) if given.what == "plan" else trace()))


if __name__ == "__main__":
    main()
