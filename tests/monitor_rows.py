#!/usr/bin/env python3
"""Prints plans as a file of tests/layers, each with its schedule, and with the trace and the state lines with which it ends. The same plans each time.

    tests/monitor_rows.py [FIRST COUNT]

BOTH has the plans of plans/ that end alike over queuing locks and conditions and over monitors, each CPU in its turn: those in whose order the bodies
have no say. ROWS has random plans over monitors. How they end is what plans/kernel.py and plans/monitor.py say, short Python models. tests/layers.sh calls it.
"""
import argparse
import random
import sys
from pathlib import Path

ROOT = Path(__file__).resolve().parent.parent
sys.path += [str(ROOT / "plans"), str(ROOT / "tests")]

import random_plan  # noqa: E402
from kernel import Kernel  # noqa: E402
from monitor import Monitors  # noqa: E402
from reading import read_plan  # noqa: E402
from schedules import rounds, schedule_in, schedule_of, steps_of  # noqa: E402

# Enough steps that most threads of a plan end or wait, and few enough that the tests take seconds.
STEPS = 1500
# Steps of each CPU in its turn, and how many of the worked plans must end alike.
EACH, LEAST = 60, 14


def row(text, schedule, kernel):
    """A plan with its schedule, and how its run ends."""
    for c in steps_of(schedule):
        kernel.step(c)
    body = "".join(f"{line}\n" for line in text.splitlines() if not line.startswith("#"))
    return f"{body}-- {schedule}\n{kernel.text()}--\n{kernel.states()}"


def drawn(seed):
    """A random plan over monitors."""
    text = random_plan.plan(random.Random(seed), STEPS)
    return row(text, schedule_in(text), Monitors(read_plan(text.encode())))


def of_both(path):
    """A worked plan, each CPU in its turn until none has work over either body; None if it ends otherwise over the other."""
    text = path.read_text()
    plan = read_plan(text.encode())
    schedule = schedule_of([*rounds(Kernel(plan), EACH), *rounds(Monitors(plan), EACH)])
    rows = {row(text, schedule, kernel(plan)) for kernel in (Kernel, Monitors)}
    return rows.pop() if len(rows) == 1 else None


def constant(name, remark, rows):
    separator = "==\n"
    return f'/// {remark}\npub const {name}: &str = r#"{separator.join(rows)}"#;\n'


def main():
    read = argparse.ArgumentParser(description=__doc__, formatter_class=argparse.RawDescriptionHelpFormatter)
    read.add_argument("first", nargs="?", type=int, default=1, metavar="FIRST")
    read.add_argument("count", nargs="?", type=int, default=150, metavar="COUNT")
    given = read.parse_args()
    both = [it for it in map(of_both, sorted((ROOT / "plans").glob("*.toml"))) if it]
    if len(both) < LEAST:
        sys.exit(f"monitor_rows: only {len(both)} plans end alike over both bodies")
    rows = [drawn(seed) for seed in range(given.first, given.first + given.count)]
    print("//! Plans, and how each ends: a plan, its schedule, the trace text and the state lines, divided by a line `==`.\n")
    print(constant("BOTH", "Plans that end alike over both bodies of the layer of buffers.", both))
    print(constant("ROWS", "Random plans over monitors.", rows), end="")


if __name__ == "__main__":
    main()
