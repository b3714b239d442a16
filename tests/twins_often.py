#!/usr/bin/env python3
"""Compares two programs of the step table over random plans: plans/kernel.py and tests/plain_tower.rs, which share no line and no language with each other or
with the tower.

    tests/twins_often.py PLAIN_TOWER [COUNT] [FIRST] [large]

PLAIN_TOWER is the built tests/plain_tower.rs; with the word `large` the plans are up to the limits. It compares the trace and the state lines at the end of
each plan's schedule. The last line counts the plans, those in which a close took effect, those with a message of several words, and the effects of each kind.
The status is 1 if one differs, or if no plan has a close, or none a message of several words.
"""
import argparse
import collections
import random
import subprocess
import sys
from pathlib import Path

import random_plan
from named import program_at

sys.path.append(str(Path(__file__).resolve().parent.parent / "plans"))
import kernel  # noqa: E402
from reading import read_plan  # noqa: E402

STEPS, LARGE_STEPS = 3000, 20_000


def by_kernel(plan, schedule):
    system = kernel.Kernel(read_plan(plan.encode()))
    for c in kernel.steps_of(schedule):
        system.step(c)
    return system.text(), system.states()


def by_plain_tower(program, plan, schedule):
    done = subprocess.run([program, schedule], input=plan, capture_output=True, text=True, check=True, timeout=60)
    return done.stdout, done.stderr


def main():
    read = argparse.ArgumentParser(description=__doc__, formatter_class=argparse.RawDescriptionHelpFormatter)
    read.add_argument("program", type=program_at, metavar="PLAIN_TOWER")
    read.add_argument("count", nargs="?", type=int, default=2000, metavar="COUNT")
    read.add_argument("first", nargs="?", type=int, default=1, metavar="FIRST")
    read.add_argument("large", nargs="?", choices=("large",))
    given = read.parse_args()
    program, first, count, is_large = given.program, given.first, given.count, given.large is not None
    kinds, closed, worded, differ = collections.Counter(), 0, 0, 0
    for seed in range(first, first + count):
        plan = random_plan.plan(random.Random(seed), LARGE_STEPS if is_large else STEPS, is_large)
        schedule = kernel.schedule_in(plan)
        text, states = by_kernel(plan, schedule)
        if (text, states) != by_plain_tower(program, plan, schedule):
            differ += 1
            print(f"seed {seed} differs")
        own = collections.Counter(line.split(" ")[3] for line in text.splitlines() if line.startswith("e "))
        kinds.update(own)
        closed += own["close"] > 0
        worded += text.startswith("mctower-trace 3")
    told = ", ".join(f"{kinds[kind]} {kind}" for kind in ("send", "recv", "close", "sendc", "recvc"))
    print(f"twins: {count} plans, {closed} of them with a close, {worded} with a message of several words, {differ} differ; {told}")
    sys.exit(1 if differ or not closed or not worded else 0)


if __name__ == "__main__":
    main()
