#!/usr/bin/env python3
"""Compares the built program with all independent programs, which share no line of its code, over more cases than the gate does.

    tests/compare.py [--program PROGRAM]                               all ten comparisons; it takes some minutes
    tests/compare.py [--program PROGRAM] run [COUNT] [FIRST] [large]   only random plans, with the plain program of the step table

All: 2,000 random plans and 500 up to the limits with tests/plain_tower.rs, 10,000 damaged traces and 4,000 damaged plans with judges of the formats,
random plans in threads, and quiet ones. First it compares these programs with each other. The last line says whether all were equal.

Random plans: COUNT of them (default: 500), from the seed FIRST (default: 1) on; with `large` up to the limits, under schedules of up to
20,000 steps. It compares traces, state lines and statuses; the last line counts the equal ones.
Build first: (cd crates/mctower && rt run -- count --cpus 1 --times 1).
"""
import argparse
import os
import random
import subprocess
import sys
import tempfile
from pathlib import Path

import random_plan

TESTS = Path(__file__).resolve().parent
PROGRAM = TESTS.parent / "crates/mctower/out/mctower"
STEPS, LARGE_STEPS = 3000, 20_000


def compiled(name, room):
    """Builds a plain program of this folder and returns its path."""
    subprocess.run(["rustc", "-O", "-o", f"{room}/{name}", f"{TESTS}/{name}.rs"], check=True)
    return f"{room}/{name}"


def outcome(words, plan):
    done = subprocess.run(words, input=plan, capture_output=True, text=True, timeout=120)
    return done.returncode, done.stdout, done.stderr


def runs(program, plain, count, first, is_large):
    """Compares random runs with the plain program of the step table, and returns whether all were equal."""
    equal = 0
    for seed in range(first, first + count):
        plan = random_plan.plan(random.Random(seed), LARGE_STEPS if is_large else STEPS, is_large)
        schedule = plan.split("'")[1]
        ours = outcome([program, "run", "--schedule", schedule], plan)
        if ours == outcome([plain, schedule], plan):
            equal += 1
        else:
            print(f"seed {seed} differs (status {ours[0]})")
    print(f"{equal} of {count} equal")
    return equal == count


def script(name, *words):
    """Runs a script of this folder, and returns whether it found all equal."""
    return subprocess.run([sys.executable, f"{TESTS}/{name}", *map(str, words)]).returncode == 0


def compare_all(program, room):
    tower, check = compiled("plain_tower", room), compiled("plain_check", room)
    results = [
        script("twins_often.py", tower, 2000),
        script("twins_often.py", tower, 100, 1, "large"),
        script("damage_often.py", check, 10000, 1, "texts"),
        runs(program, tower, 2000, 1, False),
        runs(program, tower, 500, 1, True),
        script("damage_often.py", program, 10000, 1, "texts"),
        script("damage_often.py", program, 4000, 1, "plans"),
        script("quiet_often.py", program, 1, 200),
        script("threads_often.py", program, 1, 200),
        script("threads_often.py", program, 1, 50, "large"),
    ]
    differ = results.count(False)
    print(f"compared: {differ} of {len(results)} comparisons differ" if differ else "compared: all equal")
    return differ == 0


def main():
    read = argparse.ArgumentParser(description=__doc__, formatter_class=argparse.RawDescriptionHelpFormatter)
    read.add_argument("--program", default=PROGRAM)
    read.add_argument("what", nargs="?", choices=("all", "run"), default="all")
    read.add_argument("count", nargs="?", type=int, default=500)
    read.add_argument("first", nargs="?", type=int, default=1)
    read.add_argument("large", nargs="?", choices=("large",))
    given = read.parse_args()
    program = os.path.abspath(given.program)
    if not os.access(program, os.X_OK):
        sys.exit("build mctower first: (cd crates/mctower && rt run -- count --cpus 1 --times 1)")
    with tempfile.TemporaryDirectory() as room:
        if given.what == "run":
            equal = runs(program, compiled("plain_tower", room), given.count, given.first, given.large is not None)
        else:
            equal = compare_all(program, room)
    return 0 if equal else 1


if __name__ == "__main__":
    sys.exit(main())
