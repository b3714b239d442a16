#!/usr/bin/env python3
"""Runs random plans in threads, with one worker for each CPU and the two locks in turn. It checks the
exit status, that `check` prints yes for the trace, and the stop reason of each worker.

    threads_often.py MCTOWER FIRST COUNT [large]

With the word `large` the plans are up to the limits of CPUs and threads.

A line for each CPU, on standard error, has the stop reason of its worker. AllEnded is right only if
the program of each thread of that home CPU ended, followed along its entries. TraceFull is right only
if the trace is full, or a thread of that home CPU begins a call. Held is never right. The last line
counts the runs and each stop reason; the status is 1 if one was wrong.
"""
import argparse
import collections
import random
import subprocess
import sys

import quiet_often
import random_plan

STOPS = ("AllEnded", "TurnsUsed", "TraceFull")


def homes_of(plan):
    return [int(line.split(" = ")[1]) for line in plan.splitlines() if line.startswith("cpu =")]


def fault_of(plan, cpus, text, told):
    """What is wrong with a run, or None."""
    lines = told.splitlines()
    if len(lines) != cpus or any(line != f"cpu {c} {line.split(' ')[-1]}" for c, line in enumerate(lines)):
        return f"standard error is {told!r}"
    stops = [line.split(" ")[-1] for line in lines]
    if any(stop not in STOPS for stop in stops):
        return f"a stop of {stops}"
    entries, programs, homes = quiet_often.entries_of(text), quiet_often.programs_of(plan), homes_of(plan)
    calls = [quiet_often.next_call(program, entries[t]) for t, program in enumerate(programs)]
    for c, stop in enumerate(stops):
        own = [calls[t] for t, home in enumerate(homes) if home == c]
        if stop == "AllEnded" and any(call is not None for call in own):
            return f"CPU {c} has AllEnded, and a thread of it has a call left"
        if stop == "TraceFull" and all(call is None for call in own):
            return f"CPU {c} has TraceFull, and no thread of it has a call left"
    return None


def run(program, words, text):
    return subprocess.run([program, *words], input=text, capture_output=True, text=True, timeout=120)


def main():
    read = argparse.ArgumentParser(description=__doc__, formatter_class=argparse.RawDescriptionHelpFormatter)
    read.add_argument("program", metavar="MCTOWER")
    read.add_argument("first", type=int, metavar="FIRST")
    read.add_argument("count", type=int, metavar="COUNT")
    read.add_argument("large", nargs="?", choices=("large",))
    given = read.parse_args()
    program, first, count, is_large = given.program, given.first, given.count, given.large is not None
    ran = wrong = 0
    seen = collections.Counter()
    for seed in range(first, first + count):
        choose = random.Random(seed)
        plan = random_plan.plan(choose, 0, is_large)
        lock = ("ticket", "grant")[seed % 2]
        plan = plan.replace("\n[[thread]]", f'\nlock = "{lock}"\n\n[[thread]]', 1)
        cpus = int(plan.split("cpus = ")[1].split("\n")[0])
        turns = choose.choice([1, 10, 100, 1000, 10_000, 100_000])
        done = run(program, ["threads", "--turns", str(turns)], plan)
        ran += 1
        verdict = run(program, ["check"], done.stdout)
        fault = f"status {done.returncode}" if done.returncode else None
        fault = fault or (None if verdict.stdout == "yes\n" else f"check says {verdict.stdout!r}") or fault_of(plan, cpus, done.stdout, done.stderr)
        if fault:
            wrong += 1
            print(f"seed {seed}, lock {lock}, {turns} turns: {fault}")
        seen.update(line.split(" ")[-1] for line in done.stderr.splitlines())
    stops = ", ".join(f"{seen[stop]} {stop}" for stop in STOPS)
    print(f"threads: {ran} plans ran, {wrong} wrongly; the workers stopped with {stops}")
    sys.exit(1 if wrong or not ran else 0)


if __name__ == "__main__":
    main()
