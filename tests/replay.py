#!/usr/bin/env python3
"""Runs plans in threads, with each lock, and replays what they print: plans/replay.py finds a schedule for each text and its stops, and the built program
prints the same text under it, byte for byte, and stops so. A search may find none, for one text in twenty at most. Damaged texts must be rejected, each with
its line. .ci/run calls it; it takes seconds.

    tests/replay.py [PROGRAM]

The last line is 'replay: N passed, M failed'.
"""
import argparse
import random
import subprocess
import sys
from pathlib import Path

ROOT = Path(__file__).resolve().parent.parent
sys.path.insert(0, str(ROOT / "plans"))

import random_plan  # noqa: E402
from named import program_at  # noqa: E402
from reading import read_plan  # noqa: E402
from replay import NoReplay, NotFound, replay, stops_in  # noqa: E402

TIMES, RANDOM, SOUGHT = 2, 40, 20
LOOP = 'program = ["set r0 {times}", "set r1 1", "{call}", "sub r0 r1", "jnz r0 2"{end}]'


def plan_of(capacity, threads):
    """A plan with one buffer, in which each thread, at home on this CPU, repeats its call so often, and then does one thing more or nothing."""
    texts = [f'[[thread]]\ncpu = {c}\n' + LOOP.format(times=times, call=call, end=f', "{end}"' if end else "") for c, times, call, end in threads]
    return "\n".join([f"cpus = {1 + max(c for c, *_ in threads)}\ntrace = 200\nbuffers = [{capacity}]", *texts]) + "\n"


def plans():
    """Each plan by its name: those of plans/, some rows, some of many calls, and random ones."""
    rows = [ROOT / "tests/rows" / f"{name}.toml" for name in ("closed-before-two-receivers", "words", "most-threads")]
    paths = [*sorted((ROOT / "plans").glob("*.toml")), *rows]
    named = {path.stem: path.read_text() for path in paths}
    named["a hundred messages"] = plan_of(4, [(0, 100, "send 0 r0", ""), (1, 100, "recv 0 r2", "")])
    named["eight words"] = plan_of(4, [(0, 100, "sendm 0 8", "close 0"), (1, 100, "recv 0 r2", "")])
    named["sixteen CPUs"] = plan_of(4, [(c, 10, "send 0 r0" if c < 8 else "recv 0 r2", "") for c in range(16)])
    named["three at home on each of two CPUs"] = plan_of(1, [(i % 2, 8, "send 0 r0" if i < 3 else "recv 0 r2", "") for i in range(6)])
    return named | {f"random plan {seed}": random_plan.plan(random.Random(seed), 0) for seed in range(1, RANDOM + 1)}


def outcome(words, plan):
    done = subprocess.run(words, input=plan.encode(), capture_output=True, timeout=120)
    return done.stdout, done.stderr


def fault_of(program, plan, turns):
    """What is wrong with a replay of what the plan prints in threads, or None; and the text."""
    text, told = outcome([program, "threads", "--turns", str(turns)], plan)
    read = read_plan(plan.encode())
    try:
        stops = stops_in(told, read["cpus"])
        schedule = replay(read, text, stops)
    except NotFound:
        raise
    except NoReplay as fault:
        return f"{fault}, of this text:\n{text.decode()}{told.decode()}", text
    again, states = outcome([program, "run", *(["--schedule", schedule] if schedule else [])], plan)
    ends = [line.split(" ")[2] for line in states.decode().splitlines() if line.startswith("cpu ")]
    return (None if (again, ends) == (text, stops) else f"under {schedule} it prints something else"), text


def damaged(text):
    """Texts that no run prints, each with the line to blame: another message, thread or place; an entry more; and one of another plan."""
    lines = text.decode().splitlines()
    yield 4, [line.replace(" 0 100 ", " 0 9100 ") for line in lines]
    yield 4, [*lines[:3], lines[3].replace("e 0 0", "e 1 0"), *lines[4:]]
    yield 4, [*lines[:3], lines[3].replace("e 0 0", "e 0 1"), *lines[4:]]
    yield 4, [*lines[:3], *lines[4:]]
    yield 2, [*lines[:2], "cap 0 5", *lines[3:]]
    yield len(lines) - 1, [*lines[:-2], "e 0 0 send 0 1 200 100", "left 0 1", "end"]


def refusals(plan, text):
    """What is wrong with how damaged texts are refused, one for each: None, or why."""
    for line, lines in damaged(text):
        try:
            schedule = replay(read_plan(plan.encode()), ("\n".join(lines) + "\n").encode(), None)
            yield f"a text that is damaged in line {line} is replayed by {schedule}"
        except NoReplay as fault:
            yield None if fault.line == line else f"a text that is damaged in line {line}: line {fault.line}: {fault}"


def main():
    read = argparse.ArgumentParser(description=__doc__, formatter_class=argparse.RawDescriptionHelpFormatter)
    read.add_argument("program", metavar="PROGRAM", nargs="?", default=ROOT / "crates/mctower/out/mctower")
    program = str(program_at(read.parse_args().program))
    passed, faults, lost = 0, [], []
    for name, plan in plans().items():
        for lock, turns in [(lock, turns) for lock in ("ticket", "grant") for turns in ([100, 2000] if "random" in name else [10, *[100_000] * TIMES])]:
            try:
                fault, text = fault_of(program, f'lock = "{lock}"\n{plan}', turns)
            except NotFound as end:
                lost.append(f"{name}, lock {lock}, {turns} turns: {end}")
                text = None
                continue
            passed += fault is None
            faults += [f"{name}, lock {lock}, {turns} turns: {fault}"] if fault else []
        if name == "a hundred messages" and text:
            told = list(refusals(plan, text))
            passed += told.count(None)
            faults += [fault for fault in told if fault]
    print(*(f"replay: not found: {end}" for end in lost), sep="\n")
    if len(lost) * SOUGHT > passed:
        faults.append(f"of {len(lost)} texts no schedule was found")
    print(*(f"replay: {fault}" for fault in faults), f"replay: {passed} passed, {len(faults)} failed", sep="\n")
    return 1 if faults else 0


if __name__ == "__main__":
    sys.exit(main())
