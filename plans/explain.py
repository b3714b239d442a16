#!/usr/bin/env python3
"""Explains why `mctower` rejects a plan, a schedule or a trace: where, and what is expected there. It also lists the keys of a plan that are ignored.

    plans/explain.py PLAN [SCHEDULE]    explains what `mctower run` rejects
    plans/explain.py --check TEXT       explains what `mctower check` answers no to

PLAN or TEXT is a file, or - for standard input. The first line and the exit status are those of `mctower`: 0; 1 for a rejected plan; 2 for a bad
schedule; 3 for a no. With --beside the first line is omitted, for use after a run that printed it.
Nothing here is proved: tests/explain.py compares it with the program. It needs only Python 3.9 or later, no built program.
"""
import argparse
import sys
from pathlib import Path

import judging
import reading
import schedules


def plan_told(raw, name, schedule):
    """What is told of a plan and a schedule: the exit status, the first line, and the lines beside it."""
    schedule = schedules.chosen(raw, schedule)
    try:
        plan, _ = schedules.read_run(raw, schedule)
    except reading.Refusal as refusal:
        return refused(refusal, name)
    beside = [f"{name}:{line}: {note}" for line, note in reading.ignored(plan)]
    if schedule is None:
        beside.append(f"{name}: without a schedule `mctower run` takes no step: plans/kernel.py --rounds prints one")
    return 0, f"{name}: accepted", beside


def text_told(raw, name):
    """What is told of a trace text: the exit status, the first line, and the lines beside it."""
    fault = judging.fault_in(raw)
    return (3, f"no {fault.line} {fault.reason}", [f"{name}:{fault.line}: {fault.why}"]) if fault else (0, "yes", [])


def refused(refusal, name):
    first, *beside = refusal.told(name).rstrip("\n").split("\n")
    return refusal.status, first, beside


def told(asked):
    """What is told of what a command line asks about."""
    name = reading.file_name(asked.file)
    try:
        raw = reading.bytes_at(asked.file)
    except reading.Refusal as refusal:
        return refused(refusal, name)
    return text_told(raw, name) if asked.check else plan_told(raw, name, asked.schedule)


def main(words):
    parser = argparse.ArgumentParser(description=__doc__, formatter_class=argparse.RawDescriptionHelpFormatter, usage=argparse.SUPPRESS, allow_abbrev=False)
    parser.add_argument("--check", action="store_true", help="the file is a trace")
    parser.add_argument("--beside", action="store_true", help="print only the explanation, without the first line")
    parser.add_argument("file")
    parser.add_argument("schedule", nargs="?")
    asked = parser.parse_args(words)
    if asked.file != "-" and not Path(asked.file).exists():
        parser.exit(2, f"explain: no such file: {asked.file}; expected a plan or a trace\n")
    status, first, beside = told(asked)
    sys.stdout.reconfigure(encoding="utf-8", errors="backslashreplace")
    if not asked.beside:
        print(first)
    for line in beside if status or not asked.beside else []:
        print(line)
    return status


if __name__ == "__main__":
    sys.exit(main(sys.argv[1:]))
