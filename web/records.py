#!/usr/bin/env python3
"""Prints the records of the stored plans, for web/test.mjs: a line of JSON for each, with its name, the plan's text and the record of plans/record.py.

    web/records.py

Each plan of plans/ and tests/rows/ once as it stands, and those with short schedules once more with each mistake.
"""
import json
import sys
from pathlib import Path

ROOT = Path(__file__).resolve().parent.parent
sys.path.append(str(ROOT / "plans"))
from kernel import WRONG, schedule_in, steps_of  # noqa: E402
from reading import read_plan  # noqa: E402
from record import record  # noqa: E402

SHORT = 100  # steps


def records():
    for path in sorted([*(ROOT / "plans").glob("*.toml"), *(ROOT / "tests/rows").glob("*.toml")]):
        text = path.read_text(encoding="utf-8")
        steps = steps_of(schedule_in(text))
        for wrong in [None, *(WRONG if len(steps) <= SHORT else [])]:
            told, _ = record(read_plan(text.encode()), steps, wrong)
            yield path.stem, text, told


def main():
    if sys.argv[1:] == ["--help"]:
        print(__doc__)
        return
    for one in records():
        print(json.dumps(one, separators=(",", ":")))


if __name__ == "__main__":
    main()
