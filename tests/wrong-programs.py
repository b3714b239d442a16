#!/usr/bin/env python3
"""Gives scripts of the gate a program that is wrong in one thing, and checks that each detects it.

    tests/wrong-programs.py [PROGRAM]                    each script with each wrong program of SEES
    tests/wrong-programs.py --only SCRIPT [PROGRAM]      only this script, as tests/judge.py; --only may be given again

A wrong program is tests/wrong_program.rs under another name: it runs PROGRAM (default: crates/mctower/out/mctower) and changes its output or its status. A
script detects it if it ends with status 1 and its last line counts what failed. With the same program under the name `right`, which changes nothing, each
script must pass. It needs rustc. .ci/run calls it; it takes a minute or two of processor time. The last line is 'wrong programs: N seen, M not'.
"""
import argparse
import os
import re
import subprocess
import sys
import tempfile
from concurrent.futures import ThreadPoolExecutor
from pathlib import Path

from named import program_at

ROOT = Path(__file__).resolve().parent.parent
RIGHT = "right"
SEES = {
    "tests/explain.py": ("status_is_0", "refusals_have_another_number", "all_are_quiet", "places_are_others", "a_no_is_a_line_off"),
    "tests/plans.sh": ("left_has_nothing", "entries_have_another_pos", "all_are_quiet", "places_are_others", "the_last_entry_is_lost"),
    "tests/tables.py": ("status_is_0", "refusals_have_another_number", "places_are_others", "a_no_is_a_line_off", "a_no_is_a_yes"),
    "tests/judge.py": ("a_no_is_a_line_off", "a_no_is_a_yes"),
}
# How a script's last line counts what failed: '86 passed, 2 failed', '3347 compared, 1 differ'.
FAILURES = re.compile(r"\b([0-9]+) (?:failed|differ)$")


def judged(script, name, folder, program):
    """Runs a script over the program of this name in the folder. Returns whether that went as it has to, and how it went."""
    seen = {**os.environ, "MCTOWER_RIGHT": str(program)}
    ran = subprocess.run([ROOT / script, f"{folder}/{name}"], cwd=ROOT, env=seen, stdin=subprocess.DEVNULL, capture_output=True, text=True, errors="replace")
    last = (ran.stdout.strip().splitlines() or [""])[-1]
    counted = FAILURES.search(last)
    failures = int(counted[1]) if counted else 0
    is_well = ran.returncode == 0 and counted and not failures if name == RIGHT else ran.returncode == 1 and failures > 0
    return bool(is_well), f"status {ran.returncode}, {last!r}"


def built(folder, names):
    """Builds tests/wrong_program.rs under each of these names."""
    subprocess.run(["rustc", "--edition", "2024", "-O", "-o", f"{folder}/{RIGHT}", ROOT / "tests/wrong_program.rs"], check=True)
    for name in names - {RIGHT}:
        os.link(f"{folder}/{RIGHT}", f"{folder}/{name}")


def main():
    read = argparse.ArgumentParser(description=__doc__, formatter_class=argparse.RawDescriptionHelpFormatter)
    read.add_argument("--only", action="append", choices=SEES, metavar="SCRIPT")
    read.add_argument("program", nargs="?", default=ROOT / "crates/mctower/out/mctower", metavar="PROGRAM")
    given = read.parse_args()
    program = program_at(given.program)
    cases = [(script, name) for script in given.only or SEES for name in (*SEES[script], RIGHT)]
    with tempfile.TemporaryDirectory() as folder:
        built(folder, {name for _, name in cases})
        with ThreadPoolExecutor(len(os.sched_getaffinity(0))) as lanes:
            told = list(lanes.map(lambda case: judged(*case, folder, program), cases))
    wrong = [(*case, how) for case, (is_well, how) in zip(cases, told) if not is_well]
    for script, name, how in wrong:
        print(f"wrong programs: {script} {'fails over the right program' if name == RIGHT else f'does not see {name}'}: {how}")
    seen = sum(is_well for (_, name), (is_well, _) in zip(cases, told) if name != RIGHT)
    print(f"wrong programs: {seen} seen, {len(wrong)} not")
    return 1 if wrong or not seen else 0


if __name__ == "__main__":
    sys.exit(main())
