#!/usr/bin/env python3
"""Runs each test of tests/layers/src/refusals.rs once for each allocation and each start of a thread, which fails: first that one only, then that one and
all later ones. tests/refuse.sh calls it with the program that `rt try --test --fail-alloc NUMBER` builds, and with the library that fails starts.

    tests/refusals.py --never             prints a NUMBER of allocations that no test reaches
    tests/refusals.py PROGRAM LIBRARY

`rt try` compiles its number into the program, at the two places that request memory. This script replaces it there by other numbers. It replaces a jump so
that all later allocations fail too, and the failure by a trap, which shows whether an allocation is requested at all. tests/refuse.rs fails starts. The
last line is 'refuse: N tests passed, M runs with something refused'.
"""
import argparse
import itertools
import os
import re
import resource
import subprocess
from pathlib import Path

SOURCE = Path(__file__).resolve().parent / "layers/src/refusals.rs"
NEVER = 0x5EEDBEEF
PLACES = 2  # an allocation, and one that grows
COMPARE = b"\x48\x3d"  # cmp rax, NUMBER
ALONE, FROM_IT_ON = b"\x75\x0c", b"\x72\x0c"  # jne and jb, over the 12 bytes that answer without memory
REFUSES, TRAPS = b"\x31\xc0", b"\x0f\x0b"  # xor eax, eax; ud2
LONGEST_S = 60
# Natives that wait for each other yield: forty messages take a quarter of this processor time. Without a yield each one takes a slice of time, seconds for all.
ON_ONE_PROCESSOR, PROCESSOR_S = "natives::two_producers_and_a_consumer", 1


def fails(why):
    raise SystemExit(f"refuse: {why}")


class Refuser:
    """The kept program, and how often a test ran in it with something refused."""

    def __init__(self, program, library):
        self.program, self.library, self.runs = program, library, 0
        written = self.code(NEVER, ALONE, REFUSES)
        self.places = [it.start() for it in re.finditer(re.escape(written), Path(program).read_bytes())]
        if len(self.places) != PLACES:
            fails(f"allocations fail in another way than this script knows: the number is at {len(self.places)} places, expected {PLACES}")

    @staticmethod
    def code(number, which, answer):
        return COMPARE + number.to_bytes(4, "little") + which + answer

    def set_refused(self, number, which=ALONE, answer=REFUSES):
        """Has the program refuse the allocation of this number, alone or from it on; or has it end there."""
        with open(self.program, "r+b") as file:
            for place in self.places:
                file.seek(place)
                file.write(self.code(number, which, answer))

    def ran(self, test, what, **refused):
        """Runs a test to its end, and returns how that went."""
        try:
            seen = {**os.environ, "LD_PRELOAD": self.library, **refused}
            return subprocess.run([self.program, test], env=seen, capture_output=True, text=True, errors="replace", timeout=LONGEST_S)
        except subprocess.TimeoutExpired:
            return fails(f"{test} had not ended after {LONGEST_S} seconds with {what}")

    def passes(self, test, what, **refused):
        """Runs a test, which passes whatever is refused; returns its lines on standard error."""
        ran = self.ran(test, what, **refused)
        if ran.returncode:
            fails(f"{test} FAILED with {what}, status {ran.returncode}\n{ran.stdout}{ran.stderr}")
        return ran.stderr.splitlines()

    def asks(self, test, number):
        """Whether a test comes to the allocation of this number."""
        self.set_refused(number, answer=TRAPS)
        return self.ran(test, f"a trap at allocation {number}").returncode != 0

    def allocations(self, test):
        """Refuses each allocation of a test, alone and with all later ones; returns how many there are."""
        number = 1
        while self.asks(test, number):
            for which, words in (ALONE, "alone"), (FROM_IT_ON, "and all later ones"):
                self.set_refused(number, which)
                self.passes(test, f"allocation {number} refused, {words}")
                self.runs += 1
            number += 1
        self.set_refused(NEVER)
        return number - 1

    def starts(self, test):
        """Refuses each start of a thread, alone and with all later ones; returns how many there are."""
        for kind in ("REFUSE_THREAD", "REFUSE_THREAD_FROM"):
            for number in itertools.count(1):
                if "refused" not in self.passes(test, f"{kind}={number}", **{kind: str(number)}):
                    break
                self.runs += 1
        return number - 1


def tests_of(program):
    """The tests of the program that are of the source; those that stand in the source and not in the program fail."""
    listed = subprocess.run([program, "--list"], capture_output=True, text=True, check=True).stdout
    tests = re.findall(r"^(refusals::.*): test$", listed, re.M)
    written = re.findall(r"^#\[test\]\n(?:#.*\n)*fn (\w+)", SOURCE.read_text(), re.M)
    lost = {f"refusals::{it}" for it in written} ^ set(tests)
    if lost or not tests:
        fails(f"{SOURCE.name} has {len(written)} tests, and the program {len(tests)}: {', '.join(sorted(lost))}")
    return tests


def on_one_processor():
    os.sched_setaffinity(0, {min(os.sched_getaffinity(0))})
    resource.setrlimit(resource.RLIMIT_CPU, (PROCESSOR_S, PROCESSOR_S))


def main():
    read = argparse.ArgumentParser(description=__doc__, formatter_class=argparse.RawDescriptionHelpFormatter)
    read.add_argument("--never", action="store_true")
    read.add_argument("built", nargs="*", metavar="PROGRAM LIBRARY")
    given = read.parse_args()
    if given.never:
        print(NEVER)
        return
    if len(given.built) != 2:
        read.error("expected a PROGRAM and a LIBRARY")
    refuser, all_starts = Refuser(*map(os.path.abspath, given.built)), 0
    tests = tests_of(refuser.program)
    for test in tests:
        allocations, starts = refuser.allocations(test), refuser.starts(test)
        print(f"{test} passed with each of its {allocations} allocations and {starts} starts refused, alone and with all later ones", flush=True)
        if not allocations:
            fails(f"{test} asks for no memory")
        all_starts += starts
    if not all_starts:
        fails("no start of a thread was refused")
    if subprocess.run([refuser.program, ON_ONE_PROCESSOR], stdout=subprocess.DEVNULL, preexec_fn=on_one_processor).returncode:
        fails(f"{ON_ONE_PROCESSOR} took more than {PROCESSOR_S} second of one processor, or FAILED")
    print(f"refuse: {len(tests)} tests passed, {refuser.runs} runs with something refused")


if __name__ == "__main__":
    main()
