#!/usr/bin/env python3
"""Counts the allocations of whole runs of the built program. A run in which each thread makes a thousand calls allocates as often as one, of the same shape,
in which each makes one call, and a count of a thousand sections as often as a count of one. So no step, no turn and no section allocates. The counter is
tests/refuse.rs: it fails the allocation of a given number, if there is one.

    tests/allocations.py [PROGRAM]

Without a name it runs the build that `rt ci` or `rt run` left. It takes seconds. The last line is 'N passed, M failed'.
"""
import argparse
import os
import subprocess
import sys
import tempfile
from pathlib import Path

sys.dont_write_bytecode = True
from named import program_at

ROOT = Path(__file__).resolve().parent.parent
sys.path.append(str(ROOT / "plans"))
from limits import MOST_STEPS  # noqa: E402


def plan_of(calls, lock):
    """Returns a plan in which one thread sends so many messages, and another receives them."""
    sender, receiver = ([f"set r0 {calls}", "set r1 1", call, "sub r0 r1", "jnz r0 2"] for call in ("send 0 r0", "recv 0 r2"))
    threads = "".join(f"[[thread]]\ncpu = {cpu}\nprogram = {program}\n".replace("'", '"') for cpu, program in enumerate((sender, receiver)))
    return f'cpus = 2\ntrace = 1000\nbuffers = [4]\nlock = "{lock}"\n{threads}'


def rounds(steps):
    """Returns a schedule of so many steps, 64 of CPU 0 and 64 of CPU 1 in turn."""
    return ",".join(f"{at % 2}*{min(64, steps - 64 * at)}" for at in range((steps + 63) // 64))


class Counter:
    """Counts the allocations of runs of a program."""

    def __init__(self, program, room):
        self.program, self.library = program, f"{room}/librefuse.so"
        words = ["rustc", "--edition", "2024", "-O", "-C", "panic=abort", "--crate-type", "cdylib", "-o", self.library, ROOT / "tests/refuse.rs"]
        subprocess.run(words, check=True, env={**os.environ, "PATH": f"{os.environ['PATH']}:{Path.home()}/.cargo/bin"})

    def run(self, words, text, **failing):
        """Runs the program, with an allocation that fails where one is named, and returns whether it failed, and the run."""
        env = {**os.environ, "LD_PRELOAD": self.library, **{name: str(value) for name, value in failing.items()}}
        run = subprocess.run([self.program, *words], input=text, capture_output=True, text=True, timeout=60, env=env)
        return run.stderr.startswith("refused\n") or "\nrefused\n" in run.stderr, run

    def count(self, words, text):
        """Returns how many allocations this run makes: the least number minus 1 at which no allocation fails."""
        low, high = 0, 1  # number `low` fails, where it is not 0
        while self.run(words, text, REFUSE=high)[0]:
            low, high = high, 2 * high
        while high - low > 1:
            middle = (low + high) // 2
            low, high = (middle, high) if self.run(words, text, REFUSE=middle)[0] else (low, middle)
        return low


def asked(words, last):
    """Returns the arguments and the input of a run: a count's last argument is how many sections, another command's input is a plan."""
    return ([*words, last], "") if words[0] == "count" else (words, last)


def main():
    read = argparse.ArgumentParser(description=__doc__, formatter_class=argparse.RawDescriptionHelpFormatter)
    read.add_argument("program", nargs="?", default=ROOT / "crates/mctower/out/mctower", metavar="PROGRAM")
    program = program_at(read.parse_args().program)
    passed = failed = 0
    with tempfile.TemporaryDirectory() as room:
        counter = Counter(program, room)
        for lock in ("ticket", "grant"):
            counting = ["count", "--cpus", "4", "--lock", lock, "--times"]
            for name, words, short, long in [
                ("run", ["run", "--schedule", rounds(MOST_STEPS // 8)], plan_of(1, lock), plan_of(1000, lock)),
                ("threads", ["threads", "--turns", "1000000000"], plan_of(1, lock), plan_of(1000, lock)),
                ("count", counting, "1", "1000"),
            ]:
                few = counter.count(*asked(words, short))
                is_refused, run = counter.run(*asked(words, long), REFUSE_FROM=few + 1)
                found = (run.returncode, is_refused, few > 0)
                if found == (0, False, True):
                    passed += 1
                else:
                    failed += 1
                    print(f"allocations: {name} with lock {lock}: {few} in a short run; in a long one status, more, and any: {found}")
    print(f"{passed} passed, {failed} failed")
    return 1 if failed or not passed else 0


if __name__ == "__main__":
    sys.exit(main())
