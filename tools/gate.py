#!/usr/bin/env python3
"""Runs the merge gate: `rt ci` (every proof from nothing, the must-fail edits, the program as two compilers build it); then scripts over the programs that it
leaves, as many in parallel as there are cores; and the mutants of crates/NAME/wrong, over the libraries that it leaves. What needs no such program runs next
to the last proofs of `rt ci`, which leave a core idle: mutants, the library for C, and scripts that only read the tree.

    .ci/run           runs all, and reads no input
    .ci/run --list    prints the scripts, one a line, with 'early' before each that may run next to `rt ci`, and 'alone' before each that runs by itself

The output of a script is printed in one piece, once the script has ended. What each step took, which steps failed, and which had nothing to test, is printed
again at the end. The last line adds up what `rt ci` and tests/wrong-bodies.py passed and failed. Each other script that fails, or that a signal ends, counts as
one failure, and so does a program that `rt ci` must leave and did not. If a tool is missing that some script needs, it says so at once and runs nothing.
"""
import argparse
import contextlib
import os
import re
import shutil
import signal
import subprocess
import sys
import tempfile
import threading
import time
import typing
from concurrent.futures import ThreadPoolExecutor

ROOT = os.path.dirname(os.path.dirname(os.path.realpath(__file__)))
# One script a line. These need all libraries, but not the program: they begin while `rt ci` proves the last crate.
OVER_LIBRARIES = """
embed/build.py --beside-ci
metal/console.py --prove
"""
# These only read the tree, and write to folders of their own. They run one at a time next to the last proofs of `rt ci`, the longest first.
EARLY = """
tests/layers.sh
tests/refuse.sh
tests/third-lock.sh
tests/another-capacity.py
tools/public-functions.py
tools/cycles.py
tools/columns.py
tools/prose.py
tools/claims.py
tools/words.py
tools/trusted.py
tools/limit-table.py
tools/may-wait.py
tests/help.sh
"""
# These also read what `rt ci` left: they run side by side, the longest first.
BESIDE = """
tests/every-step.sh
tests/look.py
tests/book.py
explore/test.py
tests/faults.sh
web/test.mjs
tests/explain.py
tests/judge.py
tests/tables.py
tests/plans.sh
tests/replay.py
tests/wrong-programs.py
tests/allocations.py
tests/gate.py
tests/manual.sh
"""
# These start as many threads as a plan may have CPUs and give up after a while, or measure time: each has the machine for itself.
ALONE = """
tests/edge.sh
tests/threads.sh
tests/parks.py
web/in_browser.py
metal/test.py
metal/wrong_hosts.py
metal/console.py
embed/test.py
embed/wrong_hosts.py
"""
# These look at nothing where there is no browser, no QEMU or no C compiler. They end with this status then, and print why: such a one is left out, and has
# not failed.
MAY_LOOK_AT_NOTHING = {
    "embed/build.py --beside-ci",
    "web/in_browser.py",
    "metal/test.py",
    "metal/wrong_hosts.py",
    "metal/console.py",
    "embed/test.py",
    "embed/wrong_hosts.py",
}
LOOKED_AT_NOTHING = 77
# Without these some script fails. The scripts look for rustc in that folder too.
TOOLS = ("rt", "python3", "node", "rustc")
TOOLS_ELSEWHERE = "~/.cargo/bin"
LEAST_PYTHON = (3, 9)
# What `rt ci` leaves, by either compiler. Scripts run over those of them that are there.
BUILDS = ("crates/mctower/out/mctower", "crates/mctower/out/mctower.by-rattle")
# Early steps run one at a time, once no more crates than this are left to prove: on two cores `rt ci` gives each proof one core: the task of its crate's
# tests, which is empty here, becomes ready with it and counts for the other. So `cpu_workers` and then `mctower` leave a core idle. What needs all libraries
# begins with the last crate. A step begins only while so much memory is free. The largest check takes 6 GB, and `rt ci` may be about to begin it; a check of
# mutants takes up to 5 GB beside it.
LAST_CRATES = 2
LAST_CRATE = 1
SCRIPT_MEMORY = 8_000_000_000
BODIES_MEMORY = 14_000_000_000
PROVED = re.compile(r"rt: \w+ (proved|is kept: .*)")
# Minutes of processor time for wrong bodies that are drawn from those that were refused before.
DRAWN_MINUTES = "16"
BODIES = "tests/wrong-bodies.py"
SUM = re.compile(r"(\d+) passed, (\d+) failed")


class Gate:
    """What the steps so far passed and failed, and a line on each."""

    def __init__(self):
        self.passed, self.failed, self.steps, self.lost, self.left_out, self.turn = 0, 0, [], [], [], threading.Lock()

    def take(self, name, began, status, usage, said=""):
        """Prints what a step said, and keeps what it took and whether it failed."""
        why = how_it_ended(status)
        minutes = (time.monotonic() - began) / 60, (usage.ru_utime + usage.ru_stime) / 60
        line = f"gate: {name}{why} took {minutes[0]:.1f} minutes, {minutes[1]:.1f} of processor time"
        with self.turn:
            self.steps.append(line)
            self.lost += [name] * (status != 0)
            print(said, line, sep="", flush=True)

    def script(self, name):
        """Runs a script, and counts it where it fails."""
        began = time.monotonic()
        with tempfile.TemporaryFile() as said:
            status, usage = ended(subprocess.Popen(name.split(), cwd=ROOT, stdin=subprocess.DEVNULL, stdout=said, stderr=subprocess.STDOUT))
            said.seek(0)
            text = said.read().decode(errors="replace")
        if status == LOOKED_AT_NOTHING and name in MAY_LOOK_AT_NOTHING:
            status = 0
            why = f" ({text.strip().splitlines()[-1]})" if text.strip() else ""
            self.left_out.append(f"gate: left out: {name}{why}")
        self.take(name, began, status, usage, text if text.endswith("\n") or not text else f"{text}\n")
        with self.turn:
            self.failed += status != 0

    def look_for_builds(self):
        """Counts each program that `rt ci` did not leave as a failure."""
        for it in BUILDS:
            if not os.access(f"{ROOT}/{it}", os.X_OK):
                self.lost.append(it)
                self.failed += 1
                self.steps.append(f"gate: {it} FAILED: rt ci left no such program")

    def counted(self, name, *words, heard=lambda line: None):
        """Runs a step whose last line is 'N passed, M failed', prints all before that line as it comes, and adds it up. Returns whether the step
        passed: one that ends otherwise has failed. It calls `heard` with each line."""
        began, last = time.monotonic(), ""
        step = subprocess.Popen(words, cwd=ROOT, stdin=subprocess.DEVNULL, stdout=subprocess.PIPE, text=True, errors="replace")
        for line in step.stdout:
            with self.turn:
                print(last, end="", flush=True)
            last = line
            heard(line.strip())
        status, usage = ended(step)
        found = SUM.fullmatch(last.strip())
        passed, failed = map(int, found.groups()) if found else (0, 0)
        status = status or int(failed > 0 or not found)
        with self.turn:
            self.passed, self.failed = self.passed + passed, self.failed + (failed or int(status != 0))
        self.take(name, began, status, usage, "" if found else last)
        return status == 0

    def run(self):
        lanes, bodies = len(os.sched_getaffinity(0)), Step(LAST_CRATE, BODIES_MEMORY, self.bodies)
        scripts = [self.step_of(it, LAST_CRATE) for it in listed(OVER_LIBRARIES)] + [self.step_of(it, LAST_CRATES) for it in listed(EARLY)]
        own_test = Step(LAST_CRATES, SCRIPT_MEMORY, lambda lanes: self.counted(f"{BODIES} --self-test", BODIES, "--self-test"))
        early = Early([bodies, *scripts, own_test], count_of_crates())
        is_proved = self.counted("rt ci", "tools/gate-minutes.py", "rt", "ci", heard=early.hear)
        left = early.stop()
        if not is_proved:
            early.wait()
            self.steps.append("gate: nothing more was run")
            return
        self.look_for_builds()
        side_by_side([*(it for it in left if it != bodies), *map(self.step_of, listed(BESIDE))], lanes, early)
        for it in listed(ALONE):
            self.script(it)
        if bodies in left:
            bodies.run(lanes)

    def step_of(self, name, crates=0):
        return Step(crates, SCRIPT_MEMORY, lambda lanes: self.script(name))

    def bodies(self, _lanes):
        """Tries the mutants that have no line in the ledger, and draws others for some minutes of processor time. A change of a low crate leaves hundreds
        without a line, so it takes as many lanes as the memory holds, beside `rt ci` too."""
        self.counted(BODIES, "tools/gate-minutes.py", BODIES, "--after-ci", "--minutes", DRAWN_MINUTES)

    def sum_up(self):
        """Prints what each step took, which looked at nothing, which failed, and the sum; returns whether the gate is passed."""
        print(*self.steps, *self.left_out, sep="\n")
        if self.lost:
            print(f"gate: failed: {', '.join(self.lost)}")
        print(f"{self.passed} passed, {self.failed} failed", flush=True)
        return self.failed == 0 and self.passed > 0


class Step(typing.NamedTuple):
    """A step: how many crates may be left to prove when it begins next to `rt ci`, the memory that it needs, and what runs it in so many lanes."""
    crates: int
    memory: int
    run: typing.Callable


def side_by_side(steps, lanes, early):
    """Runs steps in so many lanes. The first lane begins once the early step that is under way has ended."""
    left = iter(steps)

    def work(lane):
        if lane == 0:
            early.wait()
        for step in left:
            step.run(1)

    with ThreadPoolExecutor(lanes) as pool:
        list(pool.map(work, range(lanes)))


class Early:
    """Steps that need nothing of the crates that are still under proof: a thread runs them one at a time, from when few crates are left until `rt ci` ends. It
    takes the first that may begin."""

    def __init__(self, steps, crates):
        self.left, self.crates, self.is_over, self.turn = list(steps), crates, False, threading.Lock()
        self.worker = threading.Thread(target=self.work)

    def hear(self, line):
        """Takes a line of `rt ci`, and begins once few crates are left."""
        self.crates -= bool(PROVED.fullmatch(line))
        if self.crates <= LAST_CRATES and not self.worker.ident:
            self.worker.start()

    def work(self):
        while not self.is_over and self.left:
            with self.turn:
                free = 0 if self.is_over else free_memory()
                step = next((it for it in self.left if self.crates <= it.crates and it.memory <= free), None)
                if step:
                    self.left.remove(step)
            if step:
                step.run(1)
            else:
                time.sleep(1)

    def stop(self):
        """Begins no more steps, and returns those that did not begin. The last one may be under way."""
        with self.turn:
            self.is_over = True
        return self.left

    def wait(self):
        if self.worker.ident:
            self.worker.join()


def count_of_crates():
    """Returns how many crates the tree has."""
    with open(f"{ROOT}/crates.txt", encoding="utf-8") as lines:
        return sum(not it.startswith("#") for it in lines)


def listed(names):
    """Returns the scripts of a list, with their words."""
    return [it for it in names.split("\n") if it]


def free_memory():
    """Returns the free memory, in bytes; 0 if the system does not tell. tests/gate.py names a file of its own."""
    with contextlib.suppress(OSError), open(os.environ.get("MEMINFO", "/proc/meminfo"), encoding="utf-8") as lines:
        return 1024 * int(re.search(r"MemAvailable:\s+(\d+)", lines.read())[1])
    return 0


def missing_tools():
    """Names the tools that are not here."""
    path = f"{os.environ['PATH']}:{os.path.expanduser(TOOLS_ELSEWHERE)}"
    missing = [it for it in TOOLS if not shutil.which(it, path=path)]
    if sys.version_info < LEAST_PYTHON:
        missing.append(f"Python {'.'.join(map(str, LEAST_PYTHON))}")
    return missing


def how_it_ended(status):
    """Says how a step failed, by the signal that ended it where its status is below 0."""
    if status == 0:
        return ""
    return f" FAILED with status {status}," if status > 0 else f" FAILED, killed by {signal.Signals(-status).name},"


def ended(step):
    """Waits for a step, and returns its status, below 0 where a signal ended it, and what it and all that it started used of the processors."""
    _, status, usage = os.wait4(step.pid, 0)
    step.returncode = os.waitstatus_to_exitcode(status)
    return step.returncode, usage


def main():
    read = argparse.ArgumentParser(description=__doc__, formatter_class=argparse.RawDescriptionHelpFormatter)
    read.add_argument("--list", action="store_true")
    if read.parse_args().list:
        print(*(f"early {it}" for it in listed(OVER_LIBRARIES + EARLY)), *listed(BESIDE), *(f"alone {it}" for it in listed(ALONE)), sep="\n")
        return 0
    if missing := missing_tools():
        print(f"gate: nothing was run: there is no {' and no '.join(missing)} here", f"gate: failed: {', '.join(missing)}", sep="\n")
        print(f"0 passed, {len(missing)} failed")
        return 1
    print("gate: `rt ci`, then scripts, then mutants: an hour or more; prints each step when it ends", flush=True)
    gate = Gate()
    with tempfile.NamedTemporaryFile() as minutes:
        os.environ["MINUTES"] = minutes.name
        gate.run()
        print(subprocess.run([f"{ROOT}/tools/gate-minutes.py", "--rows", minutes.name], stdout=subprocess.PIPE, text=True).stdout, end="")
    return 0 if gate.sum_up() else 1


if __name__ == "__main__":
    sys.exit(main())
