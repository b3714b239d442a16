#!/usr/bin/env python3
"""Runs a command, as .ci/run, and prints what the prover took in it for each crate: minutes of processor time for the crate's proof, for its tests, for
its must-fail edits and for its mutants, and the most memory of one check.

    tools/gate-minutes.py COMMAND..
    tools/gate-minutes.py --rows FILE    the rows of the table of docs/GATE.md, from all runs that FILE has, with what the crates of the tree contain

Once a second it samples the command's processes and their children, and no other check on the machine, so it misses up to a second of each; each check
takes many. At the end it prints the table on standard error, and appends its data to the file that MINUTES names, if it names one.
"""
import argparse
import collections
import ctypes
import json
import os
import re
import signal
import subprocess
import sys
import threading
from pathlib import Path

ROOT = Path(__file__).resolve().parent.parent
KINDS = ("proof", "tests", "edits", "wrong")
TICKS, PAGE = os.sysconf("SC_CLK_TCK"), os.sysconf("SC_PAGE_SIZE")


def processes():
    """Returns of each process its parent, its seconds of processor time, its memory in bytes and when it started."""
    found = {}
    for it in filter(str.isdigit, os.listdir("/proc")):
        try:
            words = open(f"/proc/{it}/stat").read().rpartition(")")[2].split()
        except OSError:
            continue
        found[int(it)] = int(words[1]), (int(words[11]) + int(words[12])) / TICKS, int(words[21]) * PAGE, words[19]
    return found


def check_of(pid):
    """Returns the crate and the kind of the check that a process runs, or None where it is no prover of its own."""
    try:
        words = open(f"/proc/{pid}/cmdline").read().split("\0")
        at = os.readlink(f"/proc/{pid}/cwd")
    except OSError:
        return None
    if not words[0].endswith("/rattle") or "--crate-name" not in words:
        return None
    kind = "edits" if "/rt-edit-" in at else "wrong" if "/wrong-bodies-" in at else "tests" if "--test" in words else "proof"
    return words[words.index("--crate-name") + 1], kind


def keep_orphans():
    """Makes this process the parent of each process beneath it whose own parent ends first."""
    set_child_subreaper = 36  # of linux/prctl.h
    ctypes.CDLL(None, use_errno=True).prctl(set_child_subreaper, 1, 0, 0, 0)


def is_beneath(pid, now, root):
    """Whether a process is one of `root`'s, or one of theirs."""
    while pid != root and pid in now:
        pid = now[pid][0]
    return pid == root


class Tally:
    def __init__(self):
        self.known, self.seconds, self.memory = {}, {}, collections.Counter()

    def look(self):
        now, held = processes(), collections.Counter()
        for pid, (_, seconds, memory, since) in now.items():
            if not is_beneath(pid, now, os.getpid()):
                continue
            check, at = None, pid
            while check is None and at in now and at > 1:
                key = at, now[at][3]
                # what is no prover yet may become one
                self.known[key] = self.known.get(key) or check_of(at)
                check, root, at = self.known[key], key, now[at][0]
            if check:
                self.seconds[check, pid, since] = seconds
                held[check[0], root] += memory
        for (crate, _), memory in held.items():
            self.memory[crate] = max(self.memory[crate], memory)

    def minutes(self):
        """Returns for each crate its minutes by kind."""
        total = collections.defaultdict(collections.Counter)
        for ((crate, kind), _, _), seconds in self.seconds.items():
            total[crate][kind] += seconds / 60
        return total

    def table(self):
        total = self.minutes()
        yield f"{'crate':16}" + "".join(f"{kind:>8}" for kind in KINDS) + "      GB"
        for crate in sorted(total):
            yield f"{crate:16}" + "".join(f"{total[crate][kind]:8.1f}" for kind in KINDS) + f"{self.memory[crate] / 1e9:8.1f}"
        yield f"{'sum':16}" + "".join(f"{sum(it[kind] for it in total.values()):8.1f}" for kind in KINDS)


def counts_of(crate):
    """Returns how many tests, must-fail edits and wrong bodies a crate has."""
    folder = ROOT / "crates" / crate
    tests = sum(len(re.findall(r"^ *#\[test\]", it.read_text(), re.M)) for it in folder.glob("src/**/*.rt"))
    return [tests, *(len(list(folder.glob(f"{part}/*.edit"))) for part in ("must-fail", "wrong"))]


def rows(kept):
    """Yields the rows of the table of docs/GATE.md, of the runs that these lines keep."""
    total = collections.defaultdict(collections.Counter)
    for line in kept:
        for crate, minutes in json.loads(line).items():
            total[crate].update(minutes)
    crates = {it: [*counts_of(it), *(total[it][kind] for kind in KINDS)] for it in sorted(total)}
    crates |= {"sum": [sum(it) for it in zip(*crates.values())]} if crates else {}
    for name, numbers in crates.items():
        cells = [f"{it}" for it in numbers[:3]] + [f"{it:.1f}" if it else "" for it in numbers[3:]]
        yield f"| {name if name == 'sum' else f'`{name}`'} | {' | '.join(cells)} |"


def main():
    read = argparse.ArgumentParser(description=__doc__, formatter_class=argparse.RawDescriptionHelpFormatter)
    read.add_argument("--rows", metavar="FILE")
    read.add_argument("command", nargs=argparse.REMAINDER)
    given = read.parse_args()
    if given.rows:
        print(*rows(open(given.rows)), sep="\n")
        return 0
    tally, ended = Tally(), threading.Event()

    def watch():
        while not ended.wait(1):
            tally.look()

    keep_orphans()
    watcher = threading.Thread(target=watch)
    watcher.start()
    status = subprocess.run(given.command).returncode
    ended.set()
    watcher.join()
    print(*tally.table(), sep="\n", file=sys.stderr)
    if "MINUTES" in os.environ:
        with open(os.environ["MINUTES"], "a") as kept:
            print(json.dumps(tally.minutes()), file=kept)
    if status < 0:
        print(f"gate-minutes: {' '.join(given.command)} was killed by {signal.Signals(-status).name}", file=sys.stderr)
        return 128 - status
    return status


if __name__ == "__main__":
    sys.exit(main())
