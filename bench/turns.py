#!/usr/bin/env python3
"""Runs commands alternately on one input, and prints the time of each.

    bench/turns.py [--turns N] [--seconds S] [--cores LIST] INPUT NAME WORD.. [-- NAME WORD..]

For each command it prints the median of wall-clock time and of processor time (the system's included) in milliseconds, each with its quartiles; then, of one
more run, page faults and the peak of memory. After the last command it prints the ratios of each other command's medians to the last one's: 1 is the other's
rate, below 1 is slower. It ends after N turns (default: 21) or S seconds (default: 30). With --cores all run only on these processors, as `0` or `0,1`. Measure
on a quiet machine, or with priority: chrt --rr 1 bench/turns.py ..
"""
import argparse
import itertools
import os
import statistics
import subprocess
import time
from dataclasses import dataclass


@dataclass
class Turn:
    """What one run took, in milliseconds."""

    clock: float
    processor: float


class Command:
    def __init__(self, words):
        self.name, *self.words = words
        self.turns = []

    def run(self, given):
        with open(given, "rb") as source:
            files = [(os.POSIX_SPAWN_DUP2, source.fileno(), 0), *((os.POSIX_SPAWN_OPEN, to, os.devnull, os.O_WRONLY, 0) for to in (1, 2))]
            start = time.perf_counter()
            _, status, used = os.wait4(os.posix_spawnp(self.words[0], self.words, os.environ, file_actions=files), 0)
            clock = time.perf_counter() - start
        if status != 0:
            print(f"{self.name} ended with status {os.waitstatus_to_exitcode(status)} (124: it was stopped in time)")
        self.turns.append(Turn(clock * 1e3, (used.ru_utime + used.ru_stime) * 1e3))

    def memory(self, given):
        """Returns the page faults and the peak in megabytes of one run, as a small program sees them: a child begins with its parent's peak."""
        with open(given, "rb") as source:
            counted = ["/usr/bin/time", "-q", "-f", "%R %M", *self.words]
            told = subprocess.run(counted, stdin=source, stdout=subprocess.DEVNULL, stderr=subprocess.PIPE, check=False)
        faults, peak = told.stderr.split()[-2:]
        return int(faults), int(peak) / 1024

    def median(self, what):
        return statistics.median(getattr(turn, what) for turn in self.turns)

    def spread(self, what):
        """Returns the median, and the quartiles beside it."""
        low, middle, high = statistics.quantiles((getattr(turn, what) for turn in self.turns), n=4, method="inclusive")
        return f"{middle:.2f} [{low:.2f} {high:.2f}]"

    def told(self, given):
        faults, peak = self.memory(given)
        return f"  {self.name}: {self.spread('clock')} ms, of processors {self.spread('processor')} ms; {faults} page faults, {peak:.1f} MB at most"


def ratios(one, other):
    clock, processor = (one.median(what) / max(other.median(what), 0.001) for what in ("clock", "processor"))
    return f"  {one.name} over {other.name}: {clock:.2f} by the clock, {processor:.2f} of processor time, over {len(one.turns)} turns"


def main():
    read = argparse.ArgumentParser(description=__doc__, formatter_class=argparse.RawDescriptionHelpFormatter)
    read.add_argument("--turns", type=int, default=21)
    read.add_argument("--seconds", type=float, default=30)
    read.add_argument("--cores", type=lambda text: [int(core) for core in text.split(",")])
    read.add_argument("input")
    read.add_argument("words", nargs=argparse.REMAINDER)
    given = read.parse_args()
    commands = [Command(list(words)) for is_end, words in itertools.groupby(given.words, "--".__eq__) if not is_end]
    if given.cores:
        os.sched_setaffinity(0, given.cores)
    end = time.monotonic() + given.seconds
    for turn in range(given.turns):
        if turn >= 2 and time.monotonic() > end:
            break
        for command in commands:
            command.run(given.input)
    for command in commands:
        print(command.told(given.input))
    for command in commands[:-1]:
        print(ratios(command, commands[-1]))


if __name__ == "__main__":
    main()
