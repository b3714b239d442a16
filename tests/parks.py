#!/usr/bin/env python3
"""Runs plans in threads in which CPUs are idle for long: an idle worker parks and takes hardly any processor time, each thread that is sent home is
run, and a plan in which nothing can happen any more uses up its turns.

    tests/parks.py [PROGRAM]

Without a name it runs the build that `rt ci` or `rt run` left. It takes half a minute. The last line is 'N passed, M failed'.
"""
import argparse
import os
import random
import subprocess
import sys
import tempfile
import time
from pathlib import Path

sys.dont_write_bytecode = True
from named import program_at

ROOT = Path(__file__).resolve().parent.parent
PATIENCE = 60  # seconds after which a run that has not ended counts as one that hangs
IDLE_SHARE = 0.05  # of the time that it waits, a parked worker may use a processor for so much, on a busy machine too
LONG = 40_000_000  # instructions of a loop that lasts for some seconds
HAND_OVERS = 500  # messages of each plan of hand-overs, in either direction


def thread(cpu, *program):
    """Returns the lines of a thread of a plan."""
    return f"[[thread]]\ncpu = {cpu}\nprogram = [{', '.join(f'{it!r}' for it in program)}]\n".replace("'", '"')


def plan(cpus, buffers, *threads):
    """Returns a plan."""
    return f"cpus = {cpus}\ntrace = 4096\nbuffers = {buffers}\n{''.join(threads)}"


def loop(count, at):
    """Returns the instructions, from number `at` on, of a loop of so many rounds."""
    return "set r6 1", f"set r7 {count}", "sub r7 r6", f"jnz r7 {at + 2}"


def computes_then(count, *program):
    """Returns a program that computes for so many rounds and then does the rest."""
    return *loop(count, 0), *program


class Run:
    """One run of `mctower threads`."""

    def __init__(self, program, text, turns):
        self.input = tempfile.TemporaryFile()
        self.input.write(text.encode())
        self.input.seek(0)
        self.out, self.err = tempfile.TemporaryFile(), tempfile.TemporaryFile()
        self.began = time.monotonic()
        self.process = subprocess.Popen([program, "threads", "--turns", str(turns)], stdin=self.input, stdout=self.out, stderr=self.err)

    def seconds_of_threads(self):
        """Returns for how many seconds each thread of the process has had a processor, the busiest first."""
        folder = f"/proc/{self.process.pid}/task"
        read = [int(Path(folder, it, "schedstat").read_text().split()[0]) / 1e9 for it in os.listdir(folder)]
        return sorted(read, reverse=True)

    def end(self):
        """Waits for the end, and returns the status, what was printed and the stops; status None where it hangs."""
        try:
            status = self.process.wait(PATIENCE)
        except subprocess.TimeoutExpired:
            self.process.kill()
            self.process.wait()
            status = None
        for it in (self.out, self.err):
            it.seek(0)
        return status, self.out.read().decode(), [line.split()[-1] for line in self.err.read().decode().splitlines()]


class Rows:
    """Counts what passes and what fails."""

    def __init__(self, program):
        self.program, self.passed, self.failed = program, 0, 0

    def row(self, name, expected, found):
        if expected == found:
            self.passed += 1
        else:
            self.failed += 1
            print(f"parks: {name}\n  expected: {expected}\n  found: {found}")

    def ends(self, name, text, turns, stops):
        """A row: the plan ends, with these stops, and `check` says yes to its trace."""
        status, printed, found = Run(self.program, text, turns).end()
        verdict = subprocess.run([self.program, "check"], input=printed, capture_output=True, text=True, timeout=PATIENCE).stdout
        self.row(name, (0, stops, "yes\n"), (status, found, verdict))

    def sleeps(self, name, text, idle):
        """A row: while one worker computes, the others use hardly any processor time."""
        run = Run(self.program, text, 1_000_000_000)
        time.sleep(1)
        first, begun = run.seconds_of_threads(), time.monotonic()
        time.sleep(2)
        last, waited = run.seconds_of_threads(), time.monotonic() - begun
        used = [round(after - before, 3) for before, after in zip(first[1:], last[1:])]
        self.row(f"{name}: seconds of each other thread in {waited:.1f}", [], [it for it in used if it > IDLE_SHARE * waited])
        status, printed, stops = run.end()
        self.row(f"{name}: its end", (0, ["AllEnded"] * (idle + 1)), (status, stops))


def handing(choose):
    """Returns a plan in which two CPUs hand a message to each other, each after delays at some of which the other one parks."""
    rounds = 25
    programs = []
    for first in (True, False):
        body, delays = [], [choose.choice((1, 100, 3_000, 10_000, 20_000)) for _ in range(rounds)]
        body += ["set r6 1", f"set r5 {HAND_OVERS // rounds}"]
        start = len(body)
        for count in delays:
            wait = [f"set r7 {count}", "sub r7 r6", f"jnz r7 {len(body) + 1 + (not first)}"]
            body += [*wait, "send 0 r5", "recv 1 r4"] if first else ["recv 0 r4", *wait, "send 1 r4"]
        body += ["sub r5 r6", f"jnz r5 {start}"]
        programs.append(body)
    return plan(2, [1, 1], thread(0, *programs[0]), thread(1, *programs[1]))


def main():
    read = argparse.ArgumentParser(description=__doc__, formatter_class=argparse.RawDescriptionHelpFormatter)
    read.add_argument("program", nargs="?", default=ROOT / "crates/mctower/out/mctower", metavar="PROGRAM")
    rows = Rows(program_at(read.parse_args().program))
    receiver = "recv 0 r0"
    rows.ends("a thread that nobody sends to", plan(2, [1], thread(0, receiver), thread(1, receiver)), 100_000, ["TurnsUsed"] * 2)
    rows.ends("an ended worker beside one that waits for ever", plan(2, [1], thread(0, "exit"), thread(1, receiver)), 100_000, ["AllEnded", "TurnsUsed"])
    rows.ends("a full trace beside one that waits for ever", plan(2, [1, 2], thread(0, receiver), thread(1, "set r0 1", "send 1 r0", "recv 1 r1", "jnz r0 1")),
              100_000, ["TurnsUsed", "TraceFull"])
    rows.ends("sixteen CPUs that wait for the last one's close", plan(16, [1], *(thread(it, receiver) for it in range(15)),
              thread(15, *computes_then(1_000_000, "close 0"))), 1_000_000_000, ["AllEnded"] * 16)
    rows.sleeps("a receiver", plan(2, [1], thread(0, *computes_then(LONG, "send 0 r7")), thread(1, receiver)), 1)
    rows.sleeps("seven receivers", plan(8, [8], thread(0, *computes_then(LONG, *["send 0 r7"] * 7)), *(thread(it, receiver) for it in range(1, 8))), 7)
    for seed in range(20):
        rows.ends(f"hand-overs with seed {seed}", handing(random.Random(seed)), 1_000_000_000, ["AllEnded"] * 2)
    print(f"{rows.passed} passed, {rows.failed} failed")
    return 1 if rows.failed or not rows.passed else 0


if __name__ == "__main__":
    sys.exit(main())
