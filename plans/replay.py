#!/usr/bin/env python3
"""Finds a schedule under which `mctower run` prints the trace that `mctower threads` printed of the same plan.

    plans/replay.py PLAN TEXT [STOPS]

TEXT is what `mctower threads` printed. STOPS (optional) is what it printed on standard error: each CPU then stops for the same reason. `-` is standard
input. It prints the schedule, so this command prints the trace again:

    mctower run --schedule "$(plans/replay.py PLAN TEXT)" < PLAN

The order of effects in the text guides the search (plans/guided.py), over plans/kernel.py, which is not proved. It runs the schedule once more before it
prints it. It rejects a text that no run of the plan prints, with the line at fault if it finds one, and status 1. A search that finds no schedule, or that
stops after --most states, says so: that shows nothing about the text. It needs only Python 3.9 or later.
"""
import argparse
import sys

from guided import GROUPS, Guided, Wanted, schedule_towards
from judging import fault_in
from limits import MOST_STEPS
from kernel import SIDES, Kernel, run_alone, spelled
from like import entries_in
from reading import Refusal, bytes_at, file_name, read_plan
from schedules import schedule_of

MOST_STATES = 100_000
LOOPS = 1_000_000
MOST_BYTES = 131_072
STOPS = {"AllEnded": "AllEnded", "TraceFull": "TraceFull", "TurnsUsed": "live"}


class NoReplay(ValueError):
    """Why there is no schedule for a text, and the line of it, if one is to blame."""

    def __init__(self, why, line=None):
        super().__init__(why)
        self.line = line


class NotFound(NoReplay):
    """A search found no schedule, which tells nothing of the text."""


def entries_of(plan, raw):
    """The entries of a text with a yes, which tells the plan's buffers."""
    fault = fault_in(raw)
    if fault:
        raise NoReplay(f"{fault.reason}: {fault.why}", fault.line)
    lines = raw.decode().splitlines()
    capacities = [int(line.split(" ")[2]) for line in lines if line.startswith("cap ")]
    if capacities != list(plan["buffers"]):
        raise NoReplay(f"the text is of buffers with room for {capacities}, the plan has {list(plan['buffers'])}", 2)
    return entries_in(raw.decode())


def stops_in(raw, cpus):
    """How each CPU stopped, as state lines have it."""
    lines = raw.decode("utf-8", "replace").splitlines()
    stops = [STOPS.get(line.split(" ")[-1]) for line in lines]
    if len(lines) != cpus or any(line.split(" ")[:2] != ["cpu", str(c)] for c, line in enumerate(lines)) or None in stops:
        raise NoReplay(f"expected a line for each of {cpus} CPUs, for example cpu 0 AllEnded")
    return stops


class Follower:
    """Follows each thread's program along its entries."""

    def __init__(self, plan):
        self.kernel = Kernel(plan)

    def fault(self, entry):
        """Why a thread's next entry cannot be this one, or None; then its thread goes on behind it."""
        c, t, kind, b, value, _, _ = entry
        if t >= len(self.kernel.guests):
            return f"the plan has no thread {t}"
        guest = self.kernel.guests[t]
        if guest.home != c:
            return f"thread {t} has its home on CPU {guest.home}"
        if not self.reaches_call(t):
            return f"the program of thread {t} comes to no call more"
        word, is_closed = guest.instruction(), kind in ("sendc", "recvc")
        side = GROUPS.get(kind)
        fits = kind == "close" if word[0] == "close" else side == SIDES[word[0]]
        if not fits or guest.call()[0] != b:
            return f"thread {t} is at `{' '.join(word)}`"
        if kind in ("send", "sendc") and value != spelled(guest.message()):
            return f"thread {t} sends {spelled(guest.message())} there"
        guest.effect = kind, () if kind == "close" or is_closed else tuple(map(int, value.split(",")))
        guest.end_call()
        return None

    def reaches_call(self, t):
        """Lets a thread go on to its next call; tells whether it comes to one."""
        guest = self.kernel.guests[t]
        for _ in range(LOOPS):
            if guest.call() is not None:
                return True
            if guest.place == "Ended":
                return False
            if guest.instruction()[0] == "yield":
                guest.line += 1
            else:
                self.kernel.compute(self.kernel.cpus[guest.home], t)
        return False


def hold_to_programs(plan, entries):
    """Refuses entries that are no calls of the plan's programs, or more on a CPU than its trace has room for."""
    follower, head = Follower(plan), 2 + len(plan["buffers"])
    counts = [0] * plan["cpus"]
    for line, entry in enumerate(entries, head + 1):
        why = follower.fault(entry)
        if why:
            raise NoReplay(f"this entry cannot come: {why}", line)
        counts[entry[0]] += 1
        if counts[entry[0]] > plan["trace"]:
            raise NoReplay(f"this entry cannot come: the trace of CPU {entry[0]} has room for {plan['trace']}", line)


def hold_to_order(plan, entries):
    """Refuses entries in another order than the one in which a program prints them."""
    kernel = Kernel(plan)
    for cpu, own in zip(kernel.cpus, Wanted(plan, entries).of_cpu):
        cpu.trace = own
    for line, (entry, other) in enumerate(zip(entries, kernel.gathered() or []), 3 + len(plan["buffers"])):
        if entry != other:
            raise NoReplay(f"a run prints the entry of thread {other[1]} with op {other[5]} at buffer {other[3]} here", line)


def found(plan, entries, stops, most):
    """The items of a schedule, each a CPU and its steps."""
    wanted = Wanted(plan, entries)
    items, count, least = schedule_towards(lambda: Guided(plan, wanted, stops), most)
    if items is not None:
        return items
    if count >= most:
        raise NotFound(f"the search gave up after {most} states, with {least} of {len(entries)} entries missing: a larger --most may help")
    farthest = len(entries) - least
    what = f"at most {farthest} of {len(entries)} entries come" if least else "its entries come, but not with these stops"
    raise NotFound(f"the search found no schedule: {what}, in {count} states")


def hold_to_run(plan, items, raw, stops):
    """Runs the schedule, and refuses it where something else comes."""
    kernel = Kernel(plan)
    for c, times in items:
        for _ in range(times):
            kernel.step(c)
    if kernel.text() != raw.decode() or (stops and stops != [kernel.halted(c) or "live" for c in range(len(kernel.cpus))]):
        raise NoReplay("the schedule that was found prints another text: this is a bug of plans/guided.py")


def replay(plan, raw, stops, most=MOST_STATES):
    """A schedule under which the plan prints a text, and stops so."""
    entries = entries_of(plan, raw)
    hold_to_programs(plan, entries)
    hold_to_order(plan, entries)
    items = found(plan, entries, stops, most + 40 * len(entries))
    total = sum(times for _, times in items)
    if total > MOST_STEPS:
        raise NoReplay(f"it takes {total} steps: a schedule has at most {MOST_STEPS}")
    hold_to_run(plan, items, raw, stops)
    return schedule_of([c for c, times in items for _ in range(times)])


def main():
    parser = argparse.ArgumentParser(description=__doc__, formatter_class=argparse.RawDescriptionHelpFormatter)
    parser.add_argument("plan", metavar="PLAN")
    parser.add_argument("text", metavar="TEXT")
    parser.add_argument("stops", metavar="STOPS", nargs="?")
    parser.add_argument("--most", type=int, default=MOST_STATES, metavar="K", help=f"stop after K states, and 40 more for each entry (default: {MOST_STATES})")
    asked, name = parser.parse_args(), None
    try:
        name = asked.plan
        plan = read_plan(bytes_at(name))
        if asked.stops:
            name = asked.stops
            stops = stops_in(bytes_at(name), plan["cpus"])
        name = asked.text
        schedule = replay(plan, bytes_at(name), stops if asked.stops else None, asked.most)
        print(schedule)
        if len(schedule) >= MOST_BYTES:
            sys.stderr.write(f"replay: the schedule has {len(schedule)} bytes: Linux passes only arguments of fewer than {MOST_BYTES}\n")
    except Refusal as refusal:
        sys.stderr.write(refusal.told(name))
        return refusal.status
    except NoReplay as fault:
        sys.stderr.write(f"replay: {file_name(name)}{f':{fault.line}' if fault.line else ''}: {fault}\n")
        return 1
    return 0


if __name__ == "__main__":
    run_alone()
    sys.exit(main())
