"""Schedules, which say the CPU of each step: reads their text as `mctower run` does, writes it, and makes one in rounds.

Nothing here is proved: tests/explain.py holds it against the program. It needs Python alone, 3.9 or later.
"""
import os
import re
from itertools import groupby

from document import shown, strange_in
from limits import MOST_CPU, MOST_STEPS
from reading import Refusal, as_many, is_number, read_plan

EXPECTED = f"expected c or c*n, where c is a CPU, 0 to {MOST_CPU}, and n a number of steps, 1 to {MOST_STEPS}, without leading zeros"


def schedule_in(plan):
    """The schedule in the first lines of a plan, or none."""
    kept = re.search(r"^\ufeff?# *mctower run --schedule '(.*)' <", plan, re.M)
    return kept.group(1) if kept else ""


def read_schedule(text):
    """The items of a schedule: each its CPU, and how many steps that takes. A text that is none is refused by `BadSchedule(9)`."""
    items, total = [], 0
    for number, item in enumerate(text.split(",")):
        cpu, star, times = item.partition("*")
        if not star:
            times = "1"
        if not (is_number(cpu, MOST_CPU) and is_number(times, MOST_STEPS) and times != "0"):
            why = "a schedule cannot contain white space: separate its items by commas" if re.search(r"\s", item) else EXPECTED
            raise Refusal("BadSchedule(9)", f"{item_at(text, number)}: {why}{hint_at(text, item)}", in_schedule=True)
        items.append((int(cpu), int(times)))
        total += int(times)
        if total > MOST_STEPS:
            why = f"with it the schedule has more than {MOST_STEPS} steps"
            raise Refusal("BadSchedule(9)", f"{item_at(text, number)}: {why}", in_schedule=True)
    return items


def hint_at(text, item):
    """What may have gone wrong with a schedule at an item that is none, or nothing."""
    if not text:
        return ". The schedule is empty: omit it to take no step"
    if os.path.exists(text):
        return ". A file has this name: a shell replaces an unquoted * by names of files"
    if item.isascii() and item.isalpha():
        return ". `plans/kernel.py --rounds PLAN` prints a schedule"
    return ". Separate the items by commas" if ";" in item else swapped(item) or strange_in(item)


def swapped(item):
    """A question for the item with its CPU first, if it has its number of steps first; else nothing."""
    times, star, cpu = item.partition("*")
    is_item = star and is_number(cpu, MOST_CPU) and is_number(times, MOST_STEPS) and times != "0"
    return f". The CPU comes first. Did you mean {cpu}*{times}?" if is_item else ""


def item_at(text, number):
    """An item of a schedule, for a message."""
    items = text.split(",")
    before = len(",".join([*items[:number], ""]).encode("utf-8", "surrogateescape"))
    return f'item {number + 1}, "{shown(items[number])}", at byte {before + 1}'


def hold_to_cpus(text, items, cpus):
    """Refuses a schedule by `BadCpu(4)` if it names a CPU that the plan has not."""
    for number, (cpu, _) in enumerate(items):
        if cpu >= cpus:
            raise Refusal("BadCpu(4)", f"{item_at(text, number)}: the plan has {as_many(cpus, 'CPU')}", in_schedule=True)


def chosen(raw, schedule):
    """The schedule that is given, else the one in the first lines of a plan, else None."""
    return schedule_in(raw.decode("utf-8", "replace")) or None if schedule is None else schedule


def read_run(raw, schedule=None):
    """The plan that some bytes are and the items of a schedule, refused in the order of `mctower run`."""
    items = [] if schedule is None else read_schedule(schedule)
    plan = read_plan(raw)
    hold_to_cpus(schedule, items, plan["cpus"])
    return plan, items


def steps_of(schedule):
    """The CPUs of a schedule's steps, in order; of an empty text none."""
    return [cpu for cpu, times in read_schedule(schedule) for _ in range(times)] if schedule else []


def schedule_of(steps):
    """The schedule with these steps: an item for each run of a CPU."""
    runs = [(cpu, sum(1 for _ in run)) for cpu, run in groupby(steps)]
    return ",".join(f"{cpu}*{times}" if times > 1 else str(cpu) for cpu, times in runs)


def is_over(kernel, c):
    """Whether a CPU has nothing to do: it is at rest, or its threads have ended, or its trace is full."""
    return kernel.rests(c) or kernel.halted(c) is not None


def rounds(kernel, each, most=MOST_STEPS):
    """The steps of a schedule in rounds: at most so many of each CPU in its turn, until none has anything to do or `most` are taken.

    A CPU with nothing to do would look into its pending queue again and again, three steps each time: its turn is passed over."""
    steps = []
    while len(steps) < most and not all(is_over(kernel, c) for c in range(len(kernel.cpus))):
        for c in range(len(kernel.cpus)):
            steps += turn(kernel, c, min(each, most - len(steps)))
    return steps


def turn(kernel, c, each):
    """The steps of a CPU's turn."""
    taken = []
    while len(taken) < each and not is_over(kernel, c):
        kernel.step(c)
        taken.append(c)
    return taken
