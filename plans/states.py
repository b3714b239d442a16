#!/usr/bin/env python3
"""Visits all states of a plan, under schedules of any length: checks eleven laws in each, and finds a shortest schedule to a state.

    plans/states.py PLAN [--steps N] [--wrong MISTAKE]   reports on all states, or on those that schedules of at most N steps reach
    plans/states.py PLAN --find WHAT                     prints a shortest schedule to such a state, or that there is none
    plans/states.py PLAN --like TRACE                    prints a schedule under which `mctower run` prints the trace that `mctower threads` printed

The states are those of plans/kernel.py, which is not proved; equal states count once. With --compare the proved program runs to each state under a shortest
schedule and must print what kernel.py prints; MCTOWER names that program. The status is 1 if a law breaks, nothing is found, or the output differs.
"""
import argparse
import math
import sys
import time
from collections import deque
from itertools import groupby
from pathlib import Path

import like
from asking import GRAMMAR, asked_for
from kernel import WRONG, Buffer, Kernel, run_alone, spelled
from laws import (LAWS, ORDER_GROWS, QUIET_IS_STILL, WHY, broken_at, broken_by, effects_of, faults_in, has_grown, in_order, is_quiet, is_stillness_false,
                  part_of_block, part_of_cpu, part_of_thread)
from reading import Refusal, bytes_at
from record import difference, program_is_there, proved_prints_each, read_plan
from schedules import schedule_of

MOST_STATES = 300_000
HISTORY = ("effects", "broken", "TraceFull")  # what may be asked of a state that has its history alone
AFTER_EFFECT = ("Other", "Own", "RelQ", "Returns")  # the stages of a call that has taken effect and not returned


class Pieces:
    """The states of one kernel as tuples of small numbers.

    A state falls into pieces: each CPU, its trace, each thread, each lock with its block. Each different piece is kept once and has a number. A lock is kept as
    who stands in its line, so that two states which differ only in how often a lock was taken are one. An endless search keeps a state without its history,
    that is what no step reads: traces, which then have room without end, and the counts of effects and positions.
    """

    def __init__(self, plan, wrong=None, is_endless=False):
        self.is_endless = is_endless
        self.system = system = Kernel({**plan, "trace": math.inf} if is_endless else plan, wrong)
        self.has_copies = wrong == "look-always-hits"  # then a CPU inside has a copy of its own; else the block is nobody else's
        self.locks = list(system.blocks)
        self.cpus, self.guests = range(len(system.cpus)), range(len(system.guests))
        self.traces_at, self.guests_at = len(system.cpus), 2 * len(system.cpus)
        self.locks_at = self.guests_at + len(system.guests)
        self.place_of = {lock: self.locks_at + i for i, lock in enumerate(self.locks)}
        self.buffers = [(lock[1], self.place_of[lock]) for lock in self.locks if lock[0] == "buffer"]
        self.number, self.kept, self.parts, self.breaks, self.grown, self.did = {}, [], [], {}, {}, None
        self.now = [self.number_of(place) for place in range(self.locks_at + len(self.locks))]

    # --- from the kernel to numbers

    def number_of(self, place):
        """The number of the piece that stands at a place of the state, as the kernel has it now."""
        piece = self.piece(place)
        found = self.number.get(piece)
        if found is None:
            found = self.number[piece] = len(self.kept)
            self.kept.append(piece)
            self.parts.append(self.part(place))
        return found

    def piece(self, place):
        """A piece begins with a letter for its kind, so that pieces of two kinds are never equal."""
        if place < self.traces_at:
            cpu = self.system.cpus[place]
            inside = None if cpu.block is None else self.block_piece(cpu.block) if self.has_copies else True
            return "c", cpu.current, cpu.hand, tuple(cpu.ready), cpu.begun, cpu.section, inside, place
        if place < self.guests_at:
            return ("e",) if self.is_endless else ("e", *self.system.cpus[place - self.traces_at].trace)
        if place < self.locks_at:
            guest = self.system.guests[place - self.guests_at]
            position = 0 if self.is_endless else guest.position
            effect = None if self.is_endless and guest.stage not in AFTER_EFFECT else guest.effect
            return "t", guest.line, tuple(guest.registers), guest.stage, position, effect, guest.place, place
        lock = self.locks[place - self.locks_at]
        line = sorted((cpu.ticket, c) for c, cpu in enumerate(self.system.cpus) if cpu.section is not None and cpu.section[1] == lock)
        return "b", self.block_piece(self.system.blocks[lock]), tuple([c for _, c in line]), place

    def block_piece(self, block):
        if isinstance(block, deque):
            return tuple(block)
        effects, positions, closes = (0, (0, 0), 0) if self.is_endless else (block.effects, tuple(block.positions), block.closes)
        return (block.owner, tuple(block.items), effects, tuple(block.sleepers), tuple(block.waiting[0]), tuple(block.waiting[1]),
                tuple(block.line[0]), tuple(block.line[1]), positions, block.closed, closes)

    def part(self, place):
        """What a piece says of the laws."""
        if place < self.traces_at:
            return part_of_cpu(self.system, place)
        if place < self.guests_at:
            return None
        return part_of_thread(self.system, place - self.guests_at) if place < self.locks_at else part_of_block(self.system, self.locks[place - self.locks_at])

    # --- from numbers to the kernel

    def load(self, state):
        """Makes a state the kernel's."""
        now = self.now
        for place, number in enumerate(state):
            if number != now[place]:
                self.put(place, self.kept[number])
        now[:] = state
        for cpu, number in zip(self.system.cpus, state):
            inside = self.kept[number][6]
            if inside is not None:
                cpu.block = self.block(cpu.section[1], inside) if self.has_copies else self.system.blocks[cpu.section[1]]

    def put(self, place, piece):
        system = self.system
        if place < self.traces_at:
            cpu = system.cpus[place]
            _, cpu.current, cpu.hand, ready, cpu.begun, cpu.section, cpu.block, _ = piece
            cpu.ready = deque(ready)
        elif place < self.guests_at:
            system.cpus[place - self.traces_at].trace = list(piece[1:])
        elif place < self.locks_at:
            guest = system.guests[place - self.guests_at]
            _, guest.line, registers, guest.stage, guest.position, guest.effect, guest.place, _ = piece
            guest.registers = list(registers)
        else:
            lock, line = self.locks[place - self.locks_at], piece[2]
            system.blocks[lock], system.words[lock] = self.block(lock, piece[1]), [len(line), 0]
            for ticket, c in enumerate(line):
                system.cpus[c].ticket = ticket

    def block(self, lock, piece):
        """The block of a lock that a piece says."""
        if lock[0] == "pending":
            return deque(piece)
        buffer = Buffer(self.system.blocks[lock].capacity)
        buffer.owner, items, buffer.effects, sleepers, receivers, senders, receive, send, positions, buffer.closed, buffer.closes = piece
        buffer.items, buffer.sleepers, buffer.positions = deque(items), deque(sleepers), list(positions)
        buffer.waiting, buffer.line = (deque(receivers), deque(senders)), (deque(receive), deque(send))
        return buffer

    # --- steps

    def after(self, c):
        """The state after a step of a CPU from the loaded one, or None if the step would change nothing: the CPU is halted, or looks in vain."""
        system, cpu = self.system, self.system.cpus[c]
        if cpu.section is None:
            if system.halted(c):
                return None
        elif cpu.block is None and system.wrong != "look-always-hits" and system.words[cpu.section[1]][1] != cpu.ticket:
            return None
        lock = cpu.section and cpu.section[1]
        self.did = system.step(c)
        lock = lock or (cpu.section and cpu.section[1])
        now = self.now
        for place in (c, *range(self.guests_at, self.locks_at)):
            now[place] = self.number_of(place)
        if system.entry:
            now[self.traces_at + c] = self.number_of(self.traces_at + c)
        if lock:
            now[self.place_of[lock]] = self.number_of(self.place_of[lock])
        return tuple(now)

    def after_section(self, c):
        """The state after the whole section of a CPU, or after a step of it that needs no lock; and how many steps that took."""
        state, taken = self.after(c), 1
        while state is not None and self.system.cpus[c].section is not None:
            state, taken = self.after(c), taken + 1
        return state, taken

    # --- the laws

    def broken(self):
        """The laws that do not hold in the loaded state."""
        now, parts = self.now, self.parts
        broken = broken_by([parts[number] for number in (*now[:self.traces_at], *now[self.guests_at:])], len(self.guests))
        traces = tuple(now[self.traces_at:self.guests_at])
        for b, place in self.buffers:
            broken.update(self.broken_at(traces, b, now[place]))
        if is_stillness_false(self.system):
            broken.add(QUIET_IS_STILL)
        return broken

    def broken_at(self, traces, b, number):
        """The laws on effects that do not hold of a buffer, whose block has a number."""
        found = self.breaks.get((traces, number))
        if found is None:
            found = self.breaks[traces, number] = broken_at([cpu.trace for cpu in self.system.cpus], b, self.system.blocks["buffer", b])
        return found

    def has_grown(self, old, new, c):
        """Whether a move of a CPU from a state to another let the order of effects go on by at most one call of this CPU."""
        earlier, later = (state[self.traces_at:self.guests_at] for state in (old, new))
        if earlier == later:
            return True
        found = self.grown.get((earlier, later, c))
        if found is None:
            found = self.grown[earlier, later, c] = has_grown(self.order_of(earlier), self.order_of(later), c)
        return found

    def order_of(self, traces):
        """The calls that took effect on each buffer, in the order of their op, where the traces have these numbers."""
        kept = [self.kept[number][1:] for number in traces]
        return [effects_of(kept, b) for b, _ in self.buffers]


class States:
    """The states that schedules reach, in the order of their distance, each with the last steps of a shortest schedule to it."""

    def __init__(self, plan, wrong=None, by_sections=False, is_endless=False):
        self.pieces, self.by_sections = Pieces(plan, wrong, is_endless), by_sections
        boot = tuple(self.pieces.now)
        self.number, self.came = {boot: 0}, [None]  # of each state: the one before it, the CPU that led here, and in how many steps
        self.layer, self.depth, self.moves = [boot], 0, 0
        self.broken, self.by_step, self.all, self.limited = {}, {}, False, False

    def __len__(self):
        return len(self.came)

    def look(self, depth=None, most=MOST_STATES, wanted=None, has_laws=True):
        """Goes through the states up to a distance, or all, and keeps where each law is first broken. Ends at the first that is wanted, and returns its
        number, or None."""
        if self.seen(0, wanted, has_laws):
            return 0
        while self.layer and (depth is None or self.depth < depth):
            nearer, self.layer = self.layer, []
            for state in nearer:
                found = self.spread(state, wanted, has_laws)
                if found is not None:
                    return found
                if len(self) >= most:
                    self.limited = True
                    return None
            self.depth += bool(self.layer)
        self.all = not self.layer
        return None

    def spread(self, state, wanted, has_laws):
        """Takes a step of each CPU from a state; returns the number of the first new state that is wanted, or None."""
        origin = self.number[state]
        for c in self.pieces.cpus:
            self.pieces.load(state)
            new, taken = self.pieces.after_section(c) if self.by_sections else (self.pieces.after(c), 1)
            self.moves += new is not None
            if has_laws and new is not None and not self.pieces.has_grown(state, new, c):
                self.by_step.setdefault(ORDER_GROWS, (origin, c, taken))
            if new is None or new in self.number:
                continue
            number = self.number[new] = len(self.came)
            self.came.append((origin, c, taken))
            self.layer.append(new)
            if self.seen(number, wanted, has_laws):
                return number
        return None

    def seen(self, number, wanted, has_laws):
        """Keeps which laws are broken first in the loaded state; tells whether it is wanted."""
        if has_laws:
            for law in self.pieces.broken():
                self.broken.setdefault(law, number)
        return wanted is not None and wanted(self.pieces.system)

    def systems(self):
        """The kernel in each state, in the order of their numbers."""
        for state in self.number:
            self.pieces.load(state)
            yield self.pieces.system

    def steps_to(self, number):
        """The steps of a shortest schedule to a state."""
        back = []
        while self.came[number] is not None:
            number, c, taken = self.came[number]
            back += [c] * taken
        return back[::-1]

    def schedule_to(self, number):
        return schedule_of(self.calm_steps_to(number))

    def calm_steps_to(self, number):
        """As many steps to the same state, with fewer changes of the CPU where moving a CPU's steps together leads there too."""
        runs = [(c, len(list(same))) for c, same in groupby(self.steps_to(number))]
        better = runs
        while better:
            runs = better
            better = next((moved for moved in moves_together(runs) if self.reached(moved) == number), None)
        return [c for c, times in runs for _ in range(times)]

    def reached(self, runs):
        """The number of the state after runs of steps that each change something, or None."""
        state = next(iter(self.number))
        for c in (c for c, times in runs for _ in range(times)):
            self.pieces.load(state)
            state = self.pieces.after(c)
            if state is None:
                return None
        return self.number.get(state)

    def breaches(self):
        """The laws that are broken somewhere, each with a shortest schedule that breaks it, and why: of what a step may do, by that step."""
        found = {}
        for law, number in self.broken.items():
            self.pieces.load(list(self.number)[number])
            why = WHY[law](self.pieces.system)
            found[law] = self.schedule_to(number), why
        for law, (origin, c, taken) in self.by_step.items():
            found.setdefault(law, (schedule_of(self.steps_to(origin) + [c] * taken), "its last step puts a call elsewhere than at the end of the order"))
        return [(law, *found[law]) for law in in_order(found)]


def moves_together(runs):
    """Each way to move two runs of one CPU together, to the place of the first or of the second."""
    for i, (c, times) in enumerate(runs):
        for j in range(i + 1, len(runs)):
            if runs[j][0] == c:
                whole = (c, times + runs[j][1])
                yield merged([*runs[:i], whole, *runs[i + 1:j], *runs[j + 1:]])
                yield merged([*runs[:i], *runs[i + 1:j], whole, *runs[j + 1:]])


def merged(runs):
    """Neighbours of one CPU as one run."""
    return [(c, sum(times for _, times in same)) for c, same in groupby(runs, lambda run: run[0])]


# --- reports ------------------------------------------------------------------------------------------------------------------------


def ending(system):
    """How a quiet state ended, in words: who has not ended, and what is left."""
    waiting = " ".join(f"t{t} {guest.place}" for t, guest in enumerate(system.guests) if guest.place != "Ended") or "all ended"
    left = [f"buffer {lock[1]} holds {' '.join(map(spelled, block.items))}" for lock, block in system.blocks.items() if lock[0] == "buffer" and block.items]
    return "; ".join([waiting, *left])


def endings(states):
    """The different ways in which runs end quiet, each with the number of its nearest state."""
    found = {}
    for number, system in enumerate(states.systems()):
        if is_quiet(system):
            found.setdefault(ending(system), number)
    return found


def reach(states):
    """How far the search went, in words."""
    if states.all:
        return "all of them: no schedule, however long, reaches another"
    return f"stopped at the limit of {len(states)} states" if states.limited else f"more are reached by longer schedules than {states.depth} steps"


def law_lines(states):
    """A line for each law: that it holds in each state, or a shortest schedule that breaks it, and why it is broken then."""
    found = {law: f"BROKEN: {law}, after --schedule '{schedule}': {why}" for law, schedule, why in states.breaches()}
    return [found.get(law, f"in each state: {law}") for law in LAWS]


def report(name, states):
    """The lines of a report on all states of a plan."""
    step = "whole sections" if states.by_sections else "steps"
    lines = [f"{name}: {len(states)} states, {states.moves} {step} between them, {reach(states)}", f"the farthest is {states.depth} {step} away"]
    return lines + law_lines(states) + [f"quiet: {words}, after --schedule '{states.schedule_to(number)}'" for words, number in endings(states).items()]


def compare(plan_text, states, many=None):
    """Runs the proved program to each state by a shortest schedule, or to so many of them, evenly chosen. Returns how many; a difference is a RuntimeError."""
    count = len(states)
    chosen = range(count) if not many or many >= count else [i * count // many for i in range(many)]
    keys = list(states.number)
    for number, proved in zip(chosen, proved_prints_each(plan_text, (schedule_of(states.steps_to(number)) for number in chosen))):
        states.pieces.load(keys[number])
        ours = states.pieces.system.text(), states.pieces.system.states()
        if ours != proved:
            raise RuntimeError(f"after {schedule_of(states.steps_to(number))}: {difference(ours, proved)}")
    return len(chosen)


def whole_report(asked, text, plan):
    """Prints the report on all states; returns whether all laws hold."""
    states, start = States(plan, asked.wrong, asked.sections), time.process_time()
    states.look(asked.steps, asked.most)
    seconds = time.process_time() - start
    print("\n".join(report(asked.plan.name, states)))
    if asked.time:
        print(f"took {seconds:.2f} s of processor time: {len(states) / seconds:.0f} states a second")
    if asked.compare is not None:
        print(f"compared with the proved program in {compare(text, states, asked.compare)} states: each prints the same")
    return not states.broken and not states.by_step


def find(asked, plan):
    """Prints a shortest schedule to a state that is asked for; returns whether there is one."""
    states = States(plan, asked.wrong, asked.sections, asked.endless)
    number = states.look(asked.steps, asked.most, asked_for(asked.find, plan), has_laws=False)
    if number is None:
        print(f"{asked.find}: {none_of(states)}")
    else:
        steps = states.calm_steps_to(number)
        print(f"{asked.find}: after --schedule '{schedule_of(steps)}' ({len(steps)} steps; {len(states)} states were looked at)")
    return number is not None


def none_of(states, deed="reaches one"):
    """That no state is one that was asked for, in words."""
    if states.all:
        return f"no schedule, however long, {deed} (these are all {len(states)} states)"
    return f"none that {deed}, in {len(states)} states up to {states.depth} steps away"


def shortest_broken(plan, mistake, most):
    """The shortest schedule by which a kernel with a mistake breaks a law, with the laws that it breaks, each with why: (steps, laws); or (None, in words)."""
    states = States(plan, mistake)
    number = states.look(most=most, wanted=lambda _: bool(states.pieces.broken()), has_laws=False)
    if number is None:
        return None, none_of(states, "breaks a law")
    states.pieces.load(list(states.number)[number])
    found = faults_in(states.pieces.system)
    return states.calm_steps_to(number), found


def search(plan, mistakes, most=60_000):
    """Prints, for each mistake, the shortest schedule that breaks a law, and why it is broken; returns 0 if one was found for each, else 1."""
    is_found = True
    for mistake in mistakes:
        steps, found = shortest_broken(plan, mistake, most)
        told = found if steps is None else f"{len(steps)} steps, '{schedule_of(steps)}': {'; '.join(f'{law} ({why})' for law, why in found)}"
        print(f"{mistake:24}{told}", flush=True)
        is_found = is_found and steps is not None
    return 0 if is_found else 1


def show_like(asked, plan):
    """Prints a schedule that gives a trace text; returns whether one was found."""
    found, count = like.schedule_like(plan, bytes_at(asked.like).decode("utf-8"), Pieces, asked.most)
    print(f"none found among {count} states" if found is None else schedule_of(found))
    return found is not None


def main():
    parser = argparse.ArgumentParser(description=__doc__, epilog=f"WHAT is {GRAMMAR}", formatter_class=argparse.RawDescriptionHelpFormatter)
    parser.add_argument("plan", type=Path)
    parser.add_argument("--steps", type=int, metavar="N", help="visit only states that at most N steps reach")
    parser.add_argument("--wrong", choices=WRONG, metavar="MISTAKE", help="run the kernel that makes this mistake; plans/kernel.py --help lists them")
    parser.add_argument("--sections", action="store_true", help="take whole sections as steps: visits only the states between sections, which are fewer")
    parser.add_argument("--find", metavar="WHAT", help="print a shortest schedule to such a state")
    parser.add_argument("--endless", action="store_true", help="with --find: ignore the history, so that a plan with loops has a finite number of states")
    parser.add_argument("--like", metavar="TRACE", help="print a schedule under which this trace is printed; - is standard input")
    parser.add_argument("--most", type=int, default=MOST_STATES, metavar="K", help=f"stop after K states (default: {MOST_STATES})")
    parser.add_argument("--compare", type=int, nargs="?", const=0, metavar="K", help="compare K states with the proved program (default: all)")
    parser.add_argument("--time", action="store_true", help="print the processor time")
    asked = parser.parse_args()
    if not asked.plan.exists():
        parser.exit(2, f"states: no such file: {asked.plan}; expected a plan, for example plans/one-send.toml\n")
    if asked.endless and (asked.find is None or asked.wrong == "look-always-hits"):
        parser.exit(2, "states: --endless needs --find, and excludes --wrong look-always-hits\n")
    if asked.endless and any(word in HISTORY for word in asked.find.split()):
        parser.exit(2, f"states: --endless ignores the history, so --find cannot use {', '.join(HISTORY)}\n")
    if asked.compare is not None and (asked.wrong or not program_is_there()):
        parser.exit(2, "states: --compare needs the built program, and excludes --wrong\n")
    try:
        text, plan = read_plan(asked.plan)
        if asked.like:
            is_well = show_like(asked, plan)
        else:
            is_well = find(asked, plan) if asked.find is not None else whole_report(asked, text, plan)
    except Refusal as refusal:
        sys.stderr.write(refusal.told(asked.like if refusal.words.startswith("ReadFault") and asked.like else asked.plan))
        return refusal.status
    except (OSError, ValueError, RuntimeError) as fault:
        sys.exit(f"states: {fault}")
    return 0 if is_well else 1


if __name__ == "__main__":
    run_alone()
    sys.exit(main())
