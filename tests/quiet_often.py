#!/usr/bin/env python3
"""Runs random plans until they are quiet (quiescent) or the schedule ends, and checks for each quiet one
whether a thread could make progress. It reads only the plan, the trace and the places, and uses none
of the kernel's rules.

    quiet_often.py MCTOWER FIRST COUNT

It follows each thread's program along its entries. In a quiet system a thread has ended if its program
has. Any other thread is at a call that its buffer does not allow, and waits there: a send or a receive
at a buffer that is not closed. The last line counts the quiet systems; the status is 1 if one of them
was wrong.
"""
import argparse
import collections
import itertools
import random
import subprocess
import sys

import random_plan

STEPS = 20_000
REGISTERS = 8
# Which call has which kinds of effect: the second where it finds its buffer closed.
EFFECTS = {"send": ("send", "sendc"), "recv": ("recv", "recvc"), "close": ("close",)}
# Each instruction that is a call, with its kind of call and how many pieces stand before its target.
CALLS = {"send": ("send", 3), "sendm": ("send", 3), "recv": ("recv", 3), "recvm": ("recv", 2), "close": ("close", 2)}


def entries_of(text):
    """The entries of each thread, in order: (kind, buffer, words), without words where the message is spelled `-`."""
    entries = collections.defaultdict(list)
    for line in text.splitlines():
        pieces = line.split(" ")
        if pieces[0] == "e":
            words = [] if pieces[5] == "-" else [int(word) for word in pieces[5].split(",")]
            entries[int(pieces[2])].append((pieces[3], int(pieces[4]), words))
    return entries


def sent(pieces, registers):
    """The words that a send has taken from the registers."""
    return registers[:int(pieces[2])] if pieces[0] == "sendm" else [registers[int(pieces[2][1:])]]


def receive(pieces, registers, words):
    """Puts the words of a message where a receive puts them."""
    if pieces[0] == "recvm":
        registers[:] = words + [0] * (REGISTERS - len(words))
    else:
        registers[int(pieces[2][1:])] = words[0]


def next_call(lines, entries):
    """Where a program stands after these entries: None at its end, 'loops' where it has no call left
    to make, else its next call as (kind, buffer)."""
    registers, line, entries = [0] * REGISTERS, 0, list(entries)
    for _ in range(STEPS):
        if line >= len(lines) or lines[line] == "exit":
            return None
        pieces = lines[line].split(" ")
        word, line = pieces[0], line + 1
        if word in CALLS:
            (call, before), buffer = CALLS[word], int(pieces[1])
            if not entries:
                return call, buffer
            kind, at, words = entries.pop(0)
            assert kind in EFFECTS[call] and at == buffer
            assert call != "send" or words == sent(pieces, registers)
            if kind == "recv":
                receive(pieces, registers, words)
            if kind != call and len(pieces) > before:
                line = int(pieces[before])
        elif word == "jnz":
            line = int(pieces[2]) if registers[int(pieces[1][1:])] else line
        elif word != "yield":
            d, s = int(pieces[1][1:]), pieces[2]
            change = {"set": lambda: int(s), "add": lambda: registers[d] + registers[int(s[1:])], "sub": lambda: registers[d] - registers[int(s[1:])]}
            registers[d] = change[word]() % 2**64
    return "loops"


def programs_of(plan):
    programs = (line.split(" = ")[1][1:-1] for line in plan.splitlines() if line.startswith("program"))
    return [[line.strip('"') for line in program.split(", ")] for program in programs]


def could_go_on(call, place, capacities, left, closed):
    """Whether a thread that stands at this call could go on, or does not wait where it should."""
    if call is None:
        return place != "Ended"
    if call == "loops" or call[0] == "close" or call[1] in closed:
        return True
    word, buffer = call
    if word == "send":
        return len(left[buffer]) < capacities[buffer] or place != f"WaitSend({buffer})"
    return bool(left[buffer]) or place != f"WaitRecv({buffer})"


def is_wrong(plan, text, states):
    capacities, left, entries = [], [], entries_of(text)
    for line in text.splitlines():
        pieces = line.split(" ")
        if pieces[0] == "cap":
            capacities.append(int(pieces[2]))
        elif pieces[0] == "left":
            left.append(pieces[2:])
    closed = {buffer for own in entries.values() for kind, buffer, _ in own if kind == "close"}
    places = [line.split(" ")[2] for line in states.splitlines() if line.startswith("thread")]
    programs = programs_of(plan)
    assert len(places) == len(programs)
    calls = [next_call(program, entries[t]) for t, program in enumerate(programs)]
    return any(could_go_on(call, place, capacities, left, closed) for call, place in zip(calls, places))


def run(program, plan, steps):
    done = subprocess.run([program, "run", "--schedule", ",".join(steps)], input=plan, capture_output=True, text=True, check=True)
    return done.stdout, done.stderr


def quiet_run(program, plan, steps, cpus):
    """The texts of a run that ends quiet, or None. A CPU with nothing to do looks into its pending queue
    again and again, three steps each time, and is quiet between two of these: so up to two steps more
    are tried for each CPU, where all threads have ended or wait at a buffer."""
    for more in itertools.product(range(3), repeat=cpus):
        text, states = run(program, plan, steps + [f"{c}*{n}" for c, n in enumerate(more) if n])
        if states.endswith("quiet yes\n"):
            return text, states
        places = [line.split(" ")[2] for line in states.splitlines() if line.startswith("thread")]
        if not all(place == "Ended" or place.startswith("Wait") for place in places):
            return None
    return None


def main():
    read = argparse.ArgumentParser(description=__doc__, formatter_class=argparse.RawDescriptionHelpFormatter)
    read.add_argument("program", metavar="MCTOWER")
    read.add_argument("first", type=int, metavar="FIRST")
    read.add_argument("count", type=int, metavar="COUNT")
    given = read.parse_args()
    program, first, count = given.program, given.first, given.count
    quiet = wrong = 0
    for seed in range(first, first + count):
        choose = random.Random(seed)
        plan = random_plan.plan(choose, STEPS)
        cpus = int(plan.split("cpus = ")[1].split("\n")[0])
        steps = [f"{choose.randrange(cpus)}*{choose.randint(1, 80)}" for _ in range(STEPS // 40)]
        texts = quiet_run(program, plan, steps, cpus)
        if texts:
            quiet += 1
            if is_wrong(plan, *texts):
                wrong += 1
                print(f"seed {seed}: quiet, but a thread could go on")
    print(f"quiet: {count} plans, {quiet} became quiet, {wrong} of them wrongly")
    sys.exit(1 if wrong or not quiet else 0)


if __name__ == "__main__":
    main()
