#!/usr/bin/env python3
"""Writes random plans, each with a schedule in the command of its first lines:

    random_plan.py FOLDER FIRST COUNT [STEPS [large]]

FOLDER/SEED.toml for COUNT seeds from FIRST on, with schedules of at most STEPS steps (3,000 where
nothing is said). Small systems that block often: up to 4 CPUs, 8 threads and 3 buffers of little
room, schedules that run a CPU for a while or hand over at every step, and traces that are sometimes
too short. With the word `large`, systems up to the limits of CPUs, threads and buffers,
of each every third as many as there may be, and longer schedules. In every other plan threads close buffers, some of them twice, and calls have targets; in
every other one, whichever of these it is, they send and receive messages of several words."""
import argparse
import random
import sys
from pathlib import Path

sys.path.append(str(Path(__file__).resolve().parent.parent / "plans"))
from limits import BUFFERS, CPUS, THREADS  # noqa: E402

WORDS = ["set", "add", "sub", "send", "recv", "yield", "exit", "loop", "close", "sendm", "recvm"]
REGISTERS = [0, 1, 2, 3] * 3 + [4, 5, 6, 7]


def program(choose, buffers, closes, has_words):
    lines, count = [], choose.randint(1, 6)
    for _ in range(count):
        word = choose.choices(WORDS, [3, 1, 1, 6, 6, 2, 1, 1, 4 if closes else 0, 5 if has_words else 0, 5 if has_words else 0])[0]
        d, s, b = choose.choice(REGISTERS), choose.choice(REGISTERS), choose.randrange(buffers)
        target = f" {choose.randrange(count)}" if closes and choose.random() < 0.4 else ""
        if word == "set":
            lines.append(f"set r{d} {choose.choice([0, 1, 2, 7, 2**64 - 1, choose.randrange(2**64)])}")
        elif word in ("add", "sub"):
            lines.append(f"{word} r{d} r{s}")
        elif word == "send":
            lines.append(f"send {b} r{s}{target}")
        elif word == "recv":
            lines.append(f"recv {b} r{d}{target}")
        elif word == "sendm":
            lines.append(f"sendm {b} {choose.choice([1, 2, 2, 3, 8, choose.randint(1, 8)])}{target}")
        elif word == "recvm":
            lines.append(f"recvm {b}{target}")
        elif word == "close":
            lines.append(f"close {b}")
        elif word == "loop":
            lines.append(f"jnz r{s} {choose.randint(0, len(lines))}")
        else:
            lines.append(word)
    return lines


def schedule(choose, cpus, most, items_at_most=40):
    items, left = [], most
    for _ in range(choose.randint(1, items_at_most)):
        steps = min(left, choose.choice([1, 1, 2, 3, choose.randint(1, 30), choose.randint(1, 80)]))
        if steps == 0:
            break
        items.append(f"{choose.randrange(cpus)}*{steps}")
        left -= steps
    return ",".join(items)


def up_to(choose, limit):
    return choose.choice([limit, choose.randint(1, limit), choose.randint(1, limit)])


def plan(choose, most, is_large=False):
    if is_large:
        cpus, threads, buffers = up_to(choose, CPUS), up_to(choose, THREADS), up_to(choose, BUFFERS)
    else:
        cpus, threads, buffers = choose.randint(1, 4), choose.randint(1, 8), choose.randint(1, 3)
    capacities = ", ".join(str(choose.choice([1, 1, 2, 3])) for _ in range(buffers))
    closes, has_words = choose.random() < 0.5, choose.random() < 0.5
    text = f"cpus = {cpus}\ntrace = {choose.choice([1, 2, 5, 40, 40, 40])}\nbuffers = [{capacities}]\n"
    for _ in range(threads):
        lines = ", ".join(f'"{line}"' for line in program(choose, buffers, closes, has_words))
        text += f"\n[[thread]]\ncpu = {choose.randrange(cpus)}\nprogram = [{lines}]\n"
    return f"#   mctower run --schedule '{schedule(choose, cpus, most, 1000 if is_large else 40)}' < THIS\n{text}"


def main():
    read = argparse.ArgumentParser(description=__doc__, formatter_class=argparse.RawDescriptionHelpFormatter)
    read.add_argument("folder", metavar="FOLDER")
    read.add_argument("first", type=int, metavar="FIRST")
    read.add_argument("count", type=int, metavar="COUNT")
    read.add_argument("most", nargs="?", type=int, default=3000, metavar="STEPS")
    read.add_argument("large", nargs="?", choices=("large",))
    given = read.parse_args()
    for seed in range(given.first, given.first + given.count):
        with open(f"{given.folder}/{seed}.toml", "w") as file:
            file.write(plan(random.Random(seed), given.most, given.large is not None))


if __name__ == "__main__":
    main()
