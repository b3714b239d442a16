#!/usr/bin/env python3
"""Tries the mutants (wrong bodies) of crates/NAME/wrong/*.edit: the prover must reject each, on the line of the very function that it changes.

usage: tests/wrong-bodies.py [--all] [--after-ci] [--minutes N] [--seed WORD] [--jobs N] [--only WORD] [--self-test] [NAME..]

A mutant is a file in the form of a must-fail edit, with a line before it that names the function, as a check prints it after the crate's name:

    fn: threads::Thread::value
    file: src/threads.rt
    old: self.registers[register.number()]
    new: self.registers[0]

Mutants of different functions are tried in ONE check of a copy of the crate: each round tries all that are open, one a function. A mutant counts as
rejected only if its own function gets a line `not proved` or `no proof: ..`. If that line names a callee that is not proved either, the mutant counts only
if a goal of its own function is open too: the line names the goal, or an error is in the function's folder of proofs. A failed callee by itself does not
count: such a mutant stays open for the next round. After a round that judged none, the first open one is tried by itself. A mutant that is still proved
then fails by name. An edit that cannot be applied, names no function, or ends in no verdict, as for lack of memory, fails too.

An edit that changes or adds a clause, a ghost line, a hint or a `prove!` is a BAD EDIT: the code that it breaks is right as it is. A mutant is weak if no
goal is open and only a proof file does not fit its shape, as where it names what the edit removed, or if it has a loop without a measure. A weak mutant
counts as rejected, and is listed again at the end, because perhaps no clause excludes it.

A mutant that a type excludes does not compile. Its file says so in its first line, with words of the compiler's error:

    refused: field `refused` of struct `NoMemory` is private

Such mutants of one crate are in one check, and again those that another's error hid. One counts as rejected only if an error with these words is on the very
line that it changes. The words must say that something is private: a misspelled name, or a value of another type, is rejected too, and shows nothing about
the tree. The last lines count them separately.

Each rejected mutant has a line in tests/refused.txt: its name, and a sum of the kit's logic, of the rules by which it was judged, of its function with that
function's folder of proofs, of the mutant itself, and of the contracts and definitions, in its crate and in all below it, that it reaches by names. The line
of a weak one ends in `weak`. docs/GATE.md says what a mutant reaches. Comments, the layout of imports, bodies of other functions, and lemmas are not in the
sum: what a contract forbids does not depend on its proof. A mutant whose sum is there is not tried again, except with --all. Each run without --after-ci
writes the file, so that an author who changes a crate tries its mutants once and commits the lines; lines without a mutant are removed. If two branches
meet, git takes the lines of both, and the next run drops those that fit neither. A file with a line of another form fails, and no mutant is tried. Each text
is read by the names under which the sums were taken: tests/names.txt has a line `new old` for each name that was changed since, so that a rename changes no
sum. If the sources still have an old name, that fails by name, and no mutant is tried.

The gate does not trust a line forever. With --minutes N it tries mutants that the file has, drawn by a seed that it chooses and prints, until they took N
minutes of processor time: half of them among lines that the last 30 commits changed. Drawn mutants are tried over holes, so that nothing that their functions
call is proved again; one that is not rejected so is tried whole, and then fails by name. --seed draws the same again. --after-ci takes the libraries that
`rt ci` left, takes the crates as proved, and writes nothing; without it the libraries are built first, and each function must be proved as it is. --only
tries, of the named crates, the mutants whose file name contains WORD, and writes their lines. The last line is 'N passed, M failed'.
"""
import argparse
import os
import random
import re
import sys
from concurrent.futures import ThreadPoolExecutor

sys.dont_write_bytecode = True
ROOT = os.path.dirname(os.path.dirname(os.path.realpath(__file__)))
sys.path.append(f"{ROOT}/tools")
import kit  # noqa: E402
from rename import Ambiguous  # noqa: E402
from bodies import ledger, own_test  # noqa: E402
from bodies.judge import bodies_of, say  # noqa: E402
from bodies.sums import Sums, logic, rules  # noqa: E402
from bodies.trial import build_below, try_crate, try_over_holes  # noqa: E402

LEDGER = f"{ROOT}/tests/refused.txt"


def memory_lanes():
    """Returns how many checks of up to 5 GB the free memory holds."""
    free = int(re.search(r"MemAvailable:\s+(\d+)", open("/proc/meminfo").read())[1])
    return max(1, min(len(os.sched_getaffinity(0)), free // 5_000_000))


class Run:
    """One run over the wrong bodies of some crates: what is known of them, what has to be tried, and what was found."""

    def __init__(self, lib, crates, given):
        self.lib, self.given = lib, given
        self.of = {it: bodies_of(it, f"{it.folder}/wrong") for it in crates}
        self.every = [body for mine in self.of.values() for body in mine]
        of_tree, self.sums = Sums(lib, f"{logic()}\n{rules()}", crates), {}
        for it in crates:
            self.sums |= of_tree.of(it, self.of[it])
        self.lines = ledger.read(LEDGER)
        self.known = [] if given.all else [it for it in self.every if not it.verdict and self.takes(it)]

    def takes(self, body):
        """Returns whether the ledger says that a body was refused, and takes that as its verdict."""
        told, total = self.lines.get(body.name(), ()), self.sums[body.name()]
        if total in told or f"{total} weak" in told:
            body.verdict, body.is_weak = "refused, by tests/refused.txt", total not in told
        return bool(body.verdict)

    def write(self, crate):
        """Writes into the ledger what was found of a crate's bodies."""
        if not self.given.after_ci:
            refused = {it.name(): " weak" if it.is_weak else "" for it in self.of[crate] if it.verdict and not it.is_failure}
            # what was not tried yet keeps its line
            held = {it.name(): self.sums[it.name()] for it in self.of[crate] if not it.is_failure}
            ledger.write(LEDGER, held, refused, {crate.name})

    def try_open(self):
        """Tries the bodies that have no verdict, and returns how many checks that took."""
        due = [it for it in self.of if any(not body.verdict for body in self.of[it])]
        say(f"wrong-bodies: {len(self.known)} of {len(self.every)} are in tests/refused.txt, others in {' '.join(it.name for it in due) or 'no crate'}")
        build_below(self.lib, due, self.given.after_ci)

        def work(crate):
            bodies = [it for it in self.of[crate] if self.given.only in it.name()]
            jobs = max(1, self.given.jobs // len(due))
            return try_crate(self.lib, crate, bodies, self.given.after_ci, jobs, lambda: self.write(crate))

        with ThreadPoolExecutor(self.given.jobs) as pool:
            return sum(pool.map(work, sorted(due, key=lambda it: -len(it.below()))))

    def try_some(self):
        """Tries bodies again that the ledger has, for the minutes that are given, and says which seed drew them."""
        crates, bodies = {it.name: it for it in self.of}, {it.name(): it for it in self.known}
        old = ledger.recent(ROOT, LEDGER)
        new = {it for it in bodies if old is not None and self.sums[it] not in old.get(it, ())}
        seed, left = self.given.seed or os.urandom(8).hex(), sorted(bodies)
        rng, functions = random.Random(seed), {it: f"{body.crate} {body.function}{bool(body.words)}" for it, body in bodies.items()}

        def draws(minutes):
            told = ledger.affordable(left, minutes)
            names = ledger.draw(rng, told, new, functions) if told else []
            left[:] = [it for it in left if it not in names]
            return names

        def work(names):
            for it in names:
                bodies[it].reopen()
            crate = crates[names[0].partition("/")[0]]
            build_below(self.lib, [crate], self.given.after_ci)
            try_over_holes(self.lib, crate, [bodies[it] for it in names], self.given.after_ci)

        tried = ledger.try_drawn(self.given.jobs, self.given.minutes, draws, work)
        of_new = f"{len(new.intersection(tried))} of its {len(new)} new lines"
        say(f"wrong-bodies: {len(tried)} of the {len(self.known)} of tests/refused.txt were tried again, {of_new}: --seed {seed}")
        for it in tried:
            if bodies[it].is_failure:
                say(f"wrong-bodies: tests/refused.txt says that {it} was refused, and it was not")

    def sum_up(self, rounds):
        """Prints what was found, and returns whether nothing failed."""
        tried = [it for it in self.every if it.verdict]
        failed, weak = sum(it.is_failure for it in tried), [it for it in tried if it.is_weak]
        for it in weak:
            say(f"wrong-bodies: only the shape of a proof refuses {it.name()}")
        by_type = sum(bool(it.words) and not it.is_failure for it in tried)
        prover = len(tried) - failed - by_type
        say(f"wrong-bodies: {prover} refused by the prover, {by_type} by the compiler, {len(weak)} weak, {failed} failed, {rounds} rounds")
        print(f"{len(tried) - failed} passed, {failed} failed")
        return failed == 0


def main():
    read = argparse.ArgumentParser(description=__doc__, formatter_class=argparse.RawDescriptionHelpFormatter)
    for flag in ("--all", "--after-ci", "--self-test"):
        read.add_argument(flag, action="store_true")
    read.add_argument("--jobs", type=int, default=memory_lanes())
    read.add_argument("--minutes", type=float, default=0)
    read.add_argument("--seed")
    read.add_argument("--only", default="")
    read.add_argument("names", nargs="*")
    given = read.parse_args()
    lib = kit.load()
    if given.self_test:
        return own_test.run(lib, ROOT)
    crates = [it for it in lib.crates_below(ROOT) if not given.names or it.name in given.names]
    if {*given.names} - {it.name for it in crates}:
        read.error(f"no crate is named {' '.join({*given.names} - {it.name for it in crates})}")
    try:
        run = Run(lib, crates, given)
    except (ledger.Unreadable, Ambiguous) as error:
        say(f"wrong-bodies: {'tests/names.txt' if isinstance(error, Ambiguous) else 'tests/refused.txt'}: {error}")
        print("0 passed, 1 failed")
        return 1
    rounds = run.try_open()
    if given.minutes and run.known:
        run.try_some()
    for it in crates:
        run.write(it)
    return 0 if run.sum_up(rounds) else 1


if __name__ == "__main__":
    sys.exit(main())
