#!/usr/bin/env python3
"""Runs the built program on the tables of tests/tables: traces for `check`, plans and programs that `run` accepts or rejects, and what programs do. The head of
each table says what its rows mean. `{CPUS}` stands for that limit, and `{CPUS+1}` for one more. .ci/run calls it; it takes seconds.

    tests/tables.py [PROGRAM..]

The default is each build of mctower that `rt ci` or `rt run` left. The last line is 'tables: N passed, M failed'.
"""
import json
import re
import subprocess
import sys
from pathlib import Path
from typing import Callable, NamedTuple

from named import program_at

ROOT = Path(__file__).resolve().parent.parent
sys.path.append(str(ROOT / "plans"))
import limits  # noqa: E402

BUILDS = ("crates/mctower/out/mctower", "crates/mctower/out/mctower.by-rattle")
REPEATED = re.compile(r"<(\d+)\*(.*?)>", re.S)
LIMIT = re.compile(r"\{([A-Z]+)([+-]1)?\}")
STEPS = "0*4000"  # more than any program of the tables takes


def outcome(program, words, text):
    """Returns the status, the output and the errors of one run of the program on this text."""
    ran = subprocess.run([program, *words], input=text, stdout=subprocess.PIPE, stderr=subprocess.PIPE, timeout=60)
    return ran.returncode, ran.stdout.decode(), ran.stderr.decode()


def spelled(part):
    """Returns the text that a part of a row stands for."""
    return part.replace("|", "\n").replace("\\r", "\r").replace("\\t", "\t")


def sections(name):
    """Yields the base text, or '' where there is none, and the rows beneath it, of a table."""
    text = (ROOT / "tests/tables" / name).read_text().replace("\\\n", "")
    text = re.sub(r"^#.*\n", "", text, flags=re.M)
    text = LIMIT.sub(lambda found: str(limits.TABLE[found[1]] + int(found[2] or 0)), text)
    for piece in text.split("==\n") if "==\n" in text else [f"--\n{text}"]:
        base, _, rows = piece.rpartition("--\n")
        if rows:
            yield base, rows.splitlines()


def with_lines(text, changes):
    """Returns the text with lines replaced: pairs of a line's number and what stands there instead."""
    lines = text.splitlines(keepends=True)
    for number, line in changes:
        lines[int(number) - 1] = spelled(line)
    return "".join(lines).encode().replace(b"\\xff", b"\xff")


def plan(lines):
    """Returns a plan whose one thread has these lines, with room for all that it does."""
    return f"cpus = 1\ntrace = 64\nbuffers = {[8] * limits.BUFFERS}\n[[thread]]\ncpu = 0\nprogram = {json.dumps(lines)}\n"


class Case(NamedTuple):
    """What the program gets, what is wanted of it, and what its status, its output and its errors say of that."""
    words: list
    text: bytes
    wanted: str
    told: Callable


def refusal(status, out, told):
    """The line by which `run` refuses a plan, or 'read'."""
    if status == 0 and out:
        return "read"
    return told.removeprefix("error: ").removesuffix("\n") if status == 1 and not out else f"status {status}: {told}{out}"


def verdict(status, out, told):
    """The answer of `check`."""
    sound = not told and status == (0 if out == "yes\n" else 3)
    return out.removesuffix("\n") if sound else f"status {status}: {told}{out}"


def deeds(status, out, told):
    """What a thread did, and where it stands."""
    entries = [line.split() for line in out.splitlines() if line.startswith("e ")]
    stands = re.search(r"^thread 0 (.*)$", told, re.M)
    return f"{', '.join(' '.join(entry[3:6]) for entry in entries)};{stands[1] if stands else told}"


def checked(base, row):
    """A row of texts: the answer of `check` is wanted."""
    *changes, wanted = row.split(";")
    return Case(["check"], with_lines(base, zip(changes[::2], changes[1::2])), wanted, verdict)


def planned(base, row):
    """A row of plans: it is wanted how a change of the plan is refused."""
    old, new, wanted = row.split(";")
    if old == "*":
        old = base[base.index("program = [") + len("program = [") : base.rindex("]")]
    new = REPEATED.sub(lambda found: int(found[1]) * found[2], new)
    return Case(["run"], base.replace(spelled(old), spelled(new)).encode(), wanted, refusal)


def read(_, row):
    """A row of programs: it is wanted how a program is refused."""
    text, wanted = row.rsplit(";", 1)
    count, _, line = text.rpartition("*")
    lines = [line] * int(count) if count else spelled(text).split("\n")
    return Case(["run"], plan(lines).encode(), wanted, lambda *answer: refusal(*answer).removeprefix("Guest(23) thread 0 "))


def run(_, row):
    """A row of runs: it is wanted what a program does and where it stands."""
    lines, effects, place = row.split(";")
    return Case(["run", "--schedule", STEPS], plan(lines.split("|")).encode(), f"{effects};{place}", deeds)


def most_entries(more, wanted):
    """A text of as many entries as a text may have, and of these lines behind them."""
    last = f"{limits.CPUS - 1} {limits.THREADS - 1}"
    pairs = (f"e {last} send 0 {i} {2 * i} {i}\ne 0 0 recv 0 {i} {2 * i + 1} {i}\n" for i in range(limits.ENTRIES // 2))
    text = "mctower-trace 1\nbuffers 2\ncap 0 1\ncap 1 1\n" + "".join(pairs) + f"{more}left 0\nleft 1\nend\n"
    return Case(["check"], text.encode(), wanted, lambda status, out, told: out)


TABLES = {"texts.txt": checked, "plans.txt": planned, "programs.txt": read, "runs.txt": run}


def cases():
    """Yields each row of the tables, by its name, and its case."""
    for name, meaning in TABLES.items():
        for base, rows in sections(name):
            for row in rows:
                yield f"{name}: {row}", meaning(base, row)


def fault_of(name, case, answer):
    """What is wrong with an answer to a case, or None."""
    came = case.told(*answer)
    return None if came == case.wanted else f"{name}\n  wanted: {case.wanted}\n  came: {came}"


def faults_of(program):
    """Runs all rows. Yields for each None, or what went wrong."""
    for name, case in cases():
        yield fault_of(name, case, outcome(program, case.words, case.text))
    for more, wanted in ("", "yes\n"), ("e 0 0 recv 1 7 1 1\n", f"no {limits.ENTRIES + 5} Range(31)\n"):
        case = most_entries(more, wanted)
        yield fault_of(f"the most entries and '{more}'", case, outcome(program, case.words, case.text))


def main():
    if "--help" in sys.argv:
        print(__doc__)
        return 0
    named = [program_at(it) for it in sys.argv[1:]] or [ROOT / it for it in BUILDS if (ROOT / it).exists()]
    results = [fault for program in named for fault in faults_of(str(program))]
    for fault in filter(None, results):
        print(f"tables: {fault}")
    failed = sum(fault is not None for fault in results)
    print(f"tables: {len(results) - failed} passed, {failed} failed")
    return 1 if failed or not results else 0


if __name__ == "__main__":
    sys.exit(main())
