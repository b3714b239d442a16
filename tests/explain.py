#!/usr/bin/env python3
"""Compares plans/explain.py and plans/kernel.py with the built program, over plans, schedules and traces that are right or nearly right.

    tests/explain.py [--many] [PROGRAM]

The first line and the exit status of explain.py must be the program's. kernel.py must reject what the program rejects, with the same first line and status,
and otherwise print the same. For each mistake of tests/mistakes.py, explain.py must print the explanation in that table. kernel.py with any mistake must run to
its end; each schedule of --rounds must leave the program quiet; run.sh and picture.py must print what explain.py prints. The random choices are the same each
time. --many takes 6,000 plans, 3,000 schedules and 3,000 texts instead of 500 each, which takes some minutes. The last line counts the comparisons; the
status is 1 if one differs.
"""
import io
import os
import pty
import random
import re
import subprocess
import sys
import tempfile
from collections import Counter
from contextlib import redirect_stderr, redirect_stdout
from pathlib import Path

ROOT = Path(__file__).resolve().parent.parent
sys.path[:0] = [str(ROOT / "plans"), str(ROOT / "tests")]
import damaged  # noqa: E402
import explain  # noqa: E402
import kernel  # noqa: E402
import mistakes  # noqa: E402
from limits import CPUS  # noqa: E402
from named import program_at  # noqa: E402
from reading import Refusal, read_plan  # noqa: E402
from schedules import read_schedule, schedule_of, steps_of  # noqa: E402

PROGRAM = ROOT / "crates/mctower/out/mctower"
FEW = {"plans": 500, "schedules": 500, "texts": 500, "wrong kernels": 300}
MANY = {"plans": 6000, "schedules": 3000, "texts": 3000, "wrong kernels": 5000}
MOST_STEPS = 3000  # of a run that kernel.py takes too


class Comparisons:
    """What was compared: how often by what it was, what the program answered, and how many differed."""

    def __init__(self, program, folder):
        self.program, self.folder = program, folder
        self.counts, self.answers, self.differ = Counter(), Counter(), 0

    def hold(self, what, case, came, wanted):
        self.counts[what] += 1
        if came != wanted:
            self.differ += 1
            print(f"explain: {what}: {case!r}\n  got      {came!r}\n  expected {wanted!r}")

    def run(self, words, given):
        """The exit status of the program, its output and what it says on standard error."""
        ran = subprocess.run([self.program, *words], input=given, capture_output=True, timeout=120)
        return ran.returncode, ran.stdout.decode(), ran.stderr.decode()

    def run_plan(self, plan, schedule):
        return self.run(["run"] + ([] if schedule is None else [f"--schedule={schedule}"] if schedule else ["--schedule", schedule]), plan)


def by_kernel(words):
    """The exit status of kernel.py, its output and what it says on standard error."""
    out, err = io.StringIO(), io.StringIO()
    with redirect_stdout(out), redirect_stderr(err):
        try:
            status = kernel.main(words)
        except SystemExit as end:
            status = end.code
    return status, out.getvalue(), err.getvalue()


def steps_in(schedule):
    """How many steps a schedule has; 0 where it is none."""
    try:
        return sum(times for _, times in read_schedule(schedule))
    except Refusal:
        return 0


def hold_run(to, what, plan, schedule):
    """Holds a plan and a schedule: explain.py, and kernel.py if the run is not long, against the program."""
    status, out, err = to.run_plan(plan, schedule)
    to.answers[err.split("\n")[0].split(" ")[1] if status else "run"] += 1
    told, first, _ = explain.plan_told(plan, "plan", schedule)
    case = (plan, schedule)
    to.hold(what, case, (told, first + "\n") if status else told, (status, err) if status else 0)
    if steps_in(schedule) <= MOST_STEPS:
        (to.folder / "plan").write_bytes(plan)
        came = by_kernel(["--", str(to.folder / "plan"), schedule])
        if status:
            came = came[0], came[1], came[2].split("\n")[0] + "\n"
        else:  # its notes on keys that are ignored stand behind what the program prints
            came = came[0], came[1], came[2].partition("kernel: ")[0]
        to.hold(f"{what} by kernel.py", case, came, (status, out, err))


def odd_lines(to):
    """Holds a right plan with each odd value, and with each odd line in front and behind."""
    for value in damaged.ODD_VALUES:
        hold_run(to, "odd lines", f"extra = {value}\n{mistakes.PLAN}".encode(), "0*6")
    for line in damaged.ODD_LINES:
        hold_run(to, "odd lines", f"{line}\n{mistakes.PLAN}".encode(), "0*6")
        hold_run(to, "odd lines", f"{mistakes.PLAN}{line}\n".encode(), "0*6")


def plans(to, pick, many):
    for _ in range(many):
        plan = damaged.often(pick, damaged.near_a_plan, damaged.some_plan(pick), [0, 1, 1, 1, 2, 3])
        hold_run(to, "plans", plan, f"0*{pick.randint(1, 90)}")


def schedules(to, pick, many):
    for _ in range(many):
        plan = damaged.some_plan(pick)
        if pick.random() < 0.2:
            plan = damaged.near_a_plan(pick, plan)
        hold_run(to, "schedules", plan, damaged.some_schedule(pick))


def texts(to, pick, many):
    for _ in range(many):
        text = damaged.often(pick, damaged.near_a_text, damaged.some_text(pick), [0, 0, 1])
        status, out, _ = to.run(["check"], text)
        to.answers[out.split()[-1]] += 1
        told, first, _ = explain.text_told(text, "text")
        to.hold("texts", text, (told, first + "\n"), (status, out))


def told_mistakes(to):
    """Holds each mistake: the first line against the program, and what is told beside it against the table."""
    for plan, schedule, words in mistakes.of_plans():
        status, out, err = to.run_plan(plan, schedule)
        told, first, beside = explain.plan_told(plan, "my.toml", schedule)
        to.hold("mistakes", (plan, schedule), (told, first + "\n" if told else "", beside), (status, err if status else "", words))
    for text, words in mistakes.of_texts():
        status, out, _ = to.run(["check"], text)
        told, first, beside = explain.text_told(text, "my.txt")
        to.hold("mistakes", text, (told, first + "\n", beside), (status, out, words))


def wrong_kernels(to, pick, many):
    """kernel.py with a mistake takes each step of some schedule, and tells how it stands."""
    runs = [read_plan(plan) for plan in damaged.PLANS]
    for _ in range(many):
        plan, mistake = pick.choice(runs), pick.choice(list(kernel.WRONG))
        steps = [pick.randrange(plan["cpus"]) for _ in range(pick.randint(1, 30)) for _ in range(pick.choice([1, 2, 3, 5, 10, 20]))]
        came = "its end"
        try:
            system = kernel.Kernel(plan, mistake)
            for c in steps:
                system.step(c)
            system.text(), system.states()
        except Exception as fault:  # whatever it is, a student would see its traceback
            came = repr(fault)
        to.hold("wrong kernels", (mistake, plan, schedule_of(steps)), came, "its end")


def in_rounds(to):
    """Each schedule in rounds ends where the program says that nobody can go on, or that a trace is full."""
    for path in sorted([*ROOT.glob("plans/*.toml"), *ROOT.glob("tests/rows/*.toml")]):
        status, schedule, err = by_kernel(["--rounds", str(path)])
        to.hold("rounds", path.name, (status, err), (0, ""))
        status, _, states = to.run_plan(path.read_bytes(), schedule.strip())
        to.hold("rounds", path.name, status == 0 and ("quiet yes" in states or "TraceFull" in states), True)


def command(words, to, given=b""):
    ran = subprocess.run(words, cwd=ROOT, input=given, capture_output=True, env={**os.environ, "MCTOWER": str(to.program)}, timeout=60)
    return ran.returncode, ran.stdout.decode(), ran.stderr.decode()


def at_terminals(to):
    """What kernel.py says on a terminal of a plan whose thread waits for room for ever: after schedules that end at rest, in an idle look, and before."""
    full = to.folder / "full.toml"
    full.write_text(mistakes.PLAN.replace('"exit"', '"send 0 r0"'))
    said = [at_terminal(full, steps) for steps in (59, 60, 30)]
    return [(re.findall("quiet .*", words), "kernel: deadlock: no thread can ever proceed" in words) for words in said]


def at_terminal(plan, steps):
    """What kernel.py prints on standard error where that is a terminal."""
    ours, theirs = pty.openpty()
    with open(ours, "rb", buffering=0) as said, open(theirs, "wb", buffering=0) as terminal:
        subprocess.run(["plans/kernel.py", str(plan), f"0*{steps}"], cwd=ROOT, stdout=subprocess.DEVNULL, stderr=terminal, timeout=60, check=True)
        return said.read(65536).decode().replace("\r", "").strip()


def command_lines(to):
    """What the programs of plans/ answer to a command line."""
    plan = to.folder / "refused.toml"
    plan.write_text("# mctower run --schedule '0*3' < refused.toml\n" + mistakes.PLAN.replace("r0 7", "r8 7"))
    line = "error: Guest(23) thread 0 line 0 BadRegister(11)\n"
    beside = f'{plan}:7: "set r8 7": operand 1, "r8": expected a register, r0 to r7\n'
    to.hold("commands", "run.sh", command(["plans/run.sh", str(plan)], to), (1, "", line + beside))
    to.hold("commands", "kernel.py", command(["plans/kernel.py", str(plan)], to), (1, "", line + beside))
    to.hold("commands", "picture.py", command(["plans/picture.py", str(plan)], to), (1, "", line + beside))
    to.hold("commands", "explain.py", command(["plans/explain.py", str(plan)], to), (1, line + beside, ""))
    to.hold("commands", "explain.py -", command(["plans/explain.py", "-"], to, f"cpus = {CPUS + 1}".encode()),
            (1, f"error: OutOfRange(22) cpus\nstandard input:1: cpus is {CPUS + 1}: expected an integer, 1 to {CPUS}\n", ""))
    to.hold("commands", "explain.py --check", command(["plans/explain.py", "--check", "-"], to),
            (3, "no 1 Spelling(30)\n"
                "standard input:1: expected mctower-trace 1, but the text ends. The text is empty: was the plan of its run rejected?\n", ""))
    to.hold("commands", "a folder", command(["plans/explain.py", "plans"], to), (1, "error: ReadFault(7)\nplans: Is a directory\n", ""))
    status, out, err = command(["plans/kernel.py", "--wrong", "other-side-only", "--wrong", "take-skips-the-turn", "plans/one-send.toml"], to)
    to.hold("commands", "a second mistake", (status, out, err.splitlines()[-1]), (2, "", "kernel.py: error: --wrong is given twice"))
    early = ["--wrong", "look-always-hits", "plans/woken-from-afar.toml", "0*6,1*4,0*2,1,0*2"]  # a receive that is in no line tries
    status, _, err = command(["plans/kernel.py", *early], to)
    to.hold("commands", early, (status, err.splitlines()[-1]), (0, "quiet no"))
    to.hold("commands", "explain.py --beside", command(["plans/explain.py", "--beside", "plans/one-send.toml"], to), (0, "", ""))
    lone = to.folder / "lone.toml"
    lone.write_text("locks = 2\n" + mistakes.PLAN)
    status, _, err = command(["plans/kernel.py", str(lone)], to)
    to.hold("commands", "no schedule", (status, err.splitlines()[-2:]), (0, [
        f"kernel: {lone}:1: the key locks is ignored. Did you mean lock?",
        f"kernel: {lone}: no step was taken: there is no schedule as an argument or in its first lines; plans/kernel.py --rounds prints one"]))
    to.hold("commands", "a deadlock", at_terminals(to), [(["quiet yes"], True), (["quiet no"], True), (["quiet no"], False)])
    to.hold("commands", "many steps", (schedule_of([0] * 70000 + [1]), steps_of("0*2,1")), ("0*70000,1", [0, 0, 1]))


def main(words):
    if "--help" in words:
        print(__doc__)
        return 0
    many = MANY if "--many" in words else FEW
    program = program_at([*(word for word in words if word != "--many"), PROGRAM][0])
    with tempfile.TemporaryDirectory() as folder:
        to, pick = Comparisons(program, Path(folder)), random.Random(1)
        told_mistakes(to)
        odd_lines(to)
        command_lines(to)
        in_rounds(to)
        plans(to, pick, many["plans"])
        schedules(to, pick, many["schedules"])
        texts(to, pick, many["texts"])
        wrong_kernels(to, pick, many["wrong kernels"])
    print("explain: the program answered", ", ".join(f"{name} {count}" for name, count in sorted(to.answers.items())))
    print("explain:", ", ".join(f"{count} {name}" for name, count in to.counts.items()) + f": {sum(to.counts.values())} compared, {to.differ} differ")
    return 1 if to.differ or not to.answers["run"] or not to.answers["yes"] else 0


if __name__ == "__main__":
    sys.exit(main(sys.argv[1:]))
