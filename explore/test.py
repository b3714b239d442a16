#!/usr/bin/env python3
"""Tries explore/: builds it, and holds what it answers against other programs. .ci/run calls it.

    explore/test.py [PROGRAM] [--all]

Its reports by single steps are compared with those of plans/states.py, byte for byte, on small plans, on each
mistake, and on random plans; each reduction is compared with the search that reduces nothing (--audit); each
schedule that it finds is run by plans/kernel.py, and must lead to what was asked for; what it refuses is compared
with the rows of tests/tables. The proved program PROGRAM (else $MCTOWER, else the one in crates/mctower/out) runs
these schedules too, and the shortest ones to all states of small plans; without one the last lines say that this
was left out.
It needs rustc, and takes two minutes on two cores; with --all, every plan is compared that plans/states.py or
single steps can finish, which takes an hour. The last line is 'explore: N passed, M failed'; without rustc the
status is 77.
"""
import argparse
import os
import random
import re
import shutil
import stat
import subprocess
import sys
import tempfile
from concurrent.futures import ThreadPoolExecutor
from pathlib import Path

ROOT = Path(__file__).resolve().parent.parent
sys.path[:0] = [str(ROOT / "plans"), str(ROOT / "tests")]

from asking import asked_for  # noqa: E402
from kernel import WRONG, Kernel  # noqa: E402
from laws import LAWS, broken_in, order_of  # noqa: E402
from random_plan import plan as random_plan  # noqa: E402
from reading import Refusal, read_plan  # noqa: E402
from schedules import steps_of  # noqa: E402
from tables import cases  # noqa: E402

PLANS = sorted((ROOT / "plans").glob("*.toml")) + sorted((ROOT / "tests/rows").glob("*.toml"))
OWN = {path.stem: path for path in (ROOT / "explore/plans").glob("*.toml")}
SEVENTY_SEVEN = 77  # nothing was looked at
# How many states plans/states.py is asked for, and the megabytes that single steps may take where a reduction is compared with them: in the gate, so many as
# take a second; with --all, as many as plans/states.py takes, and as many as a program may have here.
SOME, ALL = (8_000, 12), (300_000, 600)
# A plan on which each mistake is seen.
BREAKS = {"look-always-hits": "plans/woken-from-afar", "pend-keeps-the-hand": "plans/receives-twice", "wakes-where-it-is": "plans/woken-from-afar",
          "release-frees-the-lock": "plans/woken-from-afar", "wait-frees-first": "plans/woken-from-afar", "first-word-alone": "tests/rows/words",
          "take-skips-the-turn": "plans/closed-for-two", "other-side-only": "plans/two-receivers", "closed-signals-nobody": "plans/closed-for-two",
          "closed-before-empty": "tests/rows/closed-with-an-item", "close-drops-the-items": "tests/rows/closed-with-an-item"}
# What is asked of which plan, with options; whether there is such a state.
ASKED = [("plans/two-receivers", "thread 0 WaitRecv and thread 1 in hand", [], True),
         ("plans/two-receivers", "deadlock", [], False),
         ("plans/two-receivers", "some thread waitrecv(0) and buffer 0 owned", ["--endless", "--rename"], True),
         ("plans/newcomer", "cpu 1 waits and cpu 0 inside", [], True),
         ("plans/closed-for-two", "buffer 0 closed and not every thread ended and quiet", [], False),
         ("plans/full-buffer", "effects 2", [], True),
         ("plans/woken-from-afar", "thread 1 not ready and buffer 0 full and buffer 0 free", [], True),
         ("explore/plans/philosophers", "deadlock", ["--endless"], True),
         ("explore/plans/philosophers-in-order", "deadlock", ["--endless"], False),
         ("explore/plans/three-pairs", "effects 5 and buffer 0 full", ["--rename"], True),
         ("explore/plans/pair-endless", "thread 0 waitsend", ["--endless"], True)]
# Numbers of states that another program of the step table has counted, and of moves where it did: name, options, numbers.
COUNTED = [("three-pairs", ["--steps"], 416_712, 1_088_439), ("three-pairs", [], 44_064, 118_923), ("three-pairs", ["--endless"], 38_294, None),
           ("three-pairs", ["--endless", "--rename"], 6_479, None), ("three-pairs-endless", ["--endless"], 418_636, None),
           ("three-pairs-endless", ["--endless", "--rename"], 69_844, None)]
REDUCED = ([], ["--endless"], ["--steps", "--rename"], ["--endless", "--rename"])
# A program in the place of the proved one: the model, which perhaps lies about one state.
STAND_IN = """#!/usr/bin/env python3
import sys
sys.path.insert(0, {plans!r})
from kernel import Kernel
from reading import read_plan
from schedules import steps_of
kernel = Kernel(read_plan(sys.stdin.buffer.read()))
steps = steps_of(sys.argv[3]) if sys.argv[1:2] == ["run"] and len(sys.argv) > 3 else []
for c in steps:
    kernel.step(c)
print(kernel.text(), end="")
print(kernel.states().replace("quiet no", "quiet yes" if len(steps) == {lie} else "quiet no"), end="", file=sys.stderr)
"""


class Tally:
    """What was tried, what went wrong, and what was left out."""

    def __init__(self, room, limits=SOME):
        self.room, self.program = Path(room), Path(room) / "out/explore"
        self.most_states, self.most_megabytes = limits
        self.count, self.faults, self.left_out = 0, [], []

    def holds(self, is_so, words):
        self.count += 1
        if not is_so:
            self.faults.append(words)

    def ask(self, *words, text=None):
        """Runs the searcher; returns its status, its output and its errors."""
        words = [str(self.program), *map(str, words)]
        ran = subprocess.run(words, cwd=ROOT, input=text, stdout=subprocess.PIPE, stderr=subprocess.PIPE, text=text is None or isinstance(text, str))
        decode = (lambda it: it) if isinstance(ran.stdout, str) else bytes.decode
        return ran.returncode, decode(ran.stdout), decode(ran.stderr)

    def each(self, what, items):
        """Tries what is given of each item, two at a time."""
        with ThreadPoolExecutor(2) as lanes:
            list(lanes.map(lambda item: what(self, *item), items))


def model_report(*words):
    """The report of plans/states.py."""
    ran = subprocess.run([sys.executable, "plans/states.py", "--most", "300000", *map(str, words)], cwd=ROOT, stdout=subprocess.PIPE, text=True)
    return ran.returncode, ran.stdout


def known_lines(text):
    """A report without the laws that plans/laws.py does not have; what holds in all states that were seen is said as plans/states.py says it."""
    text = text.replace("in each state that was seen: ", "in each state: ")
    law = re.compile(r"(?:in each state|BROKEN): ([^,:]*)")
    return [line for line in text.splitlines() if not law.match(line) or law.match(line)[1] in LAWS]


def states_in(report):
    """How many states a report tells of, and how many moves."""
    found = re.search(r": (\d+) states, (\d+) ", report)
    return (int(found[1]), int(found[2])) if found else (None, None)


def same_report(tally, path, *words):
    """A report by single steps is that of plans/states.py; one by whole sections has as many states and moves."""
    name = f"{path.name} {' '.join(words)}"
    options = [word.replace("--within", "--steps") for word in words]
    ours, model = tally.ask("--steps", *words, path), model_report(*options, path)
    tally.holds(known_lines(ours[1]) == known_lines(model[1]), f"{name}: it says\n{ours[1]}and plans/states.py\n{model[1]}")
    if not words:
        counts = states_in(tally.ask("--sections", path)[1])
        tally.holds(counts == states_in(model_report("--sections", path)[1]), f"{name}: by whole sections it tells {counts}")


def endless(tally):
    """Without history there is no deadlock in as many states as plans/states.py sees so, if it can leave history out."""
    helped = subprocess.run([sys.executable, "plans/states.py", "--help"], cwd=ROOT, stdout=subprocess.PIPE, text=True).stdout
    if "--endless" not in helped:
        tally.left_out.append("searches without history, which plans/states.py does not have")
        return
    for path in (OWN["pair-endless"], ROOT / "plans/woken-from-afar.toml", ROOT / "plans/closed-for-two.toml"):
        for model, ours in ((["--sections"], []), ([], ["--steps"])):
            told = model_report(*model, "--endless", "--find", "deadlock", path)[1]
            came = tally.ask(*ours, "--endless", "--find", "deadlock", path)[1]
            tally.holds(came == told and "these are all" in told, f"{path.name} {ours}: it says {came}, and plans/states.py {told}")


def small(tally, path, *words):
    """Whether plans/states.py is asked for the states of a plan."""
    _, out, _ = tally.ask("--steps", "--memory", 2 + tally.most_states // 4000, *words, path)
    return "not all states were seen" not in out and (states_in(out)[0] or 0) <= tally.most_states


def reports(tally):
    items = [(path,) for path in PLANS if small(tally, path)]
    wrong = [(ROOT / f"{name}.toml", "--wrong", mistake) for mistake, name in BREAKS.items()]
    items += [(path, *words, "--within", "60") if not small(tally, path, *words) else (path, *words) for path, *words in wrong]
    tally.each(same_report, items)
    tally.holds(len(items) > 30, f"only {len(items)} plans are small")


def random_reports(tally):
    """Random plans, as far as there are few states."""
    items = []
    for seed in range(24):
        path = tally.room / f"{seed}.toml"
        path.write_text(random_plan(random.Random(seed), 60))
        far = next(far for far in (60, 40, 30, 20, 12, 8, 4) if small(tally, path, "--within", far))
        items.append((path, "--within", str(far)))
    tally.each(same_report, items)


def audited(tally, path, *words):
    """A reduction is compared with the search by single steps."""
    status, out, told = tally.ask("--audit", "--memory", 80 + 2 * tally.most_megabytes, *words, path)
    tally.holds(status == 0 and "each state of one is a state of the other" in out, f"{path.name} {' '.join(words)} --audit: {status} {out}{told}")


def has_few(tally, path):
    """Whether single steps go through all states of a plan; else it is not compared."""
    is_small = tally.ask("--steps", "--memory", tally.most_megabytes, path)[0] != 3
    if not is_small:
        tally.left_out.append(f"reductions on {path.name}, which has too many states")
    return is_small


def audits(tally):
    """Each reduction on each plan, as far as single steps go through all states; on mistakes and plans without an end, so many steps far."""
    items = [(path, *words) for path in PLANS if has_few(tally, path) for words in REDUCED]
    items += [(OWN["three-pairs"],), (OWN["three-pairs"], "--endless", "--rename")]
    for mistake, name in BREAKS.items():
        far = ["--within", "80"] if mistake == "pend-keeps-the-hand" else []
        allowed = [words for words in REDUCED if mistake != "look-always-hits" or "--endless" not in words]
        items += [(ROOT / f"{name}.toml", "--wrong", mistake, *far, *words) for words in allowed]
    items += [(OWN[name], "--within", "40", *words) for name in ("three-pairs-endless", "philosophers", "pair-endless") for words in REDUCED]
    tally.each(audited, items)


def leads_there(path, asked, schedule, mistake=None):
    """Whether a run of plans/kernel.py by a schedule ends in a state that is asked for."""
    plan = read_plan(path.read_bytes())
    kernel, earlier, c = Kernel(plan, mistake), None, None
    for c in steps_of(schedule):
        earlier = order_of(kernel)
        kernel.step(c)
    if asked.startswith("law "):
        return asked.removeprefix("law ") in broken_in(kernel, earlier, c)
    return asked_for(asked, plan)(kernel)


def is_printed(program, path, schedule):
    """Whether the proved program prints of a run what plans/kernel.py does. Traces of a plan without an end get the room that the run needs."""
    text = re.sub(r"(?m)^trace = \d+", "trace = 1000", path.read_text(encoding="utf-8"))
    kernel = Kernel(read_plan(text.encode()))
    for c in steps_of(schedule):
        kernel.step(c)
    ran = subprocess.run([program, "run", "--schedule", schedule], input=text, stdout=subprocess.PIPE, stderr=subprocess.PIPE, text=True)
    return (ran.returncode, ran.stdout, ran.stderr) == (0, kernel.text(), kernel.states())


def answers(tally, program):
    """Schedules that are found lead there, in plans/kernel.py and in the proved program; that there is none is said of all states alone."""
    for name, asked, words, is_there in ASKED:
        path = ROOT / f"{name}.toml"
        status, out, told = tally.ask(path, "--find", asked, *words)
        found = re.search(r"after --schedule '([\d*,]*)' \((\d+) steps", out)
        tally.holds((status, bool(found)) == ((0, True) if is_there else (1, False)), f"{name}: {asked}: {status} {out}{told}")
        if found:
            tally.holds(leads_there(path, asked, found[1]) and len(steps_of(found[1])) == int(found[2]), f"{name}: {out}: plans/kernel.py is elsewhere")
            tally.holds(not program.is_file() or is_printed(program, path, found[1]), f"{name}: {out}: the proved program is elsewhere")
        else:
            tally.holds("no schedule, however long, reaches one (these are all" in out, f"{name}: {out}")


def breaches(tally):
    """Each mistake breaks a law by a schedule that is as short by whole sections, without history and by single steps, and by which plans/kernel.py breaks
    it too."""
    for mistake, name in BREAKS.items():
        path, lengths = ROOT / f"{name}.toml", set()
        ways = (["--steps"], [], ["--endless"]) if mistake != "look-always-hits" else (["--steps"],)
        for words in ways:
            status, out, told = tally.ask(path, "--find", "broken", "--wrong", mistake, *words)
            found = re.search(r"after --schedule '([\d*,]*)' \((\d+) steps.*\n(.*?): ", out)
            tally.holds(status == 0 and found, f"{mistake} {words}: {status} {out}{told}")
            if found and found[3] in LAWS:
                lengths.add(found[2])
                tally.holds(leads_there(path, f"law {found[3]}", found[1], mistake), f"{mistake} {words}: {out}: plans/kernel.py does not break it")
        tally.holds(len(lengths) <= 1, f"{mistake}: the shortest schedules have {lengths} steps")


def counts(tally):
    """Numbers of states that another program has counted."""
    for name, words, *wanted in COUNTED:
        status, out, told = tally.ask(OWN[name], *words)
        came = states_in(out)
        tally.holds(status == 0 and "however long" in out and came[0] == wanted[0] and wanted[1] in (None, came[1]), f"{name} {words}: {status} {out}{told}")


def memory(tally):
    """Within its limit it stops, says so, and takes no more; nothing is said of all states."""
    for words in (["--find", "deadlock"], []):
        read, write = os.pipe()
        child = subprocess.Popen([tally.program, "--memory", "24", "--progress", "0.2", *words, OWN["three-pairs-endless"]], cwd=ROOT, stdout=write,
                                 stderr=subprocess.PIPE)
        told = child.stderr.read().decode()
        _, status, usage = os.wait4(child.pid, 0)
        child.returncode = os.waitstatus_to_exitcode(status)
        os.close(write)
        with os.fdopen(read) as text:
            out = text.read()
        tally.holds(child.returncode == 3 and "24 MB: not all states were seen" in out and "however long" not in out, f"--memory 24: {child.returncode} {out}")
        tally.holds(usage.ru_maxrss < 40 * 1024, f"--memory 24: it took {usage.ru_maxrss} KB")
        tally.holds(re.search(r"\d+ states, \d+ a second, \d+ in the queue, \d+ steps away, \d+ MB", told), f"progress: {told}")


def refusals(tally):
    """Plans and programs are refused as the program refuses them, by the rows of its tables."""
    for name, case in cases():
        if name.startswith(("plans.txt", "programs.txt")):
            status, out, told = tally.ask("-", "--within", 0, text=case.text)
            refusal = told.split("\n")[0].removeprefix("error: ") if status == 2 else "read"
            tally.holds(refusal.removeprefix("Guest(23) thread 0 ") == case.wanted.removeprefix("Guest(23) thread 0 "), f"{name}: {status} {told}{out}")


def changed(text, choose):
    """A text in which a piece is left out, doubled, or replaced."""
    at, size = choose.randrange(len(text)), choose.choice((1, 1, 2, 5, 20))
    signs = choose.choice("[]{}=\"'\\,.#\n 0_xeT:-+")
    piece = choose.choice(("", text[at:at + size] * 2, signs, "\n[a.b]\n", "\nx.y = {z = 1979-05-27T07:32:00Z}\n", '"""', "1e5"))
    return text[:at] + piece + text[at + size:]


def documents(tally):
    """Damaged plans are refused by the words with which plans/reading.py refuses them."""
    choose, texts = random.Random(84), [path.read_text() for path in PLANS[:12]]
    for number in range(250):
        text = choose.choice(texts)
        for _ in range(choose.randint(1, 3)):
            text = changed(text, choose)
        try:
            read_plan(text.encode())
            wanted = "read"
        except Refusal as refusal:
            wanted = refusal.words
        status, out, told = tally.ask("-", "--within", 0, text=text)
        came = told.split("\n")[0].removeprefix("error: ") if status == 2 else "read"
        tally.holds(came == wanted, f"damaged plan {number}: it says {came}, and plans/reading.py {wanted}\n{text}")


LINES = [((), "expected one PLAN"), (("plans/none.toml",), "ReadFault(7)"), (("--wrong", "looks", "plans/one-send.toml"), "`looks` is no mistake"),
         (("--find", "law no lost wake up", "plans/one-send.toml"), "Is `no lost wake-up` meant?"),
         (("--find", "thread 9 ended", "plans/one-send.toml"), "`thread 9 ended` cannot be asked of this plan"),
         (("--find", "dedlock", "plans/one-send.toml"), "`dedlock` cannot be asked of this plan"),
         (("--memory", "much", "plans/one-send.toml"), "`much` is none"), (("--within", "-1", "plans/one-send.toml"), "`-1` is none"),
         (("--steps", "--sections", "plans/one-send.toml"), "one of --steps and --sections"), (("--find", "quiet"), "expected one PLAN"),
         (("plans/one-send.toml", "--find"), "--find needs a value"), (("--all", "plans/one-send.toml"), "--all is no option"),
         (("--sections", "--find", "cpu 0 waits", "plans/one-send.toml"), "ask for that with --steps"),
         (("--endless", "--find", "effects 1", "plans/one-send.toml"), "states have no history"),
         (("--endless", "--wrong", "look-always-hits", "plans/one-send.toml"), "leave out --endless"),
         (("--rename", "--find", "thread 0 ended", "plans/one-send.toml"), "leave out --rename"),
         (("--compare", "--wrong", "other-side-only", "plans/one-send.toml"), "leave out --wrong"),
         (("--steps", "--steps", "plans/one-send.toml"), "--steps is given twice"),
         (("--audit", "--find", "quiet", "plans/one-send.toml"), "leave out --find"),
         (("--compare", "--program", "/none", "plans/one-send.toml"), "/none: ")]


def lines(tally):
    """Command lines that cannot be served, each with its answer; and the help."""
    for words, wanted in LINES:
        status, out, told = tally.ask(*words)
        tally.holds(status == 2 and wanted in told, f"{' '.join(words)}: {status} {told}{out}")
    status, out, told = tally.ask("--help")
    tally.holds(status == 0 and not told and len(out.splitlines()) <= 70 and all(mistake in out for mistake in WRONG), f"--help: {status} {told}")


def compared(tally, program):
    """A program that prints each state is passed, and one that lies about a state is not; the proved program, where it is built, prints each state."""
    for lie, wanted in ((-1, 0), (17, 1)):
        path = tally.room / f"stand-in{lie}"
        path.write_text(STAND_IN.format(plans=str(ROOT / "plans"), lie=lie))
        path.chmod(path.stat().st_mode | stat.S_IXUSR)
        status, out, told = tally.ask("--compare", "--program", path, ROOT / "plans/one-send.toml")
        tally.holds(status == wanted, f"--compare with a program that lies about {lie}: {status} {out}{told}")
    if not program.is_file():
        tally.left_out.append(f"the proved program, since there is none at {program}")
        return
    for name, words in (("two-senders", []), ("woken-from-afar", ["--steps"]), ("receives-twice", ["--steps"]), ("closed-for-two", ["--endless"])):
        status, out, told = tally.ask("--compare", "--program", program, *words, ROOT / f"plans/{name}.toml")
        tally.holds(status == 0 and "each prints the same" in out, f"{name} beside the proved program: {status} {out[-500:]}{told}")
    status, out, told = tally.ask("--compare=0", "--program", program, "--find", "effects 2", ROOT / "plans/full-buffer.toml")
    tally.holds(status == 0 and "in what was found and in 0 states: each prints the same" in out, f"--find beside the proved program: {status} {out}{told}")


def main():
    read = argparse.ArgumentParser(description=__doc__, formatter_class=argparse.RawDescriptionHelpFormatter)
    read.add_argument("program", nargs="?", type=Path, default=Path(os.environ.get("MCTOWER", ROOT / "crates/mctower/out/mctower")))
    read.add_argument("--all", action="store_true")
    words = read.parse_args()
    program = words.program.resolve()
    if not shutil.which("rustc"):
        print("explore: nothing was looked at, since no rustc is here to build it\nexplore: 0 passed, 0 failed")
        return SEVENTY_SEVEN
    with tempfile.TemporaryDirectory() as room:
        tally = Tally(room, ALL if words.all else SOME)
        built = subprocess.run(["rustc", "-O", "--out-dir", f"{room}/out", ROOT / "explore/explore.rs"], stderr=subprocess.PIPE, text=True)
        tally.holds(built.returncode == 0 and not built.stderr, f"rustc says: {built.stderr}")
        for what in (lines, refusals, documents, breaches, reports, random_reports, endless, counts, audits, memory):
            what(tally)
        answers(tally, program)
        compared(tally, program)
    print(*tally.faults, sep="\n", end="\n" if tally.faults else "")
    for what in tally.left_out:
        print(f"explore: not compared: {what}")
    print(f"explore: {tally.count - len(tally.faults)} passed, {len(tally.faults)} failed")
    return 1 if tally.faults else 0


if __name__ == "__main__":
    sys.exit(main())
