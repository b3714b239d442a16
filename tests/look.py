#!/usr/bin/env python3
"""Tests what shows runs: plans/explore.py, plans/states.py, plans/picture.py, and the script of their pages. .ci/run calls it.

    tests/look.py [--write] [PROGRAM]

It makes the page of each plan's run and compares each prefix of the run with the proved program. It compares reports on all states, the shortest schedules
under which each mistake breaks a law, and the words of pages with the texts in tests/look. It gives pages a program that is not the proved one, finds
schedules for the output of threads, and checks colours and sizes. Node runs the script of the pages, without a browser; if there is a Chromium, it calls
tests/look_browser.py. --write puts the output into tests/look; read it before you commit. The last line is 'look: N passed, M failed'.
"""
import itertools
import json
import os
import random
import re
import shutil
import subprocess
import sys
import tempfile
from pathlib import Path

ROOT = Path(__file__).resolve().parent.parent
KEPT = ROOT / "tests/look"
NAMED = [word for word in sys.argv[1:] if not word.startswith("--")]
PROGRAM = Path(NAMED[0] if NAMED else ROOT / "crates/mctower/out/mctower").resolve()
os.environ["MCTOWER"] = str(PROGRAM)
sys.path.insert(0, str(ROOT / "plans"))

import explore  # noqa: E402
import limits  # noqa: E402
import record  # noqa: E402
import states  # noqa: E402
from kernel import WRONG, Kernel  # noqa: E402
from laws import broken_in, has_grown  # noqa: E402
from schedules import schedule_in, schedule_of, steps_of  # noqa: E402

PLANS, ROWS = sorted((ROOT / "plans").glob("*.toml")), sorted((ROOT / "tests/rows").glob("*.toml"))
# Plans whose states are few, and how many of them the proved program runs to: all, where nothing is said.
SMALL = {"woken-from-afar": None, "two-senders": None, "receives-twice": None, "ping-pong": 100, "handed-over": 100, "newcomer": 100, "closed-for-two": 100,
         "first-come": 100, "two-receivers": 200}
# A plan on which each mistake is seen.
BREAKS = {"look-always-hits": "plans/two-senders", "pend-keeps-the-hand": "plans/receives-twice", "wakes-where-it-is": "plans/woken-from-afar",
          "release-frees-the-lock": "plans/woken-from-afar", "wait-frees-first": "plans/woken-from-afar", "first-word-alone": "tests/rows/words",
          "take-skips-the-turn": "plans/closed-for-two", "other-side-only": "plans/two-receivers", "closed-signals-nobody": "plans/closed-for-two",
          "closed-before-empty": "tests/rows/closed-with-an-item", "close-drops-the-items": "tests/rows/closed-with-an-item"}
TOLD = ("woken-from-afar", "two-senders", "handed-over", "closed-for-two")  # whose words are kept
THREADS = ("two-senders", "two-receivers", "handed-over")  # of which threads print a text
MOST_BYTES = 100_000  # of a page of 1,000 steps
# What a page may not have: an address, and a text of a plan that is markup.
FOREIGN = ("http:", "https:", "src=", "@import", "url(")


class Tally:
    """What was tried, and what went wrong."""

    def __init__(self, writes):
        self.count, self.faults, self.writes = 0, [], writes

    def holds(self, is_so, words):
        self.count += 1
        if not is_so:
            self.faults.append(words)

    def keeps(self, path, text):
        """Holds a text against the one that is kept."""
        if self.writes:
            path.parent.mkdir(parents=True, exist_ok=True)
            path.write_text(text, encoding="utf-8")
        kept = path.read_text(encoding="utf-8") if path.is_file() else ""
        here, there = next(((a, b) for a, b in itertools.zip_longest(text.splitlines(), kept.splitlines()) if a != b), ("", ""))
        self.holds(text == kept, f"{path.relative_to(ROOT)} says `{there}`, and what comes is `{here}`")


def run_of(path):
    """The record of a plan's run, held beside the proved program."""
    text, plan = record.read_plan(path)
    return explore.run_of(path.name, text, plan, steps_of(schedule_in(text)))


def broken_run(path, wrong):
    """The record of a plan's run with a mistake, with no program beside it."""
    text, plan = record.read_plan(path)
    told, _ = record.record(plan, steps_of(schedule_in(text)), wrong)
    return {"plan": path.name, "source": text, "checked": False, **told}


def pages(tally):
    """Makes the page of each plan and row; returns the records."""
    told = []
    for path in (*PLANS, *ROWS):
        run = run_of(path)
        page = explore.page(run)
        told.append(run)
        tally.holds(run["checked"] and run["differs"] is None, f"{path.name}: its page was not compared")
        tally.holds(not any(word in page for word in FOREIGN), f"{path.name}: its page names something elsewhere")
        most = MOST_BYTES if len(run["threads"]) <= 16 and len(run["steps"]) <= 1000 else 2 * MOST_BYTES
        tally.holds(len(page) <= most, f"{path.name}: a page of {len(run['steps'])} steps has {len(page)} bytes")
    return told


def page_size(tally):
    """A page of 1,000 steps of four CPUs, without a comparison."""
    text, plan = record.read_plan(ROOT / "plans/ledger.toml")
    told, _ = record.record(plan, steps_of(schedule_in(text))[:1000])
    size = len(explore.page({"plan": "ledger.toml", "source": text, "checked": True, "differs": None, "note": None, "graph": None, **told}))
    print(f"look: a page of {len(told['steps'])} steps has {size} bytes")
    tally.holds(len(told["steps"]) == 1000 and size <= MOST_BYTES, f"a page of {len(told['steps'])} steps has {size} bytes")


def markup(tally):
    """A plan with a text that looks like markup: in its page it is a text."""
    with tempfile.TemporaryDirectory() as room:
        path = Path(room) / "<script>alert(1)</script>.toml".replace("/", "-")
        path.write_text('# </script><script>alert(1)</script>\n' + (ROOT / "plans/one-send.toml").read_text())
        page = explore.page(run_of(path))
        tally.holds(page.count("<script") == 2 and page.count("</script>") == 2, "a plan's text is markup in its page")


def reports(tally):
    """Reports on all states of small plans, and on several by whole sections."""
    for name, many in SMALL.items():
        text, plan = record.read_plan(ROOT / f"plans/{name}.toml")
        found = states.States(plan)
        found.look()
        tally.keeps(KEPT / f"states/{name}.txt", "\n".join(states.report(f"{name}.toml", found)) + "\n")
        try:
            states.compare(text, found, many)
            tally.holds(True, "")
        except RuntimeError as fault:
            tally.holds(False, f"{name}: {fault}")
    for name in ("woken-from-afar", "two-receivers", "several-buffers"):
        found = states.States(record.read_plan(ROOT / f"plans/{name}.toml")[1], by_sections=True)
        found.look()
        tally.keeps(KEPT / f"states/{name}-by-sections.txt", "\n".join(states.report(f"{name}.toml", found)) + "\n")


def mistakes(tally):
    """The shortest schedule by which each mistake breaks a law, and why; and that kernel.py alone breaks it in the last step, and the whole kernel does not."""
    lines = []
    for mistake in WRONG:
        plan = record.read_plan(ROOT / f"{BREAKS[mistake]}.toml")[1]
        steps, found = states.shortest_broken(plan, mistake, states.MOST_STATES)
        laws = [law for law, _ in found]
        lines.append(f"{mistake} on {BREAKS[mistake]}.toml: {len(steps)} steps, '{schedule_of(steps)}': {'; '.join(f'{law} ({why})' for law, why in found)}")
        tally.holds(broken_after(plan, steps[:-1], mistake) == [] and broken_after(plan, steps, mistake) == laws,
                    f"{mistake}: kernel.py does not break {laws} in step {len(steps)}")
        tally.holds(broken_after(plan, steps, None) == [], f"{mistake}: the whole kernel breaks a law after {schedule_of(steps)}")
    tally.keeps(KEPT / "mistakes.txt", "\n".join(lines) + "\n")


def growths(tally):
    """The order after a step is the order before it, and at most one call more at its end, of the CPU that stepped: here CPU 1."""
    first, second, third = ((cpu, cpu, "send", 0, "7", op, op) for op, cpu in enumerate((0, 1, 1)))
    for earlier, later, holds in (([], [], True), ([first], [first], True), ([first], [first, second], True), ([], [first], False),
                                  ([second], [first, second], False), ([first], [first, second, third], False), ([first, second], [first], False)):
        tally.holds(has_grown([earlier], [later], 1) == holds, f"CPU 1 from {len(earlier)} calls to {len(later)}")


def broken_after(plan, steps, wrong):
    system = Kernel(plan, wrong)
    for c in steps:
        system.step(c)
    return broken_in(system)


LESSON = re.compile(r"`plans/explore.py (\S+)(?: '([^']*)')? --wrong (\S+) > \S+`.*?step (\d+)")


def lessons(tally):
    """The step that a lesson names behind a page of a broken kernel: it is the first after which a law does not hold."""
    for page in sorted((ROOT / "docs/book").glob("*.md")):
        paragraphs = (" ".join(it.split()) for it in page.read_text(encoding="utf-8").split("\n\n"))
        for plan, schedule, mistake, step in (found for it in paragraphs for found in LESSON.findall(it)):
            text, table = record.read_plan(ROOT / plan)
            steps = steps_of(schedule or schedule_in(text))[:int(step)]
            is_so = broken_after(table, steps[:-1], mistake) == [] and broken_after(table, steps, mistake) != []
            tally.holds(is_so, f"{page.name}: with {mistake} no law is first broken in step {step}")


def merged(tally):
    """Merged states beside a plain kernel: along random schedules all cells are the same, with other states loaded in between."""
    choose = random.Random(1)
    for path, wrong in [(path, None) for path in PLANS] + [(ROOT / f"{BREAKS[mistake]}.toml", mistake) for mistake in WRONG]:
        plan = record.read_plan(path)[1]
        plain, pieces = Kernel(plan, wrong), states.Pieces(plan, wrong)
        tally.holds(walks_alike(plain, pieces, choose), f"{path.name}, {wrong}: a merged state is not that of a plain kernel")


def walks_alike(plain, pieces, choose, steps=150):
    seen = [tuple(pieces.now)]
    state = seen[0]
    for _ in range(steps):
        c = choose.randrange(len(plain.cpus))
        pieces.load(choose.choice(seen))
        pieces.load(state)
        plain.step(c)
        state = pieces.after(c) or state
        seen.append(state)
        pieces.load(state)
        if record.cells(plain) != record.cells(pieces.system) or pieces.broken() != set(broken_in(plain)):
            return False
    return True


# The proved program, but for a message that is left.
FALSE_PROGRAM = f"""#!/bin/sh
{PROGRAM} "$@" | sed 's/^left 0 7$/left 0/'
"""


def false_program(tally):
    """A program that is not the proved one gets no page, no picture and no word that it says the same."""
    with tempfile.TemporaryDirectory() as room:
        false = Path(room) / "mctower"
        false.write_text(FALSE_PROGRAM)
        false.chmod(0o755)
        environment = {**os.environ, "MCTOWER": str(false)}
        row = "tests/rows/closed-with-an-item.toml"
        for command in (["plans/explore.py", row, "0*26"], ["plans/explore.py", row, "--find", "effects 2"], ["plans/picture.py", row, "0*26"]):
            ran = subprocess.run([sys.executable, *command], cwd=ROOT, env=environment, capture_output=True, text=True, check=False)
            says = "after step 11 kernel.py and the proved program differ: kernel.py prints `left 0 7`, the proved program `left 0`"
            is_refused = ran.returncode == 1 and ran.stdout == "" and says in ran.stderr
            tally.holds(is_refused, f"{' '.join(command)} with a false program: {ran.returncode} {ran.stderr}")


def threads(tally):
    """A schedule for each text that threads printed, by which `mctower run` prints the same."""
    for name in THREADS:
        path = ROOT / f"plans/{name}.toml"
        ran = subprocess.run([PROGRAM, "threads", "--turns", "1000000000"], input=path.read_text(), capture_output=True, text=True, check=True)
        text, plan = record.read_plan(path)
        steps, _ = states.like.schedule_like(plan, ran.stdout, states.Pieces, states.MOST_STATES)
        is_same = steps is not None and record.proved_prints(text, schedule_of(steps))[0] == ran.stdout
        tally.holds(is_same, f"{name}: no schedule gives what threads printed:\n{ran.stdout}")


# --- the script of the pages, in node -------------------------------------------------------------------------------------------------

NODE = """
const {runs, kept} = JSON.parse(require("fs").readFileSync(0, "utf8")), said = {}, faults = [];
for (const record of runs) {
  const run = new Run(record), steps = counted(run.length + 1), lines = steps.map(at => wordsOf(run, at));
  if (kept.includes(record.plan) && !record.wrong && !said[record.plan])
    said[record.plan] = lines.map(({who, first, small}, at) => `${at} ${who}: ${first} (${small})`);
  for (const at of steps) {
    const cards = cpuCards(run, at) + bufferCards(run, at);
    const all = cards + threadCards(run, at) + orderTable(run, at) + lawList(run, at) + lanesOf(run, at, 1200, 0).svg + JSON.stringify(lines[at]);
    const filled = [...cards.matchAll(/class="t [A-Z]\\w+"[^>]*>t(\\d+)</g)].map(found => Number(found[1])).sort((x, y) => x - y);
    const many = record.threads.length, isOnce = filled.join() === counted(many).join();
    if (!record.wrong && many <= 8 && record.cpus <= 6 && !isOnce) faults.push(`${record.plan}, step ${at}: the filled chips are ${filled}`);
    if (/undefined|NaN|\\[object/.test(all) || !lines[at].first) faults.push(`${record.plan}, step ${at}: ${JSON.stringify(lines[at])}`);
  }
}
const last = runs.map(record => new Run(record)).map(run => run.states[run.length]);
const ends = last.map(({cells, locks}) => [cells, Object.entries(locks).map(([name, lock]) => [name, lock.next, lock.serving])]);
console.log(JSON.stringify({said, faults: faults.slice(0, 5), ends}));
"""


def words(tally, told):
    """What the script of the pages says and draws of each step: no word is missing, each thread is one filled chip, the last state is kernel.py's."""
    node = shutil.which("node")
    if not node:
        return tally.holds(False, "there is no node here, which runs the script of the pages")
    runs = told + [broken_run(ROOT / f"{BREAKS[mistake]}.toml", mistake) for mistake in WRONG]
    with tempfile.NamedTemporaryFile("w", suffix=".js", encoding="utf-8") as script:
        script.write(limits.script() + (ROOT / "plans/look.js").read_text(encoding="utf-8") + NODE)
        script.flush()
        given = json.dumps({"runs": runs, "kept": [f"{name}.toml" for name in TOLD]})
        ran = subprocess.run([node, script.name], input=given, capture_output=True, text=True, check=True)
    came = json.loads(ran.stdout)
    for fault in came["faults"]:
        tally.holds(False, fault)
    for name in TOLD:
        tally.keeps(KEPT / f"words/{name}.txt", "\n".join(came["said"][f"{name}.toml"]) + "\n")
    for run, (cells, locks) in zip(runs, came["ends"]):
        tally.holds(ends_alike(run, cells, locks), f"{run['plan']}, {run['wrong']}: the page's last state is not that of kernel.py")


def ends_alike(run, cells, locks):
    """Whether a page's last state, with the words of its locks, is kernel.py's."""
    system = Kernel(record.plan_of(run["source"].encode()), run["wrong"])
    for c, *_ in run["steps"]:
        system.step(c)
    kept = [[f"{lock[0]}{lock[1]}", *numbers] for lock, numbers in system.words.items()]
    return json.loads(json.dumps(list(record.cells(system).values()))) == cells and sorted(kept) == sorted(locks)


# --- colours --------------------------------------------------------------------------------------------------------------------------

# What eyes see of a colour: all of it; without one kind of cone (Machado, Oliveira and Fernandes); lightness alone.
EYES = {
    "full sight": ((1, 0, 0), (0, 1, 0), (0, 0, 1)),
    "protanopia": ((0.152286, 1.052583, -0.204868), (0.114503, 0.786281, 0.099216), (-0.003882, -0.048116, 1.051998)),
    "deuteranopia": ((0.367322, 0.860646, -0.227968), (0.280085, 0.672501, 0.047413), (-0.011820, 0.042940, 0.968881)),
    "tritanopia": ((1.255528, -0.076749, -0.178779), (-0.078411, 0.930809, 0.147602), (0.004733, 0.691367, 0.303900)),
    "grey": ((0.2126, 0.7152, 0.0722),) * 3,
}
LEAST_APART = {"grey": 5}  # else 20; words and letters stand on each colour


def linear(colour):
    """Red, green and blue of a colour, as amounts of light."""
    parts = [int(colour[i:i + 2], 16) / 255 for i in (1, 3, 5)]
    return [part / 12.92 if part <= 0.04045 else ((part + 0.055) / 1.055) ** 2.4 for part in parts]


def seen(colour, eye):
    """A colour in CIE L*a*b*, as an eye sees it."""
    red, green, blue = (min(1, max(0, sum(a * b for a, b in zip(row, linear(colour))))) for row in eye)
    light = ((0.4124 * red + 0.3576 * green + 0.1805 * blue) / 0.95047, 0.2126 * red + 0.7152 * green + 0.0722 * blue,
             (0.0193 * red + 0.1192 * green + 0.9505 * blue) / 1.08883)
    x, y, z = (part ** (1 / 3) if part > 0.008856 else 7.787 * part + 16 / 116 for part in light)
    return 116 * y - 16, 500 * (x - y), 200 * (y - z)


def colours(tally):
    """Each two places look apart to all eyes, and each letter can be read on its colour."""
    fills = {name: colour for name, (_, colour, _, _) in record.PLACES.items()}
    for name, eye in EYES.items():
        apart, one, other = min((sum((a - b) ** 2 for a, b in zip(seen(fills[x], eye), seen(fills[y], eye))) ** 0.5, x, y)
                                for x, y in itertools.combinations(fills, 2))
        tally.holds(apart >= LEAST_APART.get(name, 20), f"to {name} {one} and {other} are {apart:.0f} apart")
    for name, (_, colour, ink, _) in record.PLACES.items():
        dark, light = sorted(sum(weight * part for weight, part in zip((0.2126, 0.7152, 0.0722), linear(one))) for one in (colour, ink))
        tally.holds((light + 0.05) / (dark + 0.05) >= 4.5, f"a letter on {name} is hard to read")


def browser(tally):
    """The browser's checks, where a Chromium is."""
    ran = subprocess.run([sys.executable, ROOT / "tests/look_browser.py"], check=False)
    tally.holds(ran.returncode == 0, "tests/look_browser.py failed")


def main():
    if "--help" in sys.argv:
        print(__doc__)
        return 0
    tally = Tally("--write" in sys.argv)
    if not record.program_is_there():
        sys.exit(f"look: no such program: {PROGRAM}; build it with tools/prove-all.py, or set MCTOWER to its path")
    told = pages(tally)
    words(tally, told)
    for part in (page_size, markup, reports, mistakes, growths, lessons, merged, false_program, threads, colours, browser):
        part(tally)
    for fault in tally.faults:
        print("look:", fault)
    print(f"look: {tally.count - len(tally.faults)} passed, {len(tally.faults)} failed")
    return 1 if tally.faults else 0


if __name__ == "__main__":
    sys.exit(main())
