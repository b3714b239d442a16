#!/usr/bin/env python3
"""Changes CAPACITY in a copy of the tree, and runs there what needs no proof: the models, the judges, the searcher and the page have the limits of their tree.

    tests/another-capacity.py           in a copy where CAPACITY of crates/event_log/src/ids.rt is 64
    tests/another-capacity.py --here    in this tree as it stands

In the copy tools/limit-table.py must see that the tables are old, write them, and then name the texts that are changed by hand. Each row of tests/tables must
get its answer from each reader of plans and each judge of texts that is not proved, and each mistake of tests/mistakes.py its explanation. plans/kernel.py
prints what is stored, and plain judges agree on generated texts. It needs rustc and node, and takes a quarter of a minute. The last line is
'capacity: N passed, M failed'.
"""
import argparse
import io
import json
import os
import re
import shutil
import subprocess
import sys
import tempfile
from contextlib import redirect_stderr, redirect_stdout
from pathlib import Path

sys.dont_write_bytecode = True
ROOT = Path(__file__).resolve().parent.parent
sys.path[:0] = [str(ROOT / "plans"), str(ROOT / "tests")]
os.environ["PATH"] += f":{Path.home()}/.cargo/bin"
import explain  # noqa: E402
import kernel  # noqa: E402
import limits  # noqa: E402
import mistakes  # noqa: E402
import tables  # noqa: E402

CONSTANT, CAPACITY = "pub const CAPACITY: usize = {};", 64
CONSTANTS = "crates/event_log/src/ids.rt"
COPIED = ("crates/event_log/src", "crates/mctower/src", "plans", "tests", "tools", "bench", "explore", "docs", "embed", "web", "metal/console/src")
LEFT = shutil.ignore_patterns("out", "__pycache__", "tower.html", "*.svg", "*.png")
# Texts that spell a capacity: the tool has to name them.
SPELL_IT = ("docs/SPEC.md", "docs/spec/traces.md", "crates/mctower/src/line/help_texts.rt", "embed/tower.h")
GENERATED = "1000"
# What the page's scripts say of texts and of refusals: read from standard input, in the tree of the first argument.
NODE = """
import { readFileSync } from 'node:fs';
const root = process.argv[2], { sources } = await import(`${root}/web/taken.mjs`), { refusals } = await import(`${root}/web/refusals.mjs`);
const evaluate = sources(root), faultOf = evaluate('faultOf'), whereIs = evaluate('whereIs'), texts = JSON.parse(readFileSync(0, 'utf8'));
const verdict = fault => (fault === null ? 'yes' : `no ${fault.line} ${fault.reason}`);
const places = refusals.plans.map(({ plan, schedule = '0', error, line, piece, says }) => {
  const got = whereIs(plan, schedule, `error: ${error}\\n`, 2);
  return [error, got.line === line && got.piece === piece && (got.says ?? '').includes(says)];
});
console.log(JSON.stringify({ verdicts: texts.map(text => verdict(faultOf(text))), places }));
"""


class Rows:
    """What was held, and how much of it failed."""

    def __init__(self):
        self.passed, self.failed = 0, 0

    def hold(self, name, holds):
        self.passed, self.failed = self.passed + bool(holds), self.failed + (not holds)
        if not holds:
            print(f"capacity: {name}")

    def ends_well(self, name, *words, cwd=ROOT):
        """Holds that a command ends with status 0."""
        ran = subprocess.run([str(word) for word in words], cwd=cwd, stdout=subprocess.PIPE, stderr=subprocess.STDOUT, text=True, check=False)
        self.hold(f"{name} ends with {ran.returncode}: {ran.stdout[-500:]}", ran.returncode == 0)


def built(name, source, room, *flags):
    """A plain program, built."""
    subprocess.run(["rustc", *flags, "-o", f"{room}/{name}", ROOT / source], check=True)
    return f"{room}/{name}"


def full_text():
    """A text in which a buffer of the largest capacity is filled and drained."""
    entries = [f"e 0 0 {kind} 0 {at} {at + first} {at}" for kind, first in (("send", 0), ("recv", limits.CAPACITY)) for at in range(limits.CAPACITY)]
    return "\n".join(["mctower-trace 1", "buffers 1", f"cap 0 {limits.CAPACITY}", *entries, "left 0", "end", ""]).encode()


def answer(program, words, text):
    """The status of a program, its output and what it says on standard error."""
    ran = subprocess.run([program, *words], input=text, capture_output=True, check=False)
    return ran.returncode, ran.stdout.decode(), ran.stderr.decode()


def readers(rows, searcher):
    """Each row of the tables of plans and programs: what plans/explain.py and the searcher say of it."""
    for name, case in tables.cases():
        if not name.startswith(("plans.txt", "programs.txt")):
            continue
        status, first, _ = explain.plan_told(case.text, "plan", "0")
        told = "read" if status == 0 else first.removeprefix("error: ")
        status, out, err = answer(searcher, ["-", "--within", "0"], case.text)
        searched = err.split("\n")[0].removeprefix("error: ") if status == 2 else "read"
        wanted = case.wanted.removeprefix("Guest(23) thread 0 ")
        for who, came in (("plans/explain.py", told), ("the searcher", searched)):
            rows.hold(f"{name}: {who} says {came}", came.removeprefix("Guest(23) thread 0 ") == wanted)


def judges(rows, plain):
    """Each row of the table of texts: what plans/explain.py, the plain judge and the page say of it, and the page's words beside each refusal."""
    texts = [(name, case) for name, case in tables.cases() if name.startswith("texts.txt")]
    given = json.dumps([case.text.decode("utf-8", "replace") for _, case in texts])
    with tempfile.NamedTemporaryFile("w", suffix=".mjs", encoding="utf-8") as script:
        script.write(NODE)
        script.flush()
        ran = subprocess.run(["node", script.name, str(ROOT)], input=given, stdout=subprocess.PIPE, text=True, check=True)
    page = json.loads(ran.stdout)
    for (name, case), on_page in zip(texts, page["verdicts"]):
        said = {"plans/explain.py": explain.text_told(case.text, "text")[1], "tests/plain_check.rs": answer(plain, [], case.text)[1].rstrip("\n")}
        for who, came in said.items():
            rows.hold(f"{name}: {who} says {came}", came == case.wanted)
        rows.hold(f"{name}: the page says {on_page}", on_page == re.sub(r"\(\d+\)$", "", case.wanted))
    for error, holds in page["places"]:
        rows.hold(f"the page's words beside {error}", holds)


def explanations(rows):
    """What plans/explain.py tells beside each mistake."""
    for plan, schedule, words in mistakes.of_plans():
        rows.hold(f"beside {plan!r}, {schedule}", explain.plan_told(plan, "my.toml", schedule)[2] == words)
    for text, words in mistakes.of_texts():
        rows.hold(f"beside {text!r}", explain.text_told(text, "my.txt")[2] == words)


def runs(rows):
    """plans/kernel.py prints what is stored beside each plan."""
    for path in sorted([*ROOT.glob("plans/*.toml"), *ROOT.glob("tests/rows/*.toml")]):
        out = io.StringIO()
        with redirect_stdout(out), redirect_stderr(out):
            status = kernel.main([str(path)])
        stored = (path.parent / f"expected/{path.stem}.txt").read_text(encoding="utf-8")
        rows.hold(f"plans/kernel.py on {path.name}", status == 0 and out.getvalue() == stored)


def look_here(rows):
    """Holds all that needs no proof of this tree."""
    with tempfile.TemporaryDirectory() as room:
        plain, searcher = built("plain_check", "tests/plain_check.rs", room, "-O"), built("explore", "explore/explore.rs", room)
        readers(rows, searcher)
        judges(rows, plain)
        rows.hold("bench/fast_check.rs on a full buffer", answer(built("fast_check", "bench/fast_check.rs", room), [], full_text())[1] == "yes\n")
        rows.hold("tests/plain_check.rs on a full buffer", answer(plain, [], full_text())[1] == "yes\n")
        explanations(rows)
        runs(rows)
        rows.ends_well("tests/judge.py on the plain judge", "tests/judge.py", plain)
        rows.ends_well("tests/damage_often.py on the plain judge", "tests/damage_often.py", plain, GENERATED, "1", "texts")


def look_in_copy(rows):
    """Holds it of a copy with another capacity, and that the tool of the tables sees the change."""
    with tempfile.TemporaryDirectory() as room:
        copy = Path(room) / "tree"
        for name in COPIED:
            shutil.copytree(ROOT / name, copy / name, ignore=LEFT)
        text = (copy / CONSTANTS).read_text(encoding="utf-8")
        changed = re.sub(CONSTANT.format(r"\d+"), CONSTANT.format(CAPACITY), text)
        rows.hold("the constant is changed", changed != text)
        (copy / CONSTANTS).write_text(changed, encoding="utf-8")
        tool = [copy / "tools/limit-table.py"]
        old, _, new = (subprocess.run([*tool, *word], stdout=subprocess.PIPE, text=True, check=False) for word in ([], ["--write"], []))
        rows.hold("the tool sees that both tables are old", old.returncode == 1 and old.stdout.count("--write was not run") == 2)
        rows.hold("it writes them", new.returncode == 1 and "--write was not run" not in new.stdout)
        for path in SPELL_IT:
            rows.hold(f"it names {path}", re.search(rf"^limits: {re.escape(path)} does not say: .*\b{CAPACITY}\b", new.stdout, re.M))
        rows.ends_well("what needs no proof", copy / "tests/another-capacity.py", "--here", cwd=copy)


def main():
    read = argparse.ArgumentParser(description=__doc__, formatter_class=argparse.RawDescriptionHelpFormatter)
    read.add_argument("--here", action="store_true")
    rows = Rows()
    (look_here if read.parse_args().here else look_in_copy)(rows)
    print(f"capacity: {rows.passed} passed, {rows.failed} failed")
    return 0 if rows.passed and not rows.failed else 1


if __name__ == "__main__":
    sys.exit(main())
