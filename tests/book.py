#!/usr/bin/env python3
"""Tests the lessons and the names on all pages: runs every command of docs/book and compares its output with the page, byte for byte; searches the tree for
each file, public name and clause that a page names; compares the plan and the output in README.md with the files, and its version with CHANGELOG.md and the
help, and the titles of the page's lessons with those of the book; applies the patches of docs; draws each picture again; compares plans/kernel.py with the
expected output of each plan; builds and runs, without proof, the crates that a page writes (`rt try`). .ci/run calls it; it takes two minutes of processor
time, most of it for builds.

In a lesson's run of a kernel with a mistake, each law that the page names must break in the step that the page says, and in no earlier one.

    tests/book.py [--write] [PROGRAM]
    tests/book.py --names               only compares names and texts: it runs nothing and needs no program

A command is a line `$ ..` of a block marked `console`; the lines after it are its output, standard output and standard error together. After a change of a
page, --write puts the output into the page and draws the pictures; read them before you commit. The last line is 'book: N passed, M failed'.
"""
import argparse
import json
import os
import re
import shutil
import subprocess
import sys
import tempfile
from itertools import zip_longest
from pathlib import Path

ROOT = Path(__file__).resolve().parent.parent
sys.path.insert(0, str(ROOT / "plans"))

from kernel import WRONG, Kernel  # noqa: E402
from laws import broken_in, order_of  # noqa: E402
from named import program_at  # noqa: E402
from reading import read_plan  # noqa: E402
from schedules import chosen, steps_of  # noqa: E402

BOOK, PAGE_LESSONS = ROOT / "docs/book", ROOT / "web/page/lessons.json"
CRATES = [line.split(":")[0] for line in (ROOT / "crates.txt").read_text().splitlines() if ":" in line]
BLOCK = re.compile(r"(?<=^```console\n)(.*?)(?=^```$)", re.M | re.S)
FILE = re.compile(r"`((?:crates|plans|docs|tests|tools|bench|web)/[\w./-]+)`")
# A file that a page writes into a copy of the tree, and what a crate that is made so prints.
WRITTEN = re.compile(r"^```\w+ (crates[\w/.]*)\n(.*?)^```$", re.M | re.S)
TRIED = re.compile(r"^```try (\w+)\n(.*?)^```$", re.M | re.S)
NAME = re.compile(r"(?:clause `(\w+)` of )?`(\w+)((?:::\w+)+)`")
# A run of a kernel with a mistake: by a command, which may leave its schedule to the plan, and by a link to the page; and what a page says of its laws.
WRONG_RUN = re.compile(r"`?plans/(?:kernel|explore)\.py (?:--wrong ([\w-]+) )?plans/([\w-]+)\.toml(?: '([\d*,]+)')?(?: --wrong ([\w-]+))?")
PAGE_LINK = re.compile(r"web/tower\.html#plan=([\w-]+)&wrong=([\w-]+)&schedule=([\d*,]+)&step=(\d+)$")
LESSON_LINK = re.compile(r"web/tower\.html#lesson=(\d+)$")
LOOK = re.compile(r"^\*\*Look\*\* \[in the page\]\((\S+)\)(.*?)\n\n", re.M | re.S)
BREAKS = re.compile(r"[Ii]n\sstep\s(\d+)\sthe\slaw\s\*([^*]+)\*\sbreaks")
# Names that docs cite: the text between backticks, a fence left out, and what of it looks like a name of this tree.
FENCE = re.compile(r"^```.*?^```", re.M | re.S)
QUOTED = re.compile(r"`([^`\n]+)`")
PATH = re.compile(r"^\.?[\w-]+(?:/[\w.-]+)+/?$|^[\w-]+\.(?:rt|antt|edit|md|py|sh|rs|toml|txt|svg)$")
WORD = re.compile(r"^[A-Za-z_]\w*(?:::[A-Za-z_]\w*)*(?:\(\d+\))?$")
LINK = re.compile(r"\]\(([^):\s]+)\)")
# The files whose words are the tree's names.
READ = {".rt", ".antt", ".edit", ".py", ".sh", ".rs", ".js", ".mjs", ".c", ".h", ".S", ".in", ".toml", ".patch"}
# A line of a source that is a comment: what only a comment says is not there.
REMARK = re.compile(r"^\s*(?://|-- |# |/\* ).*$", re.M)
# What docs cite and no file of this tree says: crates of the kit, and the end of a family of names.
EXCEPT = {"rt", "clap", "toml", "thiserror", "arrayvec", "itoa", "atomic_table", "_here"}
# Paths that no list of files has: what a build makes, and a path with a name to put in.
MADE = re.compile(r"(^|/)out(/|$)|/NAME/")


def outcome(command, program):
    """What a command prints, run at the root with the program in front of the path."""
    path = f"{program.parent}:{os.environ['PATH']}"
    ran = subprocess.run(["bash", "-c", command], cwd=ROOT, env={**os.environ, "PATH": path, "MCTOWER": str(program)},
                         stdout=subprocess.PIPE, stderr=subprocess.STDOUT, text=True, timeout=120)
    return ran.stdout


def commands(block):
    """Each command of a block, with the text that the page shows beneath it."""
    pieces = re.split(r"^\$ (.*)\n", block, flags=re.M)
    return list(zip(pieces[1::2], pieces[2::2]))


def tried(page, program, write, faults):
    """Runs a page's commands; tells how many there were."""
    text, count = page.read_text(), 0

    def block(found):
        nonlocal count
        shown = []
        for command, said in commands(found.group(1)):
            count += 1
            came = outcome(command, program)
            if came != said and not write:
                faults.append(f"{page.name}: `{command}` prints\n{came}but the page has\n{said}")
            shown.append(f"$ {command}\n{came}")
        return "".join(shown)

    new = BLOCK.sub(block, text)
    if write and new != text:
        page.write_text(new)
    return count


def source_of(crate):
    return {path: path.read_text() for path in (ROOT / "crates" / crate / "src").rglob("*.rt")}


def looked_up(page, faults):
    """Looks for each file, public name and clause that a page names; tells how many there were."""
    text, count = page.read_text(), 0
    for path in FILE.findall(text):
        count += 1
        if not (ROOT / path.rstrip("/.")).exists():
            faults.append(f"{page.name}: there is no {path}")
    for clause, crate, rest in NAME.findall(text):
        if crate not in CRATES:
            continue
        count += 1
        name = rest.split("::")[-1]
        found = [src for src in source_of(crate).values() if re.search(rf"\b(fn|struct|enum|trait|type|const)\s+{name}\b", src)]
        if not found:
            faults.append(f"{page.name}: {crate} has no {name}")
        elif clause and not any(re.search(rf"ensures {clause} ", src) for src in found):
            faults.append(f"{page.name}: {crate}{rest} has no clause {clause}")
    return count


def words_of_tree():
    """Every word of the tree's sources, definitions, proofs and scripts, and the name of each of its files."""
    words, files = set(), []
    listed = subprocess.run(["git", "ls-files", "-co", "--exclude-standard"], cwd=ROOT, stdout=subprocess.PIPE, text=True, check=True).stdout
    for name in listed.splitlines():
        files.append(name)
        path = ROOT / name
        words.update(part.split(".")[0] for part in name.split("/"))
        if path.suffix in READ and path.is_file():
            text = path.read_text()
            words.update(re.findall(r"\w+", REMARK.sub("", text)))
            files.extend(re.findall(r"^\+\+\+ b/(.*)$", text, re.M) if path.suffix == ".patch" else [])
    return words, files


def known_path(cited, files):
    """Whether a cited path is one of the tree: from its root, or the end of a file's or a folder's path."""
    end = cited.strip("/")
    return any(f"/{name}".endswith(f"/{end}") or f"/{end}/" in f"/{name}" or f"/{end}." in f"/{name}" for name in files)


def linked(link, page):
    """Whether a link's file is there, and the heading behind its `#`."""
    file, _, heading = link.partition("#")
    target = page.parent / file if file else page
    if target.suffix == ".html":
        return target.exists() and (not heading or has_run(link))
    if not target.exists() or not heading:
        return target.exists()
    titles = re.findall(r"^#+ (.*)$", target.read_text(), re.M)
    return heading in [re.sub(r"[^\w -]", "", title).lower().replace(" ", "-") for title in titles]


def has_run(link):
    """Whether a link to the page names a plan and a mistake that there are, or one of the page's lessons."""
    run, lesson = PAGE_LINK.search(link), LESSON_LINK.search(link)
    if lesson is not None:
        return f'"lesson": "{lesson[1]}. ' in PAGE_LESSONS.read_text(encoding="utf-8")
    return run is not None and run[2] in WRONG and (ROOT / f"plans/{run[1]}.toml").exists()


def cited(page, words, files, faults):
    """Looks for each name of the repository and each link of a page of docs; tells how many there were."""
    text, count, shown = FENCE.sub("", page.read_text()), 0, page.relative_to(ROOT)
    for name in QUOTED.findall(text):
        if PATH.match(name):
            found = known_path(name, files) or MADE.search(name)
        elif WORD.match(name):
            found = name in EXCEPT or all(part in words for part in re.findall(r"[A-Za-z_]\w*", name))
        else:
            continue
        count += 1
        if not found:
            faults.append(f"{shown}: the tree has no {name}")
    for link in LINK.findall(text):
        count += 1
        if not linked(link, page):
            faults.append(f"{shown}: there is nothing at {link}")
    return count


def first_minute(faults):
    """Holds the plan that README.md shows, and what it says that it prints, against the files; tells how many there were."""
    shown = dict(re.findall(r"^```(toml|text)\n(.*?)^```$", (ROOT / "README.md").read_text(), re.M | re.S))
    plan = (ROOT / "plans/one-send.toml").read_text()
    if shown.get("toml") != plan:
        faults.append("README.md: its plan is not plans/one-send.toml")
    if shown.get("text") != (ROOT / "plans/expected/one-send.txt").read_text():
        faults.append("README.md: it does not show what plans/expected/one-send.txt says")
    return 2


def first_broken(name, mistake, schedule):
    """The first step at which each law is broken in a run of a plan by a kernel that makes this mistake."""
    kernel, first = Kernel(read_plan((ROOT / f"plans/{name}.toml").read_bytes()), mistake), {}
    for number, cpu in enumerate(steps_of(schedule), 1):
        earlier = order_of(kernel)
        kernel.step(cpu)
        for law in broken_in(kernel, earlier, cpu):
            first.setdefault(law, number)
    return first


def run_of(found):
    """The plan, the mistake and the schedule of a command; the schedule is the plan's if the command has none."""
    before, name, schedule, behind = found
    return name, before or behind, schedule or chosen((ROOT / f"plans/{name}.toml").read_bytes(), None)


def hold_to_laws(where, run, told, faults):
    """Holds what is told of broken laws to a run; tells how many laws that were."""
    first = first_broken(*run)
    for step, law in told:
        if first.get(" ".join(law.split())) != int(step):
            faults.append(f"{where}: in this run these laws break, each first in this step: {first}; it says *{law}* of step {step}")
    if not told:
        faults.append(f"{where}: it names no law that breaks")
    return max(len(told), 1)


def laws_told(page, faults):
    """Holds a lesson's look at a kernel with a mistake to that run: the link and the command are of one run, and its laws break where it says."""
    text, shown = page.read_text(), page.name
    looks = LOOK.findall(text)
    if not looks:
        if "$ plans/kernel.py --wrong" in text:
            faults.append(f"{shown}: it runs a kernel with a mistake, and has no look at it")
        return 1
    count = 0
    for link, words in looks:
        *linked_run, step = PAGE_LINK.search(link).groups()
        run, told = run_of(WRONG_RUN.search(" ".join(words.split())).groups()), BREAKS.findall(words)
        if list(run) != linked_run or (told and step != told[-1][0]):
            faults.append(f"{shown}: its link to the page is of another run or step than {run} and the last that it names")
        count += 1 + hold_to_laws(shown, run, told, faults)
    return count


def laws(faults):
    """Holds what README.md and the lessons say of kernels with a mistake; tells how much that was."""
    text = (ROOT / "README.md").read_text()
    count = sum(laws_told(page, faults) for page in sorted(BOOK.glob("*.md")))
    run = run_of(WRONG_RUN.search(text, text.index("--wrong") - len("plans/kernel.py ")).groups())
    return count + hold_to_laws("README.md", run, BREAKS.findall(text), faults)


def version(faults):
    """Looks whether README.md, CHANGELOG.md and the help tell one version; tells how many that were."""
    told = re.findall(r"This is version ([\d.]+\d)", (ROOT / "README.md").read_text())
    told += re.findall(r"^## ([\d.]+)$", (ROOT / "CHANGELOG.md").read_text(), re.M)[:1]
    told += re.findall(r'VERSION: &str = "([\d.]+)"', (ROOT / "crates/mctower/src/line/help_texts.rt").read_text())
    if len(told) < 2 or len(set(told)) != 1:
        faults.append(f"README.md, CHANGELOG.md and the help have the versions {', '.join(told)}")
    return len(told)


def titles(faults):
    """Holds the titles of the page's lessons against those of the book; tells how many that were."""
    told = [lesson["lesson"] for lesson in json.loads(PAGE_LESSONS.read_text(encoding="utf-8"))]
    wanted = [page.read_text().splitlines()[0].removeprefix("# ") for page in sorted(BOOK.glob("[0-9]*.md"))]
    for title, other in zip_longest(told, wanted):
        if title != other:
            faults.append(f"{PAGE_LESSONS.name}: a lesson is {title!r}, and in docs/book {other!r}")
    return len(wanted)


def patched(faults):
    """Tries whether each patch of docs goes onto the tree as it stands; tells how many patches that were."""
    patches = sorted(ROOT.glob("docs/*.patch"))
    for patch in patches:
        ran = subprocess.run(["git", "apply", "--check", patch], cwd=ROOT, stdout=subprocess.PIPE, stderr=subprocess.STDOUT, text=True)
        if ran.returncode:
            faults.append(f"{patch.relative_to(ROOT)} does not go onto the tree: {ran.stdout[:200]}")
    return len(patches)


def names(faults):
    """Looks up what all pages of the tree cite, which needs no program; tells how much that was."""
    words, files = words_of_tree()
    listed = subprocess.run(["git", "ls-files", "-co", "--exclude-standard", "*.md"], cwd=ROOT, stdout=subprocess.PIPE, text=True, check=True).stdout
    pages = [ROOT / name for name in listed.splitlines() if (ROOT / name).is_file()]
    count = sum(cited(page, words, files, faults) for page in sorted(pages))
    count += sum(looked_up(page, faults) for page in sorted(BOOK.glob("*.md")))
    return count + first_minute(faults) + version(faults) + titles(faults) + patched(faults)


def copied(room, files):
    """Puts a copy of the tree's crates into a folder, with these files; lines for crates.txt go behind its own."""
    listing = ["git", "ls-files", "-co", "--exclude-standard", "crates", "crates.txt", "HANDLES"]
    names = subprocess.run(listing, cwd=ROOT, stdout=subprocess.PIPE, text=True, check=True)
    for name in filter(lambda it: (ROOT / it).is_file(), names.stdout.splitlines()):
        (room / name).parent.mkdir(parents=True, exist_ok=True)
        shutil.copy(ROOT / name, room / name)
    for name, text in files:
        (room / name).parent.mkdir(parents=True, exist_ok=True)
        with open(room / name, "a" if name == "crates.txt" else "w") as file:
            file.write(text)


def built(page, faults):
    """Builds and runs, with no proof, each crate that a page writes; tells how many that were."""
    text = page.read_text()
    tries = TRIED.findall(text)
    for crate, wanted in tries:
        with tempfile.TemporaryDirectory() as name:
            room = Path(name)
            copied(room, WRITTEN.findall(text))
            cases = room / "cases"
            cases.mkdir()
            for end, case in (("", ""), (".args", ""), (".stdout", wanted)):
                (cases / f"one{end}").write_text(case)
            words = [str(ROOT / "tools/unproved.py"), crate, "--cases", str(cases)]
            ran = subprocess.run(words, cwd=room / "crates" / crate, stdout=subprocess.PIPE, stderr=subprocess.STDOUT, text=True)
        if ran.returncode:
            faults.append(f"{page.name}: the crate {crate} does not print what the page says: {ran.stdout[-600:]}")
    return len(tries)


def drawn(picture, program, write, faults):
    plan = ROOT / "plans" / f"{picture.stem}.toml"
    came = outcome(f"plans/picture.py {plan.relative_to(ROOT)}", program)
    if write:
        picture.write_text(came)
    elif picture.read_text() != came:
        faults.append(f"pictures/{picture.name} is not what plans/picture.py draws: {came[:200]}")


def modelled(plan, program, faults):
    """Runs a plan by plans/kernel.py, beside what the program is expected to print."""
    expected = plan.parent / "expected" / f"{plan.stem}.txt"
    if outcome(f"plans/kernel.py {plan.relative_to(ROOT)}", program) != expected.read_text():
        faults.append(f"plans/kernel.py does not print what {expected.relative_to(ROOT)} says")


def runs(program, write, faults):
    """What needs the built program: each command of the book, its pictures, and each plan by plans/kernel.py."""
    count = 0
    for page in sorted(BOOK.glob("*.md")):
        count += tried(page, program, write, faults) + built(page, faults)
    for picture in sorted((BOOK / "pictures").glob("*.svg")):
        count += 1
        drawn(picture, program, write, faults)
    for plan in sorted([*ROOT.glob("plans/*.toml"), *ROOT.glob("tests/rows/*.toml")]):
        count += 1
        modelled(plan, program, faults)
    return count


def main():
    read = argparse.ArgumentParser(description=__doc__, formatter_class=argparse.RawDescriptionHelpFormatter)
    read.add_argument("--write", action="store_true")
    read.add_argument("--names", action="store_true")
    read.add_argument("program", nargs="?", default=ROOT / "crates/mctower/out/mctower", metavar="PROGRAM")
    given = read.parse_args()
    program = None if given.names else program_at(given.program)
    faults = []
    count = names(faults) + laws(faults)
    if not given.names:
        count += runs(program, given.write, faults)
    for fault in faults:
        print("book:", fault)
    print(f"book: {count - len(faults)} passed, {len(faults)} failed")
    return 1 if faults or count == 0 else 0


if __name__ == "__main__":
    sys.exit(main())
