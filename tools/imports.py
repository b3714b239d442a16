#!/usr/bin/env python3
"""Lays out the imports of definitions: each path is written once, in lines of at most 160 columns, in specs at most 100.

    tools/imports.py [--apply] [CRATE..]

`use Rattle.event_log.specs.declared.ids.Tid.{Tid}` and `use Rattle.event_log.specs.History.{same_cpu, same_lock}` become one line,
`use Rattle.event_log.specs.{declared.ids.Tid.Tid, History.{same_cpu, same_lock}}`. A line that names an operator names only its library, as `rt ci` requires:
`use Rattle.std.specs.Prelude.{◌≡◌}`. It goes through each .antt file, and the `ghost use` lines of each .rt file. It prints how many lines of imports there
are and would be; with --apply it writes them.
"""
import argparse
import os
import re
import subprocess

ROOT = os.path.dirname(os.path.dirname(os.path.realpath(__file__)))
WIDTH, WIDTH_OF_SPECS = 160, 100
LINE = re.compile(r"\s*(unfoldable )?(pub )?(ghost )?use ")
# The indent, the word, and what an import of definitions names, and how its line ends.
NAMES = re.compile(r"(\s*)((?:unfoldable )?(?:pub )?(?:ghost )?use) (Rattle\.(?:[^{}]*\.)?\{.+\})(;?)$")
# A name with a path before it.
NESTED = re.compile(r"[A-Za-z_][\w\-'?]*(\.[A-Za-z_◌\[][^.]*)+$")
# A name that has to stand in braces, even alone.
OPERATOR = re.compile(r"[^A-Za-z_]")


def parts_of(text):
    """Returns the parts of a list between commas that stand in no braces."""
    found, depth = [""], 0
    for it in text:
        depth += (it == "{") - (it == "}")
        if it == "," and depth == 0:
            found.append("")
        else:
            found[-1] += it
    return [it.strip() for it in found if it.strip()]


def names_of(text):
    """Yields what an import names, each as the tuple of the steps to it; the last may have ` as NAME`."""
    head, brace, inside = text.partition(".{")
    if brace:
        for part in parts_of(inside[:-1]):
            for steps in names_of(part):
                yield (*head.split("."), *steps)
    else:
        word, _, renamed = text.partition(" as ")
        steps = word.split(".") if NESTED.match(word) else [word]
        yield (*steps[:-1], steps[-1] + (f" as {renamed}" if renamed else ""))


def shown(names, at=0):
    """Returns the parts of a list that names these, each behind the same first `at` steps."""
    groups = {}
    for it in names:
        groups.setdefault(it[at], []).append(it)
    found = []
    for step, inside in groups.items():
        if len(inside[0]) == at + 1:
            found.append(step)
            continue
        parts = shown(inside, at + 1)
        is_path = len(parts) == 1 and not OPERATOR.match(parts[0])
        found.append(f"{step}.{parts[0]}" if is_path else f"{step}.{{{', '.join(parts)}}}")
    return found


def line_of(kind, names):
    """Returns one line that imports these."""
    indent, word, end = kind
    shared = os.path.commonprefix([it[:-1] for it in names])
    return f"{indent}{word} {'.'.join(shared)}.{{{', '.join(shown(names, len(shared)))}}}{end}"


def has_operator(names):
    """Tells whether one of these is an operator."""
    return any("◌" in it[-1] for it in names)


def parted(names):
    """Returns the libraries that have to stand on lines of their own, since an operator comes of them, and then all others together."""
    alone = [[it for it in names if it[1] == library] for library in dict.fromkeys(it[1] for it in names)]
    alone = [it for it in alone if has_operator(it)]
    return [*alone, [it for it in names if all(it not in others for others in alone)]]


def lines_of(kind, names, width):
    """Returns the lines that import these, each as long as it may be."""
    return [line for part in parted(names) for line in lines_of_part(kind, part, width)]


def lines_of_part(kind, names, width):
    """Returns the lines that import these together, each as long as it may be."""
    found, held = [], []
    for it in names:
        if held and len(line_of(kind, [*held, it])) > width:
            found.append(line_of(kind, held))
            held = []
        held.append(it)
    return [*found, line_of(kind, held)] if held else found


def together(names, at=0):
    """Returns these names, those of one module together, in the order in which the modules came."""
    groups = {}
    for it in dict.fromkeys(names):
        groups.setdefault(it[at] if len(it) > at + 1 else None, []).append(it)
    return [it for step, inside in groups.items() for it in (together(inside, at + 1) if step else inside)]


def written(run, width):
    """Returns the lines of imports that stand together, laid out; those of whole modules stay as they are."""
    kinds = {}
    for line in run:
        found = NAMES.match(line)
        kind = (found[1], found[2], found[4]) if found else line
        kinds.setdefault(kind, []).extend(names_of(found[3]) if found else [])
    new = [it for kind, names in kinds.items() for it in (lines_of(kind, together(names), width) if names else [kind])]
    mixed = any(it.lstrip().startswith(("use Rattle.{", "ghost use Rattle.{", "pub use Rattle.{")) and "◌" in it for it in run)
    return new if mixed or len(new) < len(run) or any(len(it) > width for it in run) else run


def text_of(text, is_code, width=WIDTH):
    """Returns the text of a file with its imports laid out."""
    found, run = [], []
    for line in [*text.split("\n"), None]:
        if line is not None and (NAMES.match(line) or (run and not is_code and LINE.match(line))):
            run.append(line)
        else:
            found += [*written(run, width), line]
            run = []
    return "\n".join(found[:-1])


def main():
    read = argparse.ArgumentParser(description=__doc__, formatter_class=argparse.RawDescriptionHelpFormatter)
    read.add_argument("--apply", action="store_true")
    read.add_argument("crates", nargs="*", metavar="CRATE")
    given = read.parse_args()
    before = after = 0
    for file in subprocess.run(["git", "ls-files", "crates/*.antt", "crates/*.rt"], cwd=ROOT, stdout=subprocess.PIPE, text=True, check=True).stdout.split():
        if given.crates and file.split("/")[1] not in given.crates or not os.path.exists(f"{ROOT}/{file}"):
            continue
        text = open(f"{ROOT}/{file}", encoding="utf-8").read()
        new = text_of(text, file.endswith(".rt"), WIDTH_OF_SPECS if "/specs/" in file else WIDTH)
        before += sum(bool(LINE.match(it)) for it in text.split("\n"))
        after += sum(bool(LINE.match(it)) for it in new.split("\n"))
        if new != text and given.apply:
            with open(f"{ROOT}/{file}", "w", encoding="utf-8") as it:
                it.write(new)
    print(f"lines of imports: {before} -> {after}")


if __name__ == "__main__":
    main()
