#!/usr/bin/env python3
"""Checks that the modules of crates/*/src have no cycle except those of KNOWN, so that each can be read after those that it uses.

    tools/cycles.py             prints each cycle; status 1 if there is another than those of KNOWN, or one of them is gone
    tools/cycles.py --edges     prints each edge, as `crate: module -> module: names`

A file uses another if a path in it leads to an item there. A `pub use` only re-exports a name, so a path is followed through it to the file that has the
item, and a file that only re-exports does not use it. It checks two graphs: that of the files, and in each folder that of its modules, each with all that
is in its subfolders.
"""
import argparse
import collections
import functools
import re
import sys
from pathlib import Path

sys.dont_write_bytecode = True
import imports  # noqa: E402, of this folder

# Cycles that are there, each as it is told.
KNOWN = ()
CRATES = Path(__file__).resolve().parent.parent / "crates"
COMMENT = re.compile(r"//.*")
USE = re.compile(r"(?<![\w ])(?P<indent> *)(?P<hands_on>pub(?:\([a-z]+\))? )?use (?P<path>[\w:]+(?:::\{[^;]*\}|::\*)?(?: as \w+)?);")
PATH = re.compile(r"\b(?:crate|super)(?:::\w+)+")
HIDDEN = re.compile(r"#!?\[[^\]]*\]|ghost use [^;]*;")


def steps_of(path):
    """Yields what a path of Rust names, as the steps to it and the name that it has here."""
    for *steps, last in imports.names_of(re.sub(r"\s+", "", path.replace(" as ", "@")).replace("::", ".").replace(",}", "}").replace("@", " as ")):
        name, _, renamed = last.partition(" as ")
        yield (tuple(steps) if name == "self" else (*steps, name)), renamed or (steps[-1] if name == "self" else name)


class Crate:
    """The modules of a crate: by path what each says, hands on and uses."""

    def __init__(self, src):
        self.texts = {}
        for file in sorted(src.rglob("*.rt")):
            path = file.relative_to(src).with_suffix("").parts
            self.texts[() if path in (("lib",), ("main",)) else path] = HIDDEN.sub("", COMMENT.sub("", file.read_text()))
        self.uses = {path: list(self.use_lines(text)) for path, text in self.texts.items()}
        self.handed = {path: {name: steps for hands_on, steps, name in uses if hands_on} for path, uses in self.uses.items()}

    @staticmethod
    def use_lines(text):
        for it in USE.finditer(text):
            for steps, name in steps_of(it["path"]):
                yield bool(it["hands_on"]), steps, name

    @functools.cache
    def home(self, module, steps):
        """Returns the module that has the item to which a path leads from a module, or None if it leads out of the crate."""
        first = steps[0] if steps else ""
        if first == "crate":
            at, steps = (), steps[1:]
        elif first in ("self", "super"):
            at, steps = module[: len(module) - (first == "super")], steps[1:]
        elif (*module, first) in self.texts or first in self.handed[module]:
            at = module
        else:
            return None
        for place, step in enumerate(steps):
            if (*at, step) in self.texts:
                at = (*at, step)
            elif step in self.handed[at]:
                return self.home(at, (*self.handed[at][step], *steps[place + 1 :]))
            else:
                break
        return at

    def edges(self):
        """Yields whom each module uses, and the name."""
        for module, text in self.texts.items():
            rest = USE.sub("", text)
            named = [(steps, name) for hands_on, steps, name in self.uses[module] if not hands_on or re.search(rf"(?<![.\w]){name}\b", rest)]
            named += [(tuple(it[0].split("::")), it[0].split("::")[-1]) for it in PATH.finditer(rest)]
            for steps, name in named:
                home = self.home(module, steps)
                if home is not None and home != module:
                    yield module, home, name


def folded(edges, modules):
    """Yields the edges between the modules of each folder, each taken with all that lies beneath it."""
    for one, other, name in edges:
        shared = next((at for at, (a, b) in enumerate(zip(one, other)) if a != b), None)
        if shared is not None:
            yield one[: shared + 1], other[: shared + 1], name


def cycles(edges):
    """Returns the sets of modules each of which leads to all others of its set."""
    after = collections.defaultdict(set)
    for one, other, _ in edges:
        after[one].add(other)

    def reached(start):
        found, left = set(), [start]
        while left:
            new = after[left.pop()] - found
            found |= new
            left.extend(new)
        return found

    ahead = {it: reached(it) for it in list(after)}
    return {frozenset(other for other in there if one in ahead.get(other, ())) for one, there in ahead.items() if one in there}


def main():
    read = argparse.ArgumentParser(description=__doc__, formatter_class=argparse.RawDescriptionHelpFormatter)
    read.add_argument("--edges", action="store_true")
    given = read.parse_args()
    found, modules = [], 0
    for src in sorted(CRATES.glob("*/src")):
        crate = Crate(src)
        edges = sorted(set(crate.edges()))
        modules += len(crate.texts)
        for one, other, name in edges if given.edges else ():
            print(f"{src.parent.name}: {'::'.join(one) or '(root)'} -> {'::'.join(other) or '(root)'}: {name}")
        for cycle in cycles(edges) | cycles(set(folded(edges, crate.texts))):
            found.append(f"{src.parent.name}: {', '.join(sorted('::'.join(it) or 'the root' for it in cycle))}")
    for cycle in sorted(set(found) - set(KNOWN)):
        print(f"cycles: {cycle}")
    for cycle in sorted(set(KNOWN) - set(found)):
        print(f"cycles: {cycle}: is gone, and KNOWN still has it")
    print(f"cycles: {len(found)} among {modules} modules of src, {len(KNOWN)} of them known")
    return 1 if set(found) != set(KNOWN) or not modules else 0


if __name__ == "__main__":
    sys.exit(main())
