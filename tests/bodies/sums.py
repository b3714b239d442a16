"""The sums of what a verdict on a wrong body rests on."""
import ast
import hashlib
import os
import re
import subprocess
import sys

import imports
from rename import ROOT, TAKEN, Taken

from .items import Item, RustFile, Unread, code_in_one_line, items_of, without_comments, words_of
from .reach import Reach

# An import of definitions.
IMPORT = re.compile(r"\s*((unfoldable )?(pub )?use [^:;]+|(pub )?ghost use [^;]+;)$")
# The files whose code decides what counts as refused.
RULES = ("judge.py", "trial.py")


def read_as_proved(text):
    """Returns what the prover reads of a proof file: no comments, no blank lines and no broken lines, and the imports that are side by side as a set."""
    return re.sub(r"[ \t]*\n[ \t]+", " ", "\n".join(with_imports_as_sets(without_comments(text, False))))


def with_imports_as_sets(lines):
    """Returns these lines, and of imports of definitions that are side by side the sorted paths."""
    kept, imported = [], set()
    for line in [*lines, ""]:
        if IMPORT.match(line):
            found = imports.NAMES.match(line)
            imported.update([f"{found[1]}{found[2]} {'.'.join(steps)}" for steps in imports.names_of(found[3])] if found else [line])
        else:
            kept += [*sorted(imported), line]
            imported = set()
    return kept


def logic():
    """Returns the kit's logic: kits of one logic give one verdict."""
    told = subprocess.run(["rt", "version"], stdout=subprocess.PIPE, text=True, check=True).stdout
    found = re.search(r"logic \w+", told)
    return found[0] if found else sys.exit(f"wrong-bodies: `rt version` names no logic: {told.strip()}")


def rules():
    """Returns the code that decides what counts as refused, without comments, layout and docstrings."""
    found = []
    for name in RULES:
        tree = ast.parse(open(f"{os.path.dirname(__file__)}/{name}", encoding="utf-8").read())
        for it in ast.walk(tree):
            first = getattr(it, "body", None)
            if isinstance(first, list) and first and isinstance(first[0], ast.Expr) and isinstance(first[0].value, ast.Constant):
                it.body = first[1:]
        found.append(ast.dump(tree))
    return "\n".join(found)


def read(path):
    with open(path, encoding="utf-8") as it:
        return it.read()


def taken(root):
    """Returns the names of a tree under which its sums were taken; today's where it has no such file."""
    return Taken(read(f"{root}/{TAKEN}") if os.path.isfile(f"{root}/{TAKEN}") else "")


class Sums:
    """The sums of what verdicts on wrong bodies of some crates rest on, under one kit, one set of rules, and the names under which they were taken."""

    def __init__(self, lib, under, crates, names=None):
        self.lib, self.under, self.wholes, self.proofs = lib, under, {}, {}
        self.names = names or taken(ROOT)
        known = {it.name: it for crate in crates for it in [crate, *crate.below()]}
        self.below = {name: [name, *(dep.name for dep in it.below())] for name, it in known.items()}
        self.reach = Reach([item for name in sorted(known) for item in self.items_of(known[name])], self.below)

    def items_of(self, crate):
        """Yields the items of a crate: its libraries by their names, of which `std` is named by no text, and what its sources and definitions declare. Notes
        its proofs."""
        for name in sorted([*crate.of_kit, *(dep.name for dep in crate.deps)]):
            yield Item(crate.name, "crates.txt", name, frozenset({name} - {"std", "core"}))
        for file, path in sorted((self.file(crate, it), it) for it in self.lib.files_of(crate.folder)):
            if file.startswith("proofs/"):
                self.proofs.setdefault(crate.name, []).append((file, path))
            else:
                yield from items_of(crate.name, file, self.text(crate, path), self.below[crate.name])

    def file(self, crate, path):
        """Returns the name of a crate's file under which sums were taken."""
        return self.names.path(f"crates/{crate.name}/{os.path.relpath(path, crate.folder)}").partition(f"{crate.name}/")[2]

    def text(self, crate, path):
        """Returns the text of a crate's file, or of an edit of it, by the names under which sums were taken."""
        inside = f"wrong/{os.path.basename(path)}" if path.endswith(".edit") else os.path.relpath(path, crate.folder)
        return self.names.text(f"crates/{crate.name}/{inside}", read(path))

    def of(self, crate, bodies):
        """Returns the sum of each of these bodies of a crate: of what it reaches, of the function that it turns, of its own proofs, and of the body."""
        owns, parts, sums = {}, {}, {}
        for body in bodies:
            key = (body.function, *(pair[:2] for pair in body.pairs))
            if key not in owns:
                own = [*self.own(crate, body)]
                owns[key] = own, frozenset().union(*(words_of(text) for _, text in own))
            edit = self.text(crate, body.file)
            reached = self.reached(crate, body, words_of(edit) | owns[key][1])
            if reached not in parts:
                parts[reached] = self.reach.sum(reached)
            total = hashlib.sha256(f"{self.under}\0{crate.name}\0".encode() + parts[reached])
            for name, text in owns[key][0]:
                total.update(f"{name}\0{text}\0".encode())
            total.update(edit.encode())
            sums[body.name()] = total.hexdigest()[:16]
        return sums

    def reached(self, crate, body, words):
        """Returns the items that a body with these words reaches from the files that it changes."""
        found = 0
        for file in sorted({self.file(crate, f"{crate.folder}/{at}") for at, _, _ in body.pairs}) or [""]:
            found |= self.reach.of(crate.name, file, words)
        return found

    def wholes_of(self, crate, file):
        """Returns the parts of a file, each with the name of the function that it is; all in one where the file cannot be read."""
        path = f"{crate.folder}/{file}"
        if path not in self.wholes:
            text = self.text(crate, path) if os.path.isfile(path) else ""
            try:
                self.wholes[path] = [*RustFile(crate.name, file, text, self.below[crate.name]).wholes()], text
            except Unread:
                self.wholes[path] = [], text
        return self.wholes[path]

    def own(self, crate, body):
        """Yields the files of a crate with what is a body's own in them: the function that it turns and what else it edits, and that function's proofs."""
        function = self.names.piece(f"crates/{crate.name}/{body.pairs[0][0] if body.pairs else ''}", body.function)
        name = function.rpartition("::")[2]
        for file, at in sorted((self.file(crate, f"{crate.folder}/{it}"), it) for it in {at for at, _, _ in body.pairs}):
            wholes, text = self.wholes_of(crate, at)
            olds = [self.names.piece(f"crates/{crate.name}/{at}", old) for it, old, _ in body.pairs if it == at]
            if all(any(old in whole for _, whole in wholes) for old in olds):
                own = (whole for function, whole in wholes if function == name or any(old in whole for old in olds))
                yield from ((file, code_in_one_line(whole)) for whole in own)
            else:
                lines = with_imports_as_sets(without_comments(text, True))
                yield file, code_in_one_line("\n".join(lines))  # it edits what is no part of an item
        for file, path in self.proofs.get(crate.name, []):
            if file.startswith(f"proofs/{function.replace('::', '/')}/"):
                yield file, read_as_proved(self.text(crate, path))
