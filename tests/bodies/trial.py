"""Trials of wrong bodies: many in one check of a copy of their crate, each judged on the line of its own function.

The sum of each line of tests/refused.txt holds the code of this file and of judge.py: with another rule no line counts.
"""
import contextlib
import os
import shutil
import subprocess
import sys
import tempfile

from .judge import Verdict, bodies_of

PARTS = ("src", "specs", "proofs")
# The files of a function's own folder of proofs that say how its goals are met.
ANSWERS = ("Answers.antt", "Invariants.antt")


class Trial:
    """The wrong bodies of one crate, tried over one folder of kept work."""

    def __init__(self, lib, crate, bodies, after_ci, jobs, room, judged, has_holes=False):
        self.lib, self.crate, self.bodies, self.after_ci, self.jobs, self.room, self.judged = lib, crate, bodies, after_ci, jobs, room, judged
        self.has_holes = has_holes
        self.turned = {it.function.replace("::", "/") for it in bodies_of(crate, f"{crate.folder}/wrong") if it.function} if has_holes else set()
        self.kept, self.rounds = f"{room}/kept", 0
        own = f"{crate.folder}/{lib.KEPT[1]}"
        shutil.copytree(own, self.kept) if os.path.isdir(own) else os.mkdir(self.kept)
        self.texts = texts_of(crate)

    def check(self, texts, functions):
        """Checks these functions alone, in a copy of the crate with these texts, and returns what the check says."""
        self.rounds += 1
        with tempfile.TemporaryDirectory(dir=self.room) as copy:
            for part in PARTS:
                if os.path.isdir(f"{self.crate.folder}/{part}"):
                    shutil.copytree(f"{self.crate.folder}/{part}", f"{copy}/{part}")
            for path, text in texts.items():
                if text != self.texts[path]:
                    with open(f"{copy}/{path}", "w", encoding="utf-8") as it:
                        it.write(text)
            flags = ["--jobs", str(self.jobs), *(word for it in functions for word in ("--only", it))]
            if self.has_holes:
                self.leave_holes(f"{copy}/proofs", functions)
                flags.append("--allow-holes")
            words = [self.lib.RATTLE, "check", *self.crate.words(flags, keeps=False), "--incremental", self.kept]
            how = {"cwd": copy, "stdin": subprocess.DEVNULL, "stdout": subprocess.PIPE, "stderr": subprocess.STDOUT, "text": True, "errors": "replace"}
            said = subprocess.run([*self.lib.guarded(), *words], **how).stdout.rstrip("\n").split("\n")
        return Verdict(self.crate.name, said, self.lib.STALE, self.has_holes)

    def leave_holes(self, proofs, functions):
        """Puts a hole in the place of the proof of each other function of this copy that has a file of proofs or a wrong body, so that the functions under
        trial take what they call by its contract, and it need not be proved from nothing."""
        folders = {os.path.relpath(at, proofs) for at, _, names in os.walk(proofs) if set(ANSWERS).intersection(names)}
        own = [it.replace("::", "/") for it in functions]
        for at in sorted(folders | self.turned):
            if os.path.exists(f"{proofs}/{at}/Proof.antt") or any(f"{at}/".startswith(f"{it}/") for it in own):
                continue
            os.makedirs(f"{proofs}/{at}", exist_ok=True)
            for it in ANSWERS:
                with contextlib.suppress(FileNotFoundError):
                    os.remove(f"{proofs}/{at}/{it}")
            with open(f"{proofs}/{at}/Proof.antt", "w", encoding="utf-8") as it:
                it.write(self.hole(at))

    def hole(self, at):
        """Returns the proof file with a hole of the function of this folder."""
        path, name = at.replace("/", "."), at.rpartition("/")[2]
        head = f"use Rattle.{self.crate.name}.proofs.{path}.Statement.{{statement}}\n\n"
        return f"{head}pub {name}_spec : {{M : Type 1}} → statement M\n{name}_spec = ?\n"

    def run(self):
        for it in self.open():
            why = it.why_it_cannot_be_tried(self.texts)
            if why:
                it.end(f"BAD EDIT: {why}", True)
        self.compile_all()
        if not self.after_ci:
            self.control()
        is_alone = False
        while self.open():
            open_before = len(self.open())
            self.round(self.open()[:1] if is_alone else self.chosen())
            self.judged()
            is_alone = len(self.open()) == open_before

    def open(self):
        return [it for it in self.bodies if not it.verdict]

    def compile_all(self):
        """Tries the bodies that must not compile: all that can be side by side, and alone the first of those that a check said nothing of."""
        is_alone = False
        while told := [it for it in self.open() if it.words]:
            chosen = told[:1] if is_alone else self.beside_each_other(told) or told[:1]
            verdict = self.check(self.with_all(chosen), [it.function for it in chosen])
            for it in chosen:
                verdict.compile(it, self.texts, len(chosen) == 1)
            self.judged()
            is_alone = len([it for it in self.open() if it.words]) == len(told)

    def control(self):
        """Fails each body whose function is not proved as it is."""
        functions = sorted({it.function for it in self.open()})
        if not functions:
            return
        verdict = self.check(self.texts, functions)
        for it in self.open():
            said = verdict.said_of(it)
            if said is not None and not said.startswith("proved"):
                it.end(f"its function is not proved as it is: {said[:160]}", True)

    def chosen(self):
        """Returns the bodies of the next round."""
        return self.beside_each_other([it for it in self.open() if not it.changes_a_head()]) or self.open()[:1]

    def beside_each_other(self, bodies):
        """Returns of each function the first of these bodies that can be put in beside the others."""
        found, functions, texts = [], set(), self.texts
        for it in bodies:
            changed, why = it.applied(texts)
            if not why and it.function not in functions:
                found, texts = [*found, it], changed
                functions.add(it.function)
        return found

    def with_all(self, bodies):
        """Returns the crate's texts with these bodies in them."""
        texts = self.texts
        for it in bodies:
            texts = it.applied(texts)[0]
        return texts

    def round(self, bodies):
        """Judges these bodies by one check, or, where it says nothing of any, each part of them by a check of its own."""
        verdict = self.check(self.with_all(bodies), [it.function for it in bodies])
        bad = verdict.unusable()
        if not bad:
            for it in bodies:
                verdict.judge(it, len(bodies) == 1)
        elif len(bodies) == 1:
            bodies[0].end(bad[:300], True)
        else:
            for part in filter(None, parts_of(bodies, bad)):
                self.round(part)


def parts_of(bodies, bad):
    """Returns these bodies in parts: alone those of a function that the crate has not, as these words of a check say, or else by halves."""
    named = [it for it in bodies if f"`{it.function}`" in bad and "has no function" in bad]
    half = len(bodies) // 2
    return [[it] for it in named] + [[it for it in bodies if it not in named]] if named else [bodies[:half], bodies[half:]]


def texts_of(crate):
    """Returns the text of each file of a crate's src/, by its path in the crate."""
    found = {}
    for at, _, files in os.walk(f"{crate.folder}/src"):
        for it in files:
            with open(f"{at}/{it}", encoding="utf-8") as text:
                found[os.path.relpath(f"{at}/{it}", crate.folder)] = text.read()
    return found


def try_crate(lib, crate, bodies, after_ci, jobs=1, judged=lambda: None, has_holes=False):
    """Tries the wrong bodies of a crate whose libraries are built, with so many jobs a check, calls `judged` after each round, and returns how many checks
    that took."""
    with tempfile.TemporaryDirectory(prefix="wrong-bodies-") as room:
        trial = Trial(lib, crate, bodies, after_ci, jobs, room, judged, has_holes)
        trial.run()
        return trial.rounds


def try_over_holes(lib, crate, bodies, after_ci):
    """Tries a few bodies over holes, where only an open goal of a body's own function counts; what is not refused so is tried as any other body."""
    for it in bodies:
        it.is_over_holes = True
    try_crate(lib, crate, bodies, True, has_holes=True)
    again = [it for it in bodies if not it.is_refused()]
    for it in again:
        it.reopen()
    if again:
        try_crate(lib, crate, again, after_ci)


def build_below(lib, crates, after_ci):
    """Builds the libraries below these crates, where they are not built. Those of `rt ci` have no stamp."""
    for dep in sorted({it for crate in crates for it in crate.below()}, key=lambda it: len(it.below())):
        of_ci = after_ci and os.path.isdir(dep.rlib) and not os.path.exists(f"{dep.folder}/out/rlib/stamp")
        if not of_ci and not dep.is_built() and dep.build_rlib(["--jobs", "1"], anew=False):
            sys.exit(f"wrong-bodies: the library {dep.name} was not built")
