"""A wrong body, and the rules by which a check's output refuses it. tests/wrong-bodies.py --help has the rules in words.

The sum of each line of tests/refused.txt holds the code of this file and of trial.py: with another rule no line counts.
"""
import dataclasses
import os
import re
import threading

# A function's line that says that it is not proved, the words in it that name only a callee, and a goal in it that is the function's own.
NOT_PROVED = re.compile(r"not proved|no proof")
OF_A_CALLEE = re.compile(r"it calls|it passes|a call of")
OWN_GOAL = re.compile(r"`?search`? did not prove `[^`]+`")
# The first words of a line that callers read.
HEAD = re.compile(r"\s*(pub|fn|impl|trait|struct|enum|use|ghost|where|requires|ensures|\) ->)\b|\s*\) ->")
# A line that says what a body owes or how it is proved, and no body.
CLAUSE = re.compile(r"\s*(?:(?:pub(?:\([a-z]+\))? )?ghost|requires|ensures|invariant|decreases|maintains|unfoldable)\b|\s*#!?\[")
PROMISE = re.compile(r"\b(ghost|requires|ensures|invariant|decreases|maintains)\b")
# An error in a proof file: its path after proofs/, and its words; the words that only say that the file no longer fits the body's shape: it
# names what the edit took away, or lacks a case that the edit brought; and a goal of a source line that the prover found open.
PROOF_ERROR = re.compile(r"(?:note: )?(?:\./)?proofs/(\S+?):\d+:\d+: error: (.*)")
STALE = re.compile(r"has no |is not in scope|was not admitted|write the case|no case of the `elim` covers|which was rejected|holds no|is not a case")
OPEN_GOAL = re.compile(r"(?:note: )?(?:\./)?src/\S+:\d+:\d+: .*(is not proved|may be false|does not prove|error)")
# A loop of the body's own for which no proof file has an invariant: any such loop is refused, a right one too.
NO_MEASURE = re.compile(r"no proof: expected (?:a measure|an invariant) in \S*Invariants\.antt")
# An error of the compiler: its file, its line and its words.
COMPILE_ERROR = re.compile(r"(?:\./)?(src/\S+?):(\d+):\d+: error(\[\S+\]: .*)")
UNREAD = re.compile(r"(?:\./)?(?:src|specs)/\S+?:\d+:\d+: error: (.*)")
UNREAD_WORDS = re.compile(r"is not in scope|has no field|is no name|operand is missing|expected the end|cannot continue")
WEAK = ", but only since a proof file does not fit its shape: change a value and keep the names"
printing = threading.Lock()


def say(text):
    with printing:
        print(text, flush=True)


def whole(lines):
    """Returns a check's output with each message in one line: the lines that follow it two columns in belong to it."""
    found = []
    for it in lines:
        if it.startswith("  ") and found:
            found[-1] += it
        else:
            found.append(it)
    return found


@dataclasses.dataclass
class Body:
    """One wrong body: its file, the function that it turns, its pairs of a file, an old text and a new one, and, if it must not compile, the compiler's
    words."""

    crate: str
    file: str
    function: str = ""
    pairs: list = dataclasses.field(default_factory=list)
    words: str = ""
    verdict: str = ""
    is_failure: bool = False
    is_weak: bool = False
    is_over_holes: bool = False
    rounds: int = 0

    def name(self):
        return f"{self.crate}/{os.path.basename(self.file)}"

    def is_refused(self):
        """Returns whether the prover or the compiler refused it, and not by its shape alone."""
        return bool(self.verdict) and not self.is_failure and not self.is_weak

    def end(self, verdict, is_failure=False):
        self.verdict, self.is_failure = verdict, is_failure
        if not (is_failure and self.is_over_holes):  # it is tried again
            say(f"wrong-body {self.name()}: {'FAILED: ' if is_failure else ''}{verdict}")

    def reopen(self):
        """Takes its verdict back."""
        self.verdict, self.is_failure, self.is_weak, self.is_over_holes = "", False, False, False

    def changes_a_head(self):
        """Returns whether a pair changes what callers read: the head of a function or of an impl, or an import. Such a body is tried apart from others."""
        return any(HEAD.match(old) and old.split("{")[0].strip() != new.split("{")[0].strip() for _, old, new in self.pairs)

    def read(self):
        """Reads the file, and returns why it is no wrong body, if it is none."""
        at, old = "", None
        for number, line in enumerate(open(self.file, encoding="utf-8").read().split("\n")):
            if line.startswith("refused:"):
                self.words = line[8:].strip()
                if number or not self.words:
                    return "a 'refused:' line has words of the compiler, and is the first"
            elif line.startswith("fn: "):
                self.function = line[4:].strip()
            elif line.startswith("file: "):
                at = line[6:].strip()
            elif line.startswith("old: "):
                old = line[5:]
            elif line.startswith("new:"):
                if not at or old is None:
                    return "a 'new:' line is before its 'file:' and 'old:' lines"
                self.pairs.append((at, old, line[4:].removeprefix(" ")))
                old = None
        return self.why_it_turns_nothing()

    def why_it_turns_nothing(self):
        """Returns why this edit is no wrong body, if it is none."""
        outside = [at for at, _, _ in self.pairs if os.path.normpath(at) != at or not at.startswith("src/")]
        if outside:
            return f"{outside[0]} is no file below src/: an edit of a definition or a proof shows nothing"
        if any("prove!(" in new and "prove!(" not in old for _, old, new in self.pairs):
            return "it has a `prove!` of its own: what that asserts is refused, and no clause"
        if self.words and not self.words.endswith("is private"):
            return f"its 'refused:' words do not end in 'is private': {self.words[:80]}"
        return "it has no line 'fn:'" if not self.function else None if self.pairs else "it has no pair 'old:', 'new:'"

    def applied(self, texts):
        """Returns these texts with the body in them, or None and why it cannot be put in."""
        changed = dict(texts)
        for at, old, new in self.pairs:
            found = changed.get(at, "").count(old)
            if found != 1:
                return None, f"an 'old:' text is in {at} {found} times, and not once: {old[:80]}"
            changed[at] = changed[at].replace(old, new)
        return changed, None

    def why_it_cannot_be_tried(self, texts):
        """Returns why it cannot be put into these texts, or which clause, ghost line or hint it changes: what it broke would be right as it is."""
        changed, why = self.applied(texts)
        for at in [] if why else sorted({at for at, _, _ in self.pairs}):
            before, after = clauses_of(texts[at]), clauses_of(changed[at])
            odd = [it for it in before if not any(other.startswith(it) for other in after)]
            odd += [it for it in after if not any(it.startswith(other) and not PROMISE.search(it[len(other) :]) for other in before)]
            if odd:
                return f"it edits no body, but a clause, a ghost line or a hint: {odd[0].strip()[:80]}"
        return why

    def places(self, texts):
        """Returns the files and lines that the body changes in these texts: an edit keeps the number of lines."""
        changed, found = dict(texts), set()
        for at, old, new in self.pairs:
            found.add((at, changed[at][: changed[at].index(old)].count("\n") + 1))
            changed[at] = changed[at].replace(old, new)
        return found


def clauses_of(text):
    """Returns the lines of a source file that are clauses, ghost lines or hints, with the deeper lines after each, in which it goes on."""
    found, depth = [], None
    for line in text.split("\n"):
        indent = len(line) - len(line.lstrip())
        if CLAUSE.match(line):
            depth = indent
            found.append(line)
        elif depth is not None and line.strip() and indent > depth:
            found.append(line)
        else:
            depth = None
    return found


class Verdict:
    """What the output of one check says of the bodies of one crate that were tried in it."""

    def __init__(self, crate, lines, stale, has_holes):
        self.crate, self.lines, self.stale, self.has_holes = crate, lines, stale, has_holes

    def unusable(self):
        """Returns why the check says nothing of any body in it, if it does not. `stale` has the kit's words for kept work that it could not use."""
        for it in self.lines:
            found = UNREAD.match(it)
            if found and (not found[1].startswith("`") or UNREAD_WORDS.search(re.sub(r"`[^`]*`", "", found[1]))):
                return f"BAD EDIT: the prover cannot read it: {it}"
        if any(self.stale.search(it) for it in self.lines):
            return "the kept work of a library could not be used"
        if not re.match(r"only=\d+ (proved|holes)=\d+", self.lines[-1]):
            told = next((it for it in self.lines if "error: " in it), self.lines[-1])
            return f"the check ended without a verdict: {told}"
        return ""

    def said_of(self, body):
        """Returns the check's words of the body's function, or None."""
        head = f"fn {self.crate}::{body.function}: "
        return next((it[len(head) :] for it in self.lines if it.startswith(head)), None)

    def judge(self, body, is_alone):
        """Ends a body that the check refuses, and, where it was tried alone, one that it does not refuse."""
        body.rounds += 1
        said = self.said_of(body)
        if said is None:
            body.end(f"no line tells of {body.function}", True)
        elif NOT_PROVED.match(said) and (not (self.has_holes or OF_A_CALLEE.search(said)) or self.has_own_goal(body, said)):
            body.is_weak = self.is_weak(body, said)
            body.end(f"refused{WEAK if body.is_weak else ''}: {said[:160]}")
        elif is_alone:
            body.end("NOT REFUSED: the function is still proved" if said.startswith("proved") else f"no verdict: {said[:160]}", True)

    def errors_of(self, body):
        """Returns the words of each error in the own folder of proofs of the body's function: a check prints those of all functions before its first
        verdict."""
        folder = f"{body.function.replace('::', '/')}/"
        found = filter(None, map(PROOF_ERROR.match, whole(self.lines)))
        return [it[2] for it in found if it[1].startswith(folder)]

    def has_own_goal(self, body, said):
        """Returns whether a goal of the body's own function is open, whatever became of what it calls: its line names the goal before any callee, or an error
        is in its own folder of proofs that is not about its shape."""
        callee = OF_A_CALLEE.search(said)
        if OWN_GOAL.search(said[: callee.start()] if callee else said):
            return True
        return any(not STALE.search(it) for it in self.errors_of(body))

    def is_weak(self, body, said):
        """Returns whether no clause need refuse it: a proof file that no longer fits its shape is all that does, since no goal of it was found open, neither in
        a proof file nor in the source lines before its own line; or it has a loop for which no measure was written."""
        end = next(at for at, it in enumerate(self.lines) if it.startswith(f"fn {self.crate}::{body.function}: "))
        start = max((at + 1 for at, it in enumerate(self.lines[:end]) if re.match(r"(fn|impl|struct|enum|trait) ", it)), default=0)
        has_goal = self.has_own_goal(body, said) or any(map(OPEN_GOAL.match, self.lines[start:end]))
        return bool(NO_MEASURE.match(said)) or not has_goal and bool(self.errors_of(body))

    def compile(self, body, texts, is_alone):
        """Judges a body that must not compile by the errors on the lines that it changes in these texts."""
        body.rounds += 1
        found = [COMPILE_ERROR.match(it) for it in whole(self.lines)]
        errors = [(it[1], int(it[2]), it[3]) for it in found if it]
        own = [words for at, line, words in errors if (at, line) in body.places(texts)]
        fitting = [it for it in own if body.words in it]
        if fitting:
            body.end(f"refused by the compiler: {fitting[0][:160]}")
        elif own:
            body.end(f"the compiler refuses it by other words than '{body.words}': {own[0][:160]}", True)
        elif is_alone:
            body.end(f"NOT REFUSED by the compiler: it has no error on the line of the body{f', but {errors[0]}' if errors else ''}", True)


def bodies_of(crate, folder):
    """Returns the wrong bodies of a crate, those that cannot be read with their failure."""
    found = []
    for name in sorted(os.listdir(folder)) if os.path.isdir(folder) else []:
        body = Body(crate.name, f"{folder}/{name}")
        why = body.read() if name.endswith(".edit") else "it is no file NAME.edit"
        if not why and os.path.exists(f"{crate.folder}/must-fail/{name}"):
            why = "must-fail/ has an edit of this name"
        if why:
            body.end(f"BAD EDIT: {why}", True)
        found.append(body)
    return found
