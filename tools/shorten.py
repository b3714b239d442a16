#!/usr/bin/env python3
"""Shortens the proofs of a crate: it tries one call of `grind` for each proof of a proposition, and keeps what the check accepts.

    tools/shorten.py CRATE [--jobs N] [--minutes N]

A clause of two lines and more, or all clauses of a case split, becomes `grind (arith, LEMMA, ..)` with the lemmas that the old proof names, or `grind arith`.
All are replaced at once; what an error names is put back, and the parts of it are tried, until the crate is proved. It tries no proof by recursion, none that
names more than seven lemmas, and no definition: a signature is of a proposition if its conclusion is a relation (≡, ≤, <, ⊥), a record of only such fields, a
type named for what holds (`IsRow`, `HasRoom`), or several of these; one that gives a witness is not. Contracts, specs/ and src/ stay as they are.

A module is put back if its check takes over a tenth longer, and over 0.3 s: that is clock, by the times of kept modules (tools/profile.py) in one check before
and one after, at one job, so another load on the machine can mislead it. The line before the last has the user seconds of both checks.
Interrupted, or after its minutes (default: 20), it puts back all that is not proved yet. The last line counts the calls, and lines after formatting. Do not
edit the crate meanwhile. Then run `rt tidy` in the crate, since it leaves imports that nothing uses.
"""
import argparse
import glob
import os
import re
import resource
import signal
import subprocess
import sys
import time

sys.dont_write_bytecode = True
import imports
import kit
import profile

ROOT = os.path.dirname(os.path.dirname(os.path.realpath(__file__)))
NAME = r"[A-Za-z_][\w']*(?:-[\w']+)*"
SIGNATURE = re.compile(rf"( *)((?:pub |abbrev |unfoldable |pub\(\w+\) )*)({NAME}) :( |$)")
CLAUSE = re.compile(rf"( *)({NAME})((?: [^=]*?)?) =( |$)")
WORD = re.compile(rf"(?<![\w.'◌-])({NAME})(?![\w'])")
COMMON = "use Rattle.std.proofs.Common.{"
RELATIONS = "≡≢≤<⊥"
VERBS = ("Is Are Has Holds Agrees Allows Same May Fits Carries Remembers Ends Sound Stands Recorded Settled Runs Follows Leads All Grows Halts Keeps Told "
         "Goes Reached")
HOLDS = re.compile(rf"({VERBS.replace(' ', '|')})([A-Z]|$)")
RECORDS = {}  # the types of the fields of each record of the repository
CONSTRUCTORS = {"true", "false", "zero", "inl", "inr", "tt", "refl", "suc"}
SLOWER, NOISE, MOST = 1.1, 0.3, 7


class Stopped(Exception):
    """The minutes are over, or a signal came."""


def indent(line):
    return len(line) - len(line.lstrip(" "))


def split_at(text, mark):
    """Returns the parts of a text between marks that stand in no brackets."""
    parts, depth = [""], 0
    for it in text:
        depth += (it in "([{") - (it in ")]}")
        if it == mark and depth == 0:
            parts.append("")
        else:
            parts[-1] += it
    return [it.strip() for it in parts]


def holds(text, within=()):
    """Returns whether a type says only what holds: one that gives a value, as `(n : ℕ) × (a ≡ n)` does, is no proposition."""
    last = split_at(text, "→")[-1]
    parts = [it for both in split_at(last, "×") for it in split_at(both, "⊎")]
    if len(parts) > 1:
        return all(holds(it, within) for it in parts)
    if last.startswith("(") and body_of(last) is not None:
        return len(split_at(body_of(last), ":")) == 1 and holds(body_of(last), within)
    if any(len(split_at(last, it)) > 1 for it in RELATIONS):
        return True
    head = re.match(rf"(?:\w+\.)*({NAME})", last)
    if head and head[1] in RECORDS:
        return head[1] in within or all(holds(it, (*within, head[1])) for it in RECORDS[head[1]])
    return bool(head and HOLDS.match(head[1]))


def body_of(text):
    """Returns what stands in the one pair of brackets around a text, or None."""
    depth = 0
    for at, it in enumerate(text):
        depth += (it in "([{") - (it in ")]}")
        if depth == 0:
            return text[1:at] if at == len(text) - 1 else None
    return None


def body_end(lines, start, deep):
    """Returns where the lines end that stand deeper than `deep`, from `start` on; blank lines within belong to them, and closing brackets."""
    end = at = start
    while at < len(lines) and (not lines[at].strip() or indent(lines[at]) > deep or indent(lines[at]) == deep and lines[at].strip()[0] in ")}]"):
        at += 1
        end = at if lines[at - 1].strip() else end
    return end


class Signature:
    """A name with its type."""

    def __init__(self, lines, at, found):
        self.at, self.deep, self.flags, self.name = at, len(found[1]), found[2], found[3]
        self.end = body_end(lines, at + 1, self.deep)
        text = " ".join(it.strip() for it in lines[at : self.end] if not it.strip().startswith("--"))
        self.type, self.recursive = text.partition(" :")[2], False

    def is_proposition(self):
        return "abbrev" not in self.flags and "unfoldable" not in self.flags and holds(self.type)

    def arguments(self):
        """Returns the names of the explicit arguments, None for one with no name."""
        names = []
        for part in split_at(self.type, "→")[:-1]:
            groups = split_at(part, " ")
            if all(re.match(r"[({].* : ", it) for it in groups):
                names += [name for it in groups if it[0] == "(" for name in it[1:].split(" : ")[0].split()]
            else:
                names.append(None)
        return names


class Piece:
    """Lines of a file that one call may replace: a clause, or all clauses of a name."""

    def __init__(self, signature, left, start, end, bodies):
        self.signature, self.left, self.start, self.end, self.bodies = signature, left, start, end, bodies
        self.lemmas, self.failed = [], False

    def call(self):
        named = ", ".join(["arith", *self.lemmas])
        return f"{self.left} = grind {f'({named})' if self.lemmas else named}"


def said(lines):
    return " ".join(it for it in lines if not it.strip().startswith("--"))


def clauses_of(lines, signatures):
    """Returns the clauses, each of which has its left side in one line; it marks the signatures of recursive ones."""
    found = []
    for at, line in enumerate(lines):
        start = re.match(rf"( *)({NAME})(?= |$)", line)
        mine = [it for it in signatures if start and it.name == start[2] and it.deep == len(start[1]) and it.end <= at]
        if not mine or SIGNATURE.match(line):
            continue
        end, clause = body_end(lines, at + 1, mine[-1].deep), CLAUSE.match(line)
        left = clause[0].rstrip(" ").removesuffix("=").rstrip() if clause else line
        body = said([line[len(left) :], *lines[at + 1 : end]])
        if not clause or any(left.count(it) != left.count(other) for it, other in ("()", "{}")):
            mine[-1].recursive = True  # a left side that is not read: leave all of it
        if mine[-1].name in WORD.findall(body):
            mine[-1].recursive = True
        found.append(Piece(mine[-1], left, at, end, [body]))
    return found


def one_clause(group):
    """Returns one piece for the clauses of a case split, with a name for each argument, or None if they cannot be one."""
    first = group[0].signature
    rows = [split_at(it.left.strip(), " ")[1:] for it in group]
    given = first.arguments()
    if len({len(it) for it in rows}) != 1 or len(given) < len(rows[0]) or any(it[0] == "{" for row in rows for it in row):
        return None
    names = []
    for at, column in enumerate(zip(*rows)):
        plain = [it for it in column if re.fullmatch(r"[a-z][\w']*", it) and it not in CONSTRUCTORS]
        if all(it in plain or it == "_" for it in column):
            name = plain[0] if plain else "_"
        else:
            name = given[at] or (plain[0] if plain else "given")
        while name != "_" and name in names:
            name += "'"
        names.append(name)
    left = " ".join([" " * first.deep + first.name, *names])
    return Piece(first, left, group[0].start, group[-1].end, [it for piece in group for it in piece.bodies])


def propositions(folder):
    """Returns the full names that the repository's proofs give, each with whether it is a proof of a proposition; it fills RECORDS."""
    found = {}
    for path in glob.glob(f"{folder}/crates/*/[sp][pr]*/**/*.antt", recursive=True):
        lines = open(path, encoding="utf-8").read().split("\n")
        for at, line in enumerate(lines):
            record = re.match(rf" *(?:pub )?record ({NAME})", line)
            if record:
                fields = signatures_of(lines[at + 1 : body_end(lines, at + 1, indent(line))])
                RECORDS.setdefault(record[1], []).extend(it.type for it in fields)
    for path in glob.glob(f"{folder}/crates/*/proofs/**/*.antt", recursive=True):
        crate, _, rest = path[len(folder) + 8 :].partition("/proofs/")
        for it in signatures_of(open(path, encoding="utf-8").read().split("\n")):
            found[f"Rattle.{crate}.proofs.{rest[:-5].replace('/', '.')}.{it.name}"] = it.is_proposition()
    return found


def signatures_of(lines):
    found = ((at, SIGNATURE.match(it)) for at, it in enumerate(lines) if not it.strip().startswith(("--", "let ")))
    return [Signature(lines, at, it) for at, it in found if it]


def imported(lines, known):
    """Returns the lemmas that a file imports."""
    found = set()
    for line in lines:
        use = imports.NAMES.match(line)
        for *module, last in imports.names_of(use[3]) if use else ():
            word, _, alias = last.partition(" as ")
            name, full = alias or word, ".".join([*module, word])
            usual = "-" in name or name == "append_assoc" if full.startswith(COMMON[4:-1]) else ".proofs" in full or "lemmas" in full
            if not re.match(r"[A-Z]|.*◌", name) and ".specs" not in full and usual and known.get(full, True):
                found.add(name)
    return found


class File:
    """A file of proofs, and what of it may be one call."""

    def __init__(self, path, known):
        self.path, self.old = path, open(path, encoding="utf-8").read()
        self.lines, self.calls = self.old.split("\n"), []
        signatures = signatures_of(self.lines)
        clauses = clauses_of(self.lines, signatures)
        pieces = []
        for it in signatures:
            group = [piece for piece in clauses if piece.signature is it]
            whole = one_clause(group) if len(group) > 1 else None
            pieces += [whole, *group] if whole else group
        recursive = [it.start for it in clauses if it.signature.recursive]
        lemmas, self.pieces = imported(self.lines, known), []
        for it in pieces if "mutual" not in map(str.strip, self.lines) else ():
            it.lemmas = self.named(it, lemmas, signatures)
            apart = not any(it.start <= at < it.end for at in recursive)
            if it.end - it.start > 1 and it.signature.is_proposition() and apart and len(it.lemmas) <= MOST:
                self.pieces.append(it)
        self.pieces.sort(key=lambda it: (it.start, -it.end))

    def named(self, piece, lemmas, signatures):
        """Returns the lemmas that a piece names: imported ones, and those of this file before it."""
        before = {it.name for it in signatures if it.at < piece.start and it.deep <= piece.signature.deep and it.is_proposition()}
        inner = {it.name for it in signatures if piece.start < it.at < piece.end} | set(WORD.findall(piece.left)) | {piece.signature.name}
        return list(dict.fromkeys(it for body in piece.bodies for it in WORD.findall(body) if it in (lemmas | before) - inner))

    def tried(self):
        """Returns the outermost pieces that have not failed."""
        found, last = [], 0
        for it in self.pieces:
            if not it.failed and it.start >= last:
                found.append(it)
                last = it.end
        return found

    def text(self):
        """Returns the text with its calls, and remembers the line of each."""
        made, at, self.calls = [], 0, []
        for it in self.tried():
            made += [*self.lines[at : it.start], it.call()]
            self.calls.append([len(made), it])
            at = it.end
        made += self.lines[at:]
        if self.calls and not any(re.match(r"use .*[{, ]arith[,}]", it) for it in made):
            uses = [at for at, it in enumerate(made) if it.startswith("use ")] or [0]
            made.insert(uses[0], f"{COMMON}arith}}")
            self.calls = [[line + 1, it] for line, it in self.calls]
        return "\n".join(made)


class Crate:
    """A crate and its checks; `proved` has the texts of the last check that proved it."""

    def __init__(self, name, jobs, minutes):
        self.name, self.jobs, self.end = name, jobs, time.time() + 60 * minutes
        self.folder, known = f"{ROOT}/crates/{name}", propositions(ROOT)
        self.files = [File(it, known) for it in sorted(glob.glob(f"{self.folder}/proofs/**/*.antt", recursive=True))]
        self.files = [it for it in self.files if it.pieces]
        self.proved = {it.path: it.old for it in self.files}

    def write(self, texts):
        for path, text in texts.items():
            if open(path, encoding="utf-8").read() != text:
                with open(path, "w", encoding="utf-8") as it:
                    it.write(text)

    def check(self, jobs):
        """Returns what a check prints and its user seconds; Stopped if it takes longer than what is left."""
        before = resource.getrusage(resource.RUSAGE_CHILDREN).ru_utime
        words = ["rt", "check", "--jobs", str(jobs)]
        run = subprocess.Popen(words, cwd=self.folder, stdout=subprocess.PIPE, stderr=subprocess.STDOUT, text=True, start_new_session=True)
        try:
            log = run.communicate(timeout=max(1, self.end - time.time()))[0]
        except BaseException as it:
            os.killpg(run.pid, signal.SIGTERM)  # the check and what it started, and nothing else
            run.wait()
            raise Stopped() if isinstance(it, subprocess.TimeoutExpired) else it
        return log, resource.getrusage(resource.RUSAGE_CHILDREN).ru_utime - before

    def timed(self, texts, mark):
        """Checks these texts with a comment in each file; returns the seconds of each module by its path, and the user seconds."""
        start = time.time()
        self.write({path: f"{text}-- {mark} {start:.0f}\n" for path, text in texts.items()})
        log, user = self.check(1)
        spent, last = {}, start
        for when, _, module in profile.modules_of(self.name):
            if when > start:
                part = module.partition("-proofs.")[2]
                spent[f"{self.folder}/proofs/{part.replace('.', '/')}.antt"], last = when - last, when
        if "\nlogic=proved" not in log:
            raise Stopped()
        return spent, user

    def put_back(self, log):
        """Puts back what the errors name: a call in whose line one stands, else those of the file, else all. Returns how many."""
        found, others = 0, set()
        for path, line, message in re.findall(r"^(?:\./)?(proofs/\S+\.antt):(\d+):\d+: error: (.*)$", log, re.M):
            if "not checked" in message:
                continue  # it only hangs on a proof that failed
            file = next((it for it in self.files if it.path == f"{self.folder}/{path}"), None)
            hit = next((it for at, it in file.calls if at == int(line)), None) if file else None
            if hit:
                found += 1
                name = re.search(r"`([^`]+)` is not in scope", message)
                if name and name[1] in hit.lemmas:
                    hit.lemmas.remove(name[1])
                else:
                    hit.failed = True
            else:
                others.add(file)
        if not found:
            calls = [it for file in others if file for _, it in file.calls] or [it for file in self.files for _, it in file.calls]
            for it in calls:
                it.failed = True
            found = len(calls)
        return found

    def search(self):
        """Checks and puts back until the crate is proved."""
        while True:
            self.write({it.path: it.text() for it in self.files})
            log, _ = self.check(self.jobs)
            calls = sum(len(it.calls) for it in self.files)
            if "\nlogic=proved" in log:
                print(f"{calls} calls: proved", flush=True)
                return
            back = self.put_back(log)
            print(f"{calls} calls: {back} put back or mended", flush=True)
            if not back:
                raise Stopped()

    def formatted(self):
        """Formats the files and returns their texts; a file with no call is as it was."""
        changed = [it.path for it in self.files if it.calls]
        if changed:
            subprocess.run([kit.load().RATTLE, "fmt", "--write", *changed], cwd=self.folder, stdout=subprocess.DEVNULL, check=True)
        return {it.path: open(it.path, encoding="utf-8").read() if it.calls else it.old for it in self.files}

    def shorten(self):
        if "\nlogic=proved" not in self.check(self.jobs)[0]:
            sys.exit(f"shorten: crates/{self.name} is not proved as it is")
        before = self.timed(self.proved, "before")  # nothing but these files is made anew now
        print(f"{sum(len(it.tried()) for it in self.files)} proofs to try in {len(self.files)} files, {before[1]:.1f} user seconds before", flush=True)
        self.search()
        made = self.formatted()
        after = self.timed(made, "after")
        self.proved, slow = made, []
        for it in self.files:
            was, now = before[0].get(it.path, 0), after[0].get(it.path, 0)
            if it.calls and now > SLOWER * was and now > was + NOISE:
                print(f"{os.path.relpath(it.path, ROOT)}: {was:.1f} s before, {now:.1f} s after: put back")
                slow.append(it)
        made = {**made, **{it.path: it.old for it in slow}}
        self.write(made)
        if "\nlogic=proved" not in self.check(self.jobs)[0]:
            raise Stopped()
        self.proved = made
        print(f"user seconds of a check of these files: {before[1]:.1f} before, {after[1]:.1f} after")


def main():
    read = argparse.ArgumentParser(description=__doc__, formatter_class=argparse.RawDescriptionHelpFormatter)
    read.add_argument("crate", metavar="CRATE")
    read.add_argument("--jobs", type=int, default=2, metavar="N")
    read.add_argument("--minutes", type=float, default=20, metavar="N")
    given = read.parse_args()
    os.chdir(ROOT)
    signal.signal(signal.SIGTERM, signal.default_int_handler)
    crate = Crate(given.crate, given.jobs, given.minutes)
    if not crate.files:
        sys.exit(f"shorten: no proof of crates/{given.crate} can be tried")
    try:
        crate.shorten()
    except (Stopped, KeyboardInterrupt):
        print("shorten: stopped; what was not proved is put back")
    finally:
        crate.write(crate.proved)
    kept = [it for it in crate.files if crate.proved[it.path] != it.old]
    fewer = sum(it.old.count("\n") - crate.proved[it.path].count("\n") for it in kept)
    print(f"shorten: {given.crate}: {sum(len(it.calls) for it in kept)} proofs are one call, {fewer} lines fewer")


if __name__ == "__main__":
    main()
