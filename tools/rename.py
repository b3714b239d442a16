#!/usr/bin/env python3
"""Renames what a table lists: in code, definitions, proofs, edits and docs, and in the names of files and folders, because a folder of proofs has
the names of its types and traits.

    tools/rename.py [--apply] TABLE

A line of the table is `old new`, and # starts a comment. `old` is a whole name, or with a ~ before it one word of names: `~berth` is in `own_berth` but
not in `berths`, and `~Berth` in `IsBerth`. A whole name has priority over a word, and nothing is renamed twice. In comments and docs a name is renamed
only if it cannot be prose: with `_` or a second capital in it, or between backticks; in docs only if crates/ has it. A string is what the program prints:
only what stands there between braces is a name. The prover's own set of search rules is named `rules`: that name stays. Paths after `new` limit the line
to files whose paths begin with one of them (`doing under_way crates/cpu/ crates/mctower/src/main.rt`); such a line has priority over one for all files.

Without --apply it changes nothing. It prints each new name that exists already, because two names would become one, and each line of prose that still has
an old word. With --apply it also writes into tests/names.txt what it renamed in crates/: a rename changes no verdict, so that the ledger of mutants reads
each text by the names under which its sums were taken (docs/GATE.md).
"""
import argparse
import collections
import os
import re
import subprocess
import sys

ROOT = os.path.dirname(os.path.dirname(os.path.realpath(__file__)))
# The names under which the sums of the ledger were taken: a line `new old`, with the paths to which it is limited.
TAKEN = "tests/names.txt"
CODE = (".rt", ".antt", ".edit")
DOCS, SCRIPTS = (".md",), (".sh", ".py", ".toml", ".sums")
# Sources with other endings: templates of a crate, tests of layers, and lists of functions.
TEMPLATES, TESTS, LISTS = (".rt.in", ".antt.in"), "tests/layers/src/", ("tests/no-wrong-body.txt",)
# Where edits are of sources of crates/; others are of hosts or of a crate of their own.
EDITS, OWN = ("crates/", "tests/"), "tools/rename.py"
NAME = re.compile(r"[A-Za-z][A-Za-z0-9_]*")
WORDS = re.compile(r"_+|[A-Z]+(?![a-z])|[A-Z][a-z0-9]*|[a-z0-9]+|.")
COMMENT = {".rt": r"//[^\n]*|/\*.*?\*/", ".antt": r"(?<!\S)-- [^\n]*"}
STRING = r"""\bb?r(?P<mark>#*)".*?"(?P=mark)|"(?:\\.|[^"\\])*"|(?<![\w'])b?'(?:\\[^']+|[^\\'\n])'"""
# Where `rules` is the prover's: among the names of its library, and as what it searches with.
OF_KIT = r"\bCommon\.(?:\{[^{}]*\}|\w+)|\bsearch \(?rules\b"
IN_BRACES = re.compile(r"(?<=\{)[A-Za-z][A-Za-z0-9_]*")
# What is no plain code, by the ending of its file.
OTHERS = {
    ".rt": re.compile(f"(?P<comment>{COMMENT['.rt']})|(?P<string>{STRING})|(?P<kit>{OF_KIT})", re.S),
    ".antt": re.compile(rf'(?P<comment>{COMMENT[".antt"]})|(?P<string>"(?:\\.|[^"\\\n])*")|(?P<kit>{OF_KIT})'),
}
# The words of a command stay, and so does a page that is about words.
COMMAND, OF_WORDS = re.compile(r"`[\w./-]+\.(?:rs|py|sh) "), ("docs/STYLE.md",)
# A name of code in prose: one in a path.
IN_PATH = re.compile(r"(?<=::)[A-Za-z]\w*|\b[A-Za-z]\w*(?=::)")


class Unfit(Exception):
    """A table in which a name has two others, or in which a line is none."""


class Table:
    """What is renamed: whole names, and words of names."""

    def __init__(self, text, names=None):
        self.lines, self.names = [], names or Names
        for line in text.splitlines():
            found = line.split("#")[0].split()
            if len(found) == 1:
                raise Unfit(f"no line `old new`: {line.strip()}")
            if found:
                self.lines.append((found[0], found[1], tuple(found[2:])))
        self.made = {}

    def at(self, path):
        """Returns what is renamed in one file."""
        own = tuple(line for line in self.lines if not line[2] or path.startswith(line[2]))
        if own not in self.made:
            self.made[own] = self.names(sorted(own, key=lambda it: bool(it[2])))
        return self.made[own]

    def turned(self):
        """Returns the table that takes each second name to the first; only for tables of whole names."""
        found = Table("")
        found.lines = [(two, one, within) for one, two, within in self.lines]
        return found


class Names:
    """What is renamed in one file: whole names, and words of names."""

    def __init__(self, lines):
        self.whole, self.word, self.known = {}, {}, {}
        for old, new, _ in lines:
            (self.word if old[0] == "~" else self.whole)[old.lstrip("~")] = new

    def of(self, name):
        if name not in self.known:
            self.known[name] = self.whole.get(name) or "".join(self.word.get(it, it) for it in WORDS.findall(name))
        return self.known[name]

    def olds(self):
        return {*self.whole, *self.word}

    def among(self, names):
        """Returns what is renamed of these names."""
        found = type(self)([])
        found.whole = {it: self.of(it) for it in names if self.of(it) != it}
        return found

    def in_code(self, text):
        return NAME.sub(lambda it: self.of(it[0]), text)

    def in_prose(self, text):
        parts = re.split(r"(`[^`]*`)", text)
        return "".join(it if COMMAND.match(it) else self.in_code(it) if at % 2 else self.in_words(it) for at, it in enumerate(parts))

    def in_words(self, text):
        text = IN_PATH.sub(lambda it: self.of(it[0]), text)
        return NAME.sub(lambda it: it[0] if self.is_prose(it[0]) else self.of(it[0]), text)

    def is_prose(self, name):
        return is_plain(name)


class Back(Names):
    """Takes the names of one file back. Whether one may be prose is said of the old one, as when it was renamed."""

    def is_prose(self, name):
        return is_plain(self.of(name))


def is_plain(name):
    """Returns whether a name may be a word of prose."""
    return "_" not in name and not re.search(r"[a-z0-9][A-Z]", name)


def kind_of(path):
    """Returns how a file is read: as `.rt`, `.antt`, `.edit`, `.md`, or as a script, `.py`; None if nothing in it is renamed."""
    if path.endswith(TEMPLATES):
        return os.path.splitext(path[:-3])[1]
    if path.startswith(TESTS) and path.endswith(".rs"):
        return ".rt"
    ending = os.path.splitext(path)[1]
    if ending == ".edit" and not path.startswith(EDITS) or path in OF_WORDS:
        return None
    return ending if ending in (*CODE, *DOCS) else ".md" if path in LISTS else ".py" if ending in SCRIPTS and path != OWN else None


def renamed(names, text, kind):
    """Returns a text with its names renamed, those of its prose only where they can be no words of it."""
    if kind == ".py":
        return NAME.sub(lambda it: it[0] if is_plain(it[0]) else names.whole.get(it[0], it[0]), text)
    if kind not in OTHERS:
        return names.in_prose(text)
    found, at = [], 0
    for it in OTHERS[kind].finditer(text):
        found.append(names.in_code(text[at : it.start()]))
        if it["comment"]:
            found.append(names.in_prose(it[0]))
        else:
            found.append(IN_BRACES.sub(lambda name: names.of(name[0]), it[0]) if it["string"] else it[0])
        at = it.end()
    return "".join([*found, names.in_code(text[at:])])


def renamed_edit(table, path, text):
    """Returns the text of an edit with its names renamed: each of its pairs by the file that it edits."""
    lines, folder = text.split("\n"), "/".join(path.split("/")[:2])
    first = next((it[6:].strip() for it in lines if it.startswith("file: ")), "")
    names, found = table.at(f"{folder}/{first}"), []
    for line in lines:
        if line.startswith("file: "):
            names = table.at(f"{folder}/{line[6:].strip()}")
            found.append("file: " + new_path(names, f"{folder}/{line[6:].strip()}")[len(folder) + 1 :])
        else:
            head, mark, rest = line.partition(": ")
            is_code = mark and head in ("old", "new", "fn")
            found.append(head + mark + renamed(names, rest, ".rt") if is_code else names.in_prose(line))
    return "\n".join(found)


def renamed_file(table, path, text, in_crates=None):
    """Returns the text of a file with its names renamed: in a page those that are `in_crates`."""
    kind, names = kind_of(path), table.at(path)
    if kind == ".edit":
        return renamed_edit(table, path, text)
    return renamed(names.among(in_crates) if kind == ".md" and in_crates is not None else names, text, kind)


def files():
    listed = subprocess.run(["git", "ls-files"], cwd=ROOT, stdout=subprocess.PIPE, text=True, check=True).stdout
    return [it for it in listed.split("\n") if kind_of(it) and os.path.exists(f"{ROOT}/{it}")]


def new_path(names, path):
    """Returns a path with its names renamed below crates/NAME, where folders and files bear them; an edit keeps its name."""
    parts = path.split("/")
    if parts[0] != "crates" or path.endswith(".edit"):
        return path

    def new(part):
        name, point, rest = part.partition(".")
        return f"{names.of(name)}.{rest}" if point else names.in_code(part)

    return "/".join([*parts[:2], *map(new, parts[2:])])


class Ambiguous(Exception):
    """A name in a text that tests/names.txt does not take back in one way."""


class Taken:
    """The names under which the sums were taken: tests/names.txt has for each name of today the one that it replaced. Each text and each path is read by those,
    so that a rename changes no sum. This is exact as long as renaming the text that was read gives the text again: no two texts are then read alike."""

    def __init__(self, text):
        try:
            self.back = Table(text, Back)
        except Unfit as error:
            raise Ambiguous(error) from error
        self.forth = self.back.turned()
        for lines in (self.back.lines, self.forth.lines):
            seen = set()
            for one, _, within in lines:
                if (one, within) in seen:
                    raise Ambiguous(f"two lines for {one}")
                seen.add((one, within))
        self.limited = [(new, within) for new, _, within in self.back.lines if within]

    def path(self, path):
        return new_path(self.back.at(path), path)

    def text(self, path, text):
        """Returns the text of a file by the names under which the sums were taken."""
        if not self.back.lines:
            return text
        found = renamed_file(self.back, path, text)
        again = renamed_file(self.forth, path, found)
        if again != text:
            pair = next(it for it in zip(NAME.findall(text), NAME.findall(again)) if it[0] != it[1])
            raise Ambiguous(f"{path}: {pair[0]} is an old name, today's is {pair[1]}")
        if self.limited and kind_of(path) in OTHERS:
            here = self.back.at(path).whole
            names = {new for new, within in self.limited if not path.startswith(within) and new not in here}
            for it in sorted(names.intersection(NAME.findall(OTHERS[kind_of(path)].sub(" ", text)))):
                raise Ambiguous(f"{path}: {it} is the name of another file's")
        return found

    def piece(self, path, text):
        """Returns a piece of a file's text by those names."""
        return renamed(self.back.at(path), text, ".rt")


def taken(table, into, known):
    """Returns the lines of tests/names.txt after a rename of what is in `into`, for each file of crates/ its names, on top of the lines that it had."""
    old_of = {(new, within): old for new, old, within in known.lines}
    found = {}
    for old, new, within in table.lines:
        names = {it for path, names in into.items() if not within or path.startswith(within) for it in names}
        pairs = [(old, new)] if old[0] != "~" else [(it, table.at(path_of(within)).of(it)) for it in sorted(names)]
        for one, other in pairs:
            if one in names and one != other:
                found[other, within] = old_of.pop((one, within), one)
    found |= old_of
    return sorted(" ".join((new, old, *within)) for (new, within), old in found.items() if new != old)


def path_of(within):
    return within[0] if within else "crates/"


def main():
    read = argparse.ArgumentParser(description=__doc__, formatter_class=argparse.RawDescriptionHelpFormatter)
    read.add_argument("--apply", action="store_true")
    read.add_argument("table")
    given = read.parse_args()
    try:
        table, known = Table(read_text(given.table)), Table(read_text(f"{ROOT}/{TAKEN}"))
    except Unfit as error:
        sys.exit(f"rename: {error}")
    texts = {it: read_text(f"{ROOT}/{it}") for it in files()}
    into, names_of = collections.defaultdict(collections.Counter), {}
    for path, text in texts.items():
        if kind_of(path) in CODE:
            names_of[path] = {*NAME.findall(text)}
        if kind_of(path) in OTHERS:
            here = table.at(path)
            for name in names_of[path]:
                into[here.of(name)][name] += 1
    for new, olds in sorted(into.items()):
        if len(olds) > 1:
            print(f"two names become one: {', '.join(f'{it} ({olds[it]})' for it in sorted(olds))} -> {new}")
    if given.apply:
        lines = taken(table, {path: names for path, names in names_of.items() if path.startswith("crates/")}, known)
    in_crates = {it for path, names in names_of.items() if path.startswith("crates/") for it in names}
    for path, text in texts.items():
        made, here = renamed_file(table, path, text, in_crates), table.at(path)
        if here.olds():
            old_word = re.compile(rf"\b({'|'.join(sorted(map(re.escape, here.olds())))})\b")
            for at, line in enumerate(made.split("\n"), 1):
                if old_word.search(line):
                    print(f"{path}:{at}: {line.strip()[:160]}")
        if given.apply:
            to = new_path(here, path)
            if to != path:
                os.makedirs(os.path.dirname(f"{ROOT}/{to}"), exist_ok=True)
                subprocess.run(["git", "mv", path, to], cwd=ROOT, check=True)
            if made != text:
                with open(f"{ROOT}/{to}", "w", encoding="utf-8") as it:
                    it.write(made)
    if given.apply:
        with open(f"{ROOT}/{TAKEN}", "w", encoding="utf-8") as it:
            it.writelines(f"{line}\n" for line in lines)


def read_text(path):
    try:
        with open(path, encoding="utf-8") as it:
            return it.read()
    except FileNotFoundError:
        return ""


if __name__ == "__main__":
    main()
