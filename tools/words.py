#!/usr/bin/env python3
"""Checks that no definition has the name of another: a name is in one file of crates/*/specs, or tools/words.txt lists it. No source of crates/ and no page has
an old name: one that tests/names.txt has in its second column.

    tools/words.py            status 1 if a name is in two files and not in the list, or in the list and not in two files, or is an old one
    tools/words.py NAME..     prints the files in which each name is defined

A name is that of a definition, or of a case of one. Fields are not counted, because each is read after a value of its record. In a page an old name counts only
if it can be no word of prose.
"""
import argparse
import collections
import re
import sys
from pathlib import Path

sys.dont_write_bytecode = True
from rename import NAME, TAKEN, Ambiguous, Taken, is_plain  # noqa: E402

ROOT = Path(__file__).resolve().parent.parent
# A line a name that has two senses, and why.
LIST = ROOT / "tools/words.txt"
DEFINITION = re.compile(r"( *)((?:(?:unfoldable|abbrev|pub|record|data) )+)(?!(?:use|mod) )([^\s(:{]+)")
CASE = re.compile(r" +([^\s(:{]+) :")
# A record with some fields changed: an expression, which may begin a line.
CHANGED = re.compile(r" +record \S+ \{(?:$| \S+ =)")


def names_of(text):
    """Yields the names that a file defines. A `pub` that stands further in and says no more is a field's."""
    is_data = False
    for line in text.splitlines():
        found = None if CHANGED.match(line) else DEFINITION.match(line)
        case = CASE.match(line) if is_data else None
        if found and (not found[1] or found[2] != "pub "):
            is_data = "data " in found[2]
            yield found[3]
        elif found:
            is_data = False
        elif case:
            yield case[1]
        elif line[:1].strip():
            is_data = False


def files_by_name():
    """Returns by name the files that define it."""
    found = collections.defaultdict(set)
    for path in sorted(ROOT.glob("crates/*/specs/**/*.antt")):
        for name in names_of(path.read_text()):
            found[name].add(str(path.relative_to(ROOT)))
    return found


def listed():
    """Returns the names that may stand in two files."""
    lines = (line.partition("#")[0].strip() for line in LIST.read_text().splitlines())
    return {line.partition(":")[0] for line in lines if line}


def old_names():
    """Yields where a source or a page has an old name."""
    path = ROOT / TAKEN
    try:
        taken = Taken(path.read_text() if path.exists() else "")
    except Ambiguous as error:
        yield f"{TAKEN}: {error}"
        return
    for path in sorted(it for end in ("rt", "antt", "edit") for it in ROOT.glob(f"crates/*/*/**/*.{end}") if "out" not in it.parts):
        try:
            taken.text(str(path.relative_to(ROOT)), path.read_text())
        except Ambiguous as error:
            yield str(error)
    new_of = {old: new for new, old, within in taken.back.lines if not within and not is_plain(old)}
    for path in sorted(it for it in (*ROOT.glob("*.md"), *ROOT.glob("docs/**/*.md"))):
        for number, line in enumerate(path.read_text().splitlines(), 1):
            for name in new_of.keys() & set(NAME.findall(line)):
                yield f"{path.relative_to(ROOT)}:{number}: {name} is an old name, today's is {new_of[name]}"


def main():
    read = argparse.ArgumentParser(description=__doc__, formatter_class=argparse.RawDescriptionHelpFormatter)
    read.add_argument("names", nargs="*", metavar="NAME")
    given = read.parse_args()
    files = files_by_name()
    for name in given.names:
        print(f"{name}: {', '.join(sorted(files.get(name, ()))) or 'nowhere'}")
    if given.names:
        return 0
    twice, known = {name for name, where in files.items() if len(where) > 1}, listed()
    for name in sorted(twice - known):
        print(f"words: {name} is in {' and '.join(sorted(files[name]))}: two meanings need two names")
    for name in sorted(known - twice):
        print(f"words: {name} is in one file at most, but tools/words.txt lists it with two meanings")
    old = [*old_names()]
    for it in old:
        print(f"words: {it}")
    print(f"words: {len(files):,} names of definitions, {len(twice)} of them in two files or more, {len(known)} listed, {len(old)} old ones")
    return 0 if files and twice == known and not old else 1


if __name__ == "__main__":
    sys.exit(main())
