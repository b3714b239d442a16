#!/usr/bin/env python3
"""Lays out definitions and clauses in lines of at most 100 columns: each .antt file of specs, and the clauses of each .rt file. Proofs, and what else is
ghost, may have lines of 160.

    tools/columns.py            names each longer line; status 1 if there is one
    tools/columns.py --apply    breaks them, at the outermost operator or argument

A line that it cannot break stays as it is, and is named. It changes layout only: what is between two line breaks, it leaves. tools/imports.py lays out imports
of definitions, in the same width. The last line is 'columns: N passed, M failed', where each file counts.
"""
import argparse
import re
import sys
from pathlib import Path

sys.dont_write_bytecode = True

ROOT = Path(__file__).resolve().parent.parent
WIDTH, WIDTH_OF_PROOFS = 100, 160
# The least column at which a line is broken, so that no line holds one word only.
LEAST = 28
OPERATORS = {"→": 1, "⊎": 2, "×": 3, "↔": 3, "&&": 4, "||": 4, "≡": 5, "≢": 5, "≤": 5, "<": 5, "∙": 5, "++": 6, "∷": 6, "+": 7, "-": 7, "*": 7}
SPACE = 8
OPERATORS |= {"then": 3, "else": 3}
# No line ends with one of these, and none begins with one.
NEVER_BEFORE = {"=", ":", "where", "",  ".", "λ", "let", "in", "if", "record", "of", "OnSome", "¬"}
NEVER_BEHIND = {"λ", ":", "let", "if", "¬", "record", "pub", "abbrev", "unfoldable", "data", "ensures", "requires", *OPERATORS}
CLAUSE = re.compile(r"\s*(ensures|requires)\b")
# What begins a definition, a clause of one, or a field.
MARKS = r"(?:pub |abbrev |unfoldable |record |data )*"
BEGINS = re.compile(rf"{MARKS}[^\s(){{}}.;,@\"«»:]+(?: [^=]*)? [:=](?: |$)|{MARKS}(?:record|data|module|mutual|open|use)\b")


def breaks_of(line, base):
    """Yields each place at which a line may be broken: how deep it is in brackets, the rank of what stands there, and the column of what then begins a line."""
    depth, is_text, at = 0, False, 0
    words = [(it.start(), it[0]) for it in re.finditer(r"\S+", line)]
    depths = []
    for it in line:
        is_text ^= it == '"'
        if not is_text:
            depth -= it in ")]}⟧"
        depths.append((depth, is_text))
        if not is_text:
            depth += it in "([{⟦"
    for (_, before), (at, word) in zip(words, words[1:]):
        (inside, is_quoted), last = depths[at - 1], before.rstrip()
        if is_quoted or last.strip("(").startswith("λ"):
            continue
        bare = word.strip("()[]{};,")
        if last == "=" and inside == base:
            yield 0, 0, at
        elif last == "=":
            continue
        elif bare in OPERATORS and word == bare:
            yield inside - base, OPERATORS[bare], at
        elif last.endswith(";"):
            yield inside - base, 2, at
        elif last not in NEVER_BEHIND and (word.startswith("(") or bare not in NEVER_BEFORE):
            yield inside - base, SPACE + last.endswith("."), at


def broken(line, more, base, width=WIDTH):
    """Returns a line in lines of at most `width` columns, each behind the first with `more` columns before it; or the line as it is, where it has no good
    break."""
    if len(line) <= width:
        return [line]
    indent = len(line) - len(line.lstrip())
    found = [it for it in breaks_of(line, base) if indent + 4 < it[2] <= width + 1]
    far = [it for it in found if it[2] >= LEAST or it[1] == 0]
    if not found:
        return [line]
    depth, rank, at = min(far or found, key=lambda it: (max(it[0], 0), it[1], -it[2]))
    rest = " " * more + line[at:]
    if len(rest) >= len(line):
        return [line]
    return [line[:at].rstrip(), *broken(rest, more, 0, width)]


def definitions(text, width=WIDTH):
    """Returns the text of a file of definitions, laid out."""
    found = []
    for line in text.split("\n"):
        indent = len(line) - len(line.lstrip())
        if len(line) <= width or line.lstrip().startswith(("--", "use ", "pub use ", "unfoldable ")):
            found.append(line)
        else:
            more = indent + 4 if indent == 0 or BEGINS.match(line.strip()) else indent
            found += broken(line, more, 0, width)
    return "\n".join(found)


def clauses(text):
    """Returns the text of a file of code, its clauses laid out."""
    found, depth, more = [], 0, 0
    for line in text.split("\n"):
        if depth == 0 and CLAUSE.match(line):
            more, is_first = len(line) - len(line.lstrip()) + 4, True
        elif depth == 0:
            is_ghost = line.lstrip().startswith("ghost ") and not line.lstrip().startswith("ghost use")
            found += broken(line, len(line) - len(line.lstrip()) + 4, 1, WIDTH_OF_PROOFS) if is_ghost else [line]
            continue
        bare = re.sub(r'"[^"]*"', '""', line)
        found += broken(line, more, 1 if is_first else 0)
        depth += bare.count("{") - bare.count("}")
        is_first = False
    return "\n".join(found)


def laid(path):
    """Returns the text of a file, and the text laid out."""
    text = path.read_text(encoding="utf-8")
    return text, clauses(text) if path.suffix == ".rt" else definitions(text, width_of(path))


def width_of(path):
    return WIDTH if "specs" in path.parts else WIDTH_OF_PROOFS


def long_lines(path, text):
    """Yields the numbers of the lines that are too long."""
    is_clause, depth = path.suffix == ".antt", 0
    for number, line in enumerate(text.split("\n"), 1):
        if path.suffix == ".rt":
            is_clause = depth > 0 or bool(CLAUSE.match(line))
            bare = re.sub(r'"[^"]*"', '""', line)
            depth = depth + bare.count("{") - bare.count("}") if is_clause else 0
        if len(line) > (width_of(path) if path.suffix == ".antt" else WIDTH if is_clause else WIDTH_OF_PROOFS):
            yield number


def main():
    read = argparse.ArgumentParser(description=__doc__, formatter_class=argparse.RawDescriptionHelpFormatter)
    read.add_argument("--apply", action="store_true")
    read.add_argument("crates", nargs="*", metavar="CRATE")
    given = read.parse_args()
    folders = [ROOT / "crates" / it for it in given.crates] or sorted((ROOT / "crates").iterdir())
    passed = failed = 0
    for path in sorted(it for folder in folders for it in [*folder.glob("specs/**/*.antt"), *folder.glob("proofs/**/*.antt"), *folder.glob("src/**/*.rt")]):
        old, new = laid(path)
        if given.apply and new != old:
            path.write_text(new, encoding="utf-8")
        longer = [*long_lines(path, new if given.apply else old)]
        passed, failed = passed + (not longer), failed + bool(longer)
        for number in longer:
            print(f"columns: {path.relative_to(ROOT)}:{number}: too long")
    print(f"columns: {passed} passed, {failed} failed")
    return 1 if failed else 0


if __name__ == "__main__":
    sys.exit(main())
