#!/usr/bin/env python3
"""Compares the claims of README.md and docs/PROOF.md with docs/CLAIMS.md, which has the clause or the test of each.

    tools/claims.py           compares; status 1 if a claim has no entry, an entry no claim, or a name of an entry is not in the tree
    tools/claims.py --list    prints the claims of both pages, a line each, as entries quote them

A claim is a sentence, a cell of a table or an item of a list that says proved, every, always, never, exactly or only outside of code.
An entry of docs/CLAIMS.md is an item of a list: the claim word for word, without emphasis and links, then a kind and what it names:

    **Proved**       a clause, `run` of `cpu::System::run`, or a law or a definition, `cpu::IsQuiet`: looked up in crates/
    **Tested**       a script or a folder, `tests/book.py`: looked up in the tree
    **Checked**      a tool, a type or a file by which it holds, in code style
    **No claim**     what the sentence says instead

.ci/run calls it; it takes a second. The last line is 'claims: N passed, M failed', in claims.
"""
import argparse
import re
import sys
from pathlib import Path

ROOT = Path(__file__).resolve().parent.parent
PAGES = ("README.md", "docs/PROOF.md")
TABLE = ROOT / "docs/CLAIMS.md"
SAYS = re.compile(r"(?<![-\w])(?:proved|every|always|never|exactly|only)(?![-\w])", re.I)
FENCED = re.compile(r"^```.*?^```", re.M | re.S)
CODE = re.compile(r"`[^`]*`")
# A new piece begins with such a line: an empty one, a heading, an item, a picture.
BEGINS = re.compile(r"\s*(?:$|#|[-*] |\d+\. |!\[)")
MARK = re.compile(r"^\s*(?:[-*] |\d+\. )")
# A sentence ends here, if the next one begins with a capital, a quote, a parenthesis or code.
ENDS = re.compile(r"([.?!][)\"]*) +(?=[A-Z(\"\0])")
ENTRY = re.compile(r"(.*?) \*\*(Proved|Tested|Checked|No claim)\*\*: (.*)")
CLAUSE = re.compile(r"(?:clauses? ((?:`\w+`(?:, | and )?)+) of )?`(\w+)((?:::\w+)+)`")
PATH = re.compile(r"`((?:tests|tools|web|metal|embed|plans|explore|bench|\.ci)/[\w./-]+)")
# What a definition of Rattle or of its logic begins with.
DEFINES = r"\b(?:fn|struct|enum|trait|type|const|mod|record|data|abbrev pub|abbrev|pub) "


def pieces_of(text):
    """Yields the paragraphs, items and cells of a page, each as one line."""
    piece = []
    for line in [*FENCED.sub("", text).splitlines(), ""]:
        is_row = line.lstrip().startswith("|")
        if (is_row or BEGINS.match(line)) and piece:
            yield " ".join(piece)
            piece = []
        if is_row:
            yield from (cell.strip() for cell in line.strip().strip("|").split("|"))
        elif line.strip() and not line.startswith("#"):
            piece.append(MARK.sub("", line).strip())


def plain(text):
    """Returns a text without emphasis, targets of links, and a stop at its end."""
    text = re.sub(r"!?\[([^\]]*)\]\([^)]*\)", r"\1", text)
    return re.sub(r"`[^`]*`|\*+", lambda found: found[0] if found[0][0] == "`" else "", text).strip().rstrip(".:;")


def claims_of(text):
    """Returns the claims of a page in their order, each once."""
    claims = {}
    for piece in pieces_of(text):
        codes = CODE.findall(piece := plain(piece + "."))
        for sentence in ENDS.sub(r"\1\n", CODE.sub("\0", piece)).split("\n"):
            found = re.sub("\0", lambda _: codes.pop(0), sentence)
            if SAYS.search(sentence):
                claims[found.rstrip(".:;")] = None
    return list(claims)


def entries_of(text, faults):
    """Returns by page the entries under its heading: by claim its kind and what it names."""
    entries, page = {name: {} for name in PAGES}, None
    for part in re.split(r"^(?=## |- )", text, flags=re.M):
        line = " ".join(part.split())
        if line.startswith("## "):
            page = line[3:] if line[3:] in PAGES else None
        elif line.startswith("- ") and page:
            found = ENTRY.fullmatch(line[2:])
            if not found:
                faults.append(f"docs/CLAIMS.md: an entry has no kind: {line}")
            elif plain(found[1]) in entries[page]:
                faults.append(f"docs/CLAIMS.md: given twice: {found[1]}")
            else:
                entries[page][plain(found[1])] = found[2], found[3]
    return entries


def sources_of(crate):
    """Returns the texts of a crate's code and definitions."""
    folder = ROOT / "crates" / crate
    return [path.read_text() for room in ("src", "specs") for path in sorted((folder / room).rglob("*.*t")) if path.suffix in (".rt", ".antt")]


def contracts_of(name, kind, sources):
    """Yields the contract of each function of this name, in the files with an impl or a trait of this kind if one is given."""
    for source in sources:
        if not kind or re.search(rf"\b(?:impl|trait)\b[^{{}}]*\b{kind}\b", source):
            yield from (found[0] for found in re.finditer(rf"\bfn {name}\b.*?(?=^\s*\{{|;$)", source, re.M | re.S))


def missing_of(clauses, crate, rest):
    """Yields what of a name and its clauses is not in the crate."""
    sources, names = sources_of(crate), rest.split("::")[1:]
    for name in names:
        if not any(re.search(rf"{DEFINES}{name}\b", source) for source in sources):
            yield f"{crate} has no {name}"
    contracts = list(contracts_of(names[-1], names[0] if len(names) > 1 else None, sources))
    for clause in re.findall(r"`(\w+)`", clauses):
        if not any(re.search(rf"\b(?:ensures|requires) {clause} ", contract) for contract in contracts):
            yield f"{crate}{rest} has no clause {clause}"


def faults_of(kind, names):
    """Yields what is wrong with what an entry names."""
    cited = CLAUSE.findall(names)
    for clauses, crate, rest in cited:
        yield from missing_of(clauses, crate, rest) if (ROOT / "crates" / crate).is_dir() else [f"there is no crate {crate}"]
    paths = PATH.findall(names)
    yield from (f"there is no {path}" for path in paths if not (ROOT / path).exists())
    if kind == "Proved" and not cited:
        yield "it names no clause, no law and no definition"
    if kind == "Tested" and not paths:
        yield "it names no script and no folder"
    if kind == "Checked" and not CODE.search(names):
        yield "it names no tool, no type and no file"


def compare(page, entries, faults):
    """Compares the claims of a page with its entries; returns how many agree."""
    claims, before = claims_of((ROOT / page).read_text()), len(faults)
    faults.extend(f"{page}: no entry in docs/CLAIMS.md: {claim}" for claim in claims if claim not in entries)
    faults.extend(f"docs/CLAIMS.md: {page} does not say: {claim}" for claim in entries if claim not in claims)
    for claim, (kind, names) in entries.items():
        faults.extend(f"docs/CLAIMS.md: {fault}: {claim}" for fault in faults_of(kind, names))
    return max(0, len(claims) - (len(faults) - before))


def main():
    read = argparse.ArgumentParser(description=__doc__, formatter_class=argparse.RawDescriptionHelpFormatter)
    read.add_argument("--list", action="store_true")
    if read.parse_args().list:
        print(*(f"{page}: {claim}" for page in PAGES for claim in claims_of((ROOT / page).read_text())), sep="\n")
        return 0
    faults = []
    entries = entries_of(TABLE.read_text(), faults)
    passed = sum(compare(page, entries[page], faults) for page in PAGES)
    for fault in faults:
        print("claims:", fault)
    print(f"claims: {passed} passed, {len(faults)} failed")
    return 1 if faults or not passed else 0


if __name__ == "__main__":
    sys.exit(main())
