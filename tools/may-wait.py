#!/usr/bin/env python3
"""Lists the functions that may wait forever, and compares docs/PROOF.md with the list.

    tools/may-wait.py            compares; status 1 if the table of docs/PROOF.md has another function, or lacks one
    tools/may-wait.py --list     prints the table's rows as they are in the sources, a module in each

A function may wait if a type parameter of its own has the bound Wait or Threads: the toolchain proves it without a return then, and its check prints
`proved, may wait`. So does a closure within such a function, which is not listed. Each other function is proved to return. Where a crate has the file
out/said of a check of these sources, as tools/prove-all.py leaves it, the functions that are marked there must be those of the sources. The last line is
'may wait: N passed, M failed'.
"""
import argparse
import collections
import re
import sys
from pathlib import Path

ROOT = Path(__file__).resolve().parent.parent
PAGE = ROOT / "docs/PROOF.md"
CRATE = re.compile(r"^(\w+)(?: [^:]*)?:", re.M)
COMMENT = re.compile(r"//.*")
# A function, up to what stands behind its parameters: clauses, a body or a semicolon.
FUNCTION = re.compile(r"^ *(?:pub(?:\(\w+\))? )?fn (\w+)(.*?)(?=^ *(?:requires|ensures|decreases)\b|\{|;)", re.M | re.S)
BOUND = re.compile(r"\b\w+: [^,;{>]*\b(?:Wait|Threads)\b")
ROW = re.compile(r"^\| `(\w+)::([\w:]+)` \| ((?:`\w+`(?:, )?)+) \|", re.M)
SUM = re.compile(r"^(\d+) functions of (\d+) modules may wait", re.M)
MARKED = re.compile(r"^fn ([\w:]+): proved.*, may wait$", re.M)


def has_body(text, at):
    """Whether a function has a body, by what stands behind its parameters: clauses, each in braces, and then a brace or a semicolon."""
    depth, in_clause = 0, False
    for found in re.finditer(r"\b(?:requires|ensures|decreases)\b|[{};]", text[at:]):
        it = found[0]
        if it == "}":
            depth -= 1
            in_clause = in_clause and depth > 0
        elif it == "{":
            if depth == 0 and not in_clause:
                return True
            depth += 1
        elif depth == 0:
            if it == ";":
                return False
            in_clause = True
    return False


def waiting_in(path):
    """The functions of a file that may wait, in their order."""
    text = COMMENT.sub("", path.read_text(encoding="utf-8"))
    return [found[1] for found in FUNCTION.finditer(text) if BOUND.search(found[2]) and has_body(text, found.end())]


def of_sources():
    """By module, as ("cpu_workers", "workers::turns"), the functions that may wait."""
    found = {}
    for crate in CRATE.findall((ROOT / "crates.txt").read_text(encoding="utf-8")):
        folder = ROOT / "crates" / crate / "src"
        for path in sorted(folder.rglob("*.rt")):
            parts = path.relative_to(folder).with_suffix("").parts
            names = waiting_in(path)
            if names:
                found[crate, "::".join(parts)] = names
    return found


def of_page(page):
    return {(crate, module): re.findall(r"\w+", names) for crate, module, names in ROW.findall(page)}


def row(module, names):
    return f"| `{'::'.join(module)}` | {', '.join(f'`{name}`' for name in names)} |"


def of_check(crate, said):
    """By module the functions that a check marked; closures are left out, and a type's name."""
    found = collections.defaultdict(list)
    for path in MARKED.findall(said):
        *modules, name = path.split("::")[1:]
        if "fn" not in modules:
            found[crate, "::".join(it for it in modules if it[0].islower()) or "main"].append(name)
    return found


def said_of(crate):
    """What the last check of a crate said, if it proved these sources."""
    said, sources = ROOT / f"crates/{crate}/out/said", (ROOT / f"crates/{crate}/src").rglob("*.rt")
    if not said.is_file() or said.stat().st_mtime < max(path.stat().st_mtime for path in sources):
        return ""
    text = said.read_text(encoding="utf-8")
    return text if text.rstrip().rpartition("\n")[2].startswith("logic=proved") else ""


def main():
    read = argparse.ArgumentParser(description=__doc__, formatter_class=argparse.RawDescriptionHelpFormatter)
    read.add_argument("--list", action="store_true")
    sources, page = of_sources(), PAGE.read_text(encoding="utf-8")
    if read.parse_args().list:
        print(*(row(*it) for it in sources.items()), sep="\n")
        return 0
    told, faults, passed = of_page(page), [], 0
    for module in {**sources, **told}:
        if sorted(sources.get(module, [])) == sorted(told.get(module, [])):
            passed += 1
        else:
            faults.append(f"docs/PROOF.md has not the row {row(module, sources.get(module, []))}")
    sums = SUM.search(page)
    counted = str(sum(map(len, sources.values()))), str(len(sources))
    if not sums or sums.groups() != counted:
        faults.append(f"docs/PROOF.md does not say: {counted[0]} functions of {counted[1]} modules may wait")
    for crate in {crate for crate, _ in sources}:
        marked = of_check(crate, said_of(crate))
        for module in {it for it in {**sources, **marked} if marked and it[0] == crate}:
            if sorted(sources.get(module, [])) == sorted(marked.get(module, [])):
                passed += 1
            else:
                faults.append(f"{'::'.join(module)}: the check marks {', '.join(marked.get(module, [])) or 'none'}")
    print(*(f"may wait: {it}" for it in faults), f"may wait: {passed} passed, {len(faults)} failed", sep="\n")
    return 1 if faults or not passed else 0


if __name__ == "__main__":
    sys.exit(main())
