#!/usr/bin/env python3
"""Counts the lines of definitions that a reader of a theorem must believe, and compares docs/PROOF.md with the count.

    tools/trusted.py            compares the table of docs/PROOF.md with what it counts; status 1 if a number differs or a definition is not named
    tools/trusted.py --write    puts the counted numbers into the tables
    tools/trusted.py NAME..     prints of each definition, as cpu::HasLinearization, its lines, and those of all that it depends on, file by file

The section of a theorem names its clauses in a paragraph 'Clauses', as `table` of `cpu::System::run`, and in a paragraph 'Definitions' what they cite, as
`cpu::HasLinearization`, or a file of src, as `layer_traits/src/layers.rt`, for all that it cites. This script reads these clauses in the sources. A definition
that they cite, and that those of the section do not rest on, is told by name. The row of the theorem in the table has the number of lines of all these and
of all definitions that they depend on, by name, in crates/*/specs: lines of 160 columns, with no comments and no imports. Its last number is what the views of
types add, of each type whose value such a clause speaks of: their own lines, and the definitions that they cite. Not counted are the clauses themselves, the
types of src, other members of traits and impls, and the kit's own definitions. A row 'all' is of all rows above it in its table.
"""
import argparse
import collections
import functools
import re
import sys
from pathlib import Path

sys.dont_write_bytecode = True
import contracts  # noqa: E402, of this folder
from contracts import WORD, imports_of  # noqa: E402

ROOT = Path(__file__).resolve().parent.parent
PAGE = ROOT / "docs/PROOF.md"
WIDTH = 160
COMMENT = re.compile(r"(?:^|(?<=\s))-- .*$|^--$")
HEAD = re.compile(r"(?:unfoldable |abbrev )?(?:pub )?(?:record |data |mod )?([^\s(:]+)")
KEYWORD = re.compile(r"^(?:unfoldable|abbrev|pub|record|data)\b")
ROW = re.compile(r"^\| (?P<number>\d+|all) \|.*\| (?P<lines>[\d,]+) \| (?P<views>[\d,]+) \|$")
# The section of a theorem, and its paragraphs of clauses and of definitions.
THEOREM = re.compile(r"^### (\d+)\. (.*?)(?=^##)", re.M | re.S)
PARAGRAPH = r"^\*{}\*: (.*?)\n\n"
CODE = re.compile(r"`([\w:/.]+)`")

Definition = collections.namedtuple("Definition", "module name lines words")
# What a theorem rests on: the names of definitions, the definitions that its clauses cite, and the views of the types that these speak of.
Theorem = collections.namedtuple("Theorem", "names cited views")


def texts_of(path):
    """Returns the lines of a file without comments and blank lines."""
    lines = (COMMENT.sub("", line).rstrip() for line in path.read_text().splitlines())
    return joined(line for line in lines if line)


def joined(lines):
    """Returns these lines, those that go on with a line put behind it up to WIDTH columns: how short lines are broken does not change a count."""
    found, base = [], 0
    for line in lines:
        indent, text = len(line) - len(line.lstrip()), line.strip()
        goes_on = found and indent >= base + 4 and not found[-1].endswith(" where") and not found[-1].startswith("use ")
        if not goes_on:
            base = indent
        if goes_on and len(found[-1]) + 1 + len(text) <= WIDTH:
            found[-1] += f" {text}"
        else:
            found.append(line)
    return found


def blocks_of(lines):
    """Yields the name and the lines of each definition of a file. Lines that begin with the name of the block before go on with it."""
    name, block = None, []
    for line in lines:
        if line.startswith(("use ", "module ", "pub mod ")):
            continue
        head = HEAD.match(line)
        begins = KEYWORD.match(line) and head[1] != name
        if begins and block:
            yield name, block
            block = []
        name = head[1] if begins else name
        block.append(line)
    if block:
        yield name, block


@functools.cache
def module_of(module):
    """Returns the definitions of a module by name, each with the definitions that its text may speak of."""
    crate, _, path = module.partition(".specs.")
    file = ROOT / "crates" / crate / "specs" / f"{path.replace('.', '/')}.antt"
    if not path or not file.is_file():
        return {}, {}
    lines = texts_of(file)
    definitions = {name: Definition(module, name, len(block), set(WORD.findall("\n".join(block)))) for name, block in blocks_of(lines)}
    return definitions, imports_of(lines)


def rests_on(definition):
    """Yields the definitions of this tree that a definition cites."""
    own, imported = module_of(definition.module)
    for word in definition.words:
        if word in own:
            yield own[word]
        elif word in imported:
            module, name = imported[word]
            there = module_of(module)[0]
            if name in there:
                yield there[name]


def closure(roots):
    """Returns these definitions and all that they rest on."""
    found, left = {}, list(roots)
    while left:
        definition = left.pop()
        key = definition.module, definition.name
        if key not in found:
            found[key] = definition
            left.extend(rests_on(definition))
    return list(found.values())


@functools.cache
def root(named):
    """Returns the definition that a row names as crate::Name, or as crate::Module::Name."""
    crate, *module, name = named.split("::")
    folder = ROOT / "crates" / crate / "specs"
    modules = [f"{crate}.specs.{'.'.join(it.relative_to(folder).with_suffix('').parts)}" for it in sorted(folder.rglob("*.antt"))]
    found = [module_of(it)[0][name] for it in modules if name in module_of(it)[0] and it.endswith(".".join(["", *module]) if module else "")]
    if len(found) != 1:
        sys.exit(f"trusted: crates/{crate}/specs has {len(found)} definitions {named}")
    return found[0]


def roots_of(named):
    """Returns the definitions that a row names by one word: one definition, or all that a file of src imports."""
    if not named.endswith(".rt"):
        return [root(named)]
    imported = imports_of((ROOT / "crates" / named).read_text().splitlines())
    return [module_of(module)[0][name] for module, name in imported.values() if name in module_of(module)[0]]


def definitions_in(path, text):
    """Returns the definitions of this tree that a text of a file of src cites."""
    found = ((module_of(module)[0], name) for module, name in contracts.cited(path, text))
    return [definitions[name] for definitions, name in found if name in definitions]


def clauses_of(paragraph):
    """Yields of a paragraph the functions, each with the names of its clauses; of none named, all are meant."""
    for item in paragraph.split(";"):
        clauses, of, functions = item.rpartition(" of ")
        for function in CODE.findall(functions):
            yield function, CODE.findall(clauses) if of else []


def cited_by(function, names):
    """Returns the definitions that clauses of a function cite, by clause, and the types with a view of the values that they speak of."""
    crate, *path = function.split("::")
    found, kinds = {}, set()
    for contract in contracts.contracts_of(crate, path):
        meant = [it for it in contract.clauses if it.kind == "ensures" and (not names or it.name in names)]
        found.update({it.name: definitions_in(contract.path, it.text) for it in meant})
        kinds |= contracts.kinds_in(contract.head, " ".join(it.text for it in meant), path[:-1])
    if not found or set(names) - set(found):
        sys.exit(f"trusted: {function} has not the clauses {', '.join(names) or '(any)'}")
    return found, kinds & set(contracts.views())


def theorem(section):
    """Returns what a section's theorem rests on."""
    paragraphs = {name: re.search(PARAGRAPH.format(name), section, re.M | re.S) for name in ("Clauses", "Definitions")}
    names = CODE.findall(paragraphs["Definitions"][1])
    cited, kinds = {}, set()
    for function, clauses in clauses_of(paragraphs["Clauses"][1]) if paragraphs["Clauses"] else []:
        by_clause, seen = cited_by(function, clauses)
        cited.update({(function, clause): definitions for clause, definitions in by_clause.items()})
        kinds |= seen
    return Theorem(names, cited, {kind: contracts.views()[kind] for kind in kinds})


def counted(theorems):
    """Returns the lines of the definitions that theorems rest on, and the lines that the views of their types add."""
    views = {kind: view for it in theorems for kind, view in it.views.items()}
    roots = [root for it in theorems for name in it.names for root in roots_of(name)]
    roots += [root for it in theorems for definitions in it.cited.values() for root in definitions]
    lines = sum(it.lines for it in closure(roots))
    roots += [root for view in views.values() for root in definitions_in(view.path, view.text)]
    of_views = sum(bool(line.strip()) for view in views.values() for line in view.text.split("\n"))
    return lines, sum(it.lines for it in closure(roots)) - lines + of_views


def unnamed(theorems):
    """Yields what a clause cites and its section's definitions do not rest on."""
    for number, it in theorems.items():
        there = {(one.module, one.name) for one in closure(root for name in it.names for root in roots_of(name))}
        for (function, clause), definitions in it.cited.items():
            for one in definitions:
                if (one.module, one.name) not in there:
                    yield f"theorem {number}: clause {clause} of {function} cites {one.module.split('.')[0]}::{one.name}, which its definitions do not name"


def rows_of(page):
    """Returns the lines of a page, and by line the row of a theorem: its number and the lines that the page tells."""
    lines = page.split("\n")
    return lines, {at: ROW.match(line) for at, line in enumerate(lines) if ROW.match(line)}


def theorems_of(page):
    """Returns by number what each theorem of a page rests on."""
    return {number: theorem(section) for number, section in THEOREM.findall(page)}


def with_counts(page):
    """Returns a page with the counted numbers in the rows of its tables, and how many rows it has. A row `all` is of those above it in its table."""
    lines, rows = rows_of(page)
    theorems, above = theorems_of(page), []
    for at, row in rows.items():
        above = above if at - 1 in rows else []
        if row["number"] != "all":
            above.append(theorems[row["number"]])
        count, views = counted(above if row["number"] == "all" else above[-1:])
        lines[at] = f"{lines[at][: row.start('lines')]}{count:,} | {views:,} |"
    return "\n".join(lines), len(rows)


def tell(name):
    """Prints the lines of a definition and of all that it rests on, by file."""
    by_file = collections.Counter()
    roots = roots_of(name)
    for definition in closure(roots):
        by_file[definition.module] += definition.lines
    print(f"{name}: {sum(it.lines for it in roots)} lines, {sum(by_file.values())} with all that it rests on, in {len(by_file)} files")
    for module, lines in sorted(by_file.items()):
        print(f"{lines:6d} {module}")


def main():
    read = argparse.ArgumentParser(description=__doc__, formatter_class=argparse.RawDescriptionHelpFormatter)
    read.add_argument("--write", action="store_true")
    read.add_argument("names", nargs="*", metavar="NAME")
    given = read.parse_args()
    for name in given.names:
        tell(name)
    if given.names:
        return 0
    page = PAGE.read_text()
    new, rows = with_counts(page)
    if given.write:
        PAGE.write_text(new)
    for old_line, new_line in zip(page.split("\n"), new.split("\n")):
        if old_line != new_line and not given.write:
            print(f"trusted: docs/PROOF.md says\n{old_line}\nand this is counted:\n{new_line}")
    faults = list(unnamed(theorems_of(page)))
    print(*(f"trusted: {it}\n" for it in faults), sep="", end="")
    held = (given.write or page == new) and not faults
    print(f"trusted: {rows} rows of docs/PROOF.md, {'as they are counted' if held else 'of which some differ'}")
    return 0 if held and rows else 1


if __name__ == "__main__":
    sys.exit(main())
