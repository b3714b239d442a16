"""Reads the contracts of functions out of crates/*/src: their clauses, the definitions that a text cites, and the views of types. For tools/trusted.py."""
import collections
import functools
import re
import sys
from pathlib import Path

sys.dont_write_bytecode = True
import imports  # noqa: E402, of this folder

ROOT = Path(__file__).resolve().parent.parent
COMMENT = re.compile(r"//.*")
# A name, unless it stands behind a point, where it is a field's.
WORD = re.compile(r"(?<![.\w'?◌])[A-Za-z_][\w'?]*")
TOKEN = re.compile(r"\b(requires|ensures|decreases)\b(?:[ \n]+(\w+))?|[{};]")
IMPL = re.compile(r"^impl\b[^{]*?(?=^\s*where\b|\{)", re.M | re.S)
VIEW = re.compile(r"^\s*ghost (?:Value|view) = \{.*?\};$", re.M | re.S)
MODEL = re.compile(r"\bModel for (\w+)")

PARAMETER = re.compile(r"\b(\w+): ([^,()]*)")

Clause = collections.namedtuple("Clause", "kind name text")
Contract = collections.namedtuple("Contract", "path head clauses")
View = collections.namedtuple("View", "path text")


@functools.cache
def files_of(crate):
    """Returns by file of a crate its text without comments."""
    folder = ROOT / "crates" / crate / "src"
    return {path: COMMENT.sub("", path.read_text(encoding="utf-8")) for path in sorted(folder.rglob("*.rt"))}


def imports_of(lines):
    """Returns by name the module and the name there that an import brings."""
    found = {}
    for it in filter(None, map(imports.NAMES.match, lines)):
        for *module, last in imports.names_of(it[3]):
            name, _, renamed = last.partition(" as ")
            found[renamed or name] = ".".join(module).removeprefix("Rattle."), name
    return found


def clauses_behind(text, at):
    """Returns the clauses that stand at a place, each with what its braces have, and where the function's body or its semicolon is."""
    clauses, depth, begun = [], 0, None
    for found in TOKEN.finditer(text, at):
        if found[0] == "{":
            if depth == 0 and not begun:
                return clauses, found.start()
            start = found.end() if depth == 0 else start
            depth += 1
        elif found[0] == "}":
            depth -= 1
            if depth == 0 and begun:
                clauses.append(Clause(begun[1], begun[2] or "", text[start:found.start()]))
                begun = None
        elif depth == 0 and found[0] == ";":
            return clauses, found.start()
        elif depth == 0:
            begun = found
    return clauses, len(text)


def contracts_of(crate, names):
    """Yields the contracts of the functions of this name in a crate, or of those of this type if one stands before the name."""
    *kinds, name = names
    for path, text in files_of(crate).items():
        for found in re.finditer(rf"\bfn {name}\b", text):
            impls = [it[0] for it in IMPL.finditer(text, 0, found.start())]
            if kinds and not (impls and re.search(rf"\b{kinds[-1]}\b", impls[-1])):
                continue
            clauses, end = clauses_behind(text, found.end())
            head = TOKEN.search(text, found.end())
            yield Contract(path, text[found.start():min(end, head.start() if head else end)], clauses)


def kinds_in(head, clauses, own):
    """Returns the types in a function's head of the values that its clauses speak of: `own` is that of `self`."""
    spoken = set(WORD.findall(clauses))
    kinds = set(own) if "self" in spoken else set()
    for name, kind in PARAMETER.findall(head):
        kinds |= set(WORD.findall(kind)) if name in spoken else set()
    return kinds | (set(WORD.findall(head.rpartition("->")[2])) if "result" in spoken else set())


def cited(path, text):
    """Yields the module and the name of each definition that a text of a file may cite, by the file's imports."""
    imported = imports_of(files_of(path.relative_to(ROOT / "crates").parts[0])[path].splitlines())
    for word in sorted(set(WORD.findall(text))):
        if word in imported:
            yield imported[word]


@functools.cache
def views():
    """Returns by type its view, as clauses read a value of the type."""
    found = {}
    for crate in sorted(it.name for it in (ROOT / "crates").iterdir()):
        for path, text in files_of(crate).items():
            for it in IMPL.finditer(text):
                model = MODEL.search(it[0])
                if model:
                    inside = text[it.end():text.find("\n}", it.end())]
                    found[model[1]] = View(path, "\n".join(VIEW.findall(inside)))
    return found
