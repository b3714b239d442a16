#!/usr/bin/env python3
"""Checks that each public function of crates/ has a mutant, or a line that says why no edit can break it.

    tools/public-functions.py           prints each function that has neither; status 1 if there is one, or if a line of the list is stale
    tools/public-functions.py --list    prints each function, with its mutants or its reason

A function is public if it says `pub` without a restriction, whether or not its crate re-exports its name. Laws are left out, because their bodies are empty;
so are tests. A mutant is a file crates/NAME/wrong/*.edit, whose line `fn:` names the function as a check does. The list is tests/no-wrong-body.txt, sorted,
a line `CRATE FUNCTION: REASON` each; a line that begins with # is a comment. A line is stale if there is no such function, or if it has a mutant. This
script calls no prover: tests/wrong-bodies.py tests that each mutant is rejected.
"""
import argparse
import collections
import re
import sys
import tempfile
from pathlib import Path

ROOT = Path(__file__).resolve().parent.parent
LIST = "tests/no-wrong-body.txt"
FUNCTION = re.compile(r"(?P<indent> *)pub (?:const |unsafe )*fn (?P<name>\w+)")
# The head of an impl of a type's own functions: the type, and its arguments.
IMPL = re.compile(r"(?:unsafe )?impl(?:<(?:[^<>]|<[^<>]*>)*>)? (?P<type>\w+)(?:<(?P<of>.*)>)?(?: \{|$)")
TYPE = re.compile(r"(?:pub(?:\([a-z]+\))? )?(?:struct|enum|union) (\w+)")
LINE = re.compile(r"(?P<crate>\w+) (?P<function>[\w:+]+): (?P<reason>\S.*)")


def sources(crate):
    """Yields each file of a crate that is not one of tests: the path of its module, and its lines without comments."""
    for file in sorted((crate / "src").rglob("*.rt")):
        module = file.relative_to(crate / "src").with_suffix("").parts
        if module[0] != "tests":
            lines = [it.split("//")[0].rstrip() if it.lstrip().startswith("//") else it.rstrip() for it in file.read_text(encoding="utf-8").split("\n")]
            yield () if module in (("lib",), ("main",)) else module, lines


def has_code(lines, at, indent):
    """Returns whether the body of the function that begins at this line has code: `rt fmt` ends it in a line that is its closing brace, as deep as the
    function, and an empty one in the braces `{}`."""
    own = (it for it in lines[at:] if it.startswith(indent) and not it.startswith(f"{indent} "))
    end = next((it for it in own if it == f"{indent}}}" or it.endswith("{}")), "{}")
    return not end.endswith("{}")


def functions_of(crate):
    """Returns the names of the public functions of a crate, each as a check prints it, and how many laws there are. A type's own function bears the path of
    the module that has the type. Where a type has two of one name, each bears the arguments of its impl too."""
    files = list(sources(crate))
    home = {found[1]: module for module, lines in files for it in lines if (found := TYPE.match(it))}
    found, laws = collections.defaultdict(list), 0
    for module, lines in files:
        owner = None
        for at, line in enumerate(lines):
            if line == "}" or line.startswith(("impl", "unsafe impl")):
                owner = IMPL.match(line)
            function = FUNCTION.match(line)
            if function and has_code(lines, at, function["indent"]):
                is_own = function["indent"] and owner
                path = (*home.get(owner["type"], module), owner["type"]) if is_own else module
                found[(*path, function["name"])].append(owner["of"] if is_own else None)
            elif function:
                laws += 1
    names = []
    for path, owners in found.items():
        for of in owners:
            of_its_own = len(owners) > 1 and of
            steps = (*path[:-2], "+".join([path[-2], *of.split(", ")]), path[-1]) if of_its_own else path
            names.append("::".join(steps))
    return names, laws


def bodies_of(crate):
    """Returns the wrong bodies of a crate by the function that they turn."""
    found = collections.defaultdict(list)
    for file in sorted((crate / "wrong").glob("*.edit")):
        for it in re.findall(r"^fn: (\S+)$", file.read_text(encoding="utf-8"), re.MULTILINE):
            found[it].append(file.stem)
    return found


def reasons_in(root):
    """Returns the reasons of the list by crate and function, with the number of the line, and what is wrong with its lines."""
    found, wrong, before = {}, [], ""
    file = root / LIST
    for number, line in enumerate(file.read_text(encoding="utf-8").splitlines() if file.is_file() else [], 1):
        if not line or line.startswith("#"):
            continue
        said = LINE.fullmatch(line)
        if not said:
            wrong.append(f"{LIST}:{number}: expected CRATE FUNCTION: REASON")
            continue
        if line <= before:
            wrong.append(f"{LIST}:{number}: it is not in alphabetical order")
        before = line
        key = said["crate"], said["function"]
        if key in found:
            wrong.append(f"{LIST}:{number}: {' '.join(key)} has a line already")
        found[key] = number, said["reason"]
    return found, wrong


def look(root):
    """Returns what is wrong, a line for each public function, and the counts of functions, reasons and laws."""
    reasons, wrong = reasons_in(root)
    listed, told, laws = dict(reasons), [], 0
    for crate in sorted(it for it in (root / "crates").iterdir() if (it / "src").is_dir()):
        bodies = bodies_of(crate)
        names, more = functions_of(crate)
        laws += more
        for name in sorted(names):
            number, reason = listed.pop((crate.name, name), (None, None))
            told.append(f"{crate.name} {name}: {', '.join(bodies[name]) if name in bodies else reason}")
            if name in bodies and reason:
                wrong.append(f"{LIST}:{number}: {crate.name} {name} has a wrong body: {bodies[name][0]}")
            if name not in bodies and not reason:
                wrong.append(f"{crate.name} {name} has no wrong body, and no line in {LIST}")
    wrong += [f"{LIST}:{number}: no public function is {' '.join(key)}" for key, (number, _) in listed.items()]
    return wrong, told, (len(told), len(reasons), laws)


# A crate in which each thing that can be wrong is wrong once, and what has to be said of it.
CODE = "()\n{\n    code()\n}\n"
METHOD = "()\n    {\n        code()\n    }\n"
TRIAL = {
    "crates/one/src/lib.rt": f"pub struct Two {{}}\npub fn no_body{CODE}pub fn has_a_body{CODE}pub(crate) fn own{CODE}",
    "crates/one/src/deep.rt": f"impl Two {{\n    pub fn has_both{METHOD}}}\npub fn law()\n{{}}\npub fn has_a_reason{CODE}",
    "crates/one/wrong/turns.edit": "fn: has_a_body\nfile: src/lib.rt\n",
    "crates/one/wrong/turns_both.edit": "fn: Two::has_both\nfile: src/deep.rt\n",
    LIST: "# a comment\none gone: it is there no more\none Two::has_both: it cannot be turned\none deep::has_a_reason: a constant\none twice\n",
}
SAID = [
    f"{LIST}:3: it is not in alphabetical order",
    f"{LIST}:5: expected CRATE FUNCTION: REASON",
    f"{LIST}:3: one Two::has_both has a wrong body: turns_both",
    f"one no_body has no wrong body, and no line in {LIST}",
    f"{LIST}:2: no public function is one gone",
]


def own_test():
    """Returns whether all that is wrong in the crate of the trial is said, and nothing else."""
    with tempfile.TemporaryDirectory() as folder:
        for name, text in TRIAL.items():
            file = Path(folder, name)
            file.parent.mkdir(parents=True, exist_ok=True)
            file.write_text(text, encoding="utf-8")
        wrong, told, counts = look(Path(folder))
    return sorted(wrong) == sorted(SAID) and len(told) == 4 and counts == (4, 3, 1)


def main():
    read = argparse.ArgumentParser(description=__doc__, formatter_class=argparse.RawDescriptionHelpFormatter)
    read.add_argument("--list", action="store_true")
    given = read.parse_args()
    if not own_test():
        sys.exit("public-functions: its own test failed")
    wrong, told, (functions, listed, laws) = look(ROOT)
    if given.list:
        print(*told, sep="\n")
    for it in wrong:
        print(f"public-functions: {it}")
    print(f"public-functions: {functions} public functions, {listed} of them listed as such that no edit can break; {laws} laws; {len(wrong)} faults")
    return 1 if wrong or not functions else 0


if __name__ == "__main__":
    sys.exit(main())
