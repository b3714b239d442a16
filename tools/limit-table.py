#!/usr/bin/env python3
"""Holds the limits of a machine to crates/event_log/src/ids.rt, where each stands once.

    tools/limit-table.py            compares the two tables with it, and each page and text that spells a limit
    tools/limit-table.py --write    writes the two tables, plans/limits.json and plans/limits.rs
    tools/limit-table.py --shell    prints the limits for a shell script: eval "$(tools/limit-table.py --shell)"

Python and the page read limits.json, plain Rust programs limits.rs. A text that spells a limit is changed by hand: this script names it. It fails too if
there are more than the types of the crates can number. The last line is 'limits: N passed, M failed'; the status is 1 if one failed.
"""
import argparse
import json
import re
import sys
from pathlib import Path

ROOT = Path(__file__).resolve().parent.parent
CONSTANTS, TABLE, RUST = ROOT / "crates/event_log/src/ids.rt", ROOT / "plans/limits.json", ROOT / "plans/limits.rs"
NAMES = ("CPUS", "THREADS", "BUFFERS", "CAPACITY", "TRACE", "ENTRIES")
CONSTANT = re.compile(r"^pub const ([A-Z]+): usize = ([\d_]+);", re.M)
NUMBERED = {"CPUS": 256, "THREADS": 256, "BUFFERS": 256, "CAPACITY": 255}  # a CPU, a thread and a buffer is a `u8`, and so is a capacity
# By file what is spelled there of limits. The messages of the program are quoted by its definitions and mutants, which their proofs hold to them.
SPELLED = {
    "docs/SPEC.md": ["| `CPUS` | CPUs | 1 to {CPUS}, numbered from 0 |", "| `THREADS` | threads | 1 to {THREADS}, numbered from 0 |",
                     "| `BUFFERS` | buffers | 1 to {BUFFERS}, numbered from 0 |", "| `CAPACITY` | capacity of a buffer | 1 to {CAPACITY} messages |",
                     "| `TRACE` | trace entries of a CPU | 1 to {TRACE:,} |",
                     "| `ENTRIES` | trace entries of all CPUs; an op and a pos are less | {ENTRIES:,} |",
                     "| | `count`: CPUs; times | 1 to {CPUS}; 1 to 1,000 |"],
    "docs/spec/guests-and-plans.md": ["| `cpus` | integer | 1 to {CPUS} |", "| `trace` | integer: the entries that each CPU can record | 1 to {TRACE} |",
                                      "| `buffers` | array of integers: the capacities | 1 to {BUFFERS} items, each 1 to {CAPACITY} |",
                                      "| `thread` | array of tables | 1 to {THREADS} |"],
    "docs/spec/traces.md": ["| at most {ENTRIES:,} |", "| n | 1 | {BUFFERS} |", "| k | 1 | {CAPACITY} |",
                            "a fixed array of {BUFFERS} buffers with {CAPACITY} items"],
    "docs/spec/command-line.md": ["N of `--cpus` is 1 to {CPUS},"],
    "docs/book/12-native-callers.md": ["The capacity of a buffer is 1 to {CAPACITY}.", "There are 1 to {CPUS} natives and at most {BUFFERS} buffers."],
    "docs/PROOF.md": ["1 to {CPUS} callers, at most {BUFFERS} buffers of 1 to {CAPACITY} messages"],
    "crates/mctower/src/line/help_texts.rt": ["N is 1 to {CPUS},", "N CPUs (1 to {CPUS}) add 1", "Each of N CPUs (1 to {CPUS}) does",
                                              "  cpus      1 to {CPUS}\n",
                                              "how many calls each CPU can record, 1 to {TRACE}\n",
                                              "the capacities of 1 to {BUFFERS} buffers, each 1 to {CAPACITY}\n", "1 to {THREADS} threads, each"],
    "crates/mctower/src/tell/refusal_lines.rt": ["ValueOption::Cpus => \"1 to {CPUS}\""],
    "metal/console/src/passing.rs": ["pub const CAPACITY: u8 = {CAPACITY};"],
    "embed/tower.h": ["at most {BUFFERS} buffers, each for 1 to {CAPACITY} messages of 1 to 8 words, and 1 to {CPUS} callers", "TOWER_BUFFERS = {BUFFERS},",
                      "TOWER_CALLERS = {CPUS},", "TOWER_CAPACITY = {CAPACITY} /*"],
    "embed/tower.3": ["A tower has 0 to {BUFFERS} buffers, each for 1 to {CAPACITY} messages, and 1 to {CPUS} callers."],
    "embed/host/texts.c": ["a tower has 1 to {CPUS} callers", "a tower has at most {BUFFERS} buffers", "a buffer holds 1 to {CAPACITY} messages"],
    "embed/python/tower.py": ["WORDS, BYTES, CAPACITY = 8, 63, {CAPACITY}\n"],
    "embed/rust/src/lib.rs": ["const CAPACITY: usize = {CAPACITY};", "A tower has 1 to {CPUS} callers.", "A tower has at most {BUFFERS} buffers.",
                              "A buffer holds 1 to {CAPACITY} messages."],
}


def limits():
    """The limits by name, of the crate that has them."""
    found = dict(CONSTANT.findall(CONSTANTS.read_text(encoding="utf-8")))
    return {name: int(found[name].replace("_", "")) for name in NAMES}


def as_json(found):
    return json.dumps(found, indent=2) + "\n"


def as_rust(found):
    lines = [f"pub const {name}: usize = {many:_};" for name, many in found.items()]
    return "\n".join(["//! Made by tools/limit-table.py from crates/event_log/src/ids.rt, which says what each is.", "#![allow(dead_code)]", *lines, ""])


def rows(found):
    """What is held, each by what is said where it fails."""
    yield "tools/limit-table.py --write was not run: plans/limits.json is another", TABLE.exists() and TABLE.read_text(encoding="utf-8") == as_json(found)
    yield "tools/limit-table.py --write was not run: plans/limits.rs is another", RUST.exists() and RUST.read_text(encoding="utf-8") == as_rust(found)
    for name, most in NUMBERED.items():
        yield f"{name} is {found[name]}: a `u8` numbers at most {most}", 1 <= found[name] <= most
    yield f"ENTRIES is {found['ENTRIES']}, and CPUS times TRACE is another", found["ENTRIES"] == found["CPUS"] * found["TRACE"]
    for path, texts in SPELLED.items():
        there = (ROOT / path).read_text(encoding="utf-8")
        for text in (it.format(**found) for it in texts):
            yield f"{path} does not say: {text.strip()}", text in there


def main():
    read = argparse.ArgumentParser(description=__doc__, formatter_class=argparse.RawDescriptionHelpFormatter)
    how = read.add_mutually_exclusive_group()
    how.add_argument("--write", action="store_true")
    how.add_argument("--shell", action="store_true")
    asked, found = read.parse_args(), limits()
    if asked.shell:
        print(*(f"{name}={many}" for name, many in found.items()), sep="\n")
        return 0
    if asked.write:
        TABLE.write_text(as_json(found), encoding="utf-8")
        RUST.write_text(as_rust(found), encoding="utf-8")
        return 0
    told = list(rows(found))
    failed = [words for words, holds in told if not holds]
    print(*(f"limits: {words}" for words in failed), f"limits: {len(told) - len(failed)} passed, {len(failed)} failed", sep="\n")
    return 1 if failed else 0


if __name__ == "__main__":
    sys.exit(main())
