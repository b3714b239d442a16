#!/usr/bin/env python3
"""Prints the dearest functions of a crate's last check from nothing, by the times of the modules that it kept.

   tools/profile.py NAME [N]

It prints N functions of crates/NAME, 25 if left out: seconds of clock, kilobytes of modules, name. The seconds are exact after ONE check
from nothing at one job: more jobs share the gaps, and a later check overwrites the times of what it made anew. The kilobytes do not depend
on what else runs. A copy of crates/NAME/out keeps the times only where it is made by `cp -a`.
"""
import argparse
import collections
import os
import re
import sys

KINDS = re.compile(r"\.(Tie|Lts(\.\w+)?|Goals|Proof|Answers|Given|Kinds|Met|Code|Statement|Symbol|Key|Named|TheLinks.*|Invariants)$")


def modules_of(crate):
    """Returns when each module that the crate's check kept was written, its bytes and its name, in the order of time."""
    found = []
    for at, _, names in os.walk(f"crates/{crate}/out/incremental"):
        for name in names if not at.endswith("records") else []:
            told = os.stat(f"{at}/{name}")
            found.append((told.st_mtime, told.st_size, name.replace(".oantt", "")))
    return sorted(found)


def function_of(module):
    _, _, function = module.partition("-proofs.")
    return KINDS.sub("", function) if function else "(specs, libraries)"


def main():
    read = argparse.ArgumentParser(description=__doc__, formatter_class=argparse.RawDescriptionHelpFormatter)
    read.add_argument("name", metavar="NAME")
    read.add_argument("most", nargs="?", type=int, default=25, metavar="N")
    given = read.parse_args()
    os.chdir(os.path.dirname(os.path.abspath(__file__)) + "/..")
    modules = modules_of(given.name)
    if not modules:
        sys.exit(f"profile: no check of {given.name} has kept anything: (cd crates/{given.name} && rt check)")
    last, clock, size = modules[0][0], collections.Counter(), collections.Counter()
    for when, count, module in modules:
        function = function_of(module)
        clock[function] += when - last  # the gap before a module belongs to it
        size[function], last = size[function] + count, when
    print(f"{len(modules)} modules, {sum(clock.values()):.0f} s of clock")
    for function, seconds in clock.most_common(given.most):
        print(f"{seconds:8.1f} s {size[function] // 1024:8d} KB  {function}")


if __name__ == "__main__":
    main()
