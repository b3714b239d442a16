#!/usr/bin/env python3
"""Does what `rt try` does, in half of its processor time: builds a crate without proofs, and runs it or its tests.

    tools/unproved.py [NAME] [FLAG..] [-- WORD..]    the words of `rt try`, as `rt --help` lists them

`rt try` starts a check next to the build. That check ends before any proof, prints at most a hint about reserved names, and takes as much processor time as the
build. This script leaves it out, because its callers build sources that are proved, or tests.
"""
import sys

sys.dont_write_bytecode = True
import kit  # noqa: E402, of this folder

if __name__ == "__main__":
    if "--help" in sys.argv[1:]:
        print(__doc__.strip())
        sys.exit(0)
    lib = kit.load()
    lib.RATTLE = "true"  # `rt try` starts nothing but that check by this name
    sys.exit(lib.main("try", *sys.argv[1:]))
