#!/usr/bin/env python3
"""Tries the mutants of embed/crate: each edit of embed/crate/wrong breaks one function, and the prover must reject it.

    embed/wrong_bodies.py              all
    embed/wrong_bodies.py WORD..       those whose names have one of these words
    embed/wrong_bodies.py --jobs N     with N processors (default: 1)

An edit has the form and the judge of those of crates/NAME/wrong (tests/wrong-bodies.py --help). It needs what embed/build.py keeps. The gate does not run it.
The last line is 'N passed, M failed'.
"""
import argparse
import os
import sys
import tempfile

sys.dont_write_bytecode = True
import build  # noqa: E402

sys.path.append(str(build.ROOT / "tests"))
from bodies.judge import bodies_of  # noqa: E402
from bodies.trial import try_crate  # noqa: E402
import kit  # noqa: E402


def main():
    read = argparse.ArgumentParser(description=__doc__, formatter_class=argparse.RawDescriptionHelpFormatter)
    read.add_argument("--jobs", type=int, default=1, metavar="N")
    read.add_argument("words", nargs="*", metavar="WORD")
    asked = read.parse_args()
    lib = kit.load()
    with tempfile.TemporaryDirectory() as room:
        crate = build.laid_out(lib, room)
        if lost := build.unproved(lib, crate):
            sys.exit(f"embed: these libraries are not proved: {' '.join(lost)}")
        os.makedirs(f"{crate.folder}/out")
        if (build.OUT / "incremental").is_dir():
            os.symlink(build.OUT / "incremental", f"{crate.folder}/{lib.KEPT[1]}")
        bodies = [it for it in bodies_of(crate, str(build.CRATE / "wrong")) if not asked.words or any(word in it.file for word in asked.words)]
        held = lib.lock(crate.below())
        try_crate(lib, crate, bodies, False, asked.jobs)
        for it in held:
            os.close(it)
    lost = [it for it in bodies if not it.is_refused()]
    print(f"{len(bodies) - len(lost)} passed, {len(lost)} failed")
    return 1 if lost or not bodies else 0


if __name__ == "__main__":
    sys.exit(main())
