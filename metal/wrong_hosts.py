#!/usr/bin/env python3
"""Plants faults in the host, one at a time, and looks whether metal/test.py sees each.

    metal/wrong_hosts.py                 the gate's: a wake that is lost, a record that two processors take, two stacks that are one, all threads on one
                                         processor
    metal/wrong_hosts.py --all           each edit of metal/wrong
    metal/wrong_hosts.py NAME..          these alone

An edit of metal/wrong says in its line `seen:` which kinds of cases see it, or which cases, as host/spread; behind a line `file:`, which names a file of
metal/host, each line `old:` is replaced by the line `new:` beneath it. The first case that differs is told. A run that hangs differs too, after the seconds
that METAL_SECONDS names, or 20. Where there is no QEMU it says so, and its status is 77. The last line counts; the status is 1 if a fault was not seen.
"""
import argparse
import os
import shutil
import sys
import tempfile
from concurrent.futures import ThreadPoolExecutor
from pathlib import Path

sys.dont_write_bytecode = True
os.environ.setdefault("METAL_SECONDS", "20")
import build  # noqa: E402
import machine  # noqa: E402
import test  # noqa: E402
from planting import planted  # noqa: E402

WRONG = build.METAL / "wrong"
OF_GATE = ["a_record_is_taken_twice", "a_wake_is_lost", "all_threads_on_one_processor", "two_stacks_are_one"]
CASES = 60  # of a kind, at most


def first_difference(held, kinds):
    """The first case of these kinds that differs, or nothing."""
    for kind, _, name in (kind.partition("/") for kind in kinds):
        if kind != "host" and not held.image.exists():
            build.linked(held.program, held.image, held.host)
        named = [case for case in test.KINDS[kind][0](held) if case[0].startswith(name)]
        cases = test.part_of(named, CASES)
        with ThreadPoolExecutor(2) as pool:
            for (name, _), fault in zip(cases, pool.map(lambda case: case[1](), cases)):
                if fault:
                    pool.shutdown(cancel_futures=True)
                    return f"{kind}, {name}"
    return None


def tried(edit, program):
    """Plants one fault beneath the program's object, and returns the case that saw it, or nothing."""
    with tempfile.TemporaryDirectory() as folder:
        room = Path(folder)
        host = room / "host"
        shutil.copytree(build.HOST, host)
        kinds = planted(edit, host)
        held = test.Held(room / "tower.elf", room / "trial.elf", host=host, program=program)
        build.linked(build.METAL / "trial.c", held.trial, host)
        return first_difference(held, kinds)


def main():
    read = argparse.ArgumentParser(description=__doc__, formatter_class=argparse.RawDescriptionHelpFormatter)
    read.add_argument("--all", action="store_true")
    read.add_argument("names", nargs="*", metavar="NAME")
    asked = read.parse_args()
    if not machine.PC.is_there():
        print("metal: no QEMU here: no fault was planted")
        return 77
    names = sorted(path.stem for path in WRONG.glob("*.edit")) if asked.all else asked.names or OF_GATE
    build.kit_module()  # before any thread starts
    missed = 0
    with tempfile.TemporaryDirectory() as room:
        program = build.object_of(None, Path(room))
        for name in names:
            seen = tried(WRONG / f"{name}.edit", program)
            missed += not seen
            print(f"metal: {name}: {f'seen by {seen}' if seen else 'NOT SEEN'}", flush=True)
    print(f"metal: {len(names) - missed} wrong hosts seen, {missed} not")
    return 1 if missed or not names else 0


if __name__ == "__main__":
    sys.exit(main())
