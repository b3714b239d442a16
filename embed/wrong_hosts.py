#!/usr/bin/env python3
"""Plants faults in the host, one at a time, and looks whether the scenes of embed/test.py see each.

    embed/wrong_hosts.py                 the gate's: a wake that is lost, a caller in two calls, a register that is lost
    embed/wrong_hosts.py --all           each edit of embed/wrong
    embed/wrong_hosts.py NAME..          these only

An edit of embed/wrong names in its line `seen:` the scenes that see it. After a line `file:`, which names a file of embed/host, each line `old:` is replaced
by the line `new:` below it. A fault is seen if one of the scenes differs, crashes, or does not end in 15 seconds, in which it passes without the edit. Without
a C compiler it says so, and its status is 77. The last line is 'embed: N passed, M failed'; a fault that is not seen is a failure.
"""
import argparse
import shutil
import subprocess
import sys
import tempfile
from pathlib import Path

sys.dont_write_bytecode = True
import build  # noqa: E402
import test  # noqa: E402
from planting import planted  # noqa: E402

WRONG = build.EMBED / "wrong"
OF_GATE = ["a_wake_is_lost", "a_caller_in_a_call_is_called", "a_register_is_lost"]
WORDS = {"idle": ["1", "1", "30", "6"], "handovers": ["400", "quiet"]}
FLAGS = {"numbers": ["-DEACH=500"]}
SECONDS = 15
LATE = f"it does not end in {SECONDS} s"


def library_over(host, room, is_trial):
    """Links a library over this host, with the proved program, or with trial.c in its place."""
    program = build.trial_object(room, "-DENDS=1") if is_trial else build.OUT / "program.o"
    build.linked(program, room / "library", archives=[] if is_trial else build.kit_archives(), host=host)
    return room / "library"


def difference(scene, library, room):
    """How a scene over a library differs, or nothing."""
    program = room / scene
    words = [*build.compiler(), *test.STRICT, *FLAGS.get(scene, []), f"-I{library}", build.EMBED / f"scenes/{scene}.c", library / "libtower.a", "-lpthread"]
    if test.ended([*words, "-o", program]).returncode:
        return "it does not compile"
    try:
        ran = test.ended([program, *WORDS.get(scene, [])], timeout=SECONDS)
    except subprocess.TimeoutExpired:
        return LATE
    return f"status {ran.returncode}: {ran.stdout.strip().split(chr(10))[0][:120]}" if ran.returncode else None


def seen(edit):
    """Plants one fault, and returns the scene that sees it and how, or nothing."""
    with tempfile.TemporaryDirectory() as folder:
        room = Path(folder)
        shutil.copytree(build.HOST, room / "embed/host")
        shutil.copyfile(build.EMBED / "tower.h", room / "embed/tower.h")
        scenes = planted(edit, room / "embed/host")
        library = library_over(room / "embed/host", room, "ended" in scenes)
        for scene in scenes:
            how = difference(scene, library, room)
            if how and (how != LATE or not difference(scene, build.OUT, room)):
                return f"{scene}: {how}"
    return None


def main():
    read = argparse.ArgumentParser(description=__doc__, formatter_class=argparse.RawDescriptionHelpFormatter)
    read.add_argument("--all", action="store_true")
    read.add_argument("names", nargs="*", metavar="NAME")
    asked = read.parse_args()
    if lost := build.missing():
        print(f"embed: no fault was planted, since there is no {' and no '.join(lost)} here")
        return build.NOTHING
    names = sorted(path.stem for path in WRONG.glob("*.edit")) if asked.all else asked.names or OF_GATE
    build.built()
    missed = 0
    for name in names:
        how = seen(WRONG / f"{name}.edit")
        missed += not how
        print(f"embed: {name}: {f'seen by {how}' if how else 'NOT SEEN'}", flush=True)
    print(f"embed: {len(names) - missed} passed, {missed} failed")
    return 1 if missed or not names else 0


if __name__ == "__main__":
    sys.exit(main())
