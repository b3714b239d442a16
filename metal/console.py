#!/usr/bin/env python3
"""Proves the console driver of metal/console, builds it over metal/host, and types at it in QEMU:

    metal/console.py             proves, builds and links; boots on 1 to 4 processors, types random bytes and compares what is printed
    metal/console.py --prove     proves, builds and links, and boots nothing; the gate's, while `rt ci` proves the last crate
    metal/console.py --all       the same with more runs and longer ones
    metal/console.py --type      boots what was built, with this terminal as its serial line: control-D ends the input
    metal/console.py --wrong     the prover has to refuse each body of metal/console/wrong; each of wrong/proved is proved, and a run has to see it
    metal/console.py --machine riscv64 | aarch64    the same on another machine, with the words above
    metal/console.py --lay FOLDER    copies the tree into FOLDER with the crate in it, and does nothing more
    metal/console.py --format    lays out the crate's sources as `rt fmt` does, and does nothing more

The crate is none of the twenty of crates.txt, so its files end in .rs and .antt.in, and are laid onto a copy of the tree as a crate of its own. It is
proved over the libraries in crates/*/out, as tools/prove-all.py or `rt ci` leaves them, and what was proved is kept in the user's cache. The printed
bytes have to be the typed ones, all of them and in their order, and control-D has to end the run with status 0. Where there is no QEMU, or there are no
libraries, the last line says so, and the status is 77. Otherwise the last line is 'console: N passed, M failed'. METAL_SECONDS is how long a run may
print nothing, 60 if nothing else is said.
"""
import argparse
import os
import random
import re
import shutil
import subprocess
import sys
import tempfile
from pathlib import Path

sys.dont_write_bytecode = True
import build  # noqa: E402
import machine  # noqa: E402

sys.path += [str(build.METAL / "console"), str(build.ROOT / "web")]
import module  # noqa: E402
import serial_line  # noqa: E402

NAME = "console"
CRATE = build.METAL / NAME
ENDINGS = ((".antt.in", ".antt"), (".rs", ".rt"))  # of a file here, and of the same file in a crate
PARTS = ("src", "specs", "proofs")
NOT_COPIED = ("out", "wrong", "must-fail")
PROVED = re.compile(r"\blogic=proved\b.*\bfunctions=(\d+)")
LEFT_OUT_ALL = 77
SEED = 20250
LENGTHS = (("at once", 3000), ("in bursts", 600), ("key by key", 40), ("at once", 0))  # how many bytes are typed
LONGER = 10  # times, with --all


def named_in_crate(path):
    """Returns the name in a crate of a file here."""
    for here, there in ENDINGS:
        if path.endswith(here):
            return path[: -len(here)] + there
    return path


def files_of_crate():
    """Returns the files of the crate here, with the name of each in a crate."""
    found = [it for part in PARTS for it in sorted((CRATE / part).rglob("*")) if it.is_file()]
    return [(it, named_in_crate(str(it.relative_to(CRATE)))) for it in found]


def lay(copy):
    """Lays the crate onto a copy of the tree, over the libraries that were proved here, and returns its folder."""
    crates = build.ROOT / "crates"
    copy.mkdir(parents=True, exist_ok=True)
    shutil.copytree(crates, copy / "crates", ignore=shutil.ignore_patterns(*NOT_COPIED))
    for library in crates.glob("*/out/rlib"):  # only read, so that a second name is enough; they are gigabytes
        place = copy / library.relative_to(build.ROOT)
        place.parent.mkdir()
        place.symlink_to(library)
    shutil.copy(build.ROOT / "HANDLES", copy)
    (copy / "crates.txt").write_text((build.ROOT / "crates.txt").read_text() + (CRATE / "stands-on.txt").read_text())
    folder = copy / "crates" / NAME
    for here, there in files_of_crate():
        (folder / there).parent.mkdir(parents=True, exist_ok=True)
        shutil.copyfile(here, folder / there)
    return folder


def differences_in_layout(folder, writes=False):
    """Returns the sources that `rt fmt` lays out otherwise than they are here, and writes them if it is asked to."""
    build.run("rt", "fmt", cwd=folder, stdout=subprocess.DEVNULL, stderr=subprocess.DEVNULL)
    unlike = [(here, folder / there) for here, there in files_of_crate() if here.read_bytes() != (folder / there).read_bytes()]
    for here, there in unlike if writes else []:
        shutil.copyfile(there, here)
    return [here for here, _ in unlike]


def kept_in_cache():
    """Returns the folder of what was proved of the crate."""
    cache = Path(os.environ.get("XDG_CACHE_HOME") or Path.home() / ".cache")
    return cache / "mctower-console" / "incremental"


def module_proved(folder, room):
    """Proves the crate in this folder and builds its object and its LLVM module; returns both, or nothing, and what the prover said."""
    kit, made, kept = build.kit_module(), room / "console.o", room / "console.bc"
    crate = next(it for it in kit.crates_below(str(folder.parent.parent)) if it.name == NAME)
    tools = module.keeping_toolchain(Path(kit.KIT, "toolchain"), room, kept)
    kept_in_cache().mkdir(parents=True, exist_ok=True)
    words = [kit.RATTLE, "build", *crate.words(["--jobs", "1"]), "--toolchain", tools, "--backend", "llvm", "--incremental", kept_in_cache(), "-o", made]
    ran = subprocess.run([str(it) for it in words], cwd=folder, stdout=subprocess.PIPE, stderr=subprocess.STDOUT, text=True, check=False)
    is_proved = ran.returncode == 0 and PROVED.search(ran.stdout)
    return (made, kept) if is_proved else None, ran.stdout


def image_of(kind):
    return build.OUT / f"console-{kind.name}{Path(kind.image).suffix}"


def linked(built, kind, image, room):
    """Links what was built with the host of a machine."""
    made, kept = built
    build.linked(made if kind is machine.PC else build.ported(kept, room, kind), image, machine=kind)


def image_proved(kind):
    """Makes the image of the console, and returns whether the crate is proved, and laid out as it has to be."""
    with tempfile.TemporaryDirectory(prefix="console-") as folder:
        room = Path(folder)
        crate = lay(room / "tree")
        unlike = differences_in_layout(crate)
        for it in unlike:
            print(f"console: {it.relative_to(build.ROOT)} is not laid out: metal/console.py --format")
        built, said = module_proved(crate, room)
        if not built:
            print(said[-4000:], "console: not proved", sep="\n")
            return False
        linked(built, kind, image_of(kind), room)
    told = PROVED.search(said)[1]
    print(f"console: {told} functions are proved; {image_of(kind).relative_to(build.ROOT)} has {image_of(kind).stat().st_size} bytes", flush=True)
    return not unlike


# ---- runs


def typed_text(pick, length):
    """Returns random bytes to type: all but a carriage return, which the host reads as a new line, and control-D, which ends the input."""
    return bytes(pick.choice([it for it in range(256) if it not in (4, 13)]) for _ in range(length))


def runs(is_long):
    """Returns the runs: how many processors, by turns or not, how it is typed, and how much."""
    cores, found = len(os.sched_getaffinity(0)), []
    for processors in (1, 2, 3, 4):
        for how, length in LENGTHS:
            found.append((processors, processors > cores, how, length))
            found += [(processors, by_turns, how, LONGER * length) for by_turns in (False, True)] if is_long else []
    return found


def fault_of(kind, image, run, seed):
    """Boots once and types, and says what was wrong, or nothing."""
    processors, by_turns, how, length = run
    pick = random.Random(seed)
    text = typed_text(pick, length)
    with serial_line.SerialLine(kind, image, processors, by_turns) as line:
        fault = line.types(text, how, pick)
        status, rest = line.ends()
    if fault:
        return fault
    if rest:
        return f"{len(rest)} bytes more were printed than were typed"
    return f"status {status}, and not 0" if status else None


def boots(kind, is_long):
    """Boots each run, and returns how many passed and how many failed."""
    passed, failed = 0, 0
    for number, run in enumerate(runs(is_long)):
        fault = fault_of(kind, image_of(kind), run, SEED + number)
        processors, by_turns, how, length = run
        if fault:
            print(f"console: {processors} processors{' by turns' if by_turns else ''}, {length} bytes {how}: {fault}", flush=True)
        passed, failed = passed + (not fault), failed + bool(fault)
    return passed, failed


# ---- wrong bodies


def pairs_of(edit):
    """Returns the edits of a wrong body: a file, an old text and a new one."""
    found, path, old = [], None, None
    for line in edit.read_text().splitlines():
        key, _, text = line.partition(": ")
        if key == "file":
            path = text
        elif key == "old":
            old = text
        elif key == "new":
            found.append((path, old, text))
    return found


def refused_by_prover(room):
    """Lets the prover try each body of metal/console/wrong, and returns how many it refused, and how many it did not."""
    folder = lay(room)
    for part in ("tests", "tools"):
        shutil.copytree(build.ROOT / part, room / part, ignore=shutil.ignore_patterns("__pycache__"))
    shutil.copytree(CRATE / "wrong", folder / "wrong", ignore=shutil.ignore_patterns("proved"))
    shutil.copytree(kept_in_cache(), folder / "out/incremental")
    # the crate was proved before; libraries of `rt ci` have no stamp
    words = [room / "tests/wrong-bodies.py", "--after-ci", "--jobs", "1", NAME]
    last = ""
    with subprocess.Popen(words, cwd=room, stdout=subprocess.PIPE, text=True) as ran:
        for last in ran.stdout:
            print(last, end="", flush=True)
    found = re.fullmatch(r"(\d+) passed, (\d+) failed", last.strip())
    return (int(found[1]), int(found[2])) if found else (0, 1)


def fault_of_proved(edit, kind, room):
    """Builds the console with a body that the prover lets through, and says what is wrong if no run sees it."""
    crate = lay(room / "tree")
    for path, old, new in pairs_of(edit):
        text = (crate / path).read_text()
        if text.count(old) != 1:
            return f"BAD EDIT: its old text is {text.count(old)} times in {path}"
        (crate / path).write_text(text.replace(old, new))
    built, said = module_proved(crate, room)
    if not built:
        return f"the prover does not let it through\n{said[-2000:]}"
    linked(built, kind, room / "console", room)
    return None if fault_of(kind, room / "console", (2, False, "at once", 300), SEED) else "NOT SEEN"


def wrong(kind):
    """Tries the wrong bodies, and returns how many were refused or seen, and how many were not."""
    if not image_proved(kind):
        return 0, 1
    with tempfile.TemporaryDirectory(prefix="console-") as room:
        passed, failed = refused_by_prover(Path(room))
    for edit in sorted((CRATE / "wrong/proved").glob("*.edit")) if kind.is_there() else []:
        with tempfile.TemporaryDirectory(prefix="console-") as room:
            fault = fault_of_proved(edit, kind, Path(room))
        print(f"console: {edit.stem}: {fault or 'proved, and seen by a run'}", flush=True)
        passed, failed = passed + (not fault), failed + bool(fault)
    return passed, failed


def only(asked):
    """Does what needs no proof, and returns its status, or nothing where something else is asked."""
    kind = machine.MACHINES[asked.machine]
    if asked.lay:
        lay(asked.lay)
        return 0
    if asked.format:
        with tempfile.TemporaryDirectory(prefix="console-") as room:
            differences_in_layout(lay(Path(room)), writes=True)
        return 0
    if asked.type:
        missing = kind.qemu if not kind.is_there() else None if image_of(kind).exists() else f"{image_of(kind)}: metal/console.py makes it"
        return sys.exit(f"console: there is no {missing}") if missing else serial_line.on_terminal(kind, image_of(kind), 2)
    return None


def main():
    read = argparse.ArgumentParser(description=__doc__, formatter_class=argparse.RawDescriptionHelpFormatter)
    for flag in ("--prove", "--all", "--type", "--wrong", "--format"):
        read.add_argument(flag, action="store_true")
    read.add_argument("--lay", type=Path, metavar="FOLDER")
    read.add_argument("--machine", choices=machine.MACHINES, default=machine.PC.name)
    asked = read.parse_args()
    status = only(asked)
    if status is not None:
        return status
    kind = machine.MACHINES[asked.machine]
    if not (build.ROOT / "crates/cpu_workers/out/rlib").exists():
        print("console: no proved libraries here: nothing was proved")
        return LEFT_OUT_ALL
    passed, failed = wrong(kind) if asked.wrong else (1, 0) if image_proved(kind) else (0, 1)
    if asked.prove:
        return failed
    if not asked.wrong and not failed and kind.is_there():
        ran = boots(kind, asked.all)
        passed, failed = passed + ran[0], failed + ran[1]
    if not kind.is_there() and not failed:
        print(f"console: no {kind.qemu} here: nothing was booted")
        return LEFT_OUT_ALL
    print(f"console: {passed} passed, {failed} failed")
    return 1 if failed or not passed else 0


if __name__ == "__main__":
    sys.exit(main())
