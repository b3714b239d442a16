#!/usr/bin/env python3
"""Proves and builds all crates: libraries in parallel, each after those that it depends on, then the program, and runs a `count` with it.

    tools/prove-all.py [JOBS]

`rt lib` in one crate locks the crates below it, so several such commands would wait for each other. Here one process holds all locks, as `rt all` does, but
without its first pass over all sources. It begins with the crate below the longest chain, by the minutes of proof of each crate (docs/GATE.md), and gives that
crate the processors that no other can use. It uses JOBS processors (default: all). It keeps what it proves, so you can interrupt it and start it again.
"""
import argparse
import glob
import os
import re
import subprocess
import sys
import time
from concurrent.futures import FIRST_COMPLETED, ThreadPoolExecutor, wait
from pathlib import Path

sys.dont_write_bytecode = True
import kit  # noqa: E402, of this folder

ROOT = os.path.dirname(os.path.dirname(os.path.realpath(__file__)))
PROGRAM = "mctower"
BUSY = 1.8  # processors that the proof of one crate keeps busy, where it has more


def minutes_of(crates):
    """Returns the minutes of proof of each crate, by name: of the table of docs/GATE.md, or else by its lines beside those of the crates there."""
    rows = re.findall(r"^\| `(\w+)` \|(?:[^|]*\|){2} ([\d.]+) \|", Path(ROOT, "docs/GATE.md").read_text(), re.MULTILINE)
    told = {name: float(minutes) for name, minutes in rows}
    lines = {it.name: lines_of(it.folder) for it in crates}
    known = [name for name in lines if name in told]
    for_a_line = sum(told[name] for name in known) / sum(lines[name] for name in known) if known else 0.001
    return {name: told.get(name, count * for_a_line) for name, count in lines.items()}


def lines_of(folder):
    """Returns how many lines the sources and the proofs of a crate have, at least 1."""
    parts = [f"{folder}/{part}/**/*.{kind}" for part in ("src", "specs", "proofs") for kind in ("rt", "antt")]
    return max(1, sum(Path(it).read_bytes().count(b"\n") for part in parts for it in glob.glob(part, recursive=True)))


def chains_of(crates, minutes):
    """Returns, by name, the minutes of the longest chain of crates that begins at each and goes up."""
    chains = {}
    for crate in reversed(crates):  # each is behind those beneath it
        above = [chains[it.name] for it in crates if it.name in chains and crate in it.below()]
        chains[crate.name] = minutes[crate.name] + max(above, default=0)
    return chains


def told_of(minutes, chains, lanes):
    """Returns a line of what is to be done, and about how long it takes."""
    clock = max(sum(minutes.values()) / lanes, max(chains.values()) / min(lanes, BUSY))
    about = 5 * max(1, round(clock / 5))
    return f"proves {len(minutes)} crates; about {about} minutes on {lanes} idle {'core' if lanes == 1 else 'cores'}, less over kept work"


def build(crate, jobs):
    """Proves and builds a library over kept work, and returns whether it stands. What the prover said is in its out/."""
    began = time.monotonic()
    os.makedirs(f"{crate.folder}/out", exist_ok=True)
    with open(f"{crate.folder}/out/said", "w") as crate.out:
        failed = crate.build_rlib(["--jobs", str(jobs)], anew=False)
    print(f"{crate.name}: {f'FAILED, see {crate.folder}/out/said' if failed else 'proved'}, {time.monotonic() - began:.0f} s", flush=True)
    return not failed


def build_all(crates, chains, lanes):
    """Builds these crates, as many side by side as there are lanes, those beneath the longest chains first, and returns whether all stand."""
    left = sorted(crates, key=lambda it: -chains[it.name])
    standing, running, sound = set(), {}, True
    with ThreadPoolExecutor(lanes) as pool:
        while running or (left and sound):
            ready = [it for it in left if sound and standing.issuperset(it.below())]
            idle = lanes - len(running)
            for at, crate in enumerate(ready[: max(idle, 0)]):
                # the first is the lowest of the longest chain: it gets what no other can use now. Crates that become ready meanwhile begin all the same
                jobs = 1 if at else 1 + max(0, idle - len(ready))
                left.remove(crate)
                running[pool.submit(build, crate, jobs)] = crate
            for it in wait(running, return_when=FIRST_COMPLETED).done:
                crate = running.pop(it)
                sound = it.result() and sound
                standing.add(crate)
    return sound


def main():
    read = argparse.ArgumentParser(description=__doc__, formatter_class=argparse.RawDescriptionHelpFormatter)
    read.add_argument("jobs", nargs="?", type=int, default=len(os.sched_getaffinity(0)), metavar="JOBS")
    lanes = read.parse_args().jobs
    lib = kit.load()
    program = next(it for it in lib.crates_below(ROOT) if it.name == PROGRAM)
    crates = [*program.below(), program]
    minutes = minutes_of(crates)
    chains = chains_of(crates, minutes)
    print(told_of(minutes, chains, lanes), flush=True)
    held = lib.lock(program.below())
    sound = build_all(program.below(), chains, lanes)
    for it in held:
        os.close(it)
    if not sound:
        return 1
    # guarded as each check above is: it ends with this process, however this ends, and lets go of the crates
    words = [*lib.guarded(), "rt", "run", "--jobs", str(lanes), "--", *"count --cpus 2 --times 3".split()]
    return subprocess.run(words, cwd=program.folder).returncode


if __name__ == "__main__":
    sys.exit(main())
