#!/usr/bin/env python3
"""Boots the proved program in QEMU, and gives its standard output, standard error and status, as if it were the program:

    metal/boot.py [--machine MACHINE] [--processors N] [--parallel] [--memory MIB] [--image IMAGE] [--] WORD.. < PLAN

Without N the machine has as many processors as the plan or the command has CPUs. Each is a thread of QEMU's own; where this computer has fewer cores,
and nobody says --parallel, one thread runs them by turns. The machine has 512 MiB if nothing else is said. MACHINE is x86_64, riscv64 or aarch64;
metal/build.py makes its image, metal/out/tower.elf or of that machine. QEMU is wanted (Debian: qemu-system-x86, qemu-system-misc, qemu-system-arm). Where
the program did not end the run, the last line on standard error says why, and the status is one of these:

    117  it did not end in the seconds that METAL_SECONDS names, or 300
    118  QEMU ended by itself, or did not begin
    119  there was too little memory for the plan, or for a stack and a heap
    120  the words were too long
    121  a processor did not come, or the machine has no timer, or lacks what the host needs
    122  every thread waited
    124  the program aborted
    125  an exception: a full stack, an instruction that is none, ..

metal/booted is this with all words for the program, for a test that takes a PROGRAM: tests/plans.sh metal/booted.
"""
import argparse
import os
import sys
from pathlib import Path

sys.dont_write_bytecode = True
import machine  # noqa: E402

OUT = Path(__file__).resolve().parent / "out"


def main():
    read = argparse.ArgumentParser(description=__doc__, formatter_class=argparse.RawDescriptionHelpFormatter)
    read.add_argument("--processors", type=int, metavar="N", default=int(os.environ.get("METAL_PROCESSORS", 0)))
    read.add_argument("--parallel", dest="by_turns", action="store_false", default=None)
    read.add_argument("--memory", type=int, metavar="MIB", default=512)
    read.add_argument("--image", type=Path)
    read.add_argument("--machine", choices=machine.MACHINES, default=machine.PC.name)
    read.add_argument("words", nargs=argparse.REMAINDER, metavar="WORD")
    asked = read.parse_args()
    it = machine.MACHINES[asked.machine]
    image = asked.image or OUT / it.image
    if not it.is_there():
        sys.exit(f"metal: there is no {it.qemu}")
    if not image.exists():
        sys.exit(f"metal: there is no {image}: metal/build.py makes it")
    words = asked.words[1:] if asked.words[:1] == ["--"] else asked.words
    plan = b"" if sys.stdin.isatty() else sys.stdin.buffer.read()
    status, out, err = machine.booted(image, words, plan, asked.processors, asked.memory, by_turns=asked.by_turns, machine=it)
    sys.stdout.buffer.write(out)
    sys.stdout.flush()
    sys.stderr.buffer.write(err)
    return status


if __name__ == "__main__":
    sys.exit(main())
