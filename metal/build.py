#!/usr/bin/env python3
"""Makes metal/out/tower.elf: the proved program, as a PC boots it with no operating system.

    metal/build.py                             of the object that the native program is linked from, crates/mctower/out/mctower.o
    metal/build.py --object OBJECT             of another, as crates/mctower/out/mctower.by-rattle.o, which `rt ci` leaves
    metal/build.py --machine riscv64           for QEMU's `virt` of RISC-V, of the program's LLVM module: metal/out/tower-riscv64.elf
    metal/build.py --machine aarch64           for QEMU's `virt` of Arm: metal/out/tower-aarch64.img
    metal/build.py --iso DISK                  a disk too, which GRUB boots: a shell with the plans of plans/
    metal/build.py --iso DISK PLAN WORD..      a disk that runs these words on that plan
    metal/build.py --trial                     trial.c in the place of the program: metal/out/trial-x86_64.elf, or of that machine

It links the object with metal/host in the place of an operating system and a C library, by the kit's clang and linker, in a second. tools/prove-all.py,
`rt run` and `rt ci` leave the object. It is kept in the folder mctower-objects of the user's cache, by the sum of the program that was linked from it; so it is
there too where `rt ci` took that very program from its store. So is the module, which another machine's object is made of in twenty seconds. Else each is
built anew, over what is kept in crates/*/out: a minute and a half of processor time, or the time of the program's proof where nothing is kept. A disk wants
grub-mkrescue (Debian: grub-pc-bin, grub-efi-amd64-bin, xorriso, mtools).
"""
import argparse
import functools
import hashlib
import os
import re
import shutil
import subprocess
import sys
import tempfile
from pathlib import Path

sys.dont_write_bytecode = True
ROOT = Path(__file__).resolve().parent.parent
METAL, HOST, OUT = ROOT / "metal", ROOT / "metal/host", ROOT / "metal/out"
PROGRAM, OBJECT = ROOT / "crates/mctower/out/mctower", ROOT / "crates/mctower/out/mctower.o"
sys.path += [str(ROOT / "tools"), str(ROOT / "web")]
import kit  # noqa: E402
from machine import MACHINES, PC  # noqa: E402

# What each machine's code is compiled for. The host's is compiled with CHECKED too; no code keeps a red zone on its stack but the program's.
TARGETS = {
    "x86_64": "--target=x86_64-unknown-none-elf -march=x86-64 -mno-red-zone".split(),
    "riscv64": "--target=riscv64-unknown-none-elf -march=rv64gc -mabi=lp64d -mcmodel=medany".split(),
    "aarch64": "--target=aarch64-unknown-none-elf -march=armv8-a -mtp=el1 -mno-outline-atomics -mstrict-align".split(),  # before there are pages
}
CHECKED = """-O2 -ffreestanding -fno-builtin -fno-pic -fno-stack-protector -fno-asynchronous-unwind-tables -nostdinc -Wall -Wextra
    -Wno-unused-parameter -Werror --no-default-config -c""".split()
OF_HOST = {"x86_64": ["-mgeneral-regs-only"], "riscv64": [], "aarch64": ["-mgeneral-regs-only"]}  # its own C code runs before floats are on
PORTED = "-O2 -ffunction-sections -fdata-sections --no-default-config -fno-pic -Wno-override-module -x ir -c".split()
LINK = "--gc-sections --fatal-warnings -z max-page-size=4096".split()
PLACES = {"x86_64": 0x100000, "riscv64": 0x80200000, "aarch64": 0x40200000}  # of the image: behind the firmware, and where a loader takes it to

# What is of x86-64 in the module, and what stands for it: its layout, its name, the probes of its stack, its processor, and the pause of a thread that spins.
LAYOUTS = {
    "riscv64": "e-m:e-p:64:64-i64:64-i128:128-n32:64-S128",
    "aarch64": "e-m:e-p270:32:32-p271:32:32-p272:64:64-i8:8:32-i16:16:32-i64:64-i128:128-n32:64-S128-Fn32",
}
PROCESSORS = {"riscv64": '"target-cpu"="generic-rv64" "target-features"="+m,+a,+f,+d,+c"', "aarch64": '"target-cpu"="generic"'}
PAUSES = {"riscv64": 'call void asm sideeffect ".word 0x0100000F", ""()', "aarch64": 'call void asm sideeffect "yield", ""()'}
MENU = """set timeout=0
if [ "$grub_platform" = efi ]; then insmod all_video; else set gfxpayload=text; fi
menuentry "the verified thread tower" {{
  multiboot /boot/tower.elf tower {words}
  {module}
}}
"""


def run(*words, **how):
    """Runs a command; one that fails ends the build."""
    try:
        status = subprocess.run([str(word) for word in words], check=False, **how).returncode
    except FileNotFoundError:
        sys.exit(f"metal: there is no {words[0]}")
    if status:
        sys.exit(f"metal: {words[0]} ended with {status}")


@functools.cache
def kit_module():
    """The kit's own module. It is loaded once, since each load starts a process that watches this one."""
    return kit.load()


def tool(name):
    """A program of the kit's toolchain."""
    return Path(kit_module().KIT, "toolchain/bin", name)


def compiled(source, room, machine, host, flags=()):
    """Compiles a file of the host, or what is in the place of the program; returns its object."""
    made = room / f"{source.name}.o"
    run(tool("clang"), *TARGETS[machine.name], *CHECKED, f"-I{host}", f"-I{host / machine.name}", *flags, source, "-o", made)
    return made


def with_plans(room):
    """A table of the stored plans, for the shell: by each name, where its text begins and ends."""
    rows, texts = [], []
    for number, path in enumerate(sorted((ROOT / "plans").glob("*.toml"))):
        rows.append(f".quad name{number}, text{number}, text{number + 1}")
        texts += [f'text{number}: .incbin "{path}"', f'.pushsection .rodata; name{number}: .asciz "{path.name}"; .popsection']
    table = room / "plans.S"
    lines = [".section .rodata.plans, \"a\"", ".global plans, plans_end", ".balign 8", "plans:", *rows, "plans_end:", *texts, f"text{len(rows)}:"]
    table.write_text("\n".join(lines) + "\n")
    return table


def linked(program, out, host=HOST, machine=PC, flags=()):
    """Links the program's object, or what is compiled in its place, with a host."""
    with tempfile.TemporaryDirectory() as folder:
        room, own = Path(folder), host / machine.name
        sources = [own / "start.S", *sorted(host.glob("*.c")), *sorted(own.glob("*.c")), with_plans(room)]
        sources += [] if machine is PC else [host / "by_tree/tree.c"]
        objects = [compiled(source, room, machine, host, [*flags, *(OF_HOST[machine.name] if source.suffix == ".c" else [])]) for source in sources]
        objects.append(compiled(program, room, machine, host, flags) if program.suffix == ".c" else program)
        out.parent.mkdir(exist_ok=True)
        raw = ["--oformat", "binary"] if machine.name == "aarch64" else []
        run(tool("ld.lld"), *LINK, *raw, f"--defsym=image_start={PLACES[machine.name]}", "-T", host / "link.ld", "-o", out, *objects)


def object_built(room):
    """Builds the program's object anew, over what is kept of the crates' checks."""
    program = next(crate for crate in kit_module().crates_below(str(ROOT)) if crate.name == "mctower")
    made = room / "mctower.o"
    words = [*program.words(["--jobs", "1"]), "--toolchain", tool("clang").parent.parent, "--backend", "llvm", *kit_module().KEPT, "-o", made]
    run(kit_module().RATTLE, "build", *words, cwd=program.folder, stdout=subprocess.DEVNULL)
    return made


def place_in_cache(suffix):
    """Where the object is kept that the program was linked from, or its module."""
    cache = Path(os.environ.get("XDG_CACHE_HOME") or Path.home() / ".cache")
    return cache / "mctower-objects" / f"{hashlib.sha256(PROGRAM.read_bytes()).hexdigest()}{suffix}"


def keep(made, place):
    """Keeps an object or a module, in the place of those of other programs."""
    place.parent.mkdir(parents=True, exist_ok=True)
    for old in place.parent.iterdir():
        if old.stem != place.stem:
            old.unlink()
    with tempfile.NamedTemporaryFile(dir=place.parent, delete=False) as file:
        file.write(made.read_bytes())
    os.replace(file.name, place)


def object_of(given, room):
    """The program's object: a given one, the one beside the program, the one that is kept, or a new one."""
    if given:
        return given if given.exists() else sys.exit(f"metal: there is no {given}")
    if not PROGRAM.exists():
        return OBJECT if OBJECT.exists() else object_built(room)
    place = place_in_cache(".o")
    if not place.exists() or OBJECT.exists():
        keep(OBJECT if OBJECT.exists() else object_built(room), place)
    return place


def has_module():
    """Whether the program's module is kept."""
    return PROGRAM.exists() and place_in_cache(".bc").exists()


def module_of(room):
    """The program's LLVM module: the one that is kept, or a new one."""
    if has_module():
        return place_in_cache(".bc")
    import module  # it asks for the kit
    made = Path(module.llvm_module(kit_module(), room))
    if PROGRAM.exists():
        keep(made, place_in_cache(".bc"))
    return made


def ported(module, room, machine):
    """The object of a module for another machine."""
    read = ["--target=x86_64-unknown-linux-gnu", "-x", "ir", "-S", "-emit-llvm", "-Xclang", "-disable-llvm-passes"]
    run(tool("clang"), *read, module, "-o", room / "x86.ll")
    text = (room / "x86.ll").read_text()
    for pattern, instead in [
        (r"^target datalayout = .*", f'target datalayout = "{LAYOUTS[machine.name]}"'),
        (r"^target triple = .*", f'target triple = "{machine.name}-unknown-none-elf"'),
        (r' "probe-stack"="inline-asm"| "stack-probe-size"="\d+"', ""),
        (r'"target-cpu"="[^"]*"( "target-features"="[^"]*")?', PROCESSORS[machine.name]),
        (r"call void @llvm.x86.sse2.pause\(\)", PAUSES[machine.name]),
    ]:
        text = re.sub(pattern, lambda _, instead=instead: instead, text, flags=re.M)
    (room / "port.ll").write_text(text)
    run(tool("clang"), *TARGETS[machine.name], *PORTED, room / "port.ll", "-o", room / "port.o")
    return room / "port.o"


def program_of(given, room, machine):
    """The program's object for a machine. Another machine's is made of the module."""
    if given or machine is PC:
        return object_of(given, room)
    kept = OUT / f"program-{machine.name}-{place_in_cache('').name}.o" if PROGRAM.exists() else None
    if kept and kept.exists():
        return kept
    made = ported(module_of(room), room, machine)
    if kept:
        OUT.mkdir(exist_ok=True)
        shutil.copyfile(made, kept)
    return made


def image_of(machine):
    return OUT / machine.image


def trial_of(machine):
    return OUT / f"trial-{machine.name}{Path(machine.image).suffix}"


def tower(given, out, machine=PC):
    """Makes the image of the program."""
    with tempfile.TemporaryDirectory() as room:
        linked(program_of(given, Path(room), machine), out, machine=machine)


def trial(out, machine=PC, flags=()):
    """Makes the image of trial.c."""
    linked(METAL / "trial.c", out, machine=machine, flags=flags)


def in_menu(word):
    """A word as GRUB's menu reads it."""
    if not word or "\n" in word:
        sys.exit("metal: a menu of GRUB has no empty word, and none of two lines")
    return "'" + word.replace("'", "'\\''") + "'"


def disk(image, out, plan=None, *words):
    """Makes a disk for GRUB, with the image, a plan and words; or with the shell."""
    with tempfile.TemporaryDirectory() as room:
        boot = Path(room, "boot")
        (boot / "grub").mkdir(parents=True)
        shutil.copyfile(image, boot / "tower.elf")
        if plan:
            shutil.copyfile(plan, boot / "plan.toml")
        module = "module /boot/plan.toml" if plan else ""
        (boot / "grub/grub.cfg").write_text(MENU.format(words=" ".join(map(in_menu, words or ["shell"])), module=module))
        run("grub-mkrescue", "-o", out, room, stderr=subprocess.DEVNULL)


def main():
    read = argparse.ArgumentParser(description=__doc__, formatter_class=argparse.RawDescriptionHelpFormatter)
    read.add_argument("--object", type=Path)
    read.add_argument("--machine", choices=MACHINES, default=PC.name)
    read.add_argument("--out", type=Path, metavar="IMAGE")
    read.add_argument("--iso", nargs=argparse.REMAINDER, metavar="WORD")
    read.add_argument("--trial", action="store_true")
    asked = read.parse_args()
    machine = MACHINES[asked.machine]
    if asked.iso is not None and (not asked.iso or machine is not PC):
        read.error("--iso wants the name of a disk, and perhaps a plan and the program's words, for a PC")
    out = asked.out or (trial_of(machine) if asked.trial else image_of(machine))
    if asked.trial:
        return trial(out, machine)
    tower(asked.object, out, machine)
    print(f"{out}: {out.stat().st_size} bytes")
    if asked.iso:
        disk(out, *asked.iso)


if __name__ == "__main__":
    main()
