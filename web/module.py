"""The proved program `mctower` as WebAssembly.

`rattle build` checks the program over the work that is kept in crates/*/out, and gives one LLVM module to the clang of the folder that --toolchain
names. Here that clang keeps the module. The kit's own clang and linker make WebAssembly with a 64-bit memory of it, with libc.c in place of a C
library, and lower.py one with a 32-bit memory. Nothing proves libc.c, the compilers, the substitutions here, or lower.py. It takes a minute and a
half of processor time and 1.5 GB.
"""
import re
import subprocess
import sys
import tempfile
from pathlib import Path

import lower

ROOT = Path(__file__).resolve().parent.parent
sys.path.append(str(ROOT / "tools"))
import kit  # noqa: E402

# The flags that rattle gives its clang for wasm64, and the linker's.
COMPILE = """--target=wasm64-unknown-unknown -mcpu=lime1 -mllvm -expand-div-rem-bits=64 -mllvm -expand-fp-convert-bits=64 -ffunction-sections
    -fdata-sections -mllvm -trap-unreachable -mllvm -disable-machine-licm -mllvm -disable-postra-machine-licm -mllvm -sink-common-insts=false
    --no-default-config -no-canonical-prefixes -fno-crash-diagnostics -Werror -c""".split()
COMPILE_C = "-O2 -fwrapv -ffreestanding -nostdinc -x c".split()
LINK = """-flavor wasm -mwasm64 --no-entry --stack-first -z stack-size=4194304 --gc-sections --fatal-warnings --threads=1 --strip-all
    --export=page_main --export=page_input --export=page_words --export=page_kept --export=page_kept_len""".split()
LAYOUT = "e-m:e-p:64:64-p10:8:8-p20:8:8-i64:64-i128:128-n32:64-S128-ni:1:10:20"

# What is of x86-64 in the module, and what stands for it: its layout and its name, the probes of its stack, its processor, and the pause of a
# thread that spins. The program's main gets another name, since clang changes C's main.
FOR_WASM = [
    (r"^target datalayout = .*", f'target datalayout = "{LAYOUT}"'),
    (r"^target triple = .*", 'target triple = "wasm64-unknown-unknown"'),
    (r' "probe-stack"="inline-asm"| "stack-probe-size"="\d+"', ""),
    (r'"target-cpu"="[^"]*"', '"no-builtin-bcmp" "no-builtin-memcmp" "no-builtin-strlen" "target-cpu"="lime1"'),
    (r"^ *call void @llvm.x86.sse2.pause\(\)\n", ""),
    (r" @main\(", " @page_program("),
]


def run(*words, **how):
    """Runs a command; one that fails ends the build."""
    ran = subprocess.run([str(word) for word in words], check=False, **how)
    if ran.returncode:
        sys.exit(f"web: {words[0]} ended with {ran.returncode}")


def keeping_toolchain(tools, room, kept):
    """A folder like the kit's toolchain, whose clang keeps the module that it is given."""
    folder = room / "toolchain"
    (folder / "bin").mkdir(parents=True)
    (folder / "lib").symlink_to(tools / "lib")
    for tool in (tools / "bin").iterdir():
        if tool.name != "clang":
            (folder / "bin" / tool.name).symlink_to(tool)
    clang = folder / "bin/clang"
    clang.write_text(f'#!/bin/sh\nfor word; do case "$word" in *.bc) cp "$word" {kept};; esac; done\nexec {tools}/bin/clang "$@"\n')
    clang.chmod(0o755)
    return folder


def llvm_module(kit_module, room):
    """The LLVM module of the proved program, as rattle writes it."""
    program = next(crate for crate in kit_module.crates_below(str(ROOT)) if crate.name == "mctower")
    kept = room / "program.bc"
    tools = keeping_toolchain(Path(kit_module.KIT, "toolchain"), room, kept)
    words = [*program.words(["--jobs", "1"]), "--toolchain", tools, "--backend", "llvm", *kit_module.KEPT, "-o", room / "program.o"]
    run(kit_module.RATTLE, "build", *words, cwd=program.folder, stdout=subprocess.DEVNULL)
    return kept


def for_wasm(text):
    """The text of an LLVM module for x86-64, made one for WebAssembly."""
    for pattern, instead in FOR_WASM:
        text = re.sub(pattern, instead, text, flags=re.M)
    return text


def wasm64(tools, module, room):
    """An LLVM module of the program as WebAssembly with a 64-bit memory."""
    clang = tools / "bin/clang"
    read = ["--target=x86_64-unknown-linux-gnu", "-x", "ir", "-S", "-emit-llvm", "-Xclang", "-disable-llvm-passes"]
    run(clang, *read, module, "-o", room / "x86.ll")
    (room / "page.ll").write_text(for_wasm((room / "x86.ll").read_text()))
    run(clang, *COMPILE, "-Oz", "-x", "ir", room / "page.ll", "-o", room / "page.o")
    run(clang, *COMPILE, *COMPILE_C, ROOT / "web/libc.c", "-o", room / "libc.o")
    run(tools / "bin/ld.lld", *LINK, "-o", room / "page.wasm", room / "page.o", room / "libc.o")
    return (room / "page.wasm").read_bytes()


def built():
    """The program as WebAssembly for any browser of today, and the one-line identity of the kit."""
    kit_module = kit.load()
    identity = subprocess.run(["rt", "version"], stdout=subprocess.PIPE, text=True, check=True).stdout.strip()
    with tempfile.TemporaryDirectory() as folder:
        room = Path(folder)
        module = llvm_module(kit_module, room)
        return lower.lowered(wasm64(Path(kit_module.KIT, "toolchain"), module, room)), identity
