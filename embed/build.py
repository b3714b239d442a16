#!/usr/bin/env python3
"""Makes embed/out: the proved program and its host as a library for C, with its header and its pkg-config file.

    embed/build.py                      proves embed/crate over the libraries that are proved, and links; does nothing if nothing has changed
    embed/build.py --jobs N             with N processors (default: 1)
    embed/build.py --beside-ci          the same, while an `rt ci` that has proved these libraries is still at work; the gate's
    embed/build.py --install PREFIX     copies the library, the header, the pkg-config file and the man page to PREFIX/lib, include, and share/man
    embed/build.py --trial              embed/out/trial: the host over trial.c, in place of the proved program; needs no toolchain

tools/prove-all.py proves the libraries, and so does `rt ci`. embed/crate is no crate of the workspace, since it declares C functions, which `rt ci` rejects.
Its files end in .in, since `rt ci` rejects .rt and .antt files outside of a crate. What its check proves is kept in embed/out/incremental, and the object in
embed/out, with the sum of all that it was made from. It needs cc, ld, ar, objcopy (Debian: gcc, binutils) and the toolchain (`rt`), on x86-64 Linux.
"""
import argparse
import hashlib
import os
import platform
import re
import shlex
import shutil
import subprocess
import sys
import tempfile
import time
from pathlib import Path

sys.dont_write_bytecode = True
ROOT = Path(__file__).resolve().parent.parent
EMBED = ROOT / "embed"
NOTHING = 77  # the status of a script of the gate that has nothing to do here
CRATE, HOST, OUT = EMBED / "crate", EMBED / "host", EMBED / "out"
NAME, USES, OF_KIT = "embed", ("event_log", "layer_traits", "cpu", "cpu_workers"), "arrayvec"
FOREIGN = {"tower_host_plan", "tower_host_next", "tower_host_left", "tower_host_end"}
# What the proved program calls of the C library, and what it calls here.
HOSTED = {
    "main": "tower_program", "pthread_create": "tower_host_create", "pthread_join": "tower_host_join", "pthread_detach": "tower_host_detach",
    "pthread_self": "tower_host_self", "pthread_attr_init": "tower_host_attributes_begin", "pthread_attr_destroy": "tower_host_attributes_end",
    "pthread_attr_setguardsize": "tower_host_guard", "pthread_attr_setstacksize": "tower_host_stack", "_exit": "tower_host_exit",
    "sched_yield": "tower_host_yield", "syscall": "tower_host_syscall", "__sysv_signal": "tower_host_signal",
}
COMPILE = "-std=c11 -O2 -g -fPIC -Wall -Wextra -Werror".split()
PKG_CONFIG = """prefix={prefix}
Name: tower
Description: bounded FIFO buffers between threads, proved
Version: {version}
Libs: -L{libraries} -ltower
Libs.private: -lpthread
Cflags: -I{headers}
"""


def compiler():
    """The words of the C compiler."""
    return shlex.split(os.environ.get("CC") or "cc")


def missing(with_toolchain=True):
    """The tools that are not here."""
    tools = [compiler()[0], "ld", "ar", "objcopy", *["rt"] * with_toolchain]
    return [it for it in tools if not shutil.which(it)]


def run(*words, **how):
    """Runs a command; one that fails ends the build."""
    status = subprocess.run([str(word) for word in words], check=False, **how).returncode
    if status:
        sys.exit(f"embed: {words[0]} ended with {status}")


def version():
    return re.search(r'TOWER_VERSION "([\d.]+)"', (EMBED / "tower.h").read_text())[1]


def public_functions():
    """The functions that the header declares."""
    return sorted(set(re.findall(r"^(?:int|const char \*) ?\*?(tower_\w+)\(", (EMBED / "tower.h").read_text(), re.M)))


# ---- the proof


def laid_out(lib, room):
    """Lays the crate into a folder, over the tree's own libraries; returns what the kit calls a crate."""
    folder = Path(room, "crates", NAME)
    for path in sorted(CRATE.rglob("*.in")):
        made = folder / path.relative_to(CRATE).with_suffix("")
        made.parent.mkdir(parents=True, exist_ok=True)
        shutil.copyfile(path, made)
    (folder / "c").mkdir(parents=True)
    Path(room, "crates.txt").write_text(f"{NAME}: {OF_KIT}\n")
    os.environ[lib.ALLOW_C] = NAME
    crate = lib.Crate(str(folder), str(room), {})
    known = {it.name: it for it in lib.crates_below(str(ROOT / "crates"))}
    crate.deps = [known[name] for name in USES]
    return crate


def unproved(lib, crate):
    """The libraries below that are not there as they are now. `rt ci` leaves libraries without a stamp."""
    return [it.name for it in crate.below() if not it.is_built() and (not os.path.isdir(it.rlib) or os.path.exists(f"{it.folder}/out/rlib/stamp"))]


def sum_of_inputs(lib, crate):
    """A sum of all that the object is made from."""
    found = hashlib.sha256(Path(lib.KIT, "WHAT").read_bytes())
    for path in sorted(CRATE.rglob("*.in")):
        found.update(repr((str(path.relative_to(CRATE)), path.read_bytes())).encode())
    found.update(repr([it.stamp() for it in crate.below()]).encode())
    return found.hexdigest()


def is_as_proved(line):
    """Whether the last line of a check says what it has to: proved, with these C functions and no others."""
    words = dict(it.partition("=")[::2] for it in line.split())
    named = set(re.findall(r"tower_host_\w+", words.get("foreign", "")))
    many = re.search(r"\((\d+)\)|^(\d+)$", words.get("foreign", ""))
    count = int(many[1] or many[2]) if many else len(named)
    is_whole = named <= FOREIGN and count == len(FOREIGN) and "bugs" not in words and "hides" not in words
    return words.get("logic") == "proved" and words.get("main") == "Threads+Wait" and is_whole


def object_built(lib, crate, made, jobs):
    """Proves the crate and compiles it; returns the last line of the check. What the prover said is in embed/out/said."""
    words = [*crate.words(["--jobs", str(jobs)]), "--toolchain", f"{lib.KIT}/toolchain", "--backend", "llvm"]
    words += ["--empty-contracts"] * ("--empty-contracts" in lib.help_of("build"))
    said = OUT / "said"
    with said.open("w") as file:
        how = {"cwd": crate.folder, "stdin": subprocess.DEVNULL, "stdout": file, "stderr": subprocess.STDOUT}
        ran = subprocess.run([*lib.guarded(), lib.RATTLE, "build", *words, "--incremental", str(OUT / "incremental"), "-o", str(made)], check=False, **how)
    lines = said.read_text(errors="replace").rstrip("\n").split("\n")
    if ran.returncode or not is_as_proved(lines[-1]):
        sys.exit("\n".join([*lines[-40:], f"embed: not proved: {said.relative_to(ROOT)} has all that the prover said"]))
    return lines[-1]


def proved_object(jobs, beside_ci=False):
    """Returns the object of the proved program, which is made anew only if something that it is made from has changed. `rt ci` holds the libraries until its
    end, and writes none that it has proved."""
    import kit  # pylint: disable=import-outside-toplevel,import-error
    lib = kit.load()
    OUT.mkdir(exist_ok=True)
    (OUT / "incremental").mkdir(exist_ok=True)
    with tempfile.TemporaryDirectory() as room:
        crate = laid_out(lib, room)
        if lost := unproved(lib, crate):
            sys.exit(f"embed: these libraries are not proved: {' '.join(lost)}; tools/prove-all.py proves them, in half an hour on 4 cores")
        made, kept, wanted = OUT / "program.o", OUT / "program.sum", sum_of_inputs(lib, crate)
        if made.exists() and kept.exists() and kept.read_text() == wanted:
            return made
        began = time.monotonic()
        print("embed: proves embed/crate", flush=True)
        kept.unlink(missing_ok=True)
        held = [] if beside_ci else lib.lock(crate.below())
        last = object_built(lib, crate, made, jobs)
        for it in held:
            os.close(it)
        kept.write_text(wanted)
        print(f"embed: {last}\nembed: proved and compiled in {time.monotonic() - began:.0f} s", flush=True)
    return made


# ---- the library


def host_objects(room, flags, host):
    """Compiles the host."""
    objects = []
    for source in [*sorted(host.glob("*.c")), host / "switch.S"]:
        objects.append(room / f"host-{source.stem}.o")
        run(*compiler(), *(COMPILE if source.suffix == ".c" else []), *flags, "-c", source, "-o", objects[-1])
    return objects


def linked(program, out, flags=(), archives=(), host=HOST):
    """Links an object of the program with the host, and hides all names but the header's."""
    out.mkdir(parents=True, exist_ok=True)
    with tempfile.TemporaryDirectory() as folder:
        room = Path(folder)
        run("objcopy", *(f"--redefine-sym={old}={new}" for old, new in HOSTED.items()), program, room / "proved.o")
        run("ld", "-r", "-o", room / "all.o", room / "proved.o", *host_objects(room, flags, host), *archives)
        run("objcopy", *(f"--keep-global-symbol={it}" for it in public_functions()), room / "all.o", room / "tower.o")
        (out / "libtower.a").unlink(missing_ok=True)
        run("ar", "rcs", out / "libtower.a", room / "tower.o")
        run(*compiler(), *flags, "-shared", "-Wl,-soname,libtower.so", "-o", out / "libtower.so", room / "tower.o", "-lpthread")
    shutil.copyfile(EMBED / "tower.h", out / "tower.h")
    (out / "tower.pc").write_text(PKG_CONFIG.format(prefix="${pcfiledir}", libraries="${prefix}", headers="${prefix}", version=version()))


def trial_object(room, *flags):
    """Compiles trial.c, in place of the program's object."""
    made = Path(room, "trial.o")
    run(*compiler(), *COMPILE, *flags, "-c", EMBED / "trial.c", "-o", made)
    return made


def kit_archives():
    """The kit's C functions, which the program calls."""
    page = subprocess.run(["rt", "doc"], stdout=subprocess.PIPE, text=True, check=True).stdout.strip()
    return [f"{os.path.dirname(page)}/c/{name}" for name in ("libos_c.a", "liblibc_c.a")]


def built(jobs=1, beside_ci=False):
    """Makes embed/out, if it is not there as it has to be."""
    program = proved_object(jobs, beside_ci)
    inputs = [program, EMBED / "build.py", EMBED / "tower.h", *HOST.iterdir()]
    made = OUT / "libtower.so"
    if not made.exists() or max(it.stat().st_mtime for it in inputs) > made.stat().st_mtime:
        linked(program, OUT, archives=kit_archives())
    return OUT


def install(prefix):
    """Copies what a user needs to the usual folders below a prefix."""
    for folder, names in (("lib", ["libtower.a", "libtower.so"]), ("include", ["tower.h"])):
        (prefix / folder).mkdir(parents=True, exist_ok=True)
        for name in names:
            shutil.copy(OUT / name, prefix / folder / name)
    for folder in ("lib/pkgconfig", "share/man/man3"):
        (prefix / folder).mkdir(parents=True, exist_ok=True)
    text = PKG_CONFIG.format(prefix=prefix, libraries="${prefix}/lib", headers="${prefix}/include", version=version())
    (prefix / "lib/pkgconfig/tower.pc").write_text(text)
    shutil.copy(EMBED / "tower.3", prefix / "share/man/man3/tower.3")


def main():
    read = argparse.ArgumentParser(description=__doc__, formatter_class=argparse.RawDescriptionHelpFormatter)
    read.add_argument("--jobs", type=int, default=1, metavar="N")
    read.add_argument("--install", type=Path, metavar="PREFIX")
    read.add_argument("--beside-ci", action="store_true")
    read.add_argument("--trial", action="store_true")
    asked = read.parse_args()
    if (platform.system(), platform.machine()) != ("Linux", "x86_64"):
        sys.exit("embed: the host is for x86-64 Linux")
    if lost := missing(not asked.trial):
        print(f"embed: there is no {' and no '.join(lost)} here", file=sys.stdout if asked.beside_ci else sys.stderr)
        return NOTHING if asked.beside_ci else 1
    if asked.trial:
        with tempfile.TemporaryDirectory() as room:
            linked(trial_object(room), OUT / "trial")
        return 0
    built(asked.jobs, asked.beside_ci)
    print(f"embed: {OUT.relative_to(ROOT)}/libtower.a: {(OUT / 'libtower.a').stat().st_size} bytes")
    if asked.install:
        install(asked.install.resolve())
    return 0


sys.path.append(str(ROOT / "tools"))
if __name__ == "__main__":
    sys.exit(main())
