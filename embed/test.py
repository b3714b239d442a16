#!/usr/bin/env python3
"""Tries the library for C, Rust, Python and Go over the proved program. It builds embed/out first (embed/build.py), if it is not there as it has to be.

    embed/test.py                  all kinds; the gate's
    embed/test.py --only KIND..    these kinds only: names first scenes plus idle trial lacks valgrind race rust python go installed
                                   manual
    embed/test.py --library DIR    another library, as embed/out/trial

`scenes` are programs in C with rows, most of them wrong calls, each with its named status; `first` are the programs of embed/README.md; `plus` is C++; `idle`
measures what a receiver that waits takes of a processor; `trial` is the host without the proved program; `lacks` is on an emulated processor that lacks an
instruction (Debian: qemu-user); `race` is under ThreadSanitizer; `names` compares the numbers of the header, the host and the crate; `manual` reads the man
page; `installed` is what pkg-config says of an installed library. What is left out, since a tool is missing, is said in the last lines.
The last line is 'embed: N passed, M failed'. The status is 1 if one failed, and 77 if there is no C compiler.
"""
import argparse
import os
import re
import shutil
import signal
import subprocess
import sys
import tempfile
import time
from pathlib import Path

sys.dont_write_bytecode = True
import build  # noqa: E402

EMBED, ROOT = build.EMBED, build.ROOT
SCENES = EMBED / "scenes"
STRICT = "-std=c11 -D_GNU_SOURCE -g -Wall -Wextra -Werror".split()
MOST_TOLD = 2000
# Programs in C with the words that they are given, and how many seconds they have.
PROGRAMS = [("numbers", [], 100), ("wrong", [], 20), ("bytes", [], 20), ("pointers", [], 100), ("memory", [], 60), ("forked", [], 20), ("threads", [], 20),
            ("handovers", ["5000"], 110), ("crowd", ["800", "4", "4"], 100), ("stacks", ["64"], 60)]
SMALL = ["-DEACH=60"]
REJECTED = re.compile(r"// rejected: (.*)")


class Tried:
    """What was tried, over which library, and what differs."""

    def __init__(self, library, room):
        self.library, self.room, self.count, self.faults, self.left_out = library, room, 0, 0, []

    def holds(self, name, is_so, shown=""):
        self.count += 1
        if not is_so:
            self.faults += 1
            print(f"embed: not so: {name}\n{shown}"[:MOST_TOLD], flush=True)

    def has(self, tool, what):
        """Whether a tool is here; if not, it says what is left out."""
        if shutil.which(tool):
            return True
        self.left_out.append(f"{what}, since there is no {tool} here")
        return False

    def compiled(self, source, *flags, library=None):
        """Compiles a program over the library; returns it, or nothing after a row that says why."""
        made, library = self.room / f"{source.stem}-{self.count}", library or self.library
        words = [*build.compiler(), *STRICT] if source.suffix == ".c" else ["c++", "-g", "-Wall", "-Wextra", "-Werror"]
        ran = ended([*words, *flags, f"-I{library}", f"-I{SCENES}", source, library / "libtower.a", "-lpthread", "-o", made])
        if ran.returncode:
            self.holds(f"{source.name} compiles", False, ran.stdout)
        return None if ran.returncode else made

    def runs(self, name, words, seconds, wanted=0, **how):
        """A row: a program ends with this status in time. Returns what it printed."""
        try:
            ran = ended(words, timeout=seconds, **how)
        except subprocess.TimeoutExpired as late:
            self.holds(f"{name} ends in {seconds} s", False, (late.stdout or b"").decode(errors="replace"))
            return ""
        self.holds(f"{name} ends with status {wanted}", ran.returncode == wanted, f"status {ran.returncode}\n{ran.stdout}")
        return ran.stdout


def ended(words, **how):
    both = {"stdout": subprocess.PIPE, "stderr": subprocess.STDOUT, "stdin": subprocess.DEVNULL, "text": True, "errors": "replace"}
    return subprocess.run([str(it) for it in words], check=False, **both, **how)


def last_line(text):
    return (text.rstrip("\n").split("\n") or [""])[-1]


def first(tried):
    """The programs of README.md print what the page says, and the first has ten lines."""
    shown = re.findall(r"^```c\n(.*?)^```\n.*?^```text\n(.*?)^```", (EMBED / "README.md").read_text(), re.M | re.S)
    tried.holds("the first program has ten lines", shown[0][0].count("\n") == 10, shown[0][0])
    for number, (text, printed) in enumerate(shown):
        source = tried.room / f"first{number}.c"
        source.write_text(text)
        program = tried.compiled(source)
        if program:
            out = tried.runs(f"program {number} of README.md", [program], 20)
            tried.holds(f"program {number} prints what README.md says", out == printed, out)


def scenes(tried):
    for name, words, seconds in PROGRAMS:
        program = tried.compiled(SCENES / f"{name}.c")
        if program:
            began = time.monotonic()
            out = tried.runs(name, [program, *words], seconds)
            told = " ".join(out.strip().split("\n")[-2:])
            print(f"embed: {name}: {told}, {time.monotonic() - began:.1f} s", flush=True)


def plus(tried):
    """C++, by two standards, and a body that may throw."""
    if not tried.has("c++", "C++"):
        return
    for standard in ("c++11", "c++17"):
        program = tried.compiled(SCENES / "plus.cpp", f"-std={standard}")
        if program:
            tried.runs(f"plus by {standard}", [program], 20)
    ran = ended(["c++", "-std=c++17", f"-I{tried.library}", "-c", SCENES / "throws.cpp", "-o", tried.room / "throws.o"])
    tried.holds("C++17 rejects a body that may throw", ran.returncode and "noexcept" in ran.stdout, ran.stdout)
    program = tried.compiled(SCENES / "throws.cpp", "-std=c++11")
    if program:
        out = tried.runs("before C++17 an exception out of a body", [program], 20, -signal.SIGABRT)
        tried.holds("it ends in std::terminate", "terminate called" in out, out)


def idle(tried):
    """A receiver that waits is under a hundredth of a processor; and so are four."""
    program = tried.compiled(SCENES / "idle.c")
    for receivers in (1, 4) if program else ():
        out = tried.runs(f"idle, {receivers} receivers", [program, "2", str(receivers), "1"], 70)
        print(f"embed: idle: {', '.join(out.split(chr(10))[:2])}", flush=True)


def trial(tried):
    """The host without the proved program: a program that ends before it opens is a status; and some scenes."""
    for flags, programs in ((["-DENDS=1"], ["ended"]), ([], ["wrong", "threads", "bytes"])):
        folder = tried.room / f"trial-{programs[0]}"
        with tempfile.TemporaryDirectory() as room:
            build.linked(build.trial_object(room, *flags), folder)
        for name in programs:
            tried_over_host(tried, name, folder)


def lacks(tried):
    """On a processor that lacks an instruction (QEMU's emulation of one of 2006) the proved program gives a status, and the process continues."""
    program = tried.has("qemu-x86_64", "a processor of x86-64-v1") and tried.compiled(SCENES / "ended.c")
    if program:
        tried.runs("on a processor of x86-64-v1", ["qemu-x86_64", "-cpu", "qemu64", program], 60)


def tried_over_host(tried, name, folder):
    program = tried.compiled(SCENES / f"{name}.c", library=folder)
    if program:
        tried.runs(f"{name} over the host only", [program], 20)


def valgrind(tried):
    """No error and no leak in small scenes; and an access to a tower that was shut is reported."""
    if not tried.has("valgrind", "memory under valgrind"):
        return
    checked = ["valgrind", "--quiet", "--fair-sched=yes", "--error-exitcode=99"]
    for name, flags in (("numbers", SMALL), ("wrong", []), ("threads", [])):
        program = tried.compiled(SCENES / f"{name}.c", *flags)
        if program:
            began = time.monotonic()
            tried.runs(f"{name} under valgrind", [*checked, "--leak-check=full", "--errors-for-leak-kinds=all", program], 60)
            print(f"embed: valgrind: {name}, {time.monotonic() - began:.1f} s", flush=True)
    program = tried.compiled(SCENES / "gone.c")
    if program:
        out = tried.runs("a call after the end under valgrind", [*checked, program], 20, 99)
        tried.holds("valgrind says that the tower was freed", "free'd" in out, out)


def race(tried):
    """ThreadSanitizer is silent over a host that was compiled for it."""
    source = tried.room / "empty.c"
    source.write_text("int main(void) { return 0; }\n")
    if ended([*build.compiler(), "-fsanitize=thread", source, "-o", tried.room / "empty"]).returncode or ended([tried.room / "empty"]).returncode:
        tried.left_out.append("races under ThreadSanitizer, which the compiler does not have or which does not run here")
        return
    folder = tried.room / "race"
    build.linked(build.OUT / "program.o", folder, ["-fsanitize=thread"], build.kit_archives())
    for name, flags in (("pointers", ["-DEACH=2000"]), ("numbers", ["-DEACH=500"])):
        program = tried.compiled(SCENES / f"{name}.c", "-fsanitize=thread", *flags, library=folder)
        if program:
            out = tried.runs(f"{name} under ThreadSanitizer", [program], 60)
            tried.holds(f"ThreadSanitizer is silent about {name}", "WARNING" not in out, out)


def rust(tried):
    """The crate, its scene, its example, and programs that do not compile."""
    if not tried.has("rustc", "Rust"):
        return
    folder = EMBED / "rust"
    words = ["rustc", "--edition", "2021", "-O", "-D", "warnings"]
    made = tried.room / "libtower.rlib"
    ran = ended([*words, "--crate-type", "rlib", "--crate-name", "tower", "-L", f"native={tried.library}", "-o", made, folder / "src/lib.rs"])
    tried.holds("the crate compiles", ran.returncode == 0, ran.stdout)
    unsafe = re.findall(r"^(?!\s*//).*\bunsafe\b(.*)", (folder / "src/lib.rs").read_text(), re.M)
    called = re.compile(r" \{ (CStr::from_ptr\()?sys::tower_\w+\(")
    tried.holds("unsafe code is a call of the library", unsafe and all(called.match(it) for it in unsafe), "\n".join(unsafe))
    for path in sorted((folder / "scenes").glob("*.rs")):
        program = tried.room / f"rust-{path.stem}"
        ran = ended([*words, "--extern", f"tower={made}", "-o", program, path])
        tried.holds(f"{path.name} compiles", ran.returncode == 0, ran.stdout)
        tried.runs(path.name, [program], 60)
    for path in sorted((folder / "rejected").glob("*.rs")):
        ran = ended(["rustc", "--edition", "2021", "--emit", "metadata", "--extern", f"tower={made}", "-o", tried.room / "rejected.meta", path])
        said = ran.stdout.replace("tower::", "")
        tried.holds(f"{path.name} does not compile", ran.returncode != 0 and REJECTED.match(path.read_text())[1] in said, ran.stdout)
    if shutil.which("rustdoc"):
        ran = ended(["rustdoc", "--edition", "2021", "--test", "--crate-name", "tower", "-L", f"native={tried.library}", "--extern", f"tower={made}",
                     folder / "src/lib.rs"], timeout=90)
        tried.holds("the example of the crate runs", ran.returncode == 0 and "1 passed" in ran.stdout, ran.stdout)


def go(tried):
    """The package for Go, by cgo: vet finds nothing, and its scene."""
    if not tried.has("go", "Go"):
        return
    named = {"CGO_CFLAGS": f"-I{tried.library}", "CGO_LDFLAGS": f"-L{tried.library}", "GOCACHE": str(tried.room / "go"), "GOPROXY": "off"}
    how = {"cwd": EMBED / "go", "env": {**os.environ, **named}}
    program = tried.room / "go-numbers"
    tried.runs("go vet", ["go", "vet", "./..."], 100, **how)
    tried.runs("go build", ["go", "build", "-o", program, "./scenes/numbers"], 100, **how)
    out = tried.runs("the package's scene", [program], 60)
    print(f"embed: {last_line(out)}", flush=True)


def python(tried):
    seen = {**os.environ, "TOWER_LIBRARY": str(tried.library / "libtower.so")}
    out = tried.runs("the module's scenes", [sys.executable, EMBED / "python/scenes.py"], 60, env=seen)
    print(*(f"embed: {it}" for it in out.strip().split("\n")), sep="\n", flush=True)


def installed(tried):
    """What `embed/build.py --install` copies is found by pkg-config, statically and shared, and by man."""
    if not tried.has("pkg-config", "an installed library") or tried.library != build.OUT:
        return
    prefix, source = tried.room / "usr", SCENES / "wrong.c"
    build.install(prefix)
    told = {**os.environ, "PKG_CONFIG_PATH": str(prefix / "lib/pkgconfig"), "LD_LIBRARY_PATH": str(prefix / "lib")}
    for kind, asked in (("shared", []), ("static", ["--static"])):
        words = ended(["pkg-config", "--cflags", "--libs", *asked, "tower"], env=told).stdout.split()
        program = tried.room / f"{kind}-wrong"
        ran = ended([*build.compiler(), *STRICT, source, *["-static"] * len(asked), *words, *["-lpthread"] * (not asked), "-o", program])
        tried.holds(f"a program compiles with the {kind} library, as pkg-config says", ran.returncode == 0, ran.stdout)
        tried.runs(f"a program over the {kind} library", [program], 20, env=told)
    found = ended(["pkg-config", "--modversion", "tower"], env=told).stdout.strip()
    tried.holds("pkg-config says the version", found == build.version(), found)
    tried.holds("the man page is there", (prefix / "share/man/man3/tower.3").exists())


def value(text, name):
    found = re.search(rf"\b{name}(?:: \w+)? = (\d+)", text)
    return int(found[1]) if found else None


def names(tried):
    """The library has the header's functions and no other names; and numbers are the same in the header, the host and the crate."""
    listed = ended(["nm", "-g", "--defined-only", tried.library / "libtower.a"]).stdout
    tried.holds("the archive's names are the header's", sorted(re.findall(r" T (\w+)$", listed, re.M)) == build.public_functions(), listed)
    listed = ended(["nm", "-D", "--defined-only", tried.library / "libtower.so"]).stdout
    tried.holds("the shared library's are too", sorted(re.findall(r" T (\w+)$", listed, re.M)) == build.public_functions(), listed)
    header = (EMBED / "tower.h").read_text()
    crate = "\n".join(path.read_text() for path in sorted((EMBED / "crate/src").rglob("*.in")))
    same = {"DONE": "TOWER_OK", "CLOSED": "TOWER_CLOSED", "NO_MEMORY": "TOWER_NO_MEMORY", "NO_THREAD": "TOWER_NO_THREAD", "BAD_CALLERS": "TOWER_BAD_CALLERS",
            "BAD_BUFFERS": "TOWER_BAD_BUFFERS", "BAD_CAPACITY": "TOWER_BAD_CAPACITY"}
    for ours, theirs in same.items():
        tried.holds(f"{ours} is {theirs}", value(crate, ours) == value(header, theirs) is not None)
    for fault, theirs in {"NoBuffer": "TOWER_BAD_BUFFER", "NoWords": "TOWER_NO_WORDS", "TooLong": "TOWER_TOO_LONG"}.items():
        tried.holds(f"{fault} is {theirs}", f"Fault::{fault} => {value(header, theirs)}," in crate)
    limits = "\n".join(path.read_text() for path in (ROOT / "crates/event_log/src").glob("*.rt"))
    for ours, theirs in {"WORDS": "TOWER_WORDS", "BUFFERS": "TOWER_BUFFERS", "CPUS": "TOWER_CALLERS", "CAPACITY": "TOWER_CAPACITY"}.items():
        tried.holds(f"{ours} is {theirs}", value(limits, ours) == value(header, theirs) is not None)
    tried.holds("what is asked is numbered alike", [value(crate, it) for it in ("LEAVE", "SEND", "RECV", "CLOSE")] == [0, 1, 2, 3]
                and "enum { LEAVE, SEND, RECV, CLOSE };" in (EMBED / "host/host.h").read_text())
    told = re.findall(r"^## ([\d.]+)$", (ROOT / "CHANGELOG.md").read_text(), re.M)
    tried.holds("the version is one that CHANGELOG.md has", build.version() in told[:2], build.version())
    for page, shown in (("tower.3", f'"tower {build.version()}"'), ("rust/Cargo.toml", f'version = "{build.version()}"')):
        tried.holds(f"{page} has the version", shown in (EMBED / page).read_text())


def manual(tried):
    """The man page names each function and each status, and reads without a warning."""
    text, header = (EMBED / "tower.3").read_text(), (EMBED / "tower.h").read_text()
    for name in [*build.public_functions(), *re.findall(r"^  (TOWER_\w+) = \d+,? ", header.split("enum {")[1], re.M)]:
        tried.holds(f"the man page names {name}", name in text)
    if tried.has("man", "warnings about the man page"):
        ran = ended(["man", "--warnings", "-E", "UTF-8", "-l", "-Tutf8", EMBED / "tower.3"], env={**os.environ, "MANROFFOPT": "-ww"})
        tried.holds("the man page reads without a warning", ran.returncode == 0 and "warning" not in ran.stdout.lower(), ran.stdout[-500:])


KINDS = {it.__name__: it for it in (names, first, scenes, plus, idle, trial, lacks, valgrind, race, rust, python, go, installed, manual)}


def main():
    read = argparse.ArgumentParser(description=__doc__, formatter_class=argparse.RawDescriptionHelpFormatter)
    read.add_argument("--only", nargs="+", choices=KINDS, default=list(KINDS), metavar="KIND")
    read.add_argument("--library", type=Path, metavar="DIR")
    read.add_argument("--jobs", type=int, default=min(2, len(os.sched_getaffinity(0))), metavar="N", help="processors of the proof, if one is needed")
    asked = read.parse_args()
    if lost := build.missing(not asked.library):
        print(f"embed: nothing was tried, since there is no {' and no '.join(lost)} here")
        return build.NOTHING
    library = asked.library.resolve() if asked.library else build.built(asked.jobs)
    with tempfile.TemporaryDirectory() as room:
        tried = Tried(library, Path(room))
        for kind in asked.only:
            began = time.monotonic()
            KINDS[kind](tried)
            print(f"embed: {kind}: {time.monotonic() - began:.0f} s", flush=True)
    for what in tried.left_out:
        print(f"embed: left out: {what}")
    print(f"embed: {tried.count - tried.faults} passed, {tried.faults} failed")
    return 1 if tried.faults or not tried.count else 0


if __name__ == "__main__":
    sys.exit(main())
