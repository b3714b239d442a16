#!/usr/bin/env python3
"""Holds the booted program against the native one, and judges what its processors do.

    metal/test.py                   the gate's: a part of each kind on a PC, and a small part on each other machine whose
                                    QEMU is there and whose module is kept; about two minutes
    metal/test.py --all             all of each kind on a PC: ten minutes of processor time
    metal/test.py --machine NAME    all that follows on this machine alone: x86_64, riscv64, aarch64
    metal/test.py --only KIND..     these kinds alone: plans random damaged lines count threads rows small host slices
                                    shell model disk other lesson
    metal/test.py --image IMAGE     another image, as of the object of the kit's other compiler; --trial IMAGE: another trial

Status, standard output and standard error are the native program's, byte by byte: of every stored plan with both locks, of random plans, damaged plans,
schedules and texts, of command lines. A run in threads has not one text: the native program's `check` judges it, and each CPU has a stop. Small machines
refuse by name. `host` tries the host alone, with trial.c in the place of the program; `slices` tries both with slices of 20 microseconds; `shell` types at
the console; `model` looks at all interleavings of a record's hand-over; `disk` boots by GRUB where there is grub-mkrescue; `lesson` runs what
docs/book/14-bare-processors.md shows. Where there is no QEMU it says so, and its status is 77.
The last line counts; the status is 1 on any difference. It needs the built program, crates/mctower/out/mctower.
"""
import argparse
import atexit
import math
import random
import re
import shutil
import subprocess
import sys
import tempfile
import threading
import time
from concurrent.futures import ThreadPoolExecutor
from pathlib import Path

sys.dont_write_bytecode = True
import build  # noqa: E402
import handover  # noqa: E402
import machine  # noqa: E402
import typing_at  # noqa: E402

ROOT = build.ROOT
sys.path.append(str(ROOT / "tests"))
import damaged  # noqa: E402
import random_plan  # noqa: E402
from limits import CAPACITY, CPUS, TRACE  # noqa: E402

NATIVE = ROOT / "crates/mctower/out/mctower"
OTHER = ROOT / "crates/mctower/out/mctower.by-rattle.o"
LESSON = ROOT / "docs/book/14-bare-processors.md"
UEFI = Path("/usr/share/ovmf/OVMF.fd")
MOST_TOLD, LONGEST_TOLD = 20, 2000
HAS_X2APIC = 9  # the first version of QEMU
DAMAGED_AT = 7  # the seed of what is damaged
ALL_TURNS = "1000000000"
LOCKS = ("ticket", "grant")


class Held:
    """What is compared, and with what: the images of a machine, and what they are linked of."""

    def __init__(self, image, trial, machine=machine.PC, host=build.HOST, program=None):
        self.image, self.trial, self.machine, self.host, self.program = image, trial, machine, host, program
        self.lock, self.sliced = threading.Lock(), {}

    def booted(self, words, plan=b"", processors=None, memory=256, cpu="max", by_turns=False):
        return machine.booted(self.image, words, plan, processors, memory, cpu, by_turns, self.machine)

    def native(self, words, text):
        ran = subprocess.run([NATIVE, *words], input=text, capture_output=True, timeout=120, check=False)
        return ran.returncode, ran.stdout, ran.stderr

    def same(self, words, text):
        """The difference between the booted program and the native one, or nothing."""
        return unlike(self.booted(words, text), self.native(words, text))

    def tried(self, word, processors=1, by_turns=False, memory=256, image=None):
        return machine.booted(image or self.trial, [word], b"", processors, memory, by_turns=by_turns, machine=self.machine)

    def in_slices(self, of):
        """The image of this, the program or trial.c, with slices of 20 microseconds; it is made once."""
        with self.lock:
            if of not in self.sliced:
                source = build.METAL / "trial.c" if of == "trial" else self.program
                out = self.image.with_name(f"{of}-{self.machine.name}-slices{self.image.suffix}")
                build.linked(source, out, self.host, self.machine, ["-DSLICE=20000"])
                self.sliced[of] = out
            return self.sliced[of]


def unlike(came, wanted):
    return None if came == wanted else f"{came}, and wanted is {wanted}"


def with_lock(plan, lock):
    return f'lock = "{lock}"\n'.encode() + plan if lock else plan


def stored():
    return [path for folder in ("plans", "tests/rows", "tests/long") for path in sorted((ROOT / folder).glob("*.toml"))]


def cpus_of(plan):
    return int(re.search(rb"^cpus = (\d+)", plan, re.M)[1])


def plans(held):
    """Every stored plan with both locks: what is expected, and the judge's yes."""
    def one(path, lock):
        text, wanted = path.read_bytes(), (path.parent / "expected" / f"{path.stem}.txt").read_bytes()
        schedule = text.split(b"--schedule '")[1].split(b"'")[0].decode()
        status, out, err = held.booted(["run", "--schedule", schedule], with_lock(text, lock))
        return unlike((status, out + err), (0, wanted)) or held.same(["check"], out)
    for path in stored():
        for lock in ("", "ticket"):
            yield f"{path.name} {lock}", lambda path=path, lock=lock: one(path, lock)


def random_runs(held):
    """Random plans. Those up to the limits come first: they have long schedules, by which a wrong length of a word is seen."""
    for first, count, is_large in [(100001, 60, True), (1, 240, False)]:
        for seed in range(first, first + count):
            def one(seed=seed, is_large=is_large):
                plan = random_plan.plan(random.Random(seed), 3000, is_large)
                return held.same(["run", "--schedule", plan.split("'")[1]], with_lock(plan.encode(), "" if seed % 2 else "ticket"))
            yield f"random plan {seed}", one


def damaged_runs(held):
    pick = random.Random(DAMAGED_AT)
    for number in range(200):
        plan = damaged.near_a_plan(pick, damaged.some_plan(pick))
        yield f"damaged plan {number}", lambda plan=plan: held.same(["run", "--schedule", "0*40"], plan)
        schedule, whole = damaged.some_schedule(pick).replace("\0", ""), damaged.PLANS[number % len(damaged.PLANS)]
        yield f"schedule {number}", lambda it=schedule, whole=whole: held.same(["run", f"--schedule={it}"], whole)
        text = bytearray(pick.choice(damaged.RUNS))
        at = pick.randrange(len(text))
        text[at:at + pick.randrange(2)] = pick.choice(damaged.ODD_BYTES)
        yield f"damaged text {number}", lambda text=bytes(text): held.same(["check"], text)


LINES = [
    [], ["--help"], ["--version"], ["help"], ["help", "run"], ["run", "--help"], ["threads", "--help"], ["count", "--help"], ["check", "--help"], ["rum"],
    ["--"], ["-h"], ["run", "--schedul", "0"], ["run", "--schedule"], ["run", "--schedule", ""], ["run", "--schedule", "0*"], ["run", "--", "x"],
    ["run", "--schedule", "0*21", "--schedule", "0"], ["run", "--schedule", "9" * 5000], ["--schedule= 0 "], ["run", "--schedule", " 0*10 , 0*11 "],
    ["run", "--schedule", ",".join(["0"] * 9000)], ["run", "--schedule", "0*4," * 2500 + "0*20"], ["count"],
    ["count", "--cpus", str(CPUS + 1), "--times", "1"], ["count", "--cpus", "0", "--times", "1"],
    ["count", "--cpus=+2", "--times"], ["count", "--cpus", "2", "--times", "1001"], ["count", "--cpus", "2", "--times", "1", "--lock", "mcs"], ["threads"],
    ["threads", "--turns", "0"], ["threads", "--turns", "1000000001"], ["check", "x"], ["é"], ["a b"], ["'"], ['"'], ["\\"], ["a\nb"], ["x" * 300], ["\udcff"],
    ["run", "\udcff"], [""], ["it's \"so\"", "\\'"],
]


def lines(held):
    """Command lines, most of them wrong, on a plan and on none."""
    plan = (ROOT / "plans/one-send.toml").read_bytes()
    for number, words in enumerate(LINES):
        yield f"line {number}", lambda words=words: held.same(words, plan)
    for words in (["run", "--schedule", "0"], ["check"], ["threads", "--turns", "9"]):
        yield f"{words[0]} on nothing", lambda words=words: held.same(words, b"")


def count(held):
    """Any number of CPUs counts right, on as many processors or on fewer, which run at once or by turns."""
    def one(processors, by_turns, cpus, lock, times):
        total = cpus * times
        wanted = 0, f"plain {total}\ntable {total}\n".encode(), b""
        words = ["count", "--cpus", str(cpus), "--times", str(times), "--lock", lock]
        return unlike(held.booted(words, processors=processors, by_turns=by_turns), wanted)
    for processors, by_turns in ((1, False), (2, False), (3, False), (4, False), (CPUS, False), (2, True), (CPUS, True)):
        for cpus in (1, 2, 3, 5, 8, CPUS):
            for lock in LOCKS:
                for times in (1, 100, 1000):
                    how = " by turns" if by_turns else ""
                    yield f"count {processors}{how} {cpus} {lock} {times}", lambda it=(processors, by_turns, cpus, lock, times): one(*it)


def judged(held, plan, turns, processors, by_turns=False):
    """A run in threads: the status is 0, each CPU has a stop, and the judge says yes to the text."""
    status, out, err = held.booted(["threads", "--turns", str(turns)], plan, processors, by_turns=by_turns)
    stops = [line.split() for line in err.decode().splitlines()]
    named = [stop[:2] for stop in stops] == [["cpu", str(cpu)] for cpu in range(cpus_of(plan))]
    if status != 0 or not named or any(stop[2] not in ("AllEnded", "TurnsUsed", "TraceFull") for stop in stops):
        return f"{status} {out} {err}"
    return unlike(held.native(["check"], out), (0, b"yes\n", b""))


def threads(held):
    """Stored and random plans in threads, on as many processors as the plan has CPUs, at once and by turns, on two and on one."""
    for path in stored():
        text = path.read_bytes()
        for lock in LOCKS:
            for processors in sorted({1, min(cpus_of(text), 2), cpus_of(text)}):
                yield f"{path.name} {lock} on {processors}", lambda text=text, lock=lock, n=processors: judged(held, with_lock(text, lock), 400, n)
            yield f"{path.name} {lock} by turns", lambda text=text, lock=lock: judged(held, with_lock(text, lock), 400, None, True)
    for seed in range(1, 301):
        def one(seed=seed):
            pick = random.Random(seed)
            plan = with_lock(random_plan.plan(pick, 3000, False).encode(), LOCKS[seed % 2])
            return judged(held, plan, pick.choice([50, 400, 3000]), pick.choice([1, 2, cpus_of(plan)]))
        yield f"random plan {seed} in threads", one


HUNDRED = b"""cpus = 2
trace = 200
buffers = [4]
[[thread]]
cpu = 0
program = ["set r0 100", "set r1 1", "send 0 r0", "sub r0 r1", "jnz r0 2"]
[[thread]]
cpu = 1
program = ["set r0 100", "set r1 1", "recv 0 r2", "sub r0 r1", "jnz r0 2"]
"""


def hundred(held, lock, processors):
    """One hundred messages from one CPU to another: each side's order is its program's."""
    status, out, err = held.booted(["threads", "--turns", ALL_TURNS], with_lock(HUNDRED, lock), processors)
    entries = [line.split() for line in out.decode().splitlines() if line.startswith("e ")]
    sides = [[it[5] for it in entries if it[3] == call] for call in ("send", "recv")]
    wanted = [str(it) for it in range(100, 0, -1)]
    return unlike((status, err, sides), (0, b"cpu 0 AllEnded\ncpu 1 AllEnded\n", [wanted, wanted])) or unlike(held.native(["check"], out), (0, b"yes\n", b""))


def rows(held):
    """Runs in threads whose text is one."""
    head, sent = "mctower-trace 1\nbuffers 1\ncap 0 1\n", "e 0 0 send 0 7 0 0\nleft 0 7\nend\n"
    closes = "mctower-trace 2\nbuffers 1\ncap 0 1\ne 0 2 close 0 - 0 0\ne 0 0 recvc 0 - 1 0\ne 0 1 recvc 0 - 2 1\nleft 0\nend\n"
    table = [("plans/one-send", ALL_TURNS, head + sent, "AllEnded"), ("plans/one-send", "10", head + sent, "TurnsUsed"),
             ("plans/one-send", "5", f"{head}left 0\nend\n", "TurnsUsed"), ("tests/rows/closed-before-two-receivers", ALL_TURNS, closes, "AllEnded")]
    for lock in LOCKS:
        for path, turns, out, stop in table:
            def one(path=path, turns=turns, out=out, stop=stop, lock=lock):
                plan = with_lock((ROOT / f"{path}.toml").read_bytes(), lock)
                return unlike(held.booted(["threads", "--turns", turns], plan, 2), (0, out.encode(), f"cpu 0 {stop}\n".encode()))
            yield f"{path} {turns} {lock}", one
        for processors in (1, 2):
            yield f"a hundred messages {lock} on {processors}", lambda lock=lock, n=processors: hundred(held, lock, n)


ALL_SEND = ",".join(f"{cpu}*{TRACE}" for cpu in range(CPUS))


def with_full_traces():
    """A plan whose CPUs send and receive for ever."""
    program = '["send 0 r0", "recv 0 r0", "jnz r1 0", "set r1 1", "jnz r1 0"]'
    threads = "".join(f"[[thread]]\ncpu = {cpu}\nprogram = {program}\n" for cpu in range(CPUS))
    return f"cpus = {CPUS}\ntrace = {TRACE}\nbuffers = [{CAPACITY}]\n{threads}".encode()


def lacking(held):
    """The program itself refuses a processor that lacks what it was compiled for, as QEMU's first one does."""
    status, out, err = held.booted(["--version"], cpu="qemu64")
    return None if (status, out) == (126, b"") and err.startswith(b"this machine lacks a feature") else f"{status} {out} {err}"


def more_than_255(held):
    """Firmware sets x2APIC mode on a machine of 280 processors, of which the host drives 64."""
    with tempfile.TemporaryDirectory() as folder:
        room = Path(folder)
        (room / "tower.elf").symlink_to(held.image.resolve())
        words = [*machine.PC.processors(280, True, "max"), "-M", "q35", "-m", "512", "-kernel", "tower.elf", "-append", "count --cpus 16 --times 9"]
        return unlike(machine.ran(words, room), (0, b"plain 144\ntable 144\n", b""))


def version_of_qemu():
    """The first number of QEMU's version on a PC."""
    said = subprocess.run([machine.PC.qemu, "--version"], capture_output=True, text=True, check=False).stdout
    return int(re.search(r"version (\d+)", said)[1])


def small(held):
    """Machines with too little memory, or too old a processor: each refuses by name, the program what it asks for, the host what it needs."""
    long_text = b"mctower-trace 1\n" + b"#" * (1 << 24)
    few, many = ["count", "--cpus", "2", "--times", "9"], ["count", "--cpus", "16", "--times", "9"]
    full_traces = ["run", "--schedule", ALL_SEND], with_full_traces()
    table = [
        ("enough for sixteen threads", many, b"", 1, 32, (0, b"plain 144\ntable 144\n", b"")),
        ("enough for two threads", few, b"", 2, 16, (0, b"plain 18\ntable 18\n", b"")),
        ("no room for traces", *full_traces, 1, 64, (1, b"", b"error: NoMemory(1)\n")),
        ("long words", ["run", "--schedule", "0," * 70000], b"", 1, 64, (118, b"", b"metal: the words are longer than QEMU takes\n")),
    ]
    of_pc = [
        ("no stack", ["--version"], b"", 1, 4, (119, b"", b"host: too little memory\n")),
        ("a plan that is too large", ["check"], long_text, 1, 16, (119, b"", b"host: the plan is larger than the memory\n")),
        ("no stack beside the plan", ["check"], long_text, 1, 20, (119, b"", b"host: too little memory\n")),
        ("too little for sixteen threads", many, b"", 1, 16, (1, b"", b"error: NoThread(5)\n")),
        ("no room to read a text", ["check"], long_text[:10 << 20], 1, 24, (1, b"", b"error: NoMemory(1)\n")),
    ]
    for name, words, plan, processors, memory, wanted in table + (of_pc if held.machine is machine.PC else []):
        yield name, lambda it=(words, plan, processors, memory), wanted=wanted: unlike(held.booted(*it), wanted)
    if held.machine is not machine.PC:
        return
    yield "a processor that lacks a feature", lambda: lacking(held)
    if version_of_qemu() >= HAS_X2APIC:
        yield "more than 255 processors", lambda: more_than_255(held)
    yield "more processors than are driven", lambda: unlike(held.booted(many, b"", 100, by_turns=True), (0, b"plain 144\ntable 144\n", b""))
    for cpu, wanted in OLD_PROCESSORS:
        yield f"-cpu {cpu}", lambda cpu=cpu, wanted=wanted: of_old(held.booted(["--version"], cpu=cpu), wanted)


OLD_PROCESSORS = [("qemu32", b"host: a processor without long mode"), ("max,-nx", b"host: a processor without long mode, or without pages"),
                  ("max,-apic", b"host: there is no timer\n")]


def of_old(came, wanted):
    status, out, err = came
    return None if status == 121 and (out + err).startswith(wanted) else f"{came}"


FULL, FAULT = b"host: a full stack, number ", b"host: a page fault, number "
TRIALS = [
    ("deep", 1, 7, b""), ("full", 1, 125, FULL), ("bad", 1, 125, b"host: an instruction that is none, number "), ("far", 1, 125, FAULT),
    ("at-0", 1, 125, FAULT), ("calls-0", 1, 125, FAULT), ("constant", 1, 125, FAULT), ("code", 1, 125, FAULT), ("data", 1, 125, FAULT),
    ("memory", 1, 7, b""), ("joins", 1, 7, b""), ("instruction", 1, 7, b""), ("answers", 1, 7, b""), ("errors", 4, 7, b""), ("detached", 2, 7, b""),
    ("wait", 1, 122, b"host: every thread waits\n"), *(("all-wait", processors, 122, b"host: every thread waits\n") for processors in (1, 2, 8)),
    ("absent", 2, 121, b"host: a processor did not start\n"), *(("rounds", processors, 7, b"") for processors in (1, 2, 3, 4, 8)),
    ("hand-over", 4, 7, b""), *((f"spread{processors}", processors, 7, b"") for processors in (1, 3, 8)), ("full-elsewhere", 2, 125, FULL),
    ("together", 4, 125, b"host: an instruction that is none, number "), ("slices", 1, 7, b""), ("slices", 2, 7, b""), ("registers", 2, 7, b""),
]
OF_PC = [("zero", 1, 125, b"host: a division by 0, number 0")]


def told_whole(err, says):
    """Whether standard error is one line that begins so and, of an exception, that ends with an address."""
    return err.startswith(says) and (not says or err.count(b"\n") == 1 and (b"number" not in says or re.search(rb", address 0x[0-9a-f]+\n$", err)))


def host(held):
    """The host alone, with trial.c in the place of the program."""
    for word, processors, wanted, says in TRIALS + (OF_PC if held.machine is machine.PC else []):
        def one(by_turns, word=word, processors=processors, wanted=wanted, says=says):
            status, out, err = held.tried(word, processors, by_turns)
            return None if (status, out) == (wanted, b"") and told_whole(err, says) else f"{status} {out} {err}"
        yield f"{word} on {processors}", lambda one=one: one(False)
        if processors == 8:
            yield f"{word} on {processors} by turns", lambda one=one: one(True)


def slices(held):
    """A slice of 20 microseconds ends at any instruction: the trials and the program give what they give with slices of milliseconds."""
    for word, processors in [("slices", 1), ("registers", 1), ("registers", 4), ("rounds", 1), ("rounds", 4), ("hand-over", 4), ("instruction", 1)]:
        def one(word=word, processors=processors):
            came = held.tried(word, processors, image=held.in_slices("trial"))
            return unlike(came, (7, b"", b""))
        yield f"{word} on {processors}", one
    for number in range(16 if held.program else 0):  # an image that was given is not linked again
        def one(number=number):
            sliced = Held(held.in_slices("tower"), held.trial, held.machine)
            kinds = (rows, threads, count, plans)
            cases = list(kinds[number % 4](sliced))
            cases = [case for case in cases if "by turns" not in case[0]]
            return part_of(cases, 4)[number // 4][1]()
        yield f"of the program, {number}", one


def model(held):
    """All interleavings of the hand-over of a thread's record: as the host does it none is bad, and without the second look one is."""
    del held
    yield "as it is", lambda: unlike(handover.has_bad_end(True), False)
    yield "with one look", lambda: unlike(handover.has_bad_end(False), True)


def shell(held):
    """What is typed at the console, on the serial line and on a PC's keyboard, and what is answered."""
    return typing_at.cases(held)


def by_grub(image, room, words, plan, firmware, processors=4):
    """Boots a disk by GRUB and returns a status and what came on both serial lines."""
    build.disk(image, room / "tower.iso", plan, *words)
    return machine.ran([*machine.PC.processors(processors, False, "max"), "-m", "256", *firmware, "-cdrom", "tower.iso"], room)


def disk(held):
    """A disk that GRUB boots gives what the program gives, with BIOS and with UEFI; its words keep their spaces and quotes."""
    def one(words, path, firmware):
        with tempfile.TemporaryDirectory() as room:
            status, *streams = by_grub(held.image, Path(room), words, ROOT / path, firmware)
        wanted, *texts = held.native(words, (ROOT / path).read_bytes())
        if firmware:  # UEFI itself and GRUB write to both lines before
            streams = [it[-len(text):] for it, text in zip(streams, texts)]
        return unlike((status, *streams), (wanted, *texts))
    table = [(["threads", "--turns", ALL_TURNS], "plans/ping-pong.toml"), (["run", "--schedule", " 0*10, 0*11 "], "plans/one-send.toml"),
             (["it's \"so\"", "\\"], "plans/one-send.toml")]
    if not shutil.which("grub-mkrescue"):
        return
    for words, path in table:
        yield f"{words} by GRUB and BIOS", lambda words=words, path=path: one(words, path, [])
    if UEFI.exists():
        yield "threads by GRUB and UEFI", lambda: one(*table[0], ["-bios", UEFI])
    for name, reads, firmware in [("BIOS", typing_at.dots, []), ("UEFI", typing_at.dots, ["-bios", UEFI])]:
        if not firmware or UEFI.exists():
            yield f"the shell by GRUB and {name}, a keyboard and no serial line", lambda it=(reads, firmware): shell_of_disk(held, *it)
            yield f"three processors by GRUB and {name}", lambda firmware=firmware: spread_by_grub(held, firmware)


def spread_by_grub(held, firmware):
    """All processors are found, by ACPI's tables where this firmware leaves them."""
    with tempfile.TemporaryDirectory() as room:
        return unlike(by_grub(held.trial, Path(room), ["spread3"], None, firmware, 3)[0], 7)


def shell_of_disk(held, reads, firmware):
    """The shell of a disk, with a keyboard and a screen alone."""
    with tempfile.TemporaryDirectory() as room:
        build.disk(held.image, Path(room, "tower.iso"))
        return typing_at.at_keyboard(held, [*map(str, firmware), "-cdrom", f"{room}/tower.iso"], reads)


def other(held):
    """The object of the kit's other compiler, where `rt ci` left it, gives the same, on as many processors as CPUs and on one."""
    if not OTHER.exists():
        print(f"metal: there is no {OTHER.relative_to(ROOT)}: `rt ci` leaves it")
        return
    image = build.OUT / "other.elf"
    build.linked(OTHER, image)
    theirs = Held(image, held.trial)
    for made in (rows, plans, count, lines):
        for name, case in made(theirs):
            yield f"by the other compiler, {name}", case


def lesson(held):
    """What the lesson shows comes. Its commands are lines `$ ..` of blocks marked `metal`."""
    del held
    def one(command, wanted):
        both = {"stdout": subprocess.PIPE, "stderr": subprocess.STDOUT, "text": True}
        return unlike(subprocess.run(["bash", "-c", command], cwd=ROOT, stdin=subprocess.DEVNULL, check=False, **both).stdout, wanted)
    for block in re.findall(r"^```metal\n(.*?)^```$", LESSON.read_text(), re.M | re.S):
        pieces = re.split(r"^\$ (.*)\n", block, flags=re.M)
        for command, wanted in zip(pieces[1::2], pieces[2::2]):
            yield command, lambda command=command, wanted=wanted: one(command, wanted)


# By kind, its cases, and of how many of them the gate's part is on a PC, and on another machine.
KINDS = {
    "plans": (plans, 18, 4), "random": (random_runs, 20, 4), "damaged": (damaged_runs, 16, 0), "lines": (lines, 40, 4), "count": (count, 16, 2),
    "threads": (threads, 20, 3), "rows": (rows, 12, 2), "small": (small, 12, 1), "host": (host, 40, 8), "slices": (slices, 6, 1), "shell": (shell, 4, 1),
    "model": (model, 2, 0), "disk": (disk, 0, 0), "other": (other, 12, 0), "lesson": (lesson, 9, 0),
}
OF_PC_ALONE = {"disk", "other", "lesson"}


def part_of(cases, count):
    """So many of the cases, evenly. The step has no factor in common with their number, so that it takes some of all that comes by turns."""
    number = len(cases)
    step = next(it for it in range(max(number // max(count, 1), 1), number + 2) if math.gcd(it, number) == 1)
    return [cases[i * step % number] for i in range(min(count, number))]


def tried(name, cases, jobs):
    """Tries the cases of a kind, and returns what differs."""
    began = time.monotonic()
    with ThreadPoolExecutor(jobs) as pool:
        told = [(case, fault) for (case, _), fault in zip(cases, pool.map(lambda case: case[1](), cases)) if fault]
    for case, fault in told[:MOST_TOLD]:
        print(f"metal: {name}, {case}: {fault}"[:LONGEST_TOLD], flush=True)
    print(f"metal: {name}, {len(cases)} cases, {time.monotonic() - began:.0f} s", flush=True)
    return told


def tried_on(held, kinds, is_all, is_small, jobs):
    """Tries these kinds on a machine; returns how many cases passed and how many failed."""
    passed = failed = 0
    for name in kinds:
        make, part, small_part = KINDS[name]
        if held.machine is not machine.PC and name in OF_PC_ALONE:
            continue
        cases = list(make(held))
        cases = cases if is_all else part_of(cases, small_part if is_small else part)
        faults = tried(f"{held.machine.name}, {name}", cases, jobs) if cases else []
        passed, failed = passed + len(cases) - len(faults), failed + len(faults)
    return passed, failed


def held_on(it, image, trial):
    """The images of a machine, made if none are given."""
    room = tempfile.mkdtemp()
    atexit.register(shutil.rmtree, room, ignore_errors=True)
    build.kit_module()  # before any thread starts
    program = None if image else build.program_of(None, Path(room), it)
    if not image:
        build.linked(program, build.image_of(it), machine=it)
    if not trial:
        build.trial(build.trial_of(it), it)
    return Held(image or build.image_of(it), trial or build.trial_of(it), it, program=program)


def main():
    read = argparse.ArgumentParser(description=__doc__, formatter_class=argparse.RawDescriptionHelpFormatter)
    read.add_argument("--all", action="store_true")
    read.add_argument("--machine", choices=machine.MACHINES)
    read.add_argument("--only", nargs="+", choices=KINDS, default=list(KINDS), metavar="KIND")
    read.add_argument("--jobs", type=int, default=2, metavar="N")
    read.add_argument("--image", type=Path)
    read.add_argument("--trial", type=Path)
    asked = read.parse_args()
    named = machine.MACHINES[asked.machine or machine.PC.name]
    others = [] if asked.machine or asked.all or asked.image else [it for it in machine.MACHINES.values() if it is not named]
    if not named.is_there():
        print(f"metal: no QEMU here, {named.qemu}: nothing was booted")
        return 77
    if not NATIVE.exists():
        sys.exit(f"metal: there is no {NATIVE.relative_to(ROOT)}: tools/prove-all.py builds it")
    passed, failed = tried_on(held_on(named, asked.image, asked.trial), asked.only, asked.all, False, asked.jobs)
    for it in others:
        if not it.is_there():
            print(f"metal: {it.name} is left out: no QEMU here, {it.qemu}")
        elif not build.has_module():
            print(f"metal: {it.name} is left out: the program's module is not kept; metal/build.py --machine {it.name} makes it")
        else:
            more = tried_on(held_on(it, None, None), asked.only, False, True, asked.jobs)
            passed, failed = passed + more[0], failed + more[1]
    print(f"metal: {passed} passed, {failed} failed")
    return 0 if passed and not failed else 1


if __name__ == "__main__":
    sys.exit(main())
