"""Boots an image in QEMU as if it were the program: words and standard input go in, a status, standard output and standard error come out."""
import os
import re
import shutil
import subprocess
import sys
import tempfile
from pathlib import Path

sys.path.append(str(Path(__file__).resolve().parent.parent / "plans"))
from limits import CPUS  # noqa: E402

SECONDS = int(os.environ.get("METAL_SECONDS", 300))  # that a run may take
HUNG, NO_RUN = 117, 118  # statuses: the run did not end in time; QEMU ended by itself, or did not begin
TIMED_OUT = {124, 137}  # what `timeout` answers
MOST_WORDS = 130_000  # bytes, since Linux gives no longer word to a process
BARE = "-display none -monitor none -nic none -no-reboot".split()
FIRMWARE_ENDS = re.compile(rb".*Boot HART MEDELEG[^\n]*\n", re.S)  # the last line that SBI's firmware writes to the first serial line


class Machine:
    """A machine of QEMU's: its program, its own words, and how a run of it ends."""

    def __init__(self, name, qemu, own, image, second_line):
        self.name, self.qemu, self.own, self.image, self.second_line = name, qemu, own.split(), image, second_line.split()

    def is_there(self):
        return shutil.which(self.qemu) is not None

    def processors(self, count, by_turns, cpu):
        """How QEMU runs so many processors: each in a thread of its own, or by turns in one thread."""
        way = "single" if by_turns else "multi"
        kind = ["-cpu", cpu] if self.name == "x86_64" else []
        return ["-accel", f"tcg,thread={way}", *kind, "-smp", str(count)]

    def status(self, code):
        """The run's status of QEMU's, or nothing where the run did not end QEMU. On a PC the host's are odd, and 3 or more."""
        if self.name != "x86_64":
            return code if code >= 0 else None
        return (code - 3) // 2 if code % 2 and code >= 3 else None


PC_ENDS = "-device isa-debug-exit,iobase=0xf4,iosize=0x04"
BUS_LINE = "-device pci-serial,chardev=err,addr=1 -chardev file,id=err,path=err"
MACHINES = {it.name: it for it in [
    Machine("x86_64", "qemu-system-x86_64", PC_ENDS, "tower.elf", "-serial file:err"),
    Machine("riscv64", "qemu-system-riscv64", "-M virt", "tower-riscv64.elf", BUS_LINE),
    Machine("aarch64", "qemu-system-aarch64", "-M virt,gic-version=3,highmem=off -cpu max -semihosting", "tower-aarch64.img", BUS_LINE),
]}
PC = MACHINES["x86_64"]


def quoted(word):
    """A word as the host reads it: what means something to it stands behind a backslash, and no word is empty."""
    return re.sub(r"([ '\"\\])", r"\\\1", word) or "''"


def own_processors(words, plan):
    """As many processors as the run has CPUs: those of the plan under `threads`, those that are asked for under `count`, and else one."""
    text = " ".join(words[1:])
    found = re.search(r"--cpus[= ]\+?(\d+)", text) if words[:1] == ["count"] else re.search(rb"^\s*cpus\s*=\s*(\d+)", plan, re.M)
    has_threads = words[:1] in (["count"], ["threads"]) and found
    return min(max(int(found[1][:3]), 1), CPUS) if has_threads else 1


def ran(asked, room, machine=PC):
    """Runs QEMU in a folder with these words beside its own, and returns a status, standard output and standard error."""
    lines = ["-serial", "file:out", *machine.second_line]
    words = ["timeout", "--foreground", "-k", "1", str(SECONDS), machine.qemu, *BARE, *machine.own, *lines, *asked]
    qemu = subprocess.run(words, cwd=room, stdin=subprocess.DEVNULL, stdout=subprocess.DEVNULL, stderr=subprocess.PIPE, check=False)
    out, err = ((room / name).read_bytes() if (room / name).exists() else b"" for name in ("out", "err"))
    if machine.name == "riscv64":
        out = FIRMWARE_ENDS.sub(b"", out, count=1)
    if qemu.returncode in TIMED_OUT and (machine is PC or b"host: " not in err):
        return HUNG, out, err + b"metal: it did not end in %d seconds\n" % SECONDS
    status = machine.status(qemu.returncode)
    if status is None or (machine is not PC and status == 1 and qemu.stderr and not err):  # of the program's own 1 the run said why
        return NO_RUN, out, err + b"metal: QEMU ended by itself: " + (qemu.stderr.strip() or b"the machine was reset") + b"\n"
    return status, out, err


def booted(image, words, plan=b"", processors=None, memory=256, cpu="max", by_turns=None, machine=PC):
    """Boots an image once, and returns its status, standard output and standard error, in bytes. If nothing is said, processors run by turns where there
    are more of them than cores: where they wait for one another, each may wait for a core first."""
    append = os.fsencode(" ".join(map(quoted, words)))
    if len(append) > MOST_WORDS:
        return NO_RUN, b"", b"metal: the words are longer than QEMU takes\n"
    count = processors or own_processors(words, plan)
    if by_turns is None:
        by_turns = count > len(os.sched_getaffinity(0))
    with tempfile.TemporaryDirectory() as folder:
        room = Path(folder)
        # in this folder, so that no name has a space or a comma, which mean something to QEMU
        (room / "tower.elf").symlink_to(Path(image).resolve())
        asked = [*machine.processors(count, by_turns, cpu), "-m", str(memory), "-kernel", "tower.elf", "-append", append]
        if plan:
            (room / "plan").write_bytes(plan)
            asked += ["-initrd", "plan"]
        return ran(asked, room, machine)
