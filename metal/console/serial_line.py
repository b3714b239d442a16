"""Boots an image in QEMU with its first serial line on a pipe, types on it, and reads what it prints."""
import os
import select
import subprocess
import tempfile
import time
from pathlib import Path

import machine

READY = b"control-D"  # of what the console says on standard error, before it reads
CONTROL_D = b"\x04"
PATIENCE = float(os.environ.get("METAL_SECONDS", 60))  # seconds without a byte, after which a run hangs
MEMORY = 256  # MiB
WORDS = "typed"  # by which the host reads standard input from the line
MOST_READ = 1 << 16
BURST = 40  # bytes between two pauses, about
PAUSE = 0.01  # seconds at most


def words_of(kind, image, processors, by_turns):
    """Returns the words that boot an image, but for its lines."""
    ways = kind.processors(processors, by_turns, "max")
    return [kind.qemu, *machine.BARE, *kind.own, *ways, "-m", str(MEMORY), "-kernel", str(image), "-append", WORDS]


class SerialLine:
    """A machine that was booted, and its first serial line."""

    def __init__(self, kind, image, processors, by_turns=False):
        self.kind, self.room = kind, tempfile.TemporaryDirectory(prefix="console-")
        self.err = Path(self.room.name, "err")
        # in this folder, since a space or a comma in a name means something to QEMU
        Path(self.room.name, "console").symlink_to(Path(image).resolve())
        lines = ["-chardev", "stdio,id=line,signal=off", "-serial", "chardev:line", *kind.second_line]
        words = [*words_of(kind, "console", processors, by_turns), *lines]
        self.qemu = subprocess.Popen(words, cwd=self.room.name, stdin=subprocess.PIPE, stdout=subprocess.PIPE, stderr=subprocess.DEVNULL)
        for it in (self.qemu.stdin, self.qemu.stdout):
            os.set_blocking(it.fileno(), False)

    def __enter__(self):
        return self

    def __exit__(self, *_):
        self.qemu.kill()
        self.qemu.wait()
        self.room.cleanup()

    def is_ready(self):
        """Waits until the console says that it reads, and drops what the firmware printed until then."""
        until = time.monotonic() + PATIENCE
        while time.monotonic() < until and self.qemu.poll() is None:
            if self.err.exists() and READY in self.err.read_bytes():
                self.read()
                return True
            time.sleep(0.02)
        return False

    def read(self):
        """Returns what was printed and not read yet, or nothing where QEMU has ended."""
        try:
            return os.read(self.qemu.stdout.fileno(), MOST_READ)
        except BlockingIOError:
            return b""

    def exchange(self, text, wanted):
        """Types a text, and reads until so many bytes came, or none for a while. Returns what came."""
        came, until = b"", time.monotonic() + PATIENCE
        out, into = self.qemu.stdout.fileno(), self.qemu.stdin.fileno()
        while (text or len(came) < wanted) and time.monotonic() < until:
            may_read, may_write, _ = select.select([out], [into] if text else [], [], 0.1)
            try:
                text = text[os.write(into, text):] if may_write else text
            except BrokenPipeError:
                break
            more = self.read() if may_read else b""
            if may_read and not more:
                break  # QEMU has ended
            came, until = came + more, time.monotonic() + PATIENCE if more or may_write else until
        return came

    def types(self, text, how, pick):
        """Types a text `at once`, `in bursts`, or `key by key`: each is printed before the next is typed. Says what was wrong, or nothing."""
        if not self.is_ready():
            return f"it did not begin: {self.told()}"
        came = b""
        for part in parts_of(text, how, pick):
            came += self.exchange(part, len(part) if how == "key by key" else 0)
            if not text.startswith(came):
                break
            if how == "in bursts":
                time.sleep(pick.random() * PAUSE)
        came += self.exchange(b"", len(text) - len(came))
        return unlike(came, text)

    def ends(self):
        """Ends the input. Returns the status of the run, and what was printed last."""
        rest = self.exchange(CONTROL_D, 1)
        try:
            status = self.kind.status(self.qemu.wait(PATIENCE))
        except subprocess.TimeoutExpired:
            return machine.HUNG, rest
        return machine.NO_RUN if status is None else status, rest

    def told(self):
        """Returns the last of what the machine said on standard error."""
        return self.err.read_bytes()[-200:].decode(errors="replace") if self.err.exists() else "nothing was said"


def parts_of(text, how, pick):
    """Returns a text in the parts in which it is typed."""
    if how == "key by key":
        return [text[at:at + 1] for at in range(len(text))]
    cuts = sorted(pick.randrange(len(text)) for _ in range(len(text) // BURST)) if how == "in bursts" else []
    return [text[first:last] for first, last in zip([0, *cuts], [*cuts, len(text)])]


def unlike(came, wanted):
    """Says where printed bytes differ from the typed ones, or nothing."""
    if came == wanted:
        return None
    at = next((it for it, pair in enumerate(zip(came, wanted)) if pair[0] != pair[1]), min(len(came), len(wanted)))
    return f"printed {len(came)} of {len(wanted)} bytes; from byte {at} on {came[at:at + 8]!r}, and typed was {wanted[at:at + 8]!r}"


def on_terminal(kind, image, processors):
    """Boots an image with this terminal as its serial line, and returns its status."""
    words = [*words_of(kind, image, processors, False), "-serial", "mon:stdio"]
    status = kind.status(subprocess.run(words, check=False).returncode)
    return machine.NO_RUN if status is None else status
