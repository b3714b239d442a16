"""Types at the shell of a booted image, on its serial line or on a PC's keyboard, and compares what is answered with the native program's answers."""
import re
import subprocess
import tempfile
import threading
import time
from pathlib import Path

import machine

ROOT = Path(__file__).resolve().parent.parent
PROMPT = b"tower> "
STEP_PROMPT = b"q: the end.\n"
KEYS = {" ": "spc", "\n": "ret", "-": "minus", ".": "dot", "*": "shift-8", "<": "shift-comma", "=": "equal", ",": "comma", "\x04": "ctrl-d", "_": "shift-minus"}


class Console:
    """A booted machine with standard input and output on its first serial line, and nothing on another."""

    def __init__(self, held, words=("shell",), processors=2, memory=256):
        it = held.machine
        asked = [*it.processors(processors, False, "max"), "-m", str(memory), "-kernel", held.image, "-append", " ".join(words)]
        line = ["-chardev", "stdio,id=line,signal=off", "-serial", "chardev:line"]
        words = ["timeout", "--foreground", "-k", "1", str(machine.SECONDS), it.qemu, *machine.BARE, *it.own, *line, *asked]
        self.qemu = subprocess.Popen(words, stdin=subprocess.PIPE, stdout=subprocess.PIPE, stderr=subprocess.DEVNULL)
        self.text = b""

    def until(self, end):
        """What came up to an end, without it; all that came, where the machine ended first."""
        while not self.text.endswith(end):
            one = self.qemu.stdout.read(1)
            if not one:
                break
            self.text += one
        came, self.text = self.text.removesuffix(end), b""
        return came

    def types(self, text):
        self.qemu.stdin.write(text)
        self.qemu.stdin.flush()

    def ends(self):
        self.qemu.terminate()
        self.qemu.wait()


def answered(native, line, plan=b"", typed=b""):
    """What the shell shows of a command: its line, what is typed as its input, the program's own two streams, its status, and the prompt."""
    status, out, err = native(line.split("<")[0].split(), plan)
    return line.encode() + b"\n" + typed + out + err + b"status %d\n" % status


def commands(held):
    """Commands one after another on one boot: those of the program, of a plan of the image or of one that is typed, and of the shell."""
    plans = {path.name: path.read_bytes() for path in sorted((ROOT / "plans").glob("*.toml"))}
    told = "there is no such plan; ls lists them\n"
    console, faults = Console(held), []
    console.until(PROMPT)
    one_send = plans["one-send.toml"]
    of_program = [("run --schedule 0*21 < one-send.toml", one_send), ("run --schedule 0*9 < one-send", one_send), ("--version < one-send", one_send),
                  ("count --cpus 4 --times 100 --lock grant < one-send", b""), ("nonsense < one-send", b""), ("run --schedule 0* < one-send", one_send)]
    for line, plan in of_program:
        console.types(line.encode() + b"\r")
        came, wanted = console.until(PROMPT), answered(held.native, line, plan)
        faults += [] if came == wanted else [f"{line}: {came}, and wanted is {wanted}"]
    text = one_send.replace(b"\n", b"\r")
    console.types(b"run --schedule 0*21\r" + text + b"\x04")
    came, wanted = console.until(PROMPT), answered(held.native, "run --schedule 0*21", one_send, one_send)
    faults += [] if came == wanted else [f"a typed plan: {came}, and wanted is {wanted}"]
    rows = [("ls", "".join(f"{name}\n" for name in plans)), ("run --schedule 0 < nothing", told), ("step nothing", told), ("run < ", told), ("", "")]
    for line, wanted in rows:
        console.types(line.encode() + b"\r")
        came = console.until(PROMPT)
        faults += [] if came == f"{line}\n{wanted}".encode() else [f"{line}: {came}, and wanted is {wanted}"]
    console.ends()
    return "; ".join(faults)[:1500] or None


def steps(held):
    """The schedule of `step` grows by a key, and a backspace takes one away; the program's answer is shown anew after each."""
    console, schedule, faults = Console(held), [], []
    plan = (ROOT / "plans/ping-pong.toml").read_bytes()
    console.until(PROMPT)
    console.types(b"step ping-pong\r")
    for key in ["", *"0011010", "\b", "\x7f", *"1b00"]:
        console.types(key.encode())
        schedule = schedule[:-1] if key in ("\b", "\x7f") else schedule + ([str(int(key, 16))] if key else [])
        line = f"run --schedule={','.join(schedule)}"
        _, out, err = held.native(line.split(), plan)
        came = console.until(STEP_PROMPT)
        wanted = line.encode() + b"\n" + out + err
        faults += [] if wanted in came else [f"{schedule}: {came}, and wanted is {wanted}"]
    console.types(b"q")
    faults += [] if console.until(PROMPT) == b"" else ["q does not end it"]
    console.ends()
    return "; ".join(faults)[:1500] or None


def many(held, count=100):
    """Many commands on one boot, with little memory: what each leaves of the heap is forgotten."""
    console = Console(held, memory=32)
    console.until(PROMPT)
    line, plan = "run --schedule 0*21 < one-send", (ROOT / "plans/one-send.toml").read_bytes()
    wanted, fault = answered(held.native, line, plan), None
    for number in range(count):
        console.types(line.encode() + b"\r")
        came = console.until(PROMPT)
        if came != wanted and not fault:
            fault = f"the {number}th: {came}"
    console.ends()
    return fault


def at_keyboard(held, image_words, reads):
    """What a PC without a serial line shows of what is typed on its keyboard, as `reads` takes it off the screen."""
    with tempfile.TemporaryDirectory() as folder:
        words = ["timeout", "--foreground", "-k", "1", str(machine.SECONDS), held.machine.qemu, *"-display none -nic none -no-reboot -serial none".split()]
        words += ["-monitor", "stdio", "-m", "256", *held.machine.processors(2, False, "max"), *image_words]
        qemu = subprocess.Popen(words, cwd=folder, stdin=subprocess.PIPE, stdout=subprocess.DEVNULL, stderr=subprocess.DEVNULL, text=True)
        on_screen(qemu, Path(folder, "screen"), reads, "tower> ")
        for letter in "run --schedule 0*21 < one-send\n":
            asks(qemu, f"sendkey {KEYS.get(letter, letter)} 20")
            time.sleep(0.06)
        lines = on_screen(qemu, Path(folder, "screen"), reads, "status 0")
        qemu.terminate()
        qemu.wait()
    wanted = answered(held.native, "run --schedule 0*21 < one-send", (ROOT / "plans/one-send.toml").read_bytes()).decode()
    return None if "tower> " + wanted in "\n".join(lines) + "\n" else f"{lines}"


def asks(qemu, command):
    """A command for QEMU's monitor."""
    try:
        qemu.stdin.write(command + "\n")
        qemu.stdin.flush()
    except BrokenPipeError:
        pass


def on_screen(qemu, file, reads, wanted):
    """The lines of the screen, once some line has this, or QEMU has ended."""
    lines = []
    while qemu.poll() is None and not any(wanted in line for line in lines):
        file.unlink(missing_ok=True)
        asks(qemu, reads.command.format(file))
        lines = reads(written(qemu, file))
    return lines


def written(qemu, file):
    """What a file has, once nothing more comes to it."""
    sizes = [-1, -2]
    while qemu.poll() is None and (sizes[-1] <= 0 or sizes[-1] != sizes[-2]):
        time.sleep(0.3)
        sizes.append(file.stat().st_size if file.exists() else 0)
    return file.read_bytes() if file.exists() else b""


def letters(cells):
    """The lines of a screen of letters, 25 of 80 cells."""
    return [cells[160 * row:160 * (row + 1):2].decode("latin-1").rstrip("\0 ") for row in range(25)]


letters.command = 'pmemsave 0xb8000 4000 "{}"'


def dots(picture):
    """The lines of a screen of dots, by the host's own font: a cell has 8 times 16 dots, and a letter 5 times 8, each twice as high."""
    font = bytes.fromhex("".join(re.findall(r"\\x(..)", (ROOT / "metal/host/x86_64/font.h").read_text())))
    letter_of = {font[5 * i:5 * i + 5]: chr(32 + i) for i in range(len(font) // 5)}
    found = re.match(rb"P6\s(\d+)\s(\d+)\s255\s", picture)
    wide = int(found[1]) if found else 0
    if wide < 640 or len(picture) < found.end() + 3 * wide * 400:
        return []

    def letter(row, column):
        at = [found.end() + 3 * (wide * 16 * row + 8 * column + x) for x in range(5)]
        columns = bytes(sum((picture[begin + 3 * wide * 2 * y] > 0) << y for y in range(8)) for begin in at)
        return letter_of.get(columns, "?")
    return ["".join(letter(row, column) for column in range(80)).rstrip() for row in range(25)]


dots.command = 'screendump "{}"'


def cases(held):
    yield "commands", lambda: commands(held)
    yield "steps", lambda: steps(held)
    yield "a hundred commands", lambda: many(held)
    if held.machine is machine.PC:
        yield "a keyboard and no serial line", lambda: at_keyboard(held, ["-kernel", held.image, "-append", "shell"], letters)
