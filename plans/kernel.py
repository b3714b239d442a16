#!/usr/bin/env python3
"""Runs a plan under a schedule on the step table, a short Python program that is not proved, and prints what `mctower run` prints.

    plans/kernel.py [--wrong MISTAKE] PLAN [SCHEDULE]
    plans/kernel.py [--wrong MISTAKE] --rounds [--each STEPS] PLAN
    plans/kernel.py [--wrong MISTAKE] --search PLAN

The default schedule is the one in the first lines of the plan. With --wrong the kernel makes a mistake, to show what breaks; --help lists them. With
--rounds it prints a schedule: STEPS steps of each CPU in turn, until no CPU has work. With --search it prints the shortest schedule under which the mistake,
or each mistake, breaks a law (plans/states.py). It reports on standard error a missing schedule and each key of the plan that is ignored.
Without --wrong it prints what `mctower run` prints, and rejects what that rejects; tests/book.py and tests/explain.py compare the two. It needs only
Python 3.9 or later, no built program.
"""
import argparse
import signal
import sys
from collections import deque
from pathlib import Path

from reading import Refusal, bytes_at, file_name, ignored
from schedules import chosen, read_run, rounds, schedule_in, schedule_of, steps_of  # noqa: F401 (two of them for programs that draw and compare runs)

RECEIVERS, SENDERS = 0, 1
SIDES = {"send": SENDERS, "sendm": SENDERS, "recv": RECEIVERS, "recvm": RECEIVERS, "close": SENDERS}
REGISTERS = 8
WRONG = {
    "look-always-hits": "a CPU enters a section without waiting for its turn",
    "pend-keeps-the-hand": "who is sent home stays in the hand as well",
    "wakes-where-it-is": "a woken thread joins the ready queue of the CPU that wakes it",
    "release-frees-the-lock": "a release wakes the first sleeper and leaves the lock free",
    "wait-frees-first": "a wait releases the lock in one section and joins the waiters in the next",
    "first-word-alone": "a buffer keeps the first word of a message alone",
    "take-skips-the-turn": "a receive takes a message though it is not the first in line",
    "other-side-only": "a call that took effect signals the other side alone",
    "closed-signals-nobody": "a call that found its buffer closed signals nobody",
    "closed-before-empty": "a receive finds a closed buffer closed though messages are left in it",
    "close-drops-the-items": "a close takes the messages of its buffer away",
}


class Guest:
    """A guest thread: its program, its line, its registers, the stage of its call, and its place."""

    def __init__(self, home, program):
        self.home, self.program = home, [line.split(" ") for line in program]
        self.line, self.registers, self.stage, self.position, self.effect = 0, [0] * REGISTERS, None, 0, None
        self.place = f"Ready({home})"

    def instruction(self):
        return self.program[self.line] if self.line < len(self.program) else ["exit"]

    def call(self):
        """The buffer and the side of the call at which the thread stands, or None. A close signals as a send does."""
        word = self.instruction()
        side = SIDES.get(word[0])
        return None if side is None else (int(word[1]), side)

    def message(self):
        """The words that the send at which the thread stands offers: those of the first registers, or of the one that it names."""
        word = self.instruction()
        return tuple(self.registers[:int(word[2])]) if word[0] == "sendm" else (self.registers[int(word[2][1:])],)

    def end_call(self):
        """A message goes into all registers, or its first word into one; a call that found its buffer closed goes to its target, if
        it has one."""
        word, (kind, message) = self.instruction(), self.effect
        if kind == "recv" and word[0] == "recvm":
            self.registers = list(message) + [0] * (REGISTERS - len(message))
        elif kind == "recv":
            self.registers[int(word[2][1:])] = message[0]
        target = word[2 if word[0] == "recvm" else 3:] if kind in ("sendc", "recvc") else []
        self.line, self.stage = int(target[0]) if target else self.line + 1, None


class Buffer:
    """A buffer's block: what its lock guards."""

    def __init__(self, capacity):
        self.capacity, self.owner, self.items, self.effects = capacity, None, deque(), 0
        self.sleepers, self.waiting, self.line = deque(), (deque(), deque()), (deque(), deque())
        self.positions, self.closed, self.closes = [0, 0], False, 0

    def copy(self):
        """A copy that an edit of this one does not change."""
        twin = type(self)(self.capacity)
        twin.owner, twin.items, twin.effects = self.owner, deque(self.items), self.effects
        twin.sleepers, twin.waiting, twin.line = deque(self.sleepers), tuple(map(deque, self.waiting)), tuple(map(deque, self.line))
        twin.positions, twin.closed, twin.closes = list(self.positions), self.closed, self.closes
        return twin

    def may_go(self, side):
        return self.closed or (len(self.items) < self.capacity if side == SENDERS else bool(self.items))


class Cpu:
    def __init__(self):
        self.current, self.hand, self.ready, self.trace, self.begun = None, None, deque(), [], 0
        self.section, self.ticket, self.block = None, 0, None  # the block: in its hands while it is inside


class Kernel:
    """What one step of a CPU does, with the name of the section that it works in."""

    def __init__(self, plan, wrong=None):
        self.wrong, self.room = wrong, plan["trace"]
        self.cpus = [Cpu() for _ in range(plan["cpus"])]
        self.guests = [Guest(thread["cpu"], thread["program"]) for thread in plan["thread"]]
        self.blocks = {("buffer", b): Buffer(k) for b, k in enumerate(plan["buffers"])}
        self.blocks |= {("pending", c): deque() for c in range(plan["cpus"])}
        self.words = {lock: [0, 0] for lock in self.blocks}  # next, serving
        self.entry = None
        for number, guest in enumerate(self.guests):
            self.cpus[guest.home].ready.append(number)

    def step(self, c):
        """Takes one step of a CPU, and tells its section and the part of it: it draws a ticket, misses its turn, enters, or ends. A step
        without a lock stands alone. Both are '' where there is no step."""
        self.entry, cpu = None, self.cpus[c]
        if cpu.section is None:
            return self.begin(c, cpu)
        name, lock = cpu.section
        if cpu.block is None:
            if self.wrong != "look-always-hits" and self.words[lock][1] != cpu.ticket:
                return name, "misses"
            cpu.block = self.blocks[lock].copy()
            return name, "enters"
        cpu.section, block, cpu.block = None, cpu.block, None
        self.edit(c, cpu, name, block)
        self.blocks[lock] = block
        self.words[lock][1] += 1
        return name, "ends"

    def draw(self, cpu, name, lock):
        cpu.section, cpu.ticket = (name, lock), self.words[lock][0]
        self.words[lock][0] += 1
        return name, "draws"

    def halted(self, c):
        """Why a CPU takes no step between its sections, or None."""
        cpu = self.cpus[c]
        if cpu.section is not None or cpu.hand is not None:
            return None
        if all(guest.place == "Ended" for guest in self.guests if guest.home == c):
            return "AllEnded"
        at_call = cpu.current is not None and self.guests[cpu.current].call() and self.guests[cpu.current].stage is None
        return "TraceFull" if at_call and len(cpu.trace) + cpu.begun == self.room else None

    def begin(self, c, cpu):
        if cpu.hand is not None:
            return self.draw(cpu, f"Pend t{cpu.hand}", ("pending", self.guests[cpu.hand].home))
        if self.halted(c):
            return "", ""
        if cpu.current is None:
            if not cpu.ready:
                return self.draw(cpu, "Drain", ("pending", c))
            cpu.current = cpu.ready.popleft()
            self.move(cpu.current, f"Running({c})")
            return "switch", "alone"
        guest = self.guests[cpu.current]
        call = guest.call()
        if call is None:
            if guest.instruction()[0] == "yield":
                return self.draw(cpu, "Yield", ("pending", c))
            return self.compute(cpu, cpu.current)
        if guest.stage is None:
            guest.stage, cpu.begun = "AcqQ", cpu.begun + 1
        return self.draw(cpu, f"{self.name_of(guest.stage, call[1])} {call[0]}", ("buffer", call[0]))

    def move(self, t, place, queue=None):
        """Moves a thread to a place, and to the end of the queue that is this place, if it is one."""
        self.guests[t].place = place
        if queue is not None:
            queue.append(t)

    @staticmethod
    def name_of(stage, side):
        signals = ("SigRecv", "SigSend")
        names = {"Again": "AcqQ", "Try": ("TryTake", "TryPut")[side], "Other": signals[1 - side], "Own": signals[side]}
        return names.get(stage, stage)

    def compute(self, cpu, t):
        guest = self.guests[t]
        word, registers = guest.instruction(), guest.registers
        number = [int(piece.removeprefix("r")) for piece in word[1:]]
        guest.line += 1
        if word[0] == "set":
            registers[number[0]] = number[1]
        elif word[0] in ("add", "sub"):
            other = registers[number[1]] if word[0] == "add" else -registers[number[1]]
            registers[number[0]] = (registers[number[0]] + other) % 2**64
        elif word[0] == "jnz":
            guest.line = number[1] if registers[number[0]] else guest.line
        else:
            self.leave(cpu, t, "Ended")
        return word[0], "alone"

    def edit(self, c, cpu, name, block):
        """The edit of a section on its lock's block, which the CPU has in its hands."""
        t = cpu.current
        if name.startswith("Pend"):
            self.send_home(cpu, block)
            if t is not None and self.guests[t].stage == "Returns":
                self.guests[t].end_call()
        elif name in ("Drain", "Yield"):
            self.drain(c, cpu, block)
            if name == "Yield":
                self.guests[t].line += 1
                self.leave(cpu, t, f"Ready({c})", cpu.ready)
        else:
            self.edit_buffer(c, cpu, t, block)

    def send_home(self, cpu, pending):
        s = cpu.hand
        if self.wrong != "pend-keeps-the-hand" or s in pending:
            cpu.hand = None
        self.move(s, f"Pending({self.guests[s].home})", pending)

    def drain(self, c, cpu, pending):
        for t in pending:
            self.move(t, f"Ready({c})", cpu.ready)
        pending.clear()

    def edit_buffer(self, c, cpu, t, buffer):
        guest = self.guests[t]
        (b, side), stage = guest.call(), guest.stage
        if stage in ("AcqQ", "Again"):
            first = "Shut" if guest.instruction()[0] == "close" else "Enter"
            guest.stage = first if stage == "AcqQ" else "Try"
            if buffer.owner is None:
                buffer.owner = t
            else:
                self.leave(cpu, t, f"LockSleeper({b})", buffer.sleepers)
        elif stage == "Enter":
            guest.stage, guest.position = "Try", buffer.positions[side]
            buffer.positions[side] += 1
            buffer.line[side].append(t)
        elif stage == "Shut":
            self.shut(c, cpu, t, buffer)
        elif stage == "Try":
            self.attempt(c, cpu, guest, t, buffer)
        elif stage == "Wait" and self.wrong == "wait-frees-first":
            guest.stage = "Join"
            self.release(c, cpu, buffer)
        elif stage in ("Wait", "Join"):
            guest.stage = "Again"
            self.leave(cpu, t, f"{('WaitRecv', 'WaitSend')[side]}({b})", buffer.waiting[side])
            if stage == "Wait":
                self.release(c, cpu, buffer)
        elif stage in ("Other", "Own"):
            self.signal(c, cpu, buffer, side if stage == "Own" else 1 - side)
            guest.stage = "Own" if stage == "Other" and self.wrong != "other-side-only" else "RelQ"
        else:
            self.release(c, cpu, buffer)
            guest.stage = "Returns"
            if cpu.hand is None:
                guest.end_call()

    def attempt(self, c, cpu, guest, t, buffer):
        side = guest.call()[1]
        line = buffer.line[side]  # a lock that is none may have lost it
        in_turn = (line and line[0] == t) or (self.wrong == "take-skips-the-turn" and side == RECEIVERS)
        if not in_turn or not buffer.may_go(side):
            guest.stage = "Wait"
            return
        line.remove(t)
        if side == SENDERS:
            kind, message = "sendc" if buffer.closed else "send", guest.message()
            kept = message[:1] if self.wrong == "first-word-alone" else message
            buffer.items.extend([kept] if kind == "send" else [])
        elif buffer.items and not (buffer.closed and self.wrong == "closed-before-empty"):
            kind, message = "recv", buffer.items.popleft()
        else:
            kind, message = "recvc", ()
        self.take_effect(c, cpu, t, buffer, kind, message, guest.position)
        if kind in ("sendc", "recvc") and self.wrong == "closed-signals-nobody":
            guest.stage = "RelQ"

    def shut(self, c, cpu, t, buffer):
        buffer.closed, buffer.closes = True, buffer.closes + 1
        if self.wrong == "close-drops-the-items":
            buffer.items.clear()
        self.take_effect(c, cpu, t, buffer, "close", (), buffer.closes - 1)

    def take_effect(self, c, cpu, t, buffer, kind, message, position):
        guest = self.guests[t]
        self.entry = (c, t, kind, guest.call()[0], spelled(message), buffer.effects, position)
        buffer.effects += 1
        guest.stage, guest.effect, cpu.begun = "Other", (kind, message), cpu.begun - 1
        cpu.trace.append(self.entry)

    def leave(self, cpu, t, place, queue=None):
        """The thread that a CPU runs leaves it for another place."""
        self.move(t, place, queue)
        cpu.current = None

    def wake(self, c, cpu, t):
        if self.guests[t].home == c or self.wrong == "wakes-where-it-is":
            self.move(t, f"Ready({c})", cpu.ready)
        else:
            self.move(t, f"Hand({c})")
            cpu.hand = t

    def release(self, c, cpu, buffer):
        first = buffer.sleepers.popleft() if buffer.sleepers else None
        buffer.owner = None if self.wrong == "release-frees-the-lock" else first
        if first is not None:
            self.wake(c, cpu, first)

    def signal(self, c, cpu, buffer, side):
        line = buffer.line[side]
        if line and line[0] in buffer.waiting[side] and buffer.may_go(side):
            buffer.waiting[side].remove(line[0])
            self.wake(c, cpu, line[0])

    def rests(self, c):
        cpu = self.cpus[c]
        if self.blocks["pending", c]:
            return False
        if self.halted(c):
            return all(guest.place == "Ended" for guest in self.guests if guest.home == c)
        return cpu.current is None and not cpu.ready and cpu.hand is None and cpu.section is None

    def gathered(self):
        """The entries in the order that takes, at each point, the first trace whose next entry is its buffer's next."""
        left, due, order = [deque(cpu.trace) for cpu in self.cpus], {}, []
        while any(left):
            trace = next((one for one in left if one and one[0][5] == due.get(one[0][3], 0)), None)
            if trace is None:
                return None
            due[trace[0][3]] = trace[0][5] + 1
            order.append(trace.popleft())
        return order

    def text(self):
        """The trace text, or why there is none."""
        order = self.gathered()
        if order is None:
            return "error: NoOrder(6)\n"
        buffers = [block for lock, block in self.blocks.items() if lock[0] == "buffer"]
        version = 3 if any("," in entry[4] for entry in order) else 2 if any(entry[2] not in ("send", "recv") for entry in order) else 1
        lines = [f"mctower-trace {version}", f"buffers {len(buffers)}"]
        lines += [f"cap {b} {buffer.capacity}" for b, buffer in enumerate(buffers)]
        lines += [f"e {cpu} {t} {kind} {b} {value} {op} {pos}" for cpu, t, kind, b, value, op, pos in order]
        lines += [" ".join(["left", str(b), *map(spelled, buffer.items)]) for b, buffer in enumerate(buffers)]
        return "\n".join(lines + ["end"]) + "\n"

    def states(self):
        """The state lines."""
        lines = [f"cpu {c} {self.halted(c) or 'live'}" for c in range(len(self.cpus))]
        lines += [f"thread {t} {guest.place}" for t, guest in enumerate(self.guests)]
        quiet = "yes" if all(self.rests(c) for c in range(len(self.cpus))) else "no"
        return "\n".join(lines + [f"quiet {quiet}"]) + "\n"


def spelled(message):
    """The words of a message, or `-` where a call has none."""
    return ",".join(map(str, message)) or "-"


class Once(argparse.Action):
    """An option that may be given once."""

    def __call__(self, parser, asked, value, option=None):
        if getattr(asked, self.dest) is not self.default:
            parser.error(f"{option} is given twice")
        setattr(asked, self.dest, value)


def asked_of(words):
    """What a command line asks for."""
    mistakes = "\n".join(f"  {name:24}{what}" for name, what in WRONG.items())
    parser = argparse.ArgumentParser(prog="kernel.py", description=f"{__doc__.splitlines()[0]} It needs only Python 3.9 or later.", allow_abbrev=False,
                                     epilog=f"mistakes:\n{mistakes}", formatter_class=argparse.RawDescriptionHelpFormatter)
    parser.add_argument("--wrong", choices=WRONG, metavar="MISTAKE", action=Once, help="run the kernel that makes this mistake")
    parser.add_argument("--rounds", action="store_true", help="print a schedule in rounds, which ends when no CPU has work")
    parser.add_argument("--search", action="store_true", help="print the shortest schedule under which the mistake, or each mistake, breaks a law")
    parser.add_argument("--each", type=int, default=60, metavar="STEPS", help="steps of each CPU in a round (default: 60)")
    parser.add_argument("plan")
    parser.add_argument("schedule", nargs="?")
    asked = parser.parse_args(words)
    if asked.each < 1 or (asked.rounds or asked.search) and asked.schedule is not None:
        parser.error("--each takes at least 1; --rounds and --search take no schedule")
    if asked.plan != "-" and not Path(asked.plan).exists():
        parser.exit(2, f"kernel: no such file: {asked.plan}; expected a plan, for example plans/one-send.toml\n")
    return asked


def notes_on(plan, name, schedule):
    """What is told of a run beside what `mctower run` prints: keys that nobody reads, and that no step was taken."""
    notes = [f"{name}:{line}: {note}" for line, note in ignored(plan)]
    if schedule is None:
        notes.append(f"{name}: no step was taken: there is no schedule as an argument or in its first lines; plans/kernel.py --rounds prints one")
    return "".join(f"kernel: {note}\n" for note in notes)


def is_deadlocked(kernel):
    """Whether no thread can ever proceed: some thread has not ended, and no CPU runs one, or has one ready, in its hand or pending.

    `quiet` says less: a CPU that looks into its empty pending queue makes it `no`."""
    is_idle = all(cpu.current is None and cpu.hand is None and not cpu.ready and not cpu.block for cpu in kernel.cpus)
    is_empty = not any(kernel.blocks["pending", c] for c in range(len(kernel.cpus)))
    return is_idle and is_empty and any(guest.place != "Ended" for guest in kernel.guests)


def main(words):
    asked = asked_of(words)
    try:
        raw = bytes_at(asked.plan)
        schedule = None if asked.rounds or asked.search else chosen(raw, asked.schedule)
        plan, items = read_run(raw, schedule)
    except Refusal as refusal:
        sys.stderr.write(refusal.told(asked.plan))
        return refusal.status
    if asked.search:
        import states  # which takes steps by this module
        return states.search(plan, [asked.wrong] if asked.wrong else WRONG)
    kernel = Kernel(plan, asked.wrong)
    if asked.rounds:
        print(schedule_of(rounds(kernel, asked.each)))
        return 0
    for c, times in items:
        for _ in range(times):
            kernel.step(c)
    sys.stdout.write(kernel.text())
    sys.stdout.flush()
    sys.stderr.write(kernel.states() + notes_on(plan, file_name(asked.plan), schedule))
    if sys.stderr.isatty() and is_deadlocked(kernel):  # for a reader alone: what a program reads is what `mctower run` prints
        sys.stderr.write("kernel: deadlock: no thread can ever proceed\n")
    return 0


def run_alone():
    """Lets a program end without a trace of its calls where it is stopped or its reader leaves, as `head` does; and has it print UTF-8."""
    for name in ("SIGINT", "SIGPIPE"):
        if hasattr(signal, name):
            signal.signal(getattr(signal, name), signal.SIG_DFL)
    for stream in (sys.stdout, sys.stderr):
        stream.reconfigure(encoding="utf-8", errors="backslashreplace")


if __name__ == "__main__":
    run_alone()
    sys.exit(main(sys.argv[1:]))
