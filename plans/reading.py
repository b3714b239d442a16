"""Reads a plan as `mctower` does, and says what is wrong with one that it refuses: for plans/kernel.py, plans/picture.py and plans/explain.py.

`read_plan` returns the plan, or raises the `Refusal` that `mctower` prints, with the line of the file and what may stand there. Nothing
here is proved: tests/explain.py holds it against the program. It needs Python alone, 3.9 or later.
"""
import difflib
import sys
from pathlib import Path
from typing import Callable, NamedTuple

if sys.version_info < (3, 9):
    sys.exit(f"{sys.argv[0]} needs Python 3.9 or later, and this is {sys.version.split()[0]}")

from document import Array, Moment, NoDocument, Table, read_document, shown, strange_in  # noqa: E402
from limits import BUFFERS, CAPACITY, CPUS, LINES, THREADS, TRACE, WORD, WORDS  # noqa: E402

REGISTERS = [f"r{i}" for i in range(WORDS)]
# The operands of each instruction: a register, a number, a buffer, a count of words, a target. Those after `?` are optional.
INSTRUCTIONS = {"set": "rn", "add": "rr", "sub": "rr", "jnz": "rt", "send": "br?t", "sendm": "bw?t", "recv": "br?t", "recvm": "b?t", "close": "b",
                "yield": "", "exit": ""}
OPERANDS = {"r": f"a register, r0 to {REGISTERS[-1]}", "n": f"a number, 0 to {WORD - 1}, in digits", "b": f"a buffer, 0 to {BUFFERS - 1}",
          "w": f"a count of words, 1 to {WORDS}", "t": "a line of the program, counted from 0"}


class Refusal(ValueError):
    """What `mctower` refuses: its own words, what is told beside them, and where: the line of the plan, or the schedule."""

    def __init__(self, words, why, line=None, in_schedule=False):
        super().__init__(words)
        self.words, self.why, self.line, self.in_schedule = words, why, line, in_schedule

    @property
    def status(self):
        """The exit status of `mctower`."""
        return 2 if self.words == "BadSchedule(9)" else 1

    def told(self, path):
        """The lines of a message: `mctower`'s own, and then where and why."""
        place = "schedule" if self.in_schedule else file_name(path)
        return f"error: {self.words}\n{place}{f':{self.line}' if self.line else ''}: {self.why}\n"


def file_name(path):
    """A file as messages name it."""
    return "standard input" if str(path) == "-" else str(path)


def bytes_at(path):
    """The bytes of a file; of `-`, those of standard input. A file that cannot be read is refused by `ReadFault(7)`."""
    try:
        return sys.stdin.buffer.read() if str(path) == "-" else Path(path).read_bytes()
    except OSError as fault:
        raise Refusal("ReadFault(7)", fault.strerror) from None


def is_number(piece, most=None):
    """Whether a piece spells a number, of at most so much."""
    if not (piece.isascii() and piece.isdigit() and (len(piece) == 1 or piece[0] != "0")):
        return False
    return most is None or (len(piece) <= len(str(most)) and int(piece) <= most)


def near(word, known):
    """A question for what may have been meant, or nothing."""
    found = difflib.get_close_matches(word.lower(), known, 1, 0.6)
    return f". Did you mean {shown(found[0])}?" if found else ""


# Keys.

def is_integer(value):
    return isinstance(value, int) and not isinstance(value, bool)


def is_string(value):
    return isinstance(value, str) and not isinstance(value, Moment)


def as_many(count, what):
    """So many things that are numbered from 0, for a message."""
    return f"only {what} 0" if count == 1 else f"{what}s 0 to {count - 1}"


def kind_of(value):
    """What a value is, for a message."""
    kinds = {bool: "a boolean", int: "an integer", float: "a float", Moment: "a date or a time", str: "a string", Table: "a table", Array: "an array"}
    return kinds[type(value)]


def in_range(least, most):
    return lambda number: least <= number <= most


class Key(NamedTuple):
    """A key of a plan: what it has to be, the kind of its value, that of each item of an array, and its range."""
    expected: str
    is_kind: Callable
    is_item: Callable
    is_within: Callable


def is_array(value):
    return isinstance(value, Array)


def is_table(value):
    return isinstance(value, Table)


KEYS = {
    "cpus": Key(f"an integer, 1 to {CPUS}", is_integer, None, in_range(1, CPUS)),
    "trace": Key(f"an integer, 1 to {TRACE}", is_integer, None, in_range(1, TRACE)),
    "buffers": Key(f"an array of 1 to {BUFFERS} integers, each 1 to {CAPACITY}", is_array, is_integer,
                   lambda caps: 1 <= len(caps) <= BUFFERS and all(map(in_range(1, CAPACITY), caps))),
    "lock": Key('"ticket" or "grant"', is_string, None, lambda name: name in ("ticket", "grant")),
    "thread": Key(f"1 to {THREADS} tables, each below a line [[thread]]", is_array, is_table, lambda tables: 1 <= len(tables) <= THREADS),
}
THREAD_KEYS = {
    "cpu": Key("an integer, 0 to cpus - 1", is_integer, None, None),
    "program": Key("an array of strings, one for each instruction", is_array, is_string, lambda program: True),
}


def read_plan(raw):
    """The plan that some bytes are: a table with the keys of the format."""
    plan = document_of(raw)
    if not raw.strip():
        raise Refusal("MissingKey(21) cpus", "the plan is empty. Is < PLAN missing, or after an unquoted ; of the schedule?")
    for name, key in KEYS.items():
        if name != "lock" or name in plan:
            hold_to_key(plan, name, key, name)
    for number, thread in enumerate(plan["thread"]):
        read_thread(plan, number, thread)
    return plan


def document_of(raw):
    """The TOML document that some bytes are."""
    try:
        return read_document(raw.decode("utf-8"))
    except UnicodeDecodeError as fault:
        hint = ", and the text begins as UTF-16 does: save it as UTF-8" if raw[:2] in (b"\xff\xfe", b"\xfe\xff") else ""
        line = raw.count(b"\n", 0, fault.start) + 1
        raise Refusal("BadToml(20)", f"byte {fault.start + 1} of the text is not UTF-8{hint}", line) from None
    except NoDocument as fault:
        raise Refusal("BadToml(20)", f"column {fault.column}: {fault.why}{other_format(raw, fault)}", fault.line) from None


def other_format(raw, fault):
    """A hint where a text is of another format than TOML, or has a character that looks like one of TOML's; or nothing."""
    if raw.startswith(b"mctower-trace"):
        return ". This is a trace text, which `mctower check` reads"
    if raw.lstrip().startswith(b"{"):
        return ". A plan is TOML, not JSON: each key needs its own line, for example cpus = 1"
    line = raw.decode("utf-8").removeprefix("\ufeff").split("\n")[fault.line - 1]
    return strange_in(line, "column") if line[:fault.column - 1].isascii() and not line[fault.column - 1:fault.column].isascii() else ""


def hold_to_key(table, name, key, where, missing_line=None):
    """Refuses a table if a key of it is absent, of another kind, or out of range."""
    if name not in table:
        raise Refusal(f"MissingKey(21) {where}", f"the required key {name} is missing: expected {key.expected}{meant(table, name)}", missing_line)
    value, line = table[name], table.lines[name]
    if not key.is_kind(value):
        raise Refusal(f"MissingKey(21) {where}", f"{name} is {kind_of(value)}: expected {key.expected}", line)
    if key.is_item:
        strange = next((i for i, item in enumerate(value) if not key.is_item(item)), None)
        if strange is not None:
            why = f"item {strange + 1} of {name} is {kind_of(value[strange])}: expected {key.expected}"
            raise Refusal(f"MissingKey(21) {where}", why, value.lines[strange])
    if not key.is_within(value):
        raise Refusal(f"OutOfRange(22) {where}", f"{name} {out_of_range(value)}: expected {key.expected}", line)


def out_of_range(value):
    """What a value out of range is, for a message."""
    if not is_array(value):
        return f"is {value!r}" if not is_string(value) else f'is "{shown(value)}"'
    if all(map(is_integer, value)) and 1 <= len(value) <= BUFFERS:
        item = next(i for i, number in enumerate(value) if not 1 <= number <= CAPACITY)
        return f"has {value[item]} as item {item + 1}"
    return f"has {len(value)} items"


def meant(table, name):
    """The key that may have been meant where one is missing, or that stands below a header where it has no place; or a hint at an empty text."""
    if not table:
        return ". There is no key at all" if name == "cpus" else ""
    known = KEYS if name in KEYS else THREAD_KEYS
    found = difflib.get_close_matches(name, [key for key in table if key not in known], 1, 0.6)
    if found:
        return f". Did you mean {shown(found[0])}, on line {table.lines[found[0]]}?"
    inner = [value for tables in table.values() for value in (tables if is_array(tables) else [tables]) if is_table(value) and name in value]
    return f". One stands on line {inner[0].lines[name]}, below a header: put it above all headers" if inner else ""


# Threads and their programs.

def read_thread(plan, number, thread):
    """Refuses a thread of a plan if its home or its program is none."""
    where, line = f"thread {number}", plan["thread"].lines[number]
    cpu = THREAD_KEYS["cpu"]._replace(expected=f"an integer, 0 to {plan['cpus'] - 1}, since cpus is {plan['cpus']}", is_within=in_range(0, plan["cpus"] - 1))
    hold_to_key(thread, "cpu", cpu, f"{where} cpu", line)
    hold_to_key(thread, "program", THREAD_KEYS["program"], f"{where} program", line)
    program = thread["program"]
    if not 1 <= len(program) <= LINES:
        fault = f"line {LINES} TooLong(14)" if program else "line 0 Empty(15)"
        raise Refusal(f"Guest(23) {where} {fault}", f"the program has {len(program)} lines: expected 1 to {LINES}", thread.lines["program"])
    for i, instruction in enumerate(program):
        fault, why = instruction_fault(instruction, len(program))
        if fault:
            raise Refusal(f"Guest(23) {where} line {i} {fault}", f'"{shown(instruction, 80)}": {why}{strange_in(instruction)}', program.lines[i])
    hold_to_buffers(program, len(plan["buffers"]), where)


def hold_to_buffers(program, buffers, where):
    """Refuses a program that names a buffer which the plan has not."""
    for i, instruction in enumerate(program):
        word, *operands = instruction.split(" ")
        if INSTRUCTIONS[word][:1] == "b" and int(operands[0]) >= buffers:
            raise Refusal(f"OutOfRange(22) {where} program", f'"{instruction}": the plan has {as_many(buffers, "buffer")}', program.lines[i])


def instruction_fault(instruction, lines):
    """The fault of an instruction of a program with so many lines, and what is told beside it; None and None if it is right."""
    word, *operands = instruction.split(" ")
    must, _, may = INSTRUCTIONS.get(word, "").partition("?")
    if word not in INSTRUCTIONS or len(operands) not in (len(must), len(must + may)):
        return "UnknownWord(10)", unknown_word(instruction, word, operands)
    for number, (operand, kind) in enumerate(zip(operands, must + may), 1):
        fault = operand_fault(operand, kind, lines)
        if fault:
            within = f", here 0 to {lines - 1}" if kind == "t" else ""
            return fault, f'operand {number}, "{shown(operand)}": expected {OPERANDS[kind]}{within}'
    return None, None


def operand_fault(operand, kind, lines):
    """The fault of an operand that has to be of this kind, or None."""
    if kind == "r":
        return None if operand in REGISTERS else "BadRegister(11)"
    most = {"n": WORD - 1, "b": BUFFERS - 1, "w": WORDS, "t": None}[kind]
    if not is_number(operand, most) or (kind == "w" and operand == "0"):
        return "BadNumber(12)"
    return "BadTarget(13)" if kind == "t" and not is_number(operand, lines - 1) else None


def unknown_word(instruction, word, operands):
    """Why a line is not an instruction, by its word and the number of its operands."""
    if "#" in instruction:
        return "an instruction cannot contain a comment: put it after the string"
    if ";" in instruction:
        return "a string has one instruction: put the next one into its own string"
    if word.endswith(":"):
        return "there are no labels: a target is a line of the program, counted from 0"
    if instruction and instruction.split() != instruction.split(" "):
        return "expected one space between two words, and none before or after them"
    if word not in INSTRUCTIONS:
        return f'"{shown(word)}" is not an instruction: expected one of {", ".join(INSTRUCTIONS)}{near(word, INSTRUCTIONS)}'
    must, _, may = INSTRUCTIONS[word].partition("?")
    expected = " and ".join(OPERANDS[kind].split(",")[0] for kind in must) or "no operand"
    many = "1 operand follows" if len(operands) == 1 else f"{len(operands)} operands follow"
    return f"{word} takes {expected}{', and optionally a target' if may else ''}, but {many}"


def ignored(plan):
    """The keys of a plan that nobody reads: the line of each, and what may have been meant."""
    notes = [(plan.lines[key], f"the key {shown(key)} is ignored{near(key, KEYS)}") for key in plan if key not in KEYS]
    for number, thread in enumerate(plan["thread"]):
        for key in thread:
            if key not in THREAD_KEYS:
                hint = ": put it above the first [[thread]]" if key in KEYS else near(key, THREAD_KEYS)
                notes.append((thread.lines[key], f"the key {shown(key)} of thread {number} is ignored{hint}"))
    return sorted(notes)
