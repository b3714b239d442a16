"""Judges a trace text as `mctower check` does, and says what is wrong with one that gets a no, and what is expected there.

`fault_in` returns the first line with a fault, or None. Nothing here is proved: tests/explain.py holds it against the program. It needs
Python alone, 3.9 or later.
"""
from collections import deque

from document import shown, strange_in
from limits import BUFFERS, CAPACITY, CPUS, ENTRIES, THREADS, WORD, WORDS
from reading import is_number, near

VERSIONS = ("mctower-trace 1", "mctower-trace 2", "mctower-trace 3")
SEND, RECV, CLOSE = "sends", "receives", "closes"
# Each kind of entry, by how it counts; whether its value is a message; and those that the first version has.
GROUPS = {"send": SEND, "sendc": SEND, "recv": RECV, "recvc": RECV, "close": CLOSE}
WITH_MESSAGE = ("send", "recv", "sendc")
FIRST_KINDS = ("send", "recv")


class No(Exception):
    """The first fault of a text: the line, counted from 1, the reason that `mctower check` names, and what is told beside it."""

    def __init__(self, reason, why):
        super().__init__(reason)
        self.reason, self.why, self.line = reason, why, None


def spelling(why):
    return No("Spelling(30)", why)


class Contents:
    """What a buffer holds after the entries so far, and how many there were of each call."""

    def __init__(self, capacity):
        self.capacity, self.items, self.closed, self.effects = capacity, deque(), False, 0
        self.counts = {SEND: 0, RECV: 0, CLOSE: 0}


def words_of(value):
    """The words of a value, each as it is spelled."""
    return value.split(",")


def numbers(pieces, names, bounds):
    """The numbers that pieces spell, each below its bound."""
    for piece, name in zip(pieces, names):
        if not is_number(piece):
            raise spelling(f'"{shown(piece)}" is not a number: expected the {name}, in digits without a leading zero')
    for piece, name, (least, bound) in zip(pieces, names, bounds):
        if not is_number(piece, bound - 1) or int(piece) < least:
            raise No("Range(31)", f"the {name} is {shown(piece)}: expected {least} to {bound - 1}")
    return [int(piece) for piece in pieces]


def pieces_of(line, names):
    """The pieces of a line, as many as there are names."""
    pieces = line.split(" ")
    if len(pieces) != len(names):
        raise spelling(f'the line has {len(pieces)} words: expected {" ".join(names)}, with one space between two')
    return pieces


class Judge:
    """Takes a text line by line. `want` is the method for the next line, or None behind the last."""

    def __init__(self):
        self.want, self.version, self.count, self.buffers, self.left = self.head, 0, 0, [], 0
        self.entries, self.lowest, self.wanted = 0, 1, VERSIONS[0]

    def hint_at_end(self):
        """A hint where a text has no line at all."""
        return "" if self.version else ". The text is empty: was the plan of its run rejected?"

    def head(self, line):
        if line not in VERSIONS:
            raise spelling(self.no_head(line))
        self.version, self.want, self.wanted = VERSIONS.index(line) + 1, self.buffer_count, "buffers n"

    @staticmethod
    def no_head(line):
        if line.startswith("mctower-trace "):
            return f'the head is "{shown(line)}": expected a version from 1 to 3'
        hint = ", and this looks like a plan: `mctower run` reads it" if "=" in line or line.startswith("[") else ""
        if line.startswith("#"):
            hint = ". A trace has no comments; `mctower run` reads plans"
        return f'the head is "{shown(line)}": expected mctower-trace and a version{hint}'

    def buffer_count(self, line):
        pieces = pieces_of(line, ("buffers", "n"))
        self.named(pieces, "buffers")
        self.count, = numbers(pieces[1:], ["number of buffers"], [(1, BUFFERS + 1)])
        self.want, self.wanted = self.capacity, "cap 0 k"

    @staticmethod
    def named(pieces, *words):
        """Refuses a line that does not begin with these words."""
        for piece, word in zip(pieces, words):
            if piece != word:
                raise spelling(f'expected {word}, but found "{shown(piece)}"')

    def capacity(self, line):
        pieces = pieces_of(line, ("cap", str(len(self.buffers)), "k"))
        self.named(pieces, "cap", str(len(self.buffers)))
        capacity, = numbers(pieces[2:], ["capacity"], [(1, CAPACITY + 1)])
        self.buffers.append(Contents(capacity))
        self.wanted = f"cap {len(self.buffers)} k"
        if len(self.buffers) == self.count:
            self.want, self.wanted = self.entry_or_left, "an entry or left 0"

    def entry_or_left(self, line):
        if line.split(" ")[0] == "e":
            self.entry(line)
        else:
            self.contents(line)

    def entry(self, line):
        pieces = pieces_of(line, ("e", "cpu", "thread", "kind", "buffer", "value", "op", "pos"))
        kind, value = pieces.pop(3), pieces.pop(4)
        self.hold_to_kind(kind, pieces)
        self.hold_to_value(kind, value)
        names = ("CPU", "thread", "buffer", "op", "pos")
        bounds = [(0, CPUS), (0, THREADS), (0, self.count), (0, ENTRIES), (0, ENTRIES)]
        _, _, b, op, pos = numbers(pieces[1:], names, bounds)
        hold_to_range(value)
        self.entries += 1
        if self.entries > ENTRIES:
            raise No("Range(31)", f"a text has at most {ENTRIES} entries")
        self.lowest = max(self.lowest, 3 if "," in value else 1 if kind in FIRST_KINDS else 2)
        take_effect(self.buffers[b], b, kind, value, op, pos)

    def hold_to_kind(self, kind, others):
        known = FIRST_KINDS if self.version == 1 else GROUPS
        if kind not in known:
            moved = next((piece for piece in others if piece in GROUPS), None)
            hint = ": it needs the head mctower-trace 2" if kind in GROUPS else near(kind, known)
            hint = f". The kind, {moved}, is in another column: an entry is e cpu thread kind buffer value op pos" if moved else hint
            raise spelling(f'"{shown(kind)}" is not a kind of version {self.version}{hint}')

    def hold_to_value(self, kind, value):
        if kind in WITH_MESSAGE:
            self.hold_to_message(value)
        elif value != "-":
            raise spelling(f'the value of {kind} is "{shown(value)}": expected -')

    def hold_to_message(self, value):
        """Refuses a value that is not spelled as a message."""
        if "," in value and self.version < 3:
            raise spelling(f"{shown(value)} is a message of several words: it needs the head mctower-trace 3")
        strange = next((word for word in words_of(value) if not is_number(word)), None)
        if strange is not None:
            raise spelling(f'"{shown(strange)}" is not a word of a message: expected a number, in digits without a leading zero')

    def contents(self, line):
        self.want = self.contents
        pieces = line.split(" ")
        hint = " (all entries are before the left lines)" if pieces[0] == "e" else ""
        if pieces[:2] != ["left", str(self.left)]:
            raise spelling(f'expected left {self.left}, but found "{shown(line)}"{hint}')
        for value in pieces[2:]:
            self.hold_to_message(value)
        for value in pieces[2:]:
            hold_to_range(value)
        held = list(self.buffers[self.left].items)
        if pieces[2:] != held:
            raise No("Left(37)", f"expected {' '.join(['left', str(self.left), *held])}, what the entries leave")
        self.left += 1
        self.wanted = f"left {self.left}"
        if self.left == self.count:
            self.want, self.wanted = self.end, "end"

    def end(self, line):
        if line != "end":
            raise spelling(f'expected end, but found "{shown(line)}"')
        if self.lowest < self.version:
            raise No("Version(38)", f"the head is {VERSIONS[self.version - 1]}, and {VERSIONS[self.lowest - 1]} can spell this text: that has to be the head")
        self.want = None


def hold_to_range(value):
    """Refuses a message of too many words, or with one that is too large."""
    words = words_of(value) if value != "-" else []
    if len(words) > WORDS:
        raise No("Range(31)", f"the message has {len(words)} words: at most {WORDS}")
    for word in words:
        if not is_number(word, WORD - 1):
            raise No("Range(31)", f"{shown(word)} is no word of 64 bits: at most {WORD - 1}")


def take_effect(buffer, b, kind, value, op, pos):
    """What an entry does to its buffer, or why it may not stand here."""
    group = GROUPS[kind]
    if op != buffer.effects:
        raise No("Op(32)", f"the op is {op}: expected {buffer.effects}, the number of entries of buffer {b} before it. Is one missing, or out of its place?")
    if pos != buffer.counts[group]:
        raise No("Pos(33)", f"the pos is {pos}: expected {buffer.counts[group]}, the number of {group} of buffer {b} before it")
    hold_to_closed(buffer, b, kind)
    if kind == "send":
        if len(buffer.items) == buffer.capacity:
            raise No("Full(34)", f"buffer {b} is full: its capacity is {buffer.capacity}")
        buffer.items.append(value)
    elif kind == "recv":
        receive(buffer, b, value)
    elif kind == "recvc" and buffer.items:
        raise No("NotEmpty(40)", f"buffer {b} still holds {' '.join(buffer.items)}: that is received first")
    buffer.closed = buffer.closed or kind == "close"
    buffer.effects += 1
    buffer.counts[group] += 1


def hold_to_closed(buffer, b, kind):
    if kind == "send" and buffer.closed:
        raise No("CloseState(39)", f"buffer {b} is closed: a send finds that as sendc")
    if kind in ("sendc", "recvc") and not buffer.closed:
        raise No("CloseState(39)", f"no close of buffer {b} stands before it")


def receive(buffer, b, value):
    if not buffer.items:
        raise No("EmptyTake(35)", f"buffer {b} holds nothing")
    if value != buffer.items[0]:
        raise No("WrongValue(36)", f"the first message of buffer {b} is {buffer.items[0]}")
    buffer.items.popleft()


def fault_in(raw):
    """The first fault of a text, or None where `mctower check` says yes."""
    judge, lines = Judge(), raw.decode("utf-8", "surrogateescape").split("\n")
    for number, line in enumerate(lines, 1):
        try:
            take_line(judge, line, is_last=number == len(lines))
        except No as fault:
            fault.line = number
            return fault
    return None


def take_line(judge, line, is_last):
    """Gives a line to the judge. What stands behind the last line feed is no line."""
    if judge.want is None:
        if not is_last or line:
            raise spelling("expected nothing after the line end")
    elif is_last:
        ends_early = f"expected {judge.wanted}, but the text ends{judge.hint_at_end()}"
        raise spelling(f"the line does not end with a line feed: {shown(line)}" if line else ends_early)
    elif line.endswith("\r"):
        raise spelling("the line ends with a carriage return: expected only a line feed, as in files of Unix")
    elif strange_in(line):
        raise spelling(f'"{shown(line)}" is not a line of a trace{strange_in(line, "column")}')
    elif line.startswith("#") and judge.version:
        raise spelling(f'"{shown(line)}" is a comment: a trace has none')
    else:
        judge.want(line)
