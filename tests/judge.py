#!/usr/bin/env python3
"""Holds `mctower check` against a plain slow judge, which reads the rules of a trace text off whole lists, on generated texts of all versions. .ci/run
calls it; it takes seconds.

    tests/judge.py [PROGRAM..]

Without a name it runs each build of mctower that `rt ci` or `rt run` left. The last line is 'judge: N passed, M failed'.
"""
import subprocess
import sys
from collections import Counter, namedtuple
from pathlib import Path

from named import program_at

ROOT = Path(__file__).resolve().parent.parent
sys.path.append(str(ROOT / "plans"))
from limits import CPUS, THREADS  # noqa: E402

BUILDS = ("crates/mctower/out/mctower", "crates/mctower/out/mctower.by-rattle")
TEXTS = 1500
# How many of the texts have to get a yes, of all versions and of the second and the third: else they show too little.
LEAST = {"yes": 50, 2: 20, 3: 20}
# How many bytes of a text `check` reads at a time.
PART = 65536
# The call that each kind of effect is one of.
CALLS = {"send": "send", "sendc": "send", "recv": "recv", "recvc": "recv", "close": "close"}

Entry = namedtuple("Entry", "cpu thread kind buffer value op pos")


class Picks:
    """Numbers of a sequence without a pattern, the same in each run."""

    def __init__(self, seed):
        self.seed = seed

    def below(self, bound):
        """Returns the next number below `bound`."""
        self.seed = (self.seed * 6_364_136_223_846_793_005 + 1_442_695_040_888_963_407) % 2**64
        return (self.seed >> 33) % bound


def of_kind(entries, buffer, kind):
    """Counts the entries of a buffer that are of this kind."""
    return sum(it.buffer == buffer and it.kind == kind for it in entries)


def counts(entries, buffer, kind):
    """Counts the entries of a buffer, and those of the same call as this kind."""
    calls = [CALLS[it.kind] for it in entries if it.buffer == buffer]
    return len(calls), calls.count(CALLS[kind])


def held(entries, buffer):
    """Returns what a buffer holds after a run: all that was sent, without as many as were received."""
    sent = [it.value for it in entries if it.buffer == buffer and it.kind == "send"]
    return sent[of_kind(entries, buffer, "recv"):]


def against_state(closed, items, capacity, it):
    """Returns the first reason against an entry at a buffer that is closed or not and holds these items, or None."""
    finds_closed = it.kind in ("sendc", "recvc")
    if (it.kind == "send" and closed) or (finds_closed and not closed):
        return "CloseState(39)"
    if it.kind == "recvc":
        return "NotEmpty(40)" if items else None
    if it.kind == "send":
        return "Full(34)" if len(items) >= capacity else None
    if it.kind == "recv":
        return "EmptyTake(35)" if not items else None if items[0] == it.value else "WrongValue(36)"
    return None


def against(capacities, earlier, it):
    """Returns the first reason against an entry behind earlier ones, or None."""
    ops, pos = counts(earlier, it.buffer, it.kind)
    if it.op != ops:
        return "Op(32)"
    if it.pos != pos:
        return "Pos(33)"
    closed = of_kind(earlier, it.buffer, "close") > 0
    return against_state(closed, held(earlier, it.buffer), capacities[it.buffer], it)


def version_of(it):
    """Returns the lowest version of the text that has this entry."""
    return 3 if len(it.value) > 1 else 1 if it.kind in ("send", "recv") else 2


def version_of_all(entries):
    """Returns the lowest version of the text that has each of these entries."""
    return max([1, *map(version_of, entries)])


def reasons(version, capacities, entries, left):
    """Yields for each line from the first entry on the reason against it, or None."""
    for at, it in enumerate(entries):
        yield "Spelling(30)" if version < version_of(it) else against(capacities, entries[:at], it)
    for buffer, items in enumerate(left):
        low = version < 3 and any(len(item) > 1 for item in items)
        yield "Spelling(30)" if low else "Left(37)" if items != held(entries, buffer) else None
    yield "Version(38)" if version > version_of_all(entries) else None


def slow_judge(version, capacities, entries, left):
    """Returns the verdict by the rules, one line after the other."""
    for line, reason in enumerate(reasons(version, capacities, entries, left), len(capacities) + 3):
        if reason:
            return f"no {line} {reason}\n"
    return "yes\n"


def message(words):
    """Spells a message."""
    return ",".join(map(str, words))


def spelled(version, capacities, entries, left):
    """Returns the text of this version of these capacities, entries and contents."""
    lines = [f"mctower-trace {version}", f"buffers {len(capacities)}"]
    lines += [f"cap {buffer} {capacity}" for buffer, capacity in enumerate(capacities)]
    for it in entries:
        value = "-" if it.kind in ("close", "recvc") else message(it.value)
        lines.append(f"e {it.cpu} {it.thread} {it.kind} {it.buffer} {value} {it.op} {it.pos}")
    lines += [" ".join(["left", str(buffer), *map(message, items)]) for buffer, items in enumerate(left)]
    return "\n".join([*lines, "end", ""])


def some_message(picks):
    """Returns a message, mostly of one word, of few words that it may have."""
    first, form = picks.below(3), picks.below(6)
    return [first, picks.below(2)] if form == 0 else [first, 0, 0] if form == 1 else [first]


def some_kind(picks, earlier, buffer):
    """Returns the kind of an entry that mostly may come behind earlier ones."""
    closed, pick = of_kind(earlier, buffer, "close") > 0, picks.below(24)
    if pick < 5:
        return ("close", "close", "close", "sendc", "recvc")[pick]
    if pick < 15:
        return "sendc" if closed else "send"
    return "recvc" if closed and not held(earlier, buffer) else "recv"


def some_entry(picks, earlier):
    """Returns an entry that mostly may come behind earlier ones."""
    buffer = picks.below(2)
    kind = some_kind(picks, earlier, buffer)
    ops, pos = counts(earlier, buffer, kind)
    items = held(earlier, buffer)
    if kind in ("close", "recvc"):
        value = [0]
    elif items and kind == "recv" and picks.below(8) != 0:
        value = items[0]
    else:
        value = some_message(picks)
    cpu, thread = picks.below(CPUS), picks.below(THREADS)
    return Entry(cpu, thread, kind, buffer, value, ops + picks.below(16) // 15, pos + picks.below(16) // 15)


def some_text(picks):
    """Returns what a generated text tells: its version, capacities, entries and contents."""
    capacities, entries = [1 + picks.below(3), 1 + picks.below(3)], []
    for _ in range(picks.below(8)):
        entries.append(some_entry(picks, entries))
    left = [held(entries, buffer) for buffer in range(2)]
    for items in left:
        if picks.below(8) == 0:
            items.append(some_message(picks))
    version = 1 + picks.below(3) if picks.below(8) == 0 else version_of_all(entries)
    return version, capacities, entries, left


def long_text(digits):
    """Returns the text of a run of more than PART bytes. Its first message has so many digits, so all that stands behind it is shifted by them."""
    words = [int("1" * digits), *range(7, 2000)]
    entries = [Entry(0, 0, kind, 0, [word], 2 * at + (kind == "recv"), at) for at, word in enumerate(words) for kind in ("send", "recv")]
    return spelled(1, [1], entries, [[]])


def parted_texts():
    """Yields texts that are read in two parts, and their verdicts: with the border at each place of a line, and with a fault at each place round the border."""
    for digits in range(1, 21):
        text = long_text(digits)
        assert PART < len(text) < 2 * PART
        yield text, "yes\n"
    for at in range(PART - 50, PART + 50):
        yield f"{text[:at]}x{text[at + 1:]}", f"no {text[:at].count(chr(10)) + 1} Spelling(30)\n"


def verdict_of(program, text):
    """Returns what `check` prints of a text."""
    return subprocess.run([program, "check"], input=text.encode(), stdout=subprocess.PIPE, timeout=60).stdout.decode()


def faults_of(program):
    """Judges all texts. Yields for each None, or where the two judges differ; then the same for how many got a yes."""
    picks, got = Picks(1), Counter()
    for _ in range(TEXTS):
        told = some_text(picks)
        text, wanted = spelled(*told), slow_judge(*told)
        came = verdict_of(program, text)
        got.update(["yes", told[0]] if came == "yes\n" else [])
        yield None if came == wanted else f"{text}  wanted: {wanted}  came: {came}"
    for what, least in LEAST.items():
        yield None if got[what] > least else f"only {got[what]} texts of '{what}' got a yes"
    for text, wanted in parted_texts():
        came = verdict_of(program, text)
        yield None if came == wanted else f"a text of {len(text)} bytes, read in two parts; wanted: {wanted}  came: {came}"


def main():
    if "--help" in sys.argv:
        print(__doc__)
        return 0
    named = [program_at(it) for it in sys.argv[1:]] or [ROOT / it for it in BUILDS if (ROOT / it).exists()]
    results = [fault for program in named for fault in faults_of(str(program))]
    for fault in filter(None, results):
        print(f"judge: {fault}")
    failed = sum(fault is not None for fault in results)
    print(f"judge: {len(results) - failed} passed, {failed} failed")
    return 1 if failed or not results else 0


if __name__ == "__main__":
    sys.exit(main())
