"""Plans, schedules and trace texts that are right or near that, for tests/explain.py: each is made from a random choice, without the program."""
import re
from pathlib import Path

from limits import CAPACITY, CPUS, ENTRIES, LINES, MOST_STEPS, THREADS, TRACE, WORDS

ROOT = Path(__file__).resolve().parent.parent
PLANS = [path.read_bytes() for folder in ("plans", "tests/rows") for path in sorted((ROOT / folder).glob("*.toml"))]
PRINTED = [path.read_bytes() for folder in ("plans", "tests/rows") for path in sorted((ROOT / folder / "expected").glob("*.txt"))]
RUNS = [text.partition(b"cpu 0 ")[0] for text in PRINTED]
ODD_BYTES = [b"\0", b"\t", b"\n", b"\r", b"\r\n", b" ", b'"', b"'", b"#", b",", b"-", b".", b"0", b"9", b"=", b"[", b"]", b"{", b"}", b"\\", b"_",
             b"e", b"x", b"\x7f",
             b"\xc3\xa9", b"\xff"]
AT_LIMITS = (WORDS, WORDS + 1, CPUS - 1, CPUS, CPUS + 1, CAPACITY, CAPACITY + 1, THREADS - 1, THREADS, ENTRIES - 1, ENTRIES)
ODD_NUMBERS = ["0", "00", "01", "", "-", "-1", "+1", "1.0", "x", *map(str, AT_LIMITS), "18446744073709551615", "18446744073709551616", "9" * 25]
# Values of TOML of each kind, right and wrong.
ODD_VALUES = [
    "true", "True", '"1"', "'1'", '"""1"""', "'''\n1'''", r'"\u0041"', r'"\x41\e"', r'"\ud800"', r'"\U00110000"', r'"\q"', '"""a\\\n  b"""',
    '""""a"""""', '"a', "'a", "a",
    "", "1 2", "1 # 2", "- 1", "+1", "-1", "01", "1_0", "1__0", "_1", "0x10", "0xG", "0o17", "0b101", "0b2", "9223372036854775807", "9223372036854775808",
    "-9223372036854775808", "0x7fffffffffffffff", "0xffffffffffffffff", "1.5", "1.", ".5", "1.5.2", "1e", "1e3", "1e+5", "1e1_0", "1e309", "-0.0",
    "inf", "-nan",
    "1979-05-27", "1979-02-29", "2000-02-29", "1979-05-27 07:32", "1979-05-27T07:32:60Z", "1979-05-27T07:32:00.5+23:59", "1979-05-27T24:00", "07:32",
    "07:32:61", "7:32",
    "[]", "{}", "[1, 'a']", "[1,]", "[,]", "[1 2]", "{a = 1}", "{a = 1,}", "{\na = 1 # b\n}", "{a = 1, a = 2}", "{a.b = 1, a.c = 2}", "{a = {b = 1}, a.c = 2}",
    "[" * 80 + "]" * 80, "[" * 81 + "]" * 81, "{a = " * 80 + "1" + "}" * 80, "{a = " * 81 + "1" + "}" * 81,
]
ODD_LINES = [
    f"cpus = {CPUS + 1}", "cpus = 0", f"trace = {TRACE + 1}", f"buffers = [{CAPACITY + 1}]", "buffers = []", 'buffers = [1, "a"]',
    'lock = "mcs"', 'lock = "ticket"', "lock = 1",
    f"cpu = {CPUS}", "cpu = -1",
    "thread = []", "[thread]", "[[thread]]", "[[threads]]", "[thread.a]", "[[thread.a]]", "[other]", "[other.b]", "[[other]]", "other.b = 1",
    "other = 1", "thread.a = 1",
    '"cpu" = 0', "'cpu' = 0", 'program = ["exit"]', 'program = "exit"', "program = [1]", "program = []", '"" = 1', "a.b.c = 1", "a . b = 1",
    "a b = 1", "= 1", "a =", "a", "é = 1",
    "\t# a", ".".join(["a"] * 80) + " = 1", ".".join(["a"] * 81) + " = 1", "# \x01",
]
THREAD = re.compile(rb"\[\[thread\]\]\ncpu = (\d+)\nprogram = (\[.*?\])\n", re.S)
ODD_ITEMS = ["*", ",", " ", "\t", "\n", "7", f"*{MOST_STEPS + 1}", "*0", ".", "é", "٣", ";", *ODD_NUMBERS]
WORDS = ["set", "add", "sub", "jnz", "send", "sendm", "recv", "recvm", "close", "yield", "exit", "SEND", "sent", "mov", "#"]
ODD_PIECES = [*WORDS, "r0", "r7", "r8", "R0", "r00", *ODD_NUMBERS]


def some_program(pick, buffers):
    """Some right instructions."""
    makers = [lambda: f"set r{pick.randrange(8)} {pick.choice([0, 1, 7, 2**64 - 1])}",
              lambda: f"{pick.choice(['add', 'sub'])} r{pick.randrange(8)} r{pick.randrange(8)}",
              lambda: f"send {pick.randrange(buffers)} r{pick.randrange(8)}", lambda: f"recv {pick.randrange(buffers)} r{pick.randrange(8)} 0",
              lambda: f"sendm {pick.randrange(buffers)} {pick.randint(1, 8)}", lambda: f"recvm {pick.randrange(buffers)}",
              lambda: f"close {pick.randrange(buffers)}", lambda: f"jnz r{pick.randrange(8)} 0", lambda: "yield", lambda: "exit"]
    return [pick.choice(makers)() for _ in range(pick.randint(1, 6))]


def some_plan(pick):
    """A small plan, with programs in one of the layouts that TOML allows."""
    if pick.random() < 0.4:
        return pick.choice(PLANS)
    cpus, buffers = pick.randint(1, 4), pick.randint(1, 3)
    lines = [f"cpus = {cpus}", f"trace = {pick.randint(1, 9)}", f"buffers = {[pick.randint(1, 3) for _ in range(buffers)]}"]
    pick.shuffle(lines)
    for _ in range(pick.randint(1, 4)):
        between = pick.choice([", ", ",\n  ", ", # more\n  ", ",\n"])
        program = between.join(f'"{line}"' for line in some_program(pick, buffers))
        lines += ["", "[[thread]]", f"cpu = {pick.randrange(cpus)}", f"program = [{program}{pick.choice(['', ',', chr(10)])}]"]
    return ("\n".join(lines) + "\n").encode()


def near_a_plan(pick, text):
    """The text of a plan with one change."""
    changes = [other_byte, other_line, other_value, other_instruction, other_layout]
    return pick.choices(changes, [2, 1, 2, 3, 1])[0](pick, text)


def other_byte(pick, text):
    """One byte more, less or another."""
    at = pick.randrange(len(text) + 1)
    return text[:at] + pick.choice([b"", *ODD_BYTES]) + text[at + pick.randrange(2):]


def other_line(pick, text):
    """One line more, less or elsewhere, or the beginning of the text alone."""
    lines = text.split(b"\n")
    i, j = pick.randrange(len(lines)), pick.randrange(len(lines))
    how = pick.randrange(5)
    if how == 0:
        del lines[i]
    elif how == 1:
        lines.insert(i, lines[j])
    elif how == 2:
        lines[i], lines[j] = lines[j], lines[i]
    elif how == 3:
        return text[:pick.randrange(len(text) + 1)]
    else:
        lines.insert(i, pick.choice(ODD_LINES).encode())
    return b"\n".join(lines)


def other_value(pick, text):
    """Another value for one key, or one more key with it."""
    places = [found.span() for found in re.finditer(rb"(?<= = ).*", text)]
    value = pick.choice(ODD_VALUES).encode()
    if not places or pick.random() < 0.5:
        return b"extra = " + value + b"\n" + text
    start, end = pick.choice(places)
    return text[:start] + value + text[end:]


def other_instruction(pick, text):
    """One piece of an instruction more, less or another."""
    places = [found.span() for found in re.finditer(rb'"[^"\n]*"', text)]
    if not places:
        return text
    start, end = pick.choice(places)
    pieces = text[start + 1:end - 1].split(b" ")
    i = pick.randrange(len(pieces))
    pieces[i:i + pick.randrange(2)] = [pick.choice(ODD_PIECES).encode() for _ in range(pick.choice([0, 1, 1, 1]))]
    return text[:start + 1] + b" ".join(pieces) + text[end - 1:]


def other_layout(pick, text):
    """What TOML reads as the same, or nearly so."""
    how = pick.randrange(8)
    if how == 0:
        return text.replace(b"\n", b"\r\n")
    if how == 1:
        return pick.choice([b"\xef\xbb\xbf", b"\xef\xbb\xbf\xef\xbb\xbf", b"\xff\xfe"]) + text
    if how == 2:
        return text.replace(b'"', pick.choice([b"'", b'"""', b"'''", b""]), pick.choice([2, 4, 99]))
    if how == 3:
        return text.replace(b"program = [", b"program = [" + b'"exit", ' * pick.choice([1, LINES - 4, LINES, LINES + 44]), 1)
    if how == 4:
        return text + b'\n[[thread]]\ncpu = 0\nprogram = ["exit"]\n' * pick.choice([1, THREADS - 3, THREADS - 1, THREADS])
    if how == 5:
        header = pick.choice([b"[thread]", b"[[threads]]", b"[[ thread ]]", b"[ [thread]]", b"[[thread]]\nname = 1", b"[[thread.x]]"])
        return text.replace(b"[[thread]]", header, pick.choice([1, 9]))
    if how == 6:
        return text.replace(b" = ", pick.choice([b"=", b" =\t", b" = \n", b": "]), 1)
    return in_one_line(pick, text)


def in_one_line(pick, text):
    """The plan with its threads as tables in an array."""
    threads = THREAD.findall(text)
    ends = pick.choice([b" }", b", }", b"\n}", b" # end\n}"])
    tables = b", ".join(b"{ cpu = " + cpu + b", program = " + program + ends for cpu, program in threads)
    return b"thread = [" + tables + pick.choice([b"]\n", b",]\n", b"\n]\n"]) + THREAD.sub(b"", text)


def some_schedule(pick):
    """A schedule, perhaps with one or two changes."""
    items = [f"{pick.choice([0, 0, 0, 1, 1, 2, 3])}" + pick.choice(["", f"*{pick.randint(1, 40)}"]) for _ in range(pick.randint(1, 6))]
    text = ",".join(items)
    for _ in range(pick.choice([0, 0, 1, 1, 2])):
        at = pick.randrange(len(text) + 1)
        odd = pick.choice(ODD_ITEMS)
        text = text[:at] + odd + text[at + pick.randrange(3):]
    return text


# Trace texts.

def some_text(pick):
    """The text of a run."""
    if pick.random() < 0.3:
        return pick.choice(RUNS)
    caps = [pick.randint(1, 3) for _ in range(pick.randint(1, 3))]
    kinds, width = pick.choice([["send", "recv"], ["send", "send", "recv", "recv", "close"]]), pick.choice([1, 1, 3])
    items, closed, entries = [[] for _ in caps], set(), []
    for _ in range(pick.randint(0, 14)):
        b, kind = pick.randrange(len(caps)), pick.choice(kinds)
        if b in closed:
            kind = {"send": "sendc", "recv": "recv" if items[b] else "recvc"}.get(kind, kind)
        if (kind == "send" and len(items[b]) == caps[b]) or (kind == "recv" and not items[b]):
            continue
        value = items[b].pop(0) if kind == "recv" else some_value(pick, width) if kind in ("send", "sendc") else "-"
        items[b] += [value] if kind == "send" else []
        closed |= {b} if kind == "close" else set()
        entries.append([pick.randrange(CPUS), pick.randrange(THREADS), kind, b, value])
    for _ in range(pick.choice([0, 1, 1, 2])):
        near_a_run(pick, entries)
    entries = numbered(entries)
    if pick.random() < 0.2:
        near_a_run(pick, entries)
    return text_of(pick, caps, entries, items)


def some_value(pick, width):
    """The words of a message, at most so many."""
    return ",".join(str(pick.choice([0, 7, 8, 2**64 - 1])) for _ in range(pick.randint(1, width)))


def numbered(entries):
    """The entries with the op and the pos of each."""
    counts = {}
    for entry in entries:
        group = entry[3], {"sendc": "send", "recvc": "recv"}.get(entry[2], entry[2])
        entry[5:] = counts.get(entry[3], 0), counts.get(group, 0)
        counts[entry[3]], counts[group] = entry[5] + 1, entry[6] + 1
    return entries


def near_a_run(pick, entries):
    """Puts an entry elsewhere, drops one, or turns it into another."""
    if not entries:
        return
    i, j, how = pick.randrange(len(entries)), pick.randrange(len(entries)), pick.randrange(5)
    if how == 0:
        entries[i], entries[j] = entries[j], entries[i]
    elif how == 1:
        del entries[i]
    elif how == 2:
        entries.insert(j, list(entries[i]))
    else:
        entries[i][2] = pick.choice(["send", "recv", "close", "sendc", "recvc"])
        entries[i][4] = "-" if entries[i][2] in ("close", "recvc") else pick.choice(["7", "8", "7,7", entries[j][4]])


def text_of(pick, caps, entries, items):
    """The text of a run and of what it leaves, now and then with another version."""
    kinds = {entry[2] for entry in entries}
    version = 3 if any("," in entry[4] for entry in entries) else 1 if kinds <= {"send", "recv"} else 2
    version = pick.randint(0, 4) if pick.random() < 0.05 else version
    lines = [f"mctower-trace {version}", f"buffers {len(caps)}", *(f"cap {b} {k}" for b, k in enumerate(caps))]
    lines += ["e " + " ".join(map(str, entry)) for entry in entries]
    lines += [" ".join(["left", str(b), *values]) for b, values in enumerate(items)] + ["end", ""]
    return "\n".join(lines).encode()


def near_a_text(pick, text):
    """The text with one change."""
    lines = text.split(b"\n")
    i = pick.randrange(len(lines))
    pieces = lines[i].split(b" ")
    k, how = pick.randrange(len(pieces)), pick.randrange(8)
    if how == 0:
        return other_byte(pick, text)
    if how == 1:
        return other_line(pick, text)
    if how == 2:
        return pick.choice([text + pick.choice([b" ", b"\n", b"end\n", b"\0"]), text.replace(b"\n", b"\r\n"), text[:-1], b"\xef\xbb\xbf" + text])
    if how == 3:
        pieces[k] = b",".join([pieces[k], *[b"7"] * pick.choice([1, 7, 8])])
    elif how == 4:
        del pieces[k]
    elif how == 5:
        pieces.insert(k, pick.choice([*pieces, b"", b"0", b"-"]))
    else:
        pieces[k] = pick.choice(ODD_NUMBERS).encode()
    lines[i] = b" ".join(pieces)
    return b"\n".join(lines)


def often(pick, change, text, times):
    """The text after so many changes, one of these numbers."""
    for _ in range(pick.choice(times)):
        text = change(pick, text)
    return text
