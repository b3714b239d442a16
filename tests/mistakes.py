"""Mistakes in plans, schedules and trace texts, and what plans/explain.py tells of each beside the program's own line, for tests/explain.py."""
from limits import BUFFERS, CAPACITY, CPUS, LINES, MOST_CPU, MOST_STEPS, THREADS, TRACE, WORDS
from schedules import EXPECTED

PLAN = """cpus = 1
trace = 4
buffers = [1]
[[thread]]
cpu = 0
program = ["set r0 7", "send 0 r0", "exit"]
"""
TEXT = """mctower-trace 1
buffers 1
cap 0 2
e 0 0 send 0 7 0 0
e 1 1 send 0 8 1 1
e 1 1 recv 0 7 2 0
left 0 8
end
"""
# What is changed in the plan, into what, and what is told of it behind the name of the file.
PLANS = [
    ('"set r0 7", ', '"set r0 7" ',
     ':6: column 23: expected a comma or ] in the array that begins on line 6, but found "send 0 r0", "exit"]'),
    ("[[thread]]", "[[thread]",
     ":4: column 9: expected ]] at the end of the header"),
    ("cpus = 1", "cpus: 1",
     ":1: column 5: expected = after the key cpus"),
    ("cpus = 1", 'cpus = "1"',
     f":1: cpus is a string: expected an integer, 1 to {CPUS}"),
    ("cpus = 1", "cpus = 1.0",
     f":1: cpus is a float: expected an integer, 1 to {CPUS}"),
    ("cpus = 1", "cpu = 1",
     f": the required key cpus is missing: expected an integer, 1 to {CPUS}. Did you mean cpu, on line 1?"),
    ("[[thread]]", "[[threads]]",
     f": the required key thread is missing: expected 1 to {THREADS} tables, each below a line [[thread]]. Did you mean threads, on line 4?"),
    ("[[thread]]", "[thread]",
     f":4: thread is a table: expected 1 to {THREADS} tables, each below a line [[thread]]"),
    ("buffers = [1]", "buffers = 1",
     f":3: buffers is an integer: expected an array of 1 to {BUFFERS} integers, each 1 to {CAPACITY}"),
    ("[1]", f"[{CAPACITY + 1}]",
     f":3: buffers has {CAPACITY + 1} as item 1: expected an array of 1 to {BUFFERS} integers, each 1 to {CAPACITY}"),
    ("[1]", "[1, 1, 1, 0]",
     f":3: buffers has 0 as item 4: expected an array of 1 to {BUFFERS} integers, each 1 to {CAPACITY}"),
    ("[1]", "[]",
     f":3: buffers has 0 items: expected an array of 1 to {BUFFERS} integers, each 1 to {CAPACITY}"),
    ("[1]", '[1, "2"]',
     f":3: item 2 of buffers is a string: expected an array of 1 to {BUFFERS} integers, each 1 to {CAPACITY}"),
    ("cpus = 1", f"cpus = {CPUS + 1}",
     f":1: cpus is {CPUS + 1}: expected an integer, 1 to {CPUS}"),
    ("trace = 4", f"trace = {TRACE + 1}",
     f":2: trace is {TRACE + 1}: expected an integer, 1 to {TRACE}"),
    ("trace = 4\n", "",
     f": the required key trace is missing: expected an integer, 1 to {TRACE}"),
    ("trace = 4", 'trace = 4\nlock = "mcs"',
     ':3: lock is "mcs": expected "ticket" or "grant"'),
    ("trace = 4", "trace = 4\nlock = 1",
     ':3: lock is an integer: expected "ticket" or "grant"'),
    ("trace = 4", "trace = 4\nlock = ticket",
     ':3: column 8: ticket is not a value: a string needs quotes, for example "ticket"'),
    ("trace = 4", 'trace = 4\nlocks = "ticket"',
     ":3: the key locks is ignored. Did you mean lock?"),
    ("cpu = 0", 'cpu = 0\nlock = "ticket"',
     ":6: the key lock of thread 0 is ignored: put it above the first [[thread]]"),
    ("cpu = 0", "cpu = 0\nprograms = 1",
     ":6: the key programs of thread 0 is ignored. Did you mean program?"),
    ("cpu = 0\n", "cpu = 1\n",
     ":5: cpu is 1: expected an integer, 0 to 0, since cpus is 1"),
    ("cpu = 0\n", "",
     ":4: the required key cpu is missing: expected an integer, 0 to 0, since cpus is 1"),
    ("cpus = 1\n", "",
     f": the required key cpus is missing: expected an integer, 1 to {CPUS}"),
    ("cpus = 1\ntrace = 4\nbuffers = [1]\n[[thread]]\n", "[[thread]]\ncpus = 1\n",
     f": the required key cpus is missing: expected an integer, 1 to {CPUS}. One stands on line 2, below a header: put it above all headers"),
    ("cpus = 1", "[system]\ncpus = 1",
     f": the required key cpus is missing: expected an integer, 1 to {CPUS}. One stands on line 2, below a header: put it above all headers"),
    ('["set r0 7", "send 0 r0", "exit"]', '"exit"',
     ":6: program is a string: expected an array of strings, one for each instruction"),
    ('"exit"', "7",
     ":6: item 3 of program is an integer: expected an array of strings, one for each instruction"),
    ("send 0 r0", "send 0 r8",
     ':6: "send 0 r8": operand 2, "r8": expected a register, r0 to r7'),
    ("set r0 7", "set 0 7",
     ':6: "set 0 7": operand 1, "0": expected a register, r0 to r7'),
    ("set r0 7", "set r0, 7",
     ':6: "set r0, 7": operand 1, "r0,": expected a register, r0 to r7'),
    ("set r0 7", "set r0 -1",
     ':6: "set r0 -1": operand 2, "-1": expected a number, 0 to 18446744073709551615, in digits'),
    ("set r0 7", "set r0 0x10",
     ':6: "set r0 0x10": operand 2, "0x10": expected a number, 0 to 18446744073709551615, in digits'),
    ("set r0 7", "set r0 07",
     ':6: "set r0 07": operand 2, "07": expected a number, 0 to 18446744073709551615, in digits'),
    ("set r0 7", "set r0 99999999999999999999999",
     ':6: "set r0 99999999999999999999999": operand 2, "99999999999999999999999": expected a number, 0 to 18446744073709551615, in digits'),
    ("set r0 7", "set  r0 7",
     ':6: "set  r0 7": expected one space between two words, and none before or after them'),
    ("set r0 7", "set r0 7 ",
     ':6: "set r0 7 ": expected one space between two words, and none before or after them'),
    ("set r0 7", "SET r0 7",
     ':6: "SET r0 7": "SET" is not an instruction: expected one of set, add, sub, jnz, send, sendm, recv, recvm, close, yield, exit. Did you mean set?'),
    ("set r0 7", "mov r0 7",
     ':6: "mov r0 7": "mov" is not an instruction: expected one of set, add, sub, jnz, send, sendm, recv, recvm, close, yield, exit'),
    ("set r0 7", "sned 0 r0",
     ':6: "sned 0 r0": "sned" is not an instruction: expected one of set, add, sub, jnz, send, sendm, recv, recvm, close, yield, exit. Did you mean send?'),
    ("send 0 r0", "send r0 0",
     f':6: "send r0 0": operand 1, "r0": expected a buffer, 0 to {BUFFERS - 1}'),
    ("send 0 r0", "send 0 7",
     ':6: "send 0 7": operand 2, "7": expected a register, r0 to r7'),
    ("send 0 r0", "send 1 r0",
     ':6: "send 1 r0": the plan has only buffer 0'),
    ("send 0 r0", f"recv {BUFFERS} r0",
     f':6: "recv {BUFFERS} r0": operand 1, "{BUFFERS}": expected a buffer, 0 to {BUFFERS - 1}'),
    ("exit", "jnz r0 3",
     ':6: "jnz r0 3": operand 2, "3": expected a line of the program, counted from 0, here 0 to 2'),
    ("exit", "jnz r0 loop",
     ':6: "jnz r0 loop": operand 2, "loop": expected a line of the program, counted from 0, here 0 to 2'),
    ("exit", "sendm 0 9",
     f':6: "sendm 0 9": operand 2, "9": expected a count of words, 1 to {WORDS}'),
    ("set r0 7", "set r0 7 # seven",
     ':6: "set r0 7 # seven": an instruction cannot contain a comment: put it after the string'),
    ("set r0 7", "set r0 7; send 0 r0",
     ':6: "set r0 7; send 0 r0": a string has one instruction: put the next one into its own string'),
    ("set r0 7", "loop:",
     ':6: "loop:": there are no labels: a target is a line of the program, counted from 0'),
    ("set r0 7", "set r0",
     ':6: "set r0": set takes a register and a number, but 1 operand follows'),
    ("set r0 7", "yield 1",
     ':6: "yield 1": yield takes no operand, but 1 operand follows'),
    ("set r0 7", "recvm",
     ':6: "recvm": recvm takes a buffer, and optionally a target, but 0 operands follow'),
    ("set r0 7", "",
     ':6: "": "" is not an instruction: expected one of set, add, sub, jnz, send, sendm, recv, recvm, close, yield, exit'),
    ('"set r0 7", "send 0 r0", "exit"', "",
     f":6: the program has 0 lines: expected 1 to {LINES}"),
    ('"set r0 7", "send 0 r0", "exit"', '"set r0 7",\n  "send 0 r0", # sends\n  "recv 0 x0",\n',
     ':8: "recv 0 x0": operand 2, "x0": expected a register, r0 to r7'),
    ('"exit"', '"exit", ' * (LINES - 2) + '"exit"',
     f":6: the program has {LINES + 1} lines: expected 1 to {LINES}"),
    ("cpus = 1", "cpus = 1\ncpus = 2",
     ":2: column 1: cpus is given twice, first on line 1"),
    ("trace = 4", "trace = 04",
     ":2: column 9: 04 has a leading zero: write it without"),
    ("trace = 4", "trace = 99999999999999999999",
     ":2: column 9: 99999999999999999999 does not fit in 64 bits"),
    ("trace = 4", "trace = 4 buffers = [2]",
     ":2: column 11: unexpected buffers = [2] after a complete key: each key needs its own line"),
    ("trace = 4", "trace =",
     ":2: column 8: expected a value, but the line ends"),
    ("trace = 4", "trace = four",
     ':2: column 9: four is not a value: a string needs quotes, for example "four"'),
    ("buffers = [1]", "buffers = [1",
     ":4: column 1: expected a comma or ] in the array that begins on line 3, but found [[thread]]"),
    ('"exit"', '"exit',
     ":6: column 37: the string is not closed"),
    ('"exit"', "'exit\"",
     ":6: column 37: the string is not closed"),
    ('"exit"]', '"exit"',
     ":7: column 1: expected a comma or ] in the array that begins on line 6, but the text ends"),
    ("cpus = 1", "[1]",
     f": the required key cpus is missing: expected an integer, 1 to {CPUS}"),
    ("cpus = 1", 'cpus = 1\na = "\\q"',
     ":2: column 6: \\q is not an escape: write a backslash as \\\\"),
    (PLAN, "",
     ": the plan is empty. Is < PLAN missing, or after an unquoted ; of the schedule?"),
    (PLAN, "# nothing\n",
     f": the required key cpus is missing: expected an integer, 1 to {CPUS}. There is no key at all"),
    (PLAN, TEXT,
     ":1: column 15: expected = after the key mctower-trace. This is a trace text, which `mctower check` reads"),
    (PLAN, '{"cpus": 1}',
     ':1: column 1: expected a key, but found {"cpus": 1}. A plan is TOML, not JSON: each key needs its own line, for example cpus = 1'),
    ("cpus = 1", "cpus\u00a0= 1",
     ":1: column 5: expected = after the key cpus. Column 5 is U+00A0, no-break space: expected a plain space"),
    ("cpus = 1", "cpus = \uff11",
     ":1: column 8: expected a value, but found \uff11. Column 8 is U+FF11, fullwidth digit one: expected a plain digit"),
    ('"set r0 7"', "\u201cset r0 7\u201d",
     ':6: column 12: expected a value, but found \u201cset r0 7\u201d, "send 0 r0", "exit"]. '
     "Column 12 is U+201C, left double quotation mark: expected \" or '"),
    ("set r0 7", "set r0\u00a07",
     ':6: "set r0\\xa07": expected one space between two words, and none before or after them. Character 7 is U+00A0, no-break space: expected a plain space'),
    ("set r0 7", "set\\tr0 7",
     ':6: "set\\tr0 7": expected one space between two words, and none before or after them. Character 4 is U+0009, tab: expected a plain space'),
    ("set r0 7", "set r0 \u22127",
     ':6: "set r0 \u22127": operand 2, "\u22127": expected a number, 0 to 18446744073709551615, in digits. Character 8 is U+2212, minus sign: expected -'),
]
# Whole texts in its place, by bytes.
BYTES = [
    (b"\xff\xfec\x00p\x00", ":1: byte 1 of the text is not UTF-8, and the text begins as UTF-16 does: save it as UTF-8"),
    (b"cpus = 1\n# \xff\n", ":2: byte 12 of the text is not UTF-8"),
    (b"\xef\xbb\xbf" + PLAN.encode(), None),
    (PLAN.replace("\n", "\r\n").encode(), None),
    (PLAN.replace("\n", "\r").encode(), ":1: column 9: expected a key, but found trace = 4\\rbuffers = [1]\\r[[thread]]\\rcpu =.."),
]
# Schedules of that plan.
SCHEDULES = [
    ("3*10", 'item 1, "3*10", at byte 1: the plan has only CPU 0'),
    (f"{MOST_CPU + 1}", f'item 1, "{MOST_CPU + 1}", at byte 1: {EXPECTED}'),
    ("0*3, 0*10", 'item 2, " 0*10", at byte 5: a schedule cannot contain white space: separate its items by commas'),
    ("", f'item 1, "", at byte 1: {EXPECTED}. The schedule is empty: omit it to take no step'),
    ("0x10", f'item 1, "0x10", at byte 1: {EXPECTED}'),
    ("10*0", f'item 1, "10*0", at byte 1: {EXPECTED}. The CPU comes first. Did you mean 0*10?'),
    ("rounds", f'item 1, "rounds", at byte 1: {EXPECTED}. `plans/kernel.py --rounds PLAN` prints a schedule'),
    ("0\n1", 'item 1, "0\\n1", at byte 1: a schedule cannot contain white space: separate its items by commas. Character 2 is U+000A, line feed'),
    ("0*2000000", f'item 1, "0*2000000", at byte 1: {EXPECTED}'),
    (f"0*{MOST_STEPS},0*1", f'item 2, "0*1", at byte 11: with it the schedule has more than {MOST_STEPS} steps'),
    ("0*3,", f'item 2, "", at byte 5: {EXPECTED}'),
    ("00*10", f'item 1, "00*10", at byte 1: {EXPECTED}'),
    ("0*3;0", f'item 1, "0*3;0", at byte 1: {EXPECTED}. Separate the items by commas'),
    (".", f'item 1, ".", at byte 1: {EXPECTED}. A file has this name: a shell replaces an unquoted * by names of files'),
    ("0\u00d73", f'item 1, "0\u00d73", at byte 1: {EXPECTED}. Character 2 is U+00D7, multiplication sign: expected *'),
    ("0..3", f'item 1, "0..3", at byte 1: {EXPECTED}'),
    ("0*-1", f'item 1, "0*-1", at byte 1: {EXPECTED}'),
    ("cpu 0", 'item 1, "cpu 0", at byte 1: a schedule cannot contain white space: separate its items by commas'),
]
# What is changed in the text of a trace, into what, and what is told of it behind the name of the file.
TEXTS = [
    ("end\n", "end",
     ":8: the line does not end with a line feed: end"),
    ("\n", "\r\n",
     ":1: the line ends with a carriage return: expected only a line feed, as in files of Unix"),
    ("trace 1", "trace 0",
     ':1: the head is "mctower-trace 0": expected a version from 1 to 3'),
    ("trace 1", "trace 2",
     ":8: the head is mctower-trace 2, and mctower-trace 1 can spell this text: that has to be the head"),
    ("0 8 1 1", "0 8,9 1 1",
     ":5: 8,9 is a message of several words: it needs the head mctower-trace 3"),
    ("trace 1", "trace 4",
     ':1: the head is "mctower-trace 4": expected a version from 1 to 3'),
    ("end\n", "end\ncpu 0 live\n",
     ":9: expected nothing after the line end"),
    ("e 0 0 send 0 7 0 0\n", "",
     ":4: the op is 1: expected 0, the number of entries of buffer 0 before it. Is one missing, or out of its place?"),
    ("e 0 0 send 0 7 0 0\ne 1 1 send 0 8 1 1\n", "e 1 1 send 0 8 1 1\ne 0 0 send 0 7 0 0\n",
     ":4: the op is 1: expected 0, the number of entries of buffer 0 before it. Is one missing, or out of its place?"),
    ("recv 0 7", "recv 0 9",
     ":6: the first message of buffer 0 is 7"),
    ("left 0 8", "left 0 9",
     ":7: expected left 0 8, what the entries leave"),
    ("left 0 8", "left 0",
     ":7: expected left 0 8, what the entries leave"),
    ("e 0 0 send", "e 0  0 send",
     ":4: the line has 9 words: expected e cpu thread kind buffer value op pos, with one space between two"),
    (TEXT, "",
     ":1: expected mctower-trace 1, but the text ends. The text is empty: was the plan of its run rejected?"),
    ("mctower-trace 1", "\ufeffmctower-trace 1",
     ':1: "\\ufeffmctower-trace 1" is not a line of a trace. Column 1 is U+FEFF, zero width no-break space, a byte order mark: save the text without it'),
    ("e 0 0 send", "e\t0\t0\tsend",
     ':4: "e\\t0\\t0\\tsend 0 7 0 0" is not a line of a trace. Column 2 is U+0009, tab: expected a plain space'),
    ("e 0 0 send 0 7", "e send 0 0 0 7",
     ':4: "0" is not a kind of version 1. The kind, send, is in another column: an entry is e cpu thread kind buffer value op pos'),
    ("mctower-trace 1", "# a trace",
     ':1: the head is "# a trace": expected mctower-trace and a version. A trace has no comments; `mctower run` reads plans'),
    ("buffers 1\n", "buffers 1\n# one\n",
     ':3: "# one" is a comment: a trace has none'),
    (TEXT, PLAN,
     ':1: the head is "cpus = 1": expected mctower-trace and a version, and this looks like a plan: `mctower run` reads it'),
    ("left 0 8\nend\n", "",
     ":7: expected an entry or left 0, but the text ends"),
    ("left 0 8\n", "",
     ':7: expected left 0, but found "end"'),
    ("cap 0 2", "cap 0 1",
     ":5: buffer 0 is full: its capacity is 1"),
    ("cap 0 2", f"cap 0 {CAPACITY + 1}",
     f":3: the capacity is {CAPACITY + 1}: expected 1 to {CAPACITY}"),
    ("cap 0 2", "cap 1 2",
     ':3: expected 0, but found "1"'),
    ("cap 0 2", "cap 0",
     ":3: the line has 2 words: expected cap 0 k, with one space between two"),
    ("buffers 1", f"buffers {BUFFERS + 1}",
     f":2: the number of buffers is {BUFFERS + 1}: expected 1 to {BUFFERS}"),
    ("recv 0 7 2 0", "rcev 0 7 2 0",
     ':6: "rcev" is not a kind of version 1. Did you mean recv?'),
    ("recv 0 7 2 0", "close 0 - 2 0",
     ':6: "close" is not a kind of version 1: it needs the head mctower-trace 2'),
    ("recv 0 7 2 0", "recv 0 7 2 1",
     ":6: the pos is 1: expected 0, the number of receives of buffer 0 before it"),
    ("recv 0 7 2 0", "recv 0 07 2 0",
     ':6: "07" is not a word of a message: expected a number, in digits without a leading zero'),
    ("recv 0 7 2 0", "recv 1 7 2 0",
     ":6: the buffer is 1: expected 0 to 0"),
    ("e 1 1 recv 0 7 2 0", f"e {CPUS} 1 recv 0 7 2 0",
     f":6: the CPU is {CPUS}: expected 0 to {CPUS - 1}"),
    ("send 0 7 0 0", "recv 0 7 0 0",
     ":4: buffer 0 holds nothing"),
    ("left 0 8", "left 1 8",
     ':7: expected left 0, but found "left 1 8"'),
    ("left 0 8\n", "left 0 8\ne 0 0 send 0 7 3 2\n",
     ':8: expected end, but found "e 0 0 send 0 7 3 2"'),
    ("0 7 0 0", "0 18446744073709551616 0 0",
     ":4: 18446744073709551616 is no word of 64 bits: at most 18446744073709551615"),
    ("send 0 7 0 0", "send 0 7 0",
     ":4: the line has 7 words: expected e cpu thread kind buffer value op pos, with one space between two"),
]
# What stands behind these lines of a text with a close, and what is told of it.
CLOSED = "mctower-trace 2\nbuffers 1\ncap 0 2\ne 0 0 send 0 7 0 0\ne 0 0 close 0 - 1 0\n"
BEHIND_A_CLOSE = [
    ("e 0 0 send 0 8 2 1\nleft 0 7\nend\n", ":6: buffer 0 is closed: a send finds that as sendc"),
    ("e 1 1 recvc 0 - 2 0\nleft 0 7\nend\n", ":6: buffer 0 still holds 7: that is received first"),
    ("e 1 1 recv 0 7 2 0\ne 1 1 recvc 0 7 3 1\n", ':7: the value of recvc is "7": expected -'),
    ("e 1 1 recv 0 7 2 0\ne 1 1 sendc 0 - 3 1\n", ':7: "-" is not a word of a message: expected a number, in digits without a leading zero'),
]
# The words of a message that is sent and left, and what is told of the text.
WIDE = "mctower-trace 3\nbuffers 1\ncap 0 2\ne 0 0 send 0 {words} 0 0\nleft 0 {words}\nend\n"
MESSAGES = [
    ("1,2,3,4,5,6,7,8", None),
    ("1,2,3,4,5,6,7,8,9", f":4: the message has {WORDS + 1} words: at most {WORDS}"),
    ("1,02", ':4: "02" is not a word of a message: expected a number, in digits without a leading zero'),
    ("1,18446744073709551616", ":4: 18446744073709551616 is no word of 64 bits: at most 18446744073709551615"),
    ("1", ":6: the head is mctower-trace 3, and mctower-trace 1 can spell this text: that has to be the head"),
]


def told(name, words):
    """The lines beside the program's own: none, or one, which begins with the name of what is wrong."""
    return [] if words is None else [name + words]


def of_plans():
    """Each mistake in a plan or a schedule: the plan, the schedule, and the lines that are told."""
    for old, new, words in PLANS:
        yield (new if old == PLAN else PLAN.replace(old, new, 1)).encode(), "0*6", told("my.toml", words)
    for plan, words in BYTES:
        yield plan, "0*6", told("my.toml", words)
    for schedule, words in SCHEDULES:
        yield PLAN.encode(), schedule, told("schedule: ", words)


def of_texts():
    """Each mistake in a trace text: the text, and the lines that are told."""
    for old, new, words in TEXTS:
        yield (new if old == TEXT else TEXT.replace(old, new)).encode(), told("my.txt", words)
    for message, words in MESSAGES:
        yield WIDE.format(words=message).encode(), told("my.txt", words)
    for lines, words in BEHIND_A_CLOSE:
        yield (CLOSED + lines).encode(), told("my.txt", words)
