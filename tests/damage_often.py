#!/usr/bin/env python3
"""Compares the built program, over damaged traces, plans and schedules, with judges that were written only from the formats.

    tests/damage_often.py PROGRAM [HOW_MANY] [SEED] [texts | plans]

A text is a legal history of FIFO buffers, with or without closes and messages of several words. It is damaged in its entries (swapped, dropped, reversed,
counted anew, messages with a word more or less) or in its grammar (a byte, a word, a number, a comma, a line). A plan has or lacks the key of its
lock, and has closes, targets and messages of words among its instructions; it and a schedule are damaged in the same way. The cases alternate between texts
and plans, or are only of the kind that is named. For texts PROGRAM may be the built tests/plain_check.rs. It prints each case whose result differs; the last
line counts them. Python's tomllib reads TOML, so this needs Python 3.11 or later.
"""
import argparse
import random
import subprocess
import sys

from pathlib import Path

try:
    import tomllib
except ModuleNotFoundError:  # before Python 3.11
    tomllib = None

from named import program_at

sys.path.append(str(Path(__file__).resolve().parent.parent / 'plans'))
from limits import BUFFERS, CAPACITY, CPUS, ENTRIES, LINES, MOST_CPU, MOST_STEPS, THREADS, TRACE, WORD, WORDS  # noqa: E402

AT_LIMITS = (WORDS, CPUS + 1, CAPACITY + 1, CPUS - 1, CPUS, THREADS - 1, THREADS, ENTRIES - 1, ENTRIES)
ODD_NUMBERS = [b'00', b'01', b'', b'-', b'-1', b'+1', b'1.0', b'x', *(str(n).encode() for n in AT_LIMITS),
               b'18446744073709551615', b'18446744073709551616', b'99999999999999999999999']


def is_number(piece):
    """Whether the text, or the bytes, spell a number."""
    return piece.isascii() and piece.isdigit() and (len(piece) == 1 or piece[:1] not in ('0', b'0'))


# The judge of trace texts.

class No(Exception):
    pass


def numbers(pieces, tops):
    """The numbers that the pieces spell, each below its top."""
    if not all(is_number(piece) for piece in pieces):
        raise No('Spelling(30)')
    found = [int(piece) for piece in pieces]
    if any(n >= top for n, top in zip(found, tops)):
        raise No('Range(31)')
    return found


# By head of a text its version. The effects that the first can spell and those of the others, those that have a message, and with whose
# calls each is counted.
HEADS = {b'mctower-trace 1': 1, b'mctower-trace 2': 2, b'mctower-trace 3': 3}
FIRST_KINDS, KINDS = (b'send', b'recv'), (b'send', b'recv', b'close', b'sendc', b'recvc')
MESSAGES = (b'send', b'recv', b'sendc')
GROUPS = {b'send': b'send', b'sendc': b'send', b'recv': b'recv', b'recvc': b'recv', b'close': b'close'}


def is_message(piece, version):
    words = piece.split(b',')
    return all(map(is_number, words)) and (version == 3 or len(words) == 1)


def message(piece):
    """The words of a message that is well spelled."""
    words = piece.split(b',')
    if len(words) > WORDS:
        raise No('Range(31)')
    return numbers(words, [WORD] * WORDS)


class Judge:
    def __init__(self):
        self.want, self.caps, self.items, self.counts, self.entries, self.buffer = 'head', [], [], {}, 0, 0
        self.closed, self.lowest = set(), 1

    def line(self, line):
        pieces = line.split(b' ')
        if self.want == 'head':
            if line not in HEADS:
                raise No('Spelling(30)')
            self.version = HEADS[line]
            self.want = 'count'
        elif self.want == 'count':
            if len(pieces) != 2 or pieces[0] != b'buffers':
                raise No('Spelling(30)')
            self.count, = numbers(pieces[1:], [BUFFERS + 1])
            if self.count == 0:
                raise No('Range(31)')
            self.want = 'cap'
        elif self.want == 'cap':
            if len(pieces) != 3 or pieces[0] != b'cap' or pieces[1] != str(len(self.caps)).encode():
                raise No('Spelling(30)')
            capacity, = numbers(pieces[2:], [CAPACITY + 1])
            if capacity == 0:
                raise No('Range(31)')
            self.caps.append(capacity)
            self.items.append([])
            if len(self.caps) == self.count:
                self.want = 'entry'
        elif self.want == 'entry' and pieces[0] == b'e':
            self.entry(pieces)
        elif self.want in ('entry', 'left'):
            self.left(pieces)
        elif self.want == 'end':
            if line != b'end':
                raise No('Spelling(30)')
            if self.lowest < self.version:
                raise No('Version(38)')
            self.want = 'nothing'
        else:
            raise No('Spelling(30)')

    def entry(self, pieces):
        if len(pieces) != 8 or pieces[3] not in (FIRST_KINDS if self.version == 1 else KINDS):
            raise No('Spelling(30)')
        kind, value = pieces.pop(3), pieces.pop(4)
        if value != b'-' if kind not in MESSAGES else not is_message(value, self.version):
            raise No('Spelling(30)')
        _, _, buffer, op, pos = numbers(pieces[1:], [CPUS, THREADS, self.count, ENTRIES, ENTRIES])
        value = message(value) if kind in MESSAGES else [0]
        self.entries += 1
        if self.entries > ENTRIES:
            raise No('Range(31)')
        self.lowest = max(self.lowest, 3 if len(value) > 1 else 1 if kind in FIRST_KINDS else 2)
        group = buffer, GROUPS[kind]
        if op != self.counts.get(buffer, 0):
            raise No('Op(32)')
        if pos != self.counts.get(group, 0):
            raise No('Pos(33)')
        self.take_effect(kind, buffer, value)
        self.counts[buffer] = op + 1
        self.counts[group] = pos + 1

    def take_effect(self, kind, buffer, value):
        items = self.items[buffer]
        if kind in (b'sendc', b'recvc') and buffer not in self.closed or kind == b'send' and buffer in self.closed:
            raise No('CloseState(39)')
        if kind == b'send':
            if len(items) >= self.caps[buffer]:
                raise No('Full(34)')
            items.append(value)
        elif kind == b'recv':
            if not items:
                raise No('EmptyTake(35)')
            if items[0] != value:
                raise No('WrongValue(36)')
            items.pop(0)
        elif kind == b'recvc' and items:
            raise No('NotEmpty(40)')
        elif kind == b'close':
            self.closed.add(buffer)

    def left(self, pieces):
        self.want = 'left'
        if len(pieces) < 2 or pieces[0] != b'left' or pieces[1] != str(self.buffer).encode():
            raise No('Spelling(30)')
        if not all(is_message(piece, self.version) for piece in pieces[2:]):
            raise No('Spelling(30)')
        if [message(piece) for piece in pieces[2:]] != self.items[self.buffer]:
            raise No('Left(37)')
        self.buffer += 1
        if self.buffer == self.count:
            self.want = 'end'


def verdict(text):
    judge, at, rest = Judge(), 1, text
    try:
        while judge.want != 'nothing':
            line, feed, rest = rest.partition(b'\n')
            if not feed:
                raise No('Spelling(30)')
            judge.line(line)
            at += 1
        if rest:
            raise No('Spelling(30)')
        return 'yes'
    except No as no:
        return f'no {at} {no}'


# The judge of plans.

class Bad(Exception):
    pass


# The pieces behind each word: a register, a number, a buffer, how many words, a target. Behind `?` one more may stand.
SHAPES = {'set': 'rn', 'add': 'rr', 'sub': 'rr', 'jnz': 'rk', 'send': 'br?k', 'sendm': 'bw?k', 'recv': 'br?k', 'recvm': 'b?k', 'close': 'b',
          'yield': '', 'exit': ''}
REGISTERS = ['r0', 'r1', 'r2', 'r3', 'r4', 'r5', 'r6', 'r7']


IN_RANGE = {'n': lambda n: n < WORD, 'b': lambda n: n < BUFFERS, 'w': lambda n: 1 <= n <= WORDS, 'k': lambda n: True}
LOCKS = ('ticket', 'grant')


def guest_fault(line, count):
    word, *pieces = line.split(' ')
    must, _, may = SHAPES.get(word, '').partition('?')
    if word not in SHAPES or len(pieces) not in (len(must), len(must + may)):
        return 'UnknownWord(10)'
    for piece, kind in zip(pieces, must + may):
        if kind == 'r':
            if piece not in REGISTERS:
                return 'BadRegister(11)'
        elif not is_number(piece) or not IN_RANGE[kind](int(piece)):
            return 'BadNumber(12)'
        elif kind == 'k' and int(piece) >= count:
            return 'BadTarget(13)'
    return None


def program(lines, thread, buffers):
    where = f'Guest(23) thread {thread} line'
    if not lines:
        raise Bad(f'{where} 0 Empty(15)')
    if len(lines) > LINES:
        raise Bad(f'{where} {LINES} TooLong(14)')
    for number, line in enumerate(lines):
        fault = guest_fault(line, len(lines))
        if fault:
            raise Bad(f'{where} {number} {fault}')
    for line in lines:
        if 'b' in SHAPES[line.split(' ')[0]] and int(line.split(' ')[1]) >= buffers:
            raise Bad(f'OutOfRange(22) thread {thread} program')


def is_integer(value):
    return type(value) is int


def read(table, key, where, is_kind, in_range):
    if key not in table or not is_kind(table[key]):
        raise Bad(f'MissingKey(21) {where}')
    if not in_range(table[key]):
        raise Bad(f'OutOfRange(22) {where}')
    return table[key]


def is_list_of(is_item):
    return lambda value: type(value) is list and all(is_item(item) for item in value)


def too_wide(value):
    if type(value) is list:
        return any(too_wide(item) for item in value)
    if type(value) is dict:
        return any(too_wide(item) for item in value.values())
    return type(value) is int and not -2**63 <= value < 2**63


def parse_float(text):
    value = float(text)
    if abs(value) == float('inf') and 'inf' not in text:
        raise ValueError
    return value


def plan_fault(text):
    """The error line of a plan without `error: `, and the number of its CPUs."""
    try:
        table = tomllib.loads(text.decode(), parse_float=parse_float)
        if too_wide(table):
            raise ValueError
    except (ValueError, RecursionError):
        return 'BadToml(20)', None
    try:
        cpus = read(table, 'cpus', 'cpus', is_integer, lambda n: 1 <= n <= CPUS)
        read(table, 'trace', 'trace', is_integer, lambda n: 1 <= n <= TRACE)
        buffers = read(table, 'buffers', 'buffers', is_list_of(is_integer),
                       lambda caps: 1 <= len(caps) <= BUFFERS and all(1 <= n <= CAPACITY for n in caps))
        if 'lock' in table:
            read(table, 'lock', 'lock', lambda value: type(value) is str, lambda name: name in LOCKS)
        threads = read(table, 'thread', 'thread', is_list_of(lambda item: type(item) is dict), lambda all: 1 <= len(all) <= THREADS)
        for number, thread in enumerate(threads):
            read(thread, 'cpu', f'thread {number} cpu', is_integer, lambda n: 0 <= n < cpus)
            program(read(thread, 'program', f'thread {number} program', is_list_of(lambda item: type(item) is str), lambda lines: True),
                    number, len(buffers))
        return None, cpus
    except Bad as bad:
        return str(bad), None


# The judge of schedules.

def steps(text):
    """The CPUs of a schedule, or None where it is none."""
    found, total = [], 0
    for item in text.split(','):
        pieces = item.split('*')
        if len(pieces) > 2 or not all(is_number(piece) for piece in pieces):
            return None
        many = int(pieces[1]) if len(pieces) == 2 else 1
        if int(pieces[0]) > MOST_CPU or not 1 <= many <= MOST_STEPS:
            return None
        found.append(int(pieces[0]))
        total += many
    return found if total <= MOST_STEPS else None


# Cases.

def some_text(pick):
    count = pick.randint(1, 3)
    caps = [pick.randint(1, 3) for _ in range(count)]
    items, counts, closed, entries = [[] for _ in caps], {}, set(), []
    kinds = pick.choice([['send', 'recv'], ['send', 'recv'], ['send', 'send', 'recv', 'recv', 'close']])
    has_words = pick.random() < 0.4
    for _ in range(pick.randint(0, 12)):
        b = pick.randrange(count)
        kind = pick.choice(kinds)
        if b in closed:
            kind = {'send': 'sendc', 'recv': 'recv' if items[b] else 'recvc'}.get(kind, kind)
        if kind == 'send' and len(items[b]) == caps[b] or kind == 'recv' and not items[b]:
            continue
        value = items[b].pop(0) if kind == 'recv' else some_message(pick, has_words) if kind in ('send', 'sendc') else '-'
        if kind == 'send':
            items[b].append(value)
        if kind == 'close':
            closed.add(b)
        entries.append([pick.randrange(CPUS), pick.randrange(THREADS), kind, b, value] + numbered(counts, kind, b))
    for _ in range(pick.choice([0, 1, 1, 2])):
        near_a_run(pick, entries)
    version = 2 if any(e[2] not in ('send', 'recv') for e in entries) else 1
    version = 3 if any(',' in e[4] for e in entries) else version
    if pick.random() < 0.05:
        version = pick.choice([0, 1, 2, 3, 4])
    lines = [f'mctower-trace {version}', f'buffers {count}'] + [f'cap {b} {k}' for b, k in enumerate(caps)]
    lines += ['e ' + ' '.join(map(str, e)) for e in entries]
    lines += [' '.join(map(str, ['left', b] + items[b])) for b in range(count)] + ['end']
    return b''.join(line.encode() + b'\n' for line in lines)


def some_message(pick, has_words):
    count = pick.choice([1, 2, 2, 3, WORDS]) if has_words else 1
    return ','.join(str(pick.choice([0, 7, 7, 8, WORD - 1])) for _ in range(count))


def numbered(counts, kind, b):
    """The op and the pos of the next effect of this kind."""
    group = b, GROUPS[kind.encode()]
    found = [counts.get(b, 0), counts.get(group, 0)]
    counts[b], counts[group] = found[0] + 1, found[1] + 1
    return found


TURNED = {'send': ['recv', 'sendc'], 'recv': ['send', 'recvc'], 'close': ['sendc', 'recvc'], 'sendc': ['send'], 'recvc': ['recv']}


def near_a_run(pick, entries):
    if not entries:
        return
    i, j = pick.randrange(len(entries)), pick.randrange(len(entries))
    how = pick.randrange(8)
    if how == 0:
        entries[i], entries[j] = entries[j], entries[i]
    elif how == 1:
        del entries[i]
    elif how == 2:
        entries[i][2] = pick.choice(TURNED[entries[i][2]])
        entries[i][4] = '-' if entries[i][2] in ('close', 'recvc') else '7' if entries[i][4] == '-' else entries[i][4]
    elif how == 3:
        entries[i][4] = pick.choice(['0', '7', '8', '-', '7,7', entries[i][4] + ',0', entries[i][4].rpartition(',')[2], entries[j][4]])
    else:
        at = next((k for k, e in enumerate(entries) if e[2] == 'close'), j)
        if how == 5:
            entries.insert(i, entries.pop(at))
        elif how > 5:
            kind = pick.choice(list(TURNED))
            entry = entries[at][:2] + [kind, entries[at][3], '-' if kind in ('close', 'recvc') else '7', 0, 0]
            entries.insert(pick.randint(at, len(entries)), entry)
        counts = {}
        for e in entries:
            e[5:] = numbered(counts, e[2], e[3])


def near_its_grammar(pick, text):
    lines = text.split(b'\n')
    i = pick.randrange(len(lines))
    pieces = lines[i].split(b' ')
    k = pick.randrange(len(pieces))
    how = pick.randrange(10)
    if how == 0:
        at = pick.randrange(len(text) + 1)
        return text[:at] + bytes([pick.choice([0, 10, 13, 32, 44, 48, 57, 101, 255, pick.randrange(256)])]) + text[at + pick.randrange(2):]
    if how == 1:
        return text[:pick.randrange(len(text) + 1)]
    if how == 2:
        return text + pick.choice([b' ', b'\n', b'end\n', b'\0'])
    if how == 3:
        del lines[i]
    elif how == 4:
        lines.insert(i, pick.choice(lines))
    elif how == 5:
        j = pick.randrange(len(lines))
        lines[i], lines[j] = lines[j], lines[i]
    elif how == 6:
        pieces[k] = pick.choice(ODD_NUMBERS)
    elif how == 9:
        words = pieces[k].split(b',')
        words[pick.randrange(len(words))] = pick.choice(ODD_NUMBERS + [b'7,7', b',7', b'7' + b',7' * pick.choice([7, 8])])
        pieces[k] = b','.join(words)
    elif how == 7:
        del pieces[k]
    else:
        pieces.insert(k, pick.choice(pieces + [b'', b'0']))
    if how > 5:
        lines[i] = b' '.join(pieces)
    return b'\n'.join(lines)


PROGRAM_LINES = ['set r0 7', 'set r3 18446744073709551615', 'add r0 r1', 'sub r1 r0', 'jnz r0 0', 'send 0 r0', 'recv 0 r1', 'send 1 r2', 'yield', 'exit',
                 'close 0', 'close 1', 'send 0 r0 0', 'recv 0 r1 1', 'recv 0 r3 3', 'set r7 1', 'sendm 0 1', 'sendm 0 8', 'sendm 1 3 0', 'recvm 0',
                 'recvm 1', 'recvm 0 2']


def some_plan(pick):
    buffers = [pick.randint(1, CAPACITY) for _ in range(pick.randint(1, 3))]
    cpus = pick.randint(1, CPUS)
    lines = [f'cpus = {cpus}', f'trace = {pick.randint(1, TRACE)}', f'buffers = {buffers}']
    lines += pick.choice([[], ['lock = "ticket"'], ['lock = "grant"']])
    for _ in range(pick.randint(1, 3)):
        chosen = [pick.choice(PROGRAM_LINES) for _ in range(pick.randint(1, 4))]
        lines += ['', '[[thread]]', f'cpu = {pick.randrange(cpus)}', 'program = [' + ', '.join(f'"{line}"' for line in chosen) + ']']
    return '\n'.join(lines).encode() + b'\n'


NEAR_A_LOCK = [b'"mcs"', b'"Grant"', b'"ticket "', b'""', b'7', b'true', b'["ticket"]', b'{ a = "grant" }', b"'ticket'", b'"gran\\u0074"',
               b'"""grant"""', b'lock = 1 #', b'lock = "\xc3\xa4" #', b'lock = "grant"\nlock = ']


NO_VALUES = [b'true #', b'"1" #', b'1.5 #', b'[] #', b'{} #', b'[1, "a"] #', b'99999999999999999999 #', b'-1 #']
NO_INSTRUCTIONS = [b'1, ', b'"", ', b'"exit ", ', b'"set r0", ', b'"jnz r0 9", ', b'"close", ', b'"close 16", ', b'"close 0 0", ', b'"send 0 r0 9", ',
                   b'"recv 0 r0 0 0", ', b'"sendm 0", ', b'"sendm 0 0", ', b'"sendm 0 9 9", ', b'"sendm 16 9 9", ', b'"sendm 0 8 99", ',
                   b'"sendm 0 1 0 0", ', b'"recvm", ', b'"recvm 16", ', b'"recvm 0 99", ', b'"recvm 0 r0", ', b'"recvm 0 0 0", ', b'"set r8 1", ']


def near_a_plan(pick, text):
    how = pick.randrange(9)
    if how == 0:
        return near_its_grammar(pick, text)
    if how == 8:
        return text + b'\n[[thread]]\ncpu = 0\nprogram = ["exit"]\n' * (THREADS - pick.randrange(4))
    if how == 1:
        old = pick.choice([b'cpus = ', b'trace = ', b'cpu = ', b'buffers = [', b'r0', b'send ', b'recv ', b'close ', b'jnz r0 ', b'set r0 ',
                           b'send 0 r0 ', b'recv 0 r1 ', b'sendm ', b'sendm 0 ', b'sendm 1 3 ', b'recvm ', b'recvm 0 '])
        return text.replace(old, old + pick.choice([b'1', b'9', b'0', b'-', b' ', b'99', b'1.', b'0x']), pick.choice([1, 9]))
    if how == 2:
        old = pick.choice([b'cpus', b'trace', b'buffers', b'lock', b'ticket', b'grant', b'thread', b'cpu ', b'program', b'send', b'sendm', b'recvm', b'close',
                           b'yield', b'exit'])
        return text.replace(old, pick.choice([b'other', old.upper(), old + b'2', b'']), 1)
    if how == 3:
        if pick.random() < 0.5:
            return text.replace(b' = ', b' = ' + pick.choice(NO_VALUES), 1)
        return text.replace(b'program = [', b'program = [' + pick.choice(NO_INSTRUCTIONS), 1)
    if how == 4:
        return text.replace(b'"', pick.choice([b"'", b'', b'"""']), pick.choice([1, 2, 99]))
    if how == 5:
        return text.replace(b'program = [', b'program = [' + b'"exit", ' * pick.choice([1, LINES - 4, LINES, LINES + 44]), 1)
    if how == 6:
        return text.replace(pick.choice([b'"ticket"', b'"grant"', b'lock = ']), pick.choice(NEAR_A_LOCK), 1)
    return text.replace(b'[[thread]]', pick.choice([b'[thread]', b'[[threads]]', b'[[thread]]\nname = 1', b'[[thread.x]]']), pick.choice([1, 9]))


ODD_ITEMS = ['*', ',', '0', '00', '9', ' ', 'x', str(MOST_CPU), str(MOST_CPU + 1), f'*{MOST_STEPS}', f'*{MOST_STEPS + 1}', '*0', '-']


def some_schedule(pick):
    items = [f'{pick.randrange(CPUS)}' + pick.choice(['', f'*{pick.randint(1, 40)}']) for _ in range(pick.randint(1, 4))]
    text = ','.join(items)
    for _ in range(pick.choice([0, 0, 0, 1])):
        at = pick.randrange(len(text) + 1)
        text = text[:at] + pick.choice(ODD_ITEMS) + text[at + pick.randrange(2):]
    return text


def run(program_path, words, given):
    done = subprocess.run([program_path] + words, input=given, capture_output=True, timeout=60)
    return done.returncode, done.stdout, done.stderr


def text_case(pick, program_path):
    text = some_text(pick)
    for _ in range(pick.choice([0, 0, 1, 2])):
        text = near_its_grammar(pick, text)
    wanted = verdict(text)
    got = run(program_path, ['check'], text)
    return text, wanted, got, got == (0 if wanted == 'yes' else 3, wanted.encode() + b'\n', b'')


def plan_case(pick, program_path):
    plan, schedule = some_plan(pick), some_schedule(pick)
    for _ in range(pick.choice([0, 1, 1, 2])):
        plan = near_a_plan(pick, plan)
    fault, cpus = plan_fault(plan)
    chosen = steps(schedule)
    got = run(program_path, ['run', '--schedule=' + schedule], plan)
    if schedule == '':
        return (schedule, plan), None, got, got[0] == 2
    if chosen is None:
        wanted = 'BadSchedule(9)'
    elif fault is None and any(c >= cpus for c in chosen):
        wanted = 'BadCpu(4)'
    else:
        wanted = fault
    if wanted is None:
        right = got[0] == 0 and verdict(got[1]) == 'yes'
    else:
        right = got == (2 if chosen is None else 1, b'', f'error: {wanted}\n'.encode())
    return (schedule, plan), wanted, got, right


def main():
    read = argparse.ArgumentParser(description=__doc__, formatter_class=argparse.RawDescriptionHelpFormatter)
    read.add_argument('program', type=program_at, metavar='PROGRAM')
    read.add_argument('many', nargs='?', type=int, default=1000, metavar='HOW_MANY')
    read.add_argument('seed', nargs='?', type=int, default=1, metavar='SEED')
    read.add_argument('kind', nargs='?', choices=('texts', 'plans'))
    given = read.parse_args()
    if tomllib is None:
        read.error('this Python has no tomllib: 3.11 or later has')
    program_path, many, pick = given.program, given.many, random.Random(given.seed)
    cases = {'texts': [text_case], 'plans': [plan_case]}.get(given.kind, [text_case, plan_case])
    answers, wrong = {}, 0
    for number in range(many):
        case, wanted, got, right = cases[number % len(cases)](pick, program_path)
        name = 'run' if wanted is None else wanted.split()[-1]
        answers[name] = answers.get(name, 0) + 1
        if not right:
            wrong += 1
            print('damage:', case, '\n  wanted', wanted, '\n  got', got)
    print('answers:', ', '.join(f'{name} {n}' for name, n in sorted(answers.items())))
    print(f'damage: {many} cases, {wrong} differ')
    sys.exit(wrong != 0)


main()
