"""Gives a WebAssembly module with a 64-bit memory and table 32-bit ones, so that every browser of today runs it.

Numbers stay as they are, and pointers too: they are of 64 bits. An address is cut to 32 bits where memory is read or written, and where a
function is called by its place in the table; so memory cannot grow past 4 GiB. Exports keep their types. Of the module it takes the
instructions that the kit's compiler writes, and stops with an AssertionError at any other. Nothing proves this file.
"""
I32, I64, F32, F64 = 0x7F, 0x7E, 0x7D, 0x7C
WRAP, EXTEND_SIGNED, EXTEND_UNSIGNED = b"\xa7", b"\xac", b"\xad"
GET, SET = b"\x20", b"\x21"  # of a local
END, I32_CONST, I64_CONST = 0x0B, 0x41, 0x42
CUSTOM, TYPES, IMPORTS, FUNCTIONS, TABLES, MEMORIES, ELEMENTS, CODE, DATA = 0, 1, 2, 3, 4, 5, 9, 10, 11
MOST_PAGES = 65536

# Instructions by what stands behind them: one number; a block's type is read as one. Those with nothing behind them are PLAIN.
WITH_A_NUMBER = {0x02, 0x03, 0x04, 0x0C, 0x0D, 0x10, 0x20, 0x21, 0x22, 0x23, 0x24, 0x25, 0x26, 0x41, 0x42, 0xD0, 0xD2}
PLAIN = {0x00, 0x01, 0x05, 0x0B, 0x0F, 0x1A, 0x1B, *range(0x45, 0xC5)}
LOADS, STORES = range(0x28, 0x36), range(0x36, 0x3F)
STORED = {0x36: I32, 0x37: I64, 0x38: F32, 0x39: F64, 0x3A: I32, 0x3B: I32}  # the other stores are of I64
BRANCH_TABLE, CALL_INDIRECT, TYPED_SELECT, MEMORY_SIZE, MEMORY_GROW, F32_CONST, F64_CONST, MISC = 0x0E, 0x11, 0x1C, 0x3F, 0x40, 0x43, 0x44, 0xFC
MEMORY_COPY, MEMORY_FILL = 10, 11


class Reader:
    """Bytes that are read from the front."""

    def __init__(self, data):
        self.data, self.at = data, 0

    def has_more(self):
        return self.at < len(self.data)

    def byte(self):
        self.at += 1
        return self.data[self.at - 1]

    def take(self, count):
        self.at += count
        return self.data[self.at - count:self.at]

    def spelled(self):
        """A number, as it is spelled."""
        start = self.at
        while self.byte() & 128:
            pass
        return self.data[start:self.at]

    def number(self):
        return sum((byte & 127) << 7 * place for place, byte in enumerate(self.spelled()))

    def signed(self):
        spelled = self.spelled()
        value = sum((byte & 127) << 7 * place for place, byte in enumerate(spelled))
        return value - (1 << 7 * len(spelled)) if spelled[-1] & 64 else value


def number(value):
    """A number without a sign, spelled."""
    spelled = bytearray()
    while value > 127:
        spelled.append(value & 127 | 128)
        value >>= 7
    return bytes([*spelled, value])


def signed(value):
    """A number with its sign, spelled."""
    spelled = bytearray()
    while not -64 <= value < 64:
        spelled.append(value & 127 | 128)
        value >>= 7
    return bytes([*spelled, value & 127])


def vector(items):
    """How many items there are, and the items."""
    return number(len(items)) + b"".join(items)


class Body:
    """One function's code, with addresses cut to 32 bits."""

    def __init__(self, code, parameters):
        self.code, self.out, self.locals = Reader(code), bytearray(), {}
        self.groups, self.count = [], parameters
        for _ in range(self.code.number()):
            many, kind = self.code.number(), self.code.byte()
            self.groups.append(number(many) + bytes([kind]))
            self.count += many

    def local(self, kind, which=0):
        """A local of our own to hold a value of a kind for a moment."""
        return number(self.locals.setdefault((kind, which), self.count + len(self.locals)))

    def lowered(self):
        while self.code.has_more():
            start, instruction = self.code.at, self.code.byte()
            if instruction in LOADS or instruction in STORES:
                self.out += self.at_address(instruction)
            else:
                before, after = self.around(instruction)
                self.out += before + self.code.data[start:self.code.at] + after
        own = [b"\x01" + bytes([kind]) for kind, _ in self.locals]
        return vector(self.groups + own) + bytes(self.out)

    def at_address(self, instruction):
        """A load or a store. Its offset is spelled anew, since the linker spells it with more digits than a 32-bit one may have."""
        spelled = bytes([instruction]) + number(self.code.number()) + number(self.code.number())
        if instruction in LOADS:
            return WRAP + spelled
        value = self.local(STORED.get(instruction, I64))
        return SET + value + WRAP + GET + value + spelled

    def around(self, instruction):
        """Reads the rest of another instruction. Returns what comes before it, and what behind it."""
        read = self.code
        if instruction in WITH_A_NUMBER:
            read.spelled()
        elif instruction == CALL_INDIRECT:
            return WRAP, self.skipped(2)
        elif instruction == MEMORY_SIZE:
            return b"", self.skipped(1) + EXTEND_UNSIGNED
        elif instruction == MEMORY_GROW:
            return WRAP, self.skipped(1) + EXTEND_SIGNED
        elif instruction == MISC:
            return self.of_many_bytes(read.number())
        else:
            self.skip_others(instruction)
        return b"", b""

    def skipped(self, count):
        for _ in range(count):
            self.code.spelled()
        return b""

    def of_many_bytes(self, which):
        """A copy or a fill of memory; the others of this kind cut a float to an integer, and have no address."""
        if which == MEMORY_COPY:
            self.skipped(2)
            count, source = self.local(I64), self.local(I64, 1)
            return SET + count + SET + source + WRAP + GET + source + WRAP + GET + count + WRAP, b""
        if which == MEMORY_FILL:
            self.skipped(1)
            count, value = self.local(I64), self.local(I32)
            return SET + count + SET + value + WRAP + GET + value + GET + count + WRAP, b""
        assert which < 8, f"instruction 0xfc {which}"
        return b"", b""

    def skip_others(self, instruction):
        read = self.code
        if instruction == BRANCH_TABLE:
            self.skipped(read.number() + 1)
        elif instruction == TYPED_SELECT:
            read.take(read.number())
        elif instruction in (F32_CONST, F64_CONST):
            read.take(4 if instruction == F32_CONST else 8)
        else:
            assert instruction in PLAIN, f"instruction {instruction:#x}"


def limits(section):
    """The limits of a memory or a table."""
    flags, low = section.byte(), section.number()
    return bytes([flags & 1]) + number(low) + (number(min(section.number(), MOST_PAGES)) if flags & 1 else b"")


def offset(section):
    """Where data or elements begin: a constant."""
    assert section.byte() == I64_CONST, "an offset is no constant"
    value = section.signed()
    assert section.byte() == END
    return bytes([I32_CONST]) + signed(value) + bytes([END])


def parameters_of(section):
    """How many parameters each type of a function has."""
    counts = []
    for _ in range(section.number()):
        assert section.byte() == 0x60, "a type is no function's"
        counts.append(section.number())
        section.take(counts[-1])
        section.take(section.number())
    return counts


def is_of_functions(section):
    """Whether all that is imported is functions, as it has to be: their number shifts the others'."""
    for _ in range(section.number()):
        section.take(section.number())
        section.take(section.number())
        if section.byte() != 0:
            return False
        section.number()
    return True


def lowered_tables(section):
    return vector([bytes([section.byte()]) + limits(section) for _ in range(section.number())])


def lowered_memories(section):
    return vector([limits(section) for _ in range(section.number())])


def lowered_elements(section):
    found = []
    for _ in range(section.number()):
        assert section.number() == 0, "elements of another kind"
        found.append(b"\0" + offset(section) + vector([section.spelled() for _ in range(section.number())]))
    return vector(found)


def lowered_data(section):
    found = []
    for _ in range(section.number()):
        assert section.number() == 0, "data of another kind"
        start, count = offset(section), section.number()
        found.append(b"\0" + start + number(count) + section.take(count))
    return vector(found)


def lowered_code(section, parameters):
    bodies = [Body(section.take(section.number()), parameters[k]).lowered() for k in range(section.number())]
    return vector([number(len(body)) + body for body in bodies])


LOWERED = {TABLES: lowered_tables, MEMORIES: lowered_memories, ELEMENTS: lowered_elements, DATA: lowered_data}


def lowered(module):
    """The module with 32-bit memory and table."""
    read = Reader(module)
    out, by_type, by_function = bytearray(read.take(8)), [], []
    while read.has_more():
        kind, section = read.byte(), Reader(read.take(read.number()))
        made = section.data
        if kind == CUSTOM and section.take(section.number()) == b"target_features":
            continue  # it names the 64-bit memory
        if kind == TYPES:
            by_type = parameters_of(section)
        elif kind == IMPORTS:
            assert is_of_functions(section), "only functions may be imported"
        elif kind == FUNCTIONS:
            by_function = [by_type[section.number()] for _ in range(section.number())]
        elif kind == CODE:
            made = lowered_code(section, by_function)
        elif kind in LOWERED:
            made = LOWERED[kind](section)
        out += bytes([kind]) + number(len(made)) + made
    return bytes(out)
