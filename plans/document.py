"""Reads a TOML document as `mctower` does: TOML 1.1, numbers of 64 bits, and at most 80 parts in a key and 80 arrays and tables in one another.

`read_document` returns the document as a `Table`, which knows the line of each of its keys, as an `Array` knows those of its items. Where
the text is no document it raises `NoDocument`, with the place and what is wrong there. Nothing here is proved: tests/explain.py holds it
against the program. It needs Python alone, 3.9 or later.
"""
import re
import unicodedata
from bisect import bisect_right

DEPTH = 80
BLANK = re.compile(r"(?:[ \t]|\r?\n|#[^\x00-\x08\x0a-\x1f\x7f]*)*")  # white space, line ends and comments
SPACE = re.compile(r"[ \t]*")
LINES = re.compile(r"(?:[ \t]|\r?\n)*")
BARE = re.compile(r"[A-Za-z0-9_-]+")
WORD = re.compile(r"[A-Za-z0-9_+.:-]+")
# What stands for itself between these delimiters: in a string of one line, and in one of several.
PLAIN = {('"', False): re.compile(r'[^"\\\x00-\x08\x0a-\x1f\x7f]+'), ('"', True): re.compile(r'[^"\\\x00-\x08\x0b-\x1f\x7f]+'),
         ("'", False): re.compile(r"[^'\x00-\x08\x0a-\x1f\x7f]+"), ("'", True): re.compile(r"[^'\x00-\x08\x0b-\x1f\x7f]+")}
DELIMITERS = {'"': re.compile('"*'), "'": re.compile("'*")}
ESCAPES = {"b": "\b", "e": "\x1b", "f": "\f", "n": "\n", "r": "\r", "t": "\t", '"': '"', "\\": "\\"}
HEX_DIGITS = {"x": 2, "u": 4, "U": 8}
DECIMAL = re.compile(r"(?:0|[1-9][0-9]*)(\.[0-9]+)?([eE][+-]?[0-9]+)?")
RADIX = {"0x": (16, re.compile(r"[0-9A-Fa-f]+")), "0o": (8, re.compile(r"[0-7]+")), "0b": (2, re.compile(r"[01]+"))}
LOOKS_LIKE_A_DATE = re.compile(r"[0-9]+[-:]")
TIME = r"(?P<hour>[0-9]{2}):(?P<minute>[0-9]{2})(?::(?P<second>[0-9]{2})(?:\.[0-9]+)?)?"
MOMENTS = (re.compile(TIME),
           re.compile(r"(?P<year>[0-9]{4})-(?P<month>[0-9]{2})-(?P<day>[0-9]{2})"
                      rf"(?:[Tt ]{TIME}(?:[Zz]|[+-](?P<east>[0-9]{{2}}):(?P<beyond>[0-9]{{2}}))?)?"))
CONTROLS = {"\t": "tab", "\n": "line feed", "\r": "carriage return"}
BOUNDS = {"hour": 24, "minute": 60, "second": 61, "east": 24, "beyond": 60, "month": 13}  # what each part of a moment is below


class NoDocument(Exception):
    """The text is not a TOML document: what is wrong, and at which line and column, both counted from 1."""

    def __init__(self, line, column, why):
        super().__init__(why)
        self.line, self.column, self.why = line, column, why


class Table(dict):
    """A table, with the line of each key. `made` says what made it: a header, a dotted key, a header that passed through it, or a value,
    which takes no more keys."""

    def __init__(self, made):
        super().__init__()
        self.lines, self.made = {}, made


class Array(list):
    """An array, with the line of each item. Headers in double brackets made it where `has_headers`; else it is a value."""

    def __init__(self, has_headers=False):
        super().__init__()
        self.lines, self.has_headers = [], has_headers


class Moment(str):
    """A date, a time, or both, as it is spelled."""


def shown(text, most=40):
    """Part of a text as messages show it: cut, and without a character that cannot be seen."""
    cut = text if len(text) <= most else text[:most] + ".."
    return "".join(c if c.isprintable() else c.encode("unicode_escape").decode() for c in cut)


def strange_in(text, unit="character"):
    """What is said about the first character of a text that is not printable ASCII, as a tab or a typographic quote; nothing where there is none."""
    place = next((i for i, c in enumerate(text) if not " " <= c <= "~"), None)
    if place is None:
        return ""
    name = CONTROLS.get(text[place]) or unicodedata.name(text[place], "a control character").lower()
    return f". {unit.capitalize()} {place + 1} is U+{ord(text[place]):04X}, {name}{expected_for(text[place], name)}"


def expected_for(character, name):
    """What is expected in the place of a character that looks like another."""
    if character == "\ufeff":
        return ", a byte order mark: save the text without it"
    if character == "\t" or unicodedata.category(character) == "Zs":
        return ": expected a plain space"
    plain = {"quotation mark": "\" or '", "multiplication sign": "*", "dash": "-", "minus sign": "-", "digit": "a plain digit"}
    return next((f": expected {it}" for word, it in plain.items() if word in name), "")


def read_document(text):
    """The document of a text. A byte order mark in front of it is no part of it."""
    return Reader(text[1:] if text.startswith("\ufeff") else text).document()


def days(year, month):
    """How many days a month of the calendar has."""
    if month == 2:
        return 29 if year % 4 == 0 and (year % 100 or year % 400 == 0) else 28
    return 30 if month in (4, 6, 9, 11) else 31


def moment_of(word):
    """The date or the time that a word spells, or None."""
    found = MOMENTS[0 if word[2:3] == ":" else 1].fullmatch(word)
    if not found:
        return None
    parts = {name: int(digits) for name, digits in found.groupdict().items() if digits is not None}
    if any(parts[name] >= bound for name, bound in BOUNDS.items() if name in parts):
        return None
    if "day" in parts and (parts["month"] == 0 or not 1 <= parts["day"] <= days(parts["year"], parts["month"])):
        return None
    return Moment(word)


def whole_of(digits, radix=10):
    """The integer that these digits spell, if it has 64 bits with its sign."""
    number = int(digits, radix) if len(digits) <= 64 or radix != 10 else 2**64
    return number if -2**63 <= number < 2**63 else None


def number_of(word):
    """The integer or the float that a word spells, or None."""
    digits = "0-9A-Fa-f" if word.startswith("0x") else "0-9"
    if re.search(rf"(?<![{digits}])_|_(?![{digits}])", word):
        return None
    word = word.replace("_", "")
    if word[:2] in RADIX:
        radix, spelling = RADIX[word[:2]]
        return whole_of(word[2:], radix) if spelling.fullmatch(word[2:]) else None
    unsigned = word[1:] if word[:1] in ("+", "-") else word
    if unsigned in ("inf", "nan"):
        return float(word)
    found = DECIMAL.fullmatch(unsigned)
    if not found:
        return None
    if not any(found.groups()):
        return whole_of(word)
    return None if abs(float(word)) == float("inf") else float(word)


def scalar_of(word):
    """The truth value, the date or the number that a word spells, or None."""
    if word in ("true", "false"):
        return word == "true"
    return moment_of(word) if LOOKS_LIKE_A_DATE.match(word) else number_of(word)


def no_scalar(word):
    """Why a word is not a value."""
    unsigned = word.lstrip("+-")
    if re.fullmatch(r"0[0-9_]+", unsigned):
        return f"{shown(word)} has a leading zero: write it without"
    if DECIMAL.fullmatch(unsigned):
        return f"{shown(word)} does not fit in 64 bits"
    if unsigned.isalpha():
        return f'{shown(word)} is not a value: a string needs quotes, for example "{shown(word)}"'
    return f"{shown(word)} is not a value: a string needs quotes, and two values a comma between them"


class Reader:
    """A text, and how much of it is read."""

    def __init__(self, text):
        self.text, self.at, self.root = text, 0, Table("header")
        self.starts = [0] + [found.end() for found in re.finditer("\n", text)]

    def line(self, place=None):
        """The line of a place, counted from 1; without one, of the next character."""
        return bisect_right(self.starts, self.at if place is None else place)

    def fault(self, why, place=None):
        place = min(self.at if place is None else place, len(self.text))
        return NoDocument(self.line(place), place - self.starts[self.line(place) - 1] + 1, why)

    def next(self):
        """The next character, or '' at the end."""
        return self.text[self.at:self.at + 1]

    def take(self, spelling):
        """Reads what a spelling fits: the longest, perhaps nothing."""
        found = spelling.match(self.text, self.at)
        self.at = found.end() if found else self.at
        return found.group() if found else ""

    def document(self):
        table = self.root
        self.take(BLANK)
        while self.at < len(self.text):
            table = self.header() if self.next() == "[" else self.pair(table, DEPTH)
            self.take(SPACE)
            if self.next() not in ("", "#", "\n", "\r"):
                raise self.fault(f"unexpected {self.rest()} after a complete key: each key needs its own line")
            self.take(BLANK)
        return self.root

    def rest(self):
        """The rest of the line, for a message."""
        return shown(self.text[self.at:self.at + 1000].split("\n")[0].strip())

    # Keys and headers.

    def key(self):
        """The parts of a key, and the white space behind it."""
        parts = [self.part()]
        self.take(SPACE)
        while self.next() == ".":
            if len(parts) == DEPTH:
                raise self.fault(f"a key has at most {DEPTH} parts")
            self.at += 1
            self.take(SPACE)
            parts.append(self.part())
            self.take(SPACE)
        return parts

    def part(self):
        if self.next() in ('"', "'"):
            return self.string_of_one_line()
        found = self.take(BARE)
        if not found:
            raise self.fault(f"expected a key, but {f'found {self.rest()}' if self.rest() else 'the line ends'}")
        return found

    def header(self):
        """Reads a header, and returns the table that it makes."""
        begin, is_array = self.at, self.text.startswith("[[", self.at)
        brackets = "]]" if is_array else "]"
        self.at += len(brackets)
        self.take(SPACE)
        path = self.key()
        if not self.text.startswith(brackets, self.at):
            raise self.fault(f"expected {brackets} at the end of the header")
        self.at += len(brackets)
        table = self.root
        for part in path[:-1]:
            table = self.passed(table, part, begin)
        return self.element(table, path[-1], begin) if is_array else self.headed(table, path[-1], begin)

    def passed(self, table, part, begin):
        """The table through which a header passes, made where there is none; of an array of tables its last."""
        found = self.added(table, part, Table("passed"), begin) if part not in table else table[part]
        if isinstance(found, Array) and found.has_headers:
            return found[-1]
        if not isinstance(found, Table) or found.made == "value":
            raise self.twice(table, part, begin)
        return found

    def headed(self, table, part, begin):
        """The table of a header in single brackets, which is new, or which other headers only passed through."""
        if part not in table:
            return self.added(table, part, Table("header"), begin)
        found = table[part]
        if not isinstance(found, Table) or found.made != "passed":
            raise self.twice(table, part, begin)
        found.made = "header"
        return found

    def element(self, table, part, begin):
        """One more table of an array of tables."""
        found = self.added(table, part, Array(True), begin) if part not in table else table[part]
        if not isinstance(found, Array) or not found.has_headers:
            raise self.twice(table, part, begin)
        found.append(Table("header"))
        found.lines.append(self.line(begin))
        return found[-1]

    def added(self, table, part, value, begin):
        table[part] = value
        table.lines[part] = self.line(begin)
        return value

    def twice(self, table, part, begin):
        return self.fault(f"{shown(part)} is given twice, first on line {table.lines[part]}", begin)

    def pair(self, table, depth):
        """Reads a key and its value into a table, and returns the table."""
        begin = self.at
        path = self.key()
        if self.next() != "=":
            raise self.fault(f"expected = after the key {shown('.'.join(path))}")
        self.at += 1
        self.take(SPACE)
        value = self.value(depth)
        inner = table
        for part in path[:-1]:
            inner = self.dotted(inner, part, begin)
        if path[-1] in inner:
            raise self.twice(inner, path[-1], begin)
        self.added(inner, path[-1], value, begin)
        return table

    def dotted(self, table, part, begin):
        """The table to which a part of a dotted key leads, made where there is none. No header or value has made it."""
        found = self.added(table, part, Table("dotted"), begin) if part not in table else table[part]
        if not isinstance(found, Table) or found.made in ("header", "value"):
            raise self.twice(table, part, begin)
        found.made = "dotted"
        return found

    # Values. `depth` says how many arrays and tables may still stand in one another.

    def value(self, depth):
        first = self.next()
        if first in ("[", "{") and depth == 0:
            raise self.fault(f"arrays and tables are nested more than {DEPTH} deep")
        if first == "[":
            return self.array(depth - 1)
        if first == "{":
            return self.inline_table(depth - 1)
        return self.string() if first in ('"', "'") else self.scalar()

    def array(self, depth):
        found, begin = Array(), self.at
        self.at += 1
        self.take(BLANK)
        while self.next() != "]":
            line = self.line()
            found.append(self.value(depth))
            found.lines.append(line)
            self.end_element("]", "array", begin)
        self.at += 1
        return found

    def inline_table(self, depth):
        found, begin = Table("dotted"), self.at
        self.at += 1
        self.take(BLANK)
        while self.next() != "}":
            self.pair(found, depth)
            self.end_element("}", "table", begin)
        self.at += 1
        return closed(found)

    def end_element(self, closing, what, begin):
        """Reads the comma behind an element, if there is one; without one the closing bracket is next."""
        self.take(BLANK)
        if self.next() == ",":
            self.at += 1
            self.take(BLANK)
        elif self.next() != closing:
            found = f"found {self.rest()}" if self.at < len(self.text) else "the text ends"
            raise self.fault(f"expected a comma or {closing} in the {what} that begins on line {self.line(begin)}, but {found}")

    def scalar(self):
        begin = self.at
        word = self.take(WORD)
        if re.compile(" [0-9]").match(self.text, self.at):  # a space may stand between a date and a time
            self.at += 1
            word += " " + self.take(WORD)
        value = scalar_of(word)
        if value is None:
            why = no_scalar(word) if word else f"expected a value, but {f'found {self.rest()}' if self.rest() else 'the line ends'}"
            raise self.fault(why, begin)
        return value

    # Strings.

    def string(self):
        delimiter = self.next()
        if not self.text.startswith(3 * delimiter, self.at):
            return self.string_of_one_line()
        begin = self.at
        self.at += 3
        self.take(re.compile(r"(?:\r?\n)?"))
        return self.content(delimiter, True, begin)

    def string_of_one_line(self):
        begin = self.at
        self.at += 1
        return self.content(self.text[begin], False, begin)

    def content(self, delimiter, is_long, begin):
        """The rest of a string, and its end: three delimiters of a long one, and no more of them in a row."""
        pieces = []
        while True:
            pieces.append(self.take(PLAIN[delimiter, is_long]))
            count = self.delimiters(delimiter)
            if count == 3 if is_long else count > 0:
                self.at += 3 if is_long else 1
                return "".join(pieces)
            pieces.append(self.special(delimiter, is_long, begin))

    def delimiters(self, delimiter):
        """How many delimiters stand here."""
        return len(DELIMITERS[delimiter].match(self.text, self.at).group())

    def special(self, delimiter, is_long, begin):
        """What is not plain, and does not end the string: an escape; in a long string delimiters and the line end of two characters."""
        if self.next() == "\\":
            return self.escape(is_long)
        if is_long and self.next() == delimiter and self.delimiters(delimiter) < 6:
            self.at += 1
            return delimiter
        if is_long and self.text.startswith("\r\n", self.at):
            self.at += 2
            return "\r\n"
        if self.next() in ("", "\n", "\r"):
            raise self.fault("the string is not closed", begin)
        raise self.fault(f"{shown(self.next())} is not allowed in a string here")

    def escape(self, is_long):
        """What an escape stands for. At the end of a line of a long string it is the line end with all white space behind it."""
        begin = self.at
        self.at += 1
        if is_long and re.compile(r"[ \t]*\r?\n").match(self.text, self.at):
            self.take(LINES)
            return ""
        letter = self.next()
        self.at += 1
        if letter in ESCAPES:
            return ESCAPES[letter]
        digits = self.take(re.compile(f"[0-9A-Fa-f]{{{HEX_DIGITS.get(letter, 0)}}}"))
        code = int(digits, 16) if digits else 0x110000
        if code > 0x10FFFF or 0xD800 <= code < 0xE000:
            raise self.fault(f"\\{shown(letter)} is not an escape: write a backslash as \\\\", begin)
        return chr(code)


def closed(table):
    """The table as a value, with the tables that its dotted keys made."""
    table.made = "value"
    for inner in table.values():
        if isinstance(inner, Table) and inner.made != "value":
            closed(inner)
    return table
