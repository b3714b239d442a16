"""The items of a crate's sources, as far as others read them: heads of functions, types, traits, impls, constants, imports and definitions, each with the
names by which it is reached and the words by which it reaches others. What cannot be read makes its whole file one item that every body reaches.

A word is each run of letters, and each name as the prover reads it. So a name in a text that is no name at all, as in a string, reaches too much, never too
little.
"""
import dataclasses
import re

import imports

# A comment, a string or a character, in which brackets and semicolons mean nothing. A quote behind a letter is the prime of a name.
OPAQUE = re.compile(r"""//[^\n]*|/\*.*?\*/|\bb?r(#*)".*?"\1|"(?:\\.|[^"\\])*"|(?<![\w'])b?'(?:\\[^']+|[^\\'\n])'""", re.S)
STRING = re.compile(r"""\bb?r(#*)".*?"\1|"(?:\\.|[^"\\])*"|(?<![\w'])b?'(?:\\[^']+|[^\\'\n])'""", re.S)
RUST_WORD = re.compile(r"\w+")
ANTT_WORD = re.compile(r'[^\s(){}.;,@"«»]+')
# A module in a path of Rust, and a name of the prover that has its whole path.
IN_PATH = re.compile(r"(\w+)::")
WHOLE_PATH = re.compile(r"\b(?:Rattle|package)\.[\w.]+")
MARKS = r"(?:pub(?:\([a-z: ]+\))? )?"
FUNCTION = re.compile(MARKS + r"(?:(?:const|unsafe|final) )*fn (\w+)")
NAMED = re.compile(MARKS + r"(?:unsafe )?(?:(struct|enum|trait|type|const|static|mod) (?:mut )?|(macro_rules)! )(\w+)")
IMPORT = re.compile(r"(unfoldable )?(pub(?:\([a-z: ]+\))? )?(?:ghost )?use ([^;]+);?$", re.S)
IMPL = re.compile(r"(?:unsafe )?impl\b")
PLAIN_MODULE = re.compile(MARKS + r"mod \w+;$")
# A line that tells the compiler or the prover something that no caller reads.
HINT = re.compile(r"\s*#\[(inline|cold|tactic)\b.*\]$")
PATH = re.compile(r"(\w+)(?:<|$)")
# A definition: its signature; a type of definitions; an import or a module; a block of definitions.
SIGNATURE = re.compile(r"((?:pattern|unfoldable|abbrev|pub|axiom) )*([^\s(){}.;,@\"«»:]+)(?: \{[^}]*\})? :(?: |$)")
TYPE = re.compile(r"(?:(?:unfoldable|abbrev|pub) )*(data|record|ruleset) ([^\s(){}.;,@\"«»]+)")
MODULE = re.compile(r"(?:pub )?mod (\S+)$")
BLOCK = re.compile(r"(?:(?:unfoldable|abbrev|pub) )*(?:module|mutual)\b")
CASES = re.compile(r"\s+((?:[^\s(){}.;,@\"«»:=→×]+ )+):(?: |$)")


class Unread(Exception):
    """A text that this reader cannot read."""


@dataclasses.dataclass(eq=False)
class Item:
    """A part of a file. It is reached if one of its names is a word of what is reached, or a word of code is one of its calls, and if each of its conditions is
    a word of what is reached. One that has neither a name nor a call is reached if its conditions are. One that is local is reached only from its own module
    and those below that. `spreads` says that its words are words of code where code reaches it. `kind` is `type` for what declares a type or a trait, `alias`
    for what gives one another name, and `macro`."""

    crate: str
    file: str
    text: str
    names: frozenset = frozenset()
    words: frozenset = frozenset()
    calls: frozenset = frozenset()
    conditions: frozenset = frozenset()
    is_local: bool = False
    spreads: bool = False
    kind: str = ""


def words_of(text):
    """Returns the words of a text: names as Rust and as the prover read them, the parts of operators, and the modules of a path, each with `::` behind it."""
    found = {*RUST_WORD.findall(text), *(f"{it}::" for it in IN_PATH.findall(text))}
    found.update(f"{it}::" for path in WHOLE_PATH.findall(text) for it in RUST_WORD.findall(path))
    for it in ANTT_WORD.findall(text):
        found.add(it)
        if "◌" in it:
            found.update(filter(None, it.split("◌")))
    return frozenset(found)


def names_as_written(name):
    """Returns the words by which a name is written: an operator's is its parts too."""
    return frozenset({name, *filter(None, name.split("◌"))})


def without_comments(text, is_code):
    """Returns the lines of a file that the compiler or the prover reads."""
    comment = "--" if not is_code else "// " if "clap" in text else "//"  # clap's `///` are words that the program prints
    return [it for it in text.split("\n") if it.strip() and not it.lstrip().startswith(comment)]


def in_one_line(text):
    """Returns a text in one line, so that a broken line changes no sum."""
    return re.sub(r"[ \t]*\n\s*", " ", text)


def code_in_one_line(text):
    """Returns code in one line, as if `rt fmt` had broken none: it ends the last part of a bracket that it breaks with a comma, and breaks before a point."""
    found, at = [], 0
    for it in STRING.finditer(text):
        found += [unbroken(text[at : it.start()]), it[0]]
        at = it.end()
    return in_one_line("".join([*found, unbroken(text[at:])]))


def unbroken(code):
    """Returns code that is in no string, with no line break next to a bracket or a point."""
    code = re.sub(r"([(\[{<])[ \t]*\n\s*", r"\1", re.sub(r",?[ \t]*\n\s*([)\]}>])", r"\1", code))
    return re.sub(r"([(\[{]) +", r"\1", re.sub(r" +([)\]}])", r"\1", re.sub(r"[ \t]*\n\s*\.(?!\.)", ".", code)))


def without_layout(text, is_code):
    """Returns what others read of a file in one line. `rt fmt` ends the last field of a record that is broken into lines with a semicolon, and in definitions
    the last part of each bracket with a comma: these are left out. A function's body, in which they mean something, is no such text."""
    if is_code:
        return code_in_one_line(text).replace(";}", "}")
    return re.sub(r"([({]) ", r"\1", re.sub(r"[,;]? ?([)}])", r"\1", in_one_line(text)))


def blanked(lines):
    """Returns these lines with nothing but code in them."""
    return OPAQUE.sub(lambda it: ("" if it[0].startswith("/") else '"') + "\n" * it[0].count("\n"), "\n".join(lines)).split("\n")


def indent_of(line):
    return len(line) - len(line.lstrip())


def parts_of(lines):
    """Yields the parts of a block of Rust, each as its lines: a part ends at depth 0 by a semicolon, or by a brace as deep as it begins, as `rt fmt` lays out.
    Attributes belong to what follows them."""
    part, depth, base = [], 0, None
    for line, bare in zip(lines, blanked(lines)):
        if not part:
            base = indent_of(line)
        part.append(line)
        depth += sum((it in "([{") - (it in ")]}") for it in bare)
        end = bare.rstrip()
        if depth < 0:
            raise Unread(line)
        if depth == 0 and (end.endswith(";") or end.endswith("}") and indent_of(line) == base or line.lstrip().startswith("#![")):
            yield part
            part = []
    if part:
        raise Unread(part[0])


def opened(part):
    """Returns the number of lines of a part up to the brace that opens its block, or all where it has none: `rt fmt` ends that line with the brace, as deep as
    the part."""
    depth = 0
    for at, (line, bare) in enumerate(zip(part, blanked(part)), 1):
        before = depth
        depth += sum((it in "([{") - (it in ")]}") for it in bare)
        if bare.rstrip().endswith("{") and depth == 1 and before <= 1 and indent_of(line) == indent_of(part[0]) and at < len(part):
            return at
    return len(part)


def declared(part):
    """Returns a part in one line, behind its attributes."""
    depth = 0
    for at, (line, bare) in enumerate(zip(part, blanked(part))):
        if depth == 0 and not line.lstrip().startswith(("#[", "//")):
            return " ".join(it.strip() for it in part[at:])
        depth += sum((it in "([{") - (it in ")]}") for it in bare)
    raise Unread(part[0])


def is_inner(part):
    """Returns whether a part is an attribute of the whole file."""
    return any(it.startswith("#![") for it in part)


def head_of(part):
    """Returns a function's head: a `const fn` keeps its body, since a constant's value may come from it."""
    return part if is_const(part) else part[: opened(part)]


def is_const(part):
    return "const fn" in declared(part).partition("(")[0]


def kept(lines):
    """Returns the text of these lines without hints."""
    return "\n".join(it for it in lines if not HINT.match(it))


def bound_by(path):
    """Yields of each name that an import brings the path and the name that the file has for it."""
    path = re.sub(r"\s+", " ", path.strip()).replace("{ ", "{").replace(", }", "}").replace(" }", "}")
    if "*" in re.split(r"[\s.:{},]+", path):
        yield path, None
        return
    for steps in imports.names_of(path.replace("::", ".")):
        last, _, renamed = steps[-1].partition(" as ")
        last = last.rpartition(".")[2] if imports.NESTED.match(last) else last
        if last == "self" and len(steps) > 1:
            last = steps[-2]
        yield ".".join(steps), renamed or last


def import_items(crate, file, found):
    """Yields an item for each name of an import. One that is not `pub` serves its own module and those below that."""
    for path, name in bound_by(found[3]):
        words = words_of(path) | {f"{it}::" for it in RUST_WORD.findall(path)}
        names = frozenset() if name is None else names_as_written(name)
        is_local = not found[2] and name is not None
        kind = "alias" if " as " in path else ""
        yield Item(crate, file, f"{found[1] or ''}{found[2] or ''}use {path}", names, words, is_local=is_local, spreads=True, kind=kind)


class RustFile:
    """The items of a Rust file. `parents` has the crates of the tree: what is imported of them, or of the crate itself, can be of the tree."""

    def __init__(self, crate, file, text, parents):
        self.crate, self.file, self.parents = crate, file, {*parents, "crate", "self", "super"}
        self.parts = [*parts_of(without_comments(text, True))]
        self.own, self.foreign = set(), set()
        self.items = []
        for it in self.parts:
            if not is_inner(it):
                self.survey(declared(it))
        for it in self.parts:
            self.items += self.read(it)

    def item(self, text, names=(), calls=(), conditions=(), spreads=False, kind=""):
        return Item(self.crate, self.file, text, frozenset(names), words_of(text), frozenset(calls), frozenset(conditions), False, spreads, kind)

    def survey(self, line):
        """Notes which types and traits a part declares or imports, of the tree and by their own name, and which names it brings otherwise."""
        named, found = NAMED.match(line), IMPORT.match(line)
        if named and named[1] in ("struct", "enum", "trait"):
            self.own.add(named[3])
        elif found and "ghost use" not in line:
            for path, name in bound_by(found[3]):
                is_own = path.split(".")[0].removeprefix("::") in self.parents and " as " not in path
                (self.own if is_own else self.foreign).add(name)

    def read(self, part):
        """Yields the items of a part of the file."""
        if is_inner(part):
            yield self.item(kept(part))
            return
        line = declared(part)
        found = IMPORT.match(line)
        function, named = FUNCTION.match(line), NAMED.match(line)
        if found:
            yield from import_items(self.crate, self.file, found)
        elif function:
            yield self.item(kept(head_of(part)), calls={function[1]}, spreads=is_const(part))
        elif named and named[1] == "trait":
            yield from self.read_trait(part, named[3])
        elif named and named[1] == "mod":
            if not line.endswith(";"):
                raise Unread(line)
            yield self.item(kept(part), {f"{named[3]}::"})
        elif named:
            # a case of an enum is named behind its type's name, or by an import that has that name
            kind = {"struct": "type", "enum": "type", "type": "alias", None: "macro"}.get(named[1], "")
            yield self.item(kept(part), {named[3]}, spreads=named[1] in ("const", "static", None), kind=kind)
        elif IMPL.match(line):
            yield from self.read_impl(part)
        else:
            yield self.item(kept(part))

    def wholes(self):
        """Yields each part of the file, and each function in a trait or an impl behind the head of that: its name, if it is a function, and its text."""
        for part in self.parts:
            line, at = "" if is_inner(part) else declared(part), opened(part)
            if IMPL.match(line) or re.match(MARKS + "(?:unsafe )?trait ", line):
                head, inside = part[:at], [*parts_of(part[at:-1])] if at < len(part) else []
            else:
                head, inside = [], [part]
            for it in inside:
                function = None if is_inner(it) else FUNCTION.match(declared(it))
                of_others = without_layout(kept([*head, *it[: opened(it)]]), True)
                yield function and function[1], f"{of_others}\n" + "\n".join(it[opened(it) :])

    def members(self, part):
        """Returns the head of a trait or an impl, its functions by their names, all else in it, and its imports."""
        at = opened(part)
        rest, functions, used = [], [], []
        for it in parts_of(part[at:-1]) if at < len(part) else []:
            function, found = FUNCTION.match(declared(it)), IMPORT.match(declared(it))
            if function:
                functions.append((function[1], kept(head_of(it))))
            elif found:
                used += import_items(self.crate, self.file, found)
            else:
                rest += it
        return kept(part[:at]), functions, kept(rest), used

    def read_trait(self, part, name):
        """Yields a trait as one item, with the heads of its functions, by whose names it is reached too. Which of its ghost members are laws, the place of its
        last function says."""
        head, functions, _, used = self.members(part)
        at, told = opened(part), [head]
        for it in parts_of(part[at:-1]) if at < len(part) else []:
            told.append(kept(head_of(it) if FUNCTION.match(declared(it)) else it))
        yield from used
        yield self.item("\n".join(told), {name}, calls={it for it, _ in functions}, kind="type")

    def is_of_tree(self, name):
        return name is not None and name in self.own and name not in self.foreign

    def read_impl(self, part):
        """Yields an impl: what it says beside its functions, and the head of each. It is reached by the names of its trait and of its type, as far as these are
        of the tree; for a trait of the library it is reached whole by its type."""
        head, functions, rest, used = self.members(part)
        parameters, trait, own = impl_of(head)
        of_type = {own} if self.is_of_tree(own) and own not in parameters else set()
        yield from used
        if trait is not None and not self.is_of_tree(trait):
            yield self.item("\n".join([head, rest, *(it for _, it in functions)]), conditions=of_type)
            return
        for name, it in functions:
            yield self.item(f"{head}\n{it}", calls={name}, conditions=of_type, spreads="const fn" in it)
        if trait or rest:
            yield self.item(f"{head}\n{rest}", conditions=of_type | ({trait} if trait else set()))


def impl_of(head):
    """Returns the parameters of an impl, the name of its trait, `` for one that is no plain name, None where it has none, and the name of its type, None for
    one that is no plain name of a type."""
    text = " ".join(re.sub(r"#\[.*?\]", "", head).split()).replace("->", "")
    text = re.sub(r"^(?:unsafe )?impl ?", "", text)
    parameters, depth, at = set(), 0, 0
    if text.startswith("<"):
        for at, it in enumerate(text, 1):
            depth += (it == "<") - (it == ">")
            if depth == 0:
                break
        parameters = {*RUST_WORD.findall(text[:at])} if depth == 0 else set()
        text = text[at:].strip()
    trait, own = None, text
    depth = 0
    for at, it in enumerate(text):
        depth += (it in "<([") - (it in ">)]")
        if depth == 0 and text.startswith(" for ", at):
            trait, own = text[:at], text[at + 5 :]
            break
    found = PATH.match(own.split(" where ")[0].split(" {")[0].strip())
    named = trait is not None and PATH.match(trait.strip())
    return parameters, None if trait is None else named[1] if named else "", found[1] if found else None


def definition_parts(lines):
    """Returns the parts of a block of definitions, each as its lines: each begins at a line that is not indented, and its clauses belong to its signature."""
    parts = []
    for line in lines:
        begins = any(it.match(line) for it in (IMPORT, MODULE, SIGNATURE, TYPE, BLOCK)) or line.startswith(("infix", "open "))
        if not line[0].isspace() and begins or not parts:
            parts.append([line])
        else:
            parts[-1].append(line)
    return parts


def definition_items(crate, file, lines, head=()):
    """Yields the items of a block of definitions, each behind the heads of the blocks around it and what these open."""
    if any("{-" in it for it in lines):
        raise Unread("a comment in brackets")
    parts = definition_parts(lines)
    for part in parts:
        if part[0].startswith("open "):
            head = (*head, *part)
            continue
        found = IMPORT.match(part[0])
        at = next((at for at, it in enumerate(part, 1) if it.endswith(" where")), 0) if BLOCK.match(part[0]) else 0
        if found and len(part) == 1:
            yield from import_items(crate, file, found)
        elif at and "mutual" not in part[0] and not any(SIGNATURE.match(it.strip()) for it in part[1:at]):
            depth = min(map(indent_of, part[at:]), default=0)
            yield from definition_items(crate, file, [it[depth:] for it in part[at:]], (*head, *part[:at]))
        else:
            told, names = "\n".join([*head, *part]), frozenset(names_of_definition(part))
            yield Item(crate, file, told, names, words_of(told), is_local=bool(names) and is_private(part[0]))


def is_private(line):
    """Returns whether a definition that begins so serves its own module and those below that. An operator's rank and a module's name serve all."""
    return (SIGNATURE.match(line) or TYPE.match(line)) is not None and "pub" not in line.partition(":")[0].split()


def names_of_definition(part):
    """Returns the names that a part of a block of definitions declares, a type's with its constructors; none where it is not known what it declares."""
    line, inside = part[0], part[1:]
    module, kind, signature = MODULE.match(line), TYPE.match(line), SIGNATURE.match(line)
    if module:
        return {module[1]}
    if kind and kind[1] == "data" and any("deriving" in it for it in part):
        return words_of("\n".join(part))
    if kind:
        return names_as_written(kind[2]).union(*(cases_in(it) for it in inside if kind[1] == "data"))
    if line.startswith("infix") and len(line.split()) == 3:
        return names_as_written(line.split()[2])
    names = names_as_written(signature[2]) if signature else set()
    return names if all(is_clause(it, names) for it in inside) else set()


def is_clause(line, names):
    """Returns whether a line below a signature of one of these names belongs to it: it goes on, closes a bracket, begins with the name, or has the operator."""
    if line[0].isspace() or line[0] in ")]}" or line.startswith("unfolding "):
        return True
    return line.split()[0] in names or len(names) > 1 and not names.isdisjoint(words_of(line))


def cases_in(line):
    """Returns the names before the colon of a line."""
    found = CASES.match(line)
    return {it for name in found[1].split() for it in names_as_written(name)} if found else set()


def items_of(crate, file, text, parents):
    """Returns the items of a file, or one that every body reaches where it cannot be read."""
    try:
        lines = without_comments(text, file.endswith(".rt"))
        found = RustFile(crate, file, text, parents).items if file.endswith(".rt") else definition_items(crate, file, lines)
        return sorted(found, key=lambda it: it.text if IMPORT.match(it.text) or PLAIN_MODULE.match(it.text) else "")  # their layout says nothing
    except Unread:
        whole = "\n".join(lines)
        return [Item(crate, file, whole, frozenset(), words_of(whole))]
