#!/usr/bin/env python3
"""Holds each Markdown page and the comments of each crate to docs/STYLE.md: counts the turns of phrase that it replaces, and measures the lines.

    tools/prose.py                  every page of the tree and every crate; status 1 if one is above its limit
    tools/prose.py PAGE..           lists each turn in these pages, and what to write
    tools/prose.py --long PAGE..    lists each sentence of more than 25 words in these pages
    tools/prose.py --comments [CRATE..]   lists each turn in the comments of these crates; or counts those of every crate
    tools/prose.py --table          prints tools/prose.txt anew; no count in it rises

A page has at most 3 turns in a thousand words, and no line of more than 100 columns (a table's: 160). The target of a link
is not measured, nor is a line of one piece of code, since neither can be broken; no turn is counted in code.
The comments of a crate, whole lines that begin with `//` or `--` in its `.rt` and `.antt` files, have at most 5 turns in a thousand
words, and no line of more than 100 columns.
tools/prose.txt lists the exceptions, pages and crates. An `open` page is not yet rewritten: its lines have any length, and its turns stay at
most at its count. A `kept` page has that many turns for a reason. A turn is a place to look at: rewrite the sentence.
.ci/run calls it; it takes three seconds. The last line is 'prose: N passed, M failed', in pages and crates.
"""
import argparse
import re
import subprocess
import sys
from pathlib import Path

ROOT = Path(__file__).resolve().parent.parent
TABLE = ROOT / "tools/prose.txt"
TURNS_IN_A_THOUSAND, IN_COMMENTS = 3, 5
COLUMNS, TABLE_COLUMNS = 100, 160
WORDS_OF_A_SENTENCE = 25
# A clause begins here: at the head of a line, or after a stop, a colon or a semicolon.
BEGINS = r"(?:(?<=[.:;] )|(?<=^))"
# Each turn: its name, what it looks like, and what to write.
TURNS = [
    (name, re.compile(pattern), better)
    for name, pattern, better in [
        ("tell", r"\b(?:tells?|told|telling)\b", "report, return, print, state"),
        ("stand", r"\b(?:stands?|stood)\b", "is, is in, is listed, is queued"),
        ("behind", r"\bbehind\b", "after; (a lock) under"),
        ("beneath", r"\bbeneath\b", "below, underlying"),
        ("alone", r"\balone\b", "only"),
        ("nobody", r"\b(?:nobody|somebody|everybody|whoever|each who)\b", "no thread, some CPU, any caller"),
        ("who", BEGINS + r"[Ww]ho\b(?![^.]*\?)", "a thread that, a reader who"),
        ("look", r"\blooks?\b(?! (?:at|like|for)\b)", "poll, spin, check"),
        ("miss", r"\b(?:in vain|look(?:s)? that miss(?:es)?|looks? in a row)\b", "failed poll, consecutive polls"),
        ("come", r"\b(?:comes?|came)\b(?!,? first)", "occurs, is returned, arrives, follows"),
        ("go", r"\b(?:goes on|went on|go on|gets? on)\b", "continues, makes progress"),
        ("refuse", r"\brefus(?:es?|ed|al|als|ing)\b", "reject (input, proofs), fail (allocation)"),
        ("of its own", r"\bof (?:its|their|his|your) own\b", "its own, private, per-CPU"),
        ("so", BEGINS + r"So\b", "therefore, or the cause first"),
        ("some", r"\bsome (?:\d|two|three|thirty|millions)", "about"),
        ("by", r"\bby (?:the|its|a|their) (?:clock|law|type|types|steps|schedule|words|table|turns)\b", "according to, under"),
        ("hand over", r"\b(?:gives? (?:it |the \w+ )?on|hand(?:s|ed)? (?:it )?on|to and fro|forth and back)\b", "release, pass"),
        ("home", r"\b(?:at home|sent home|on its way home|sends? home)\b", "forwarded to its home CPU, in transit"),
        ("manners", r"\b(?:manners|coats?|wears?|seats? itself|sits? at)\b", "backoff, wrapper, nests, holds"),
        ("inversion", BEGINS + r"(?:Of|At|To|Into|From) [^,.;:]{2,40} (?:no|none|nobody|nothing) [\w`]+ [\w]+s\b", "verb last"),
    ]
]
FENCED = re.compile(r"^```.*?^```", re.M | re.S)
COMMENT = re.compile(r"\s*(?://[/!]?|--)(?:\s(?P<words>.*)|$)")
ROW = re.compile(r"(\d+) (open|kept) (\S+\.md|crates/\w+)")


def without_code(text):
    """Blanks code and the targets of links, and keeps every line where it is."""
    text = FENCED.sub(lambda found: "\n" * found[0].count("\n"), text)
    return re.sub(r"`[^`\n]*`", "x", re.sub(r"\]\([^)\n]*\)", "]", text))


def turns_of(text):
    """Yields the number of a line, the name of a turn in it, its words, and what to write."""
    for number, line in enumerate(without_code(text).splitlines(), 1):
        for name, pattern, better in TURNS:
            for found in pattern.finditer(line):
                yield number, name, found[0], better


def sentences_of(text):
    """Yields the first line and the words of each sentence outside of tables and headings."""
    began, words = 0, []
    for number, line in enumerate([*without_code(text).splitlines(), ""], 1):
        starts_anew = re.match(r"\s*(?:$|[|#>]|[-*] |\d+\. )", line)
        if starts_anew and words:
            yield began, words
            words = []
        for word in [] if re.match(r"\s*[|#]", line) else re.sub(r"^\s*(?:[-*] |\d+\. )", "", line).split():
            began = began if words else number
            words.append(word)
            if re.search(r"[.?!][)*_\"]*$", word):
                yield began, words
                words = []


def long_lines(text):
    """Yields the number and the columns of each line that is too long and has a space to break at."""
    text = FENCED.sub(lambda found: "\n" * found[0].count("\n"), text)
    for number, line in enumerate(re.sub(r"\]\([^)\n]*\)", "]", text).splitlines(), 1):
        is_row = line.lstrip().startswith("|")
        if len(line) > (TABLE_COLUMNS if is_row else COLUMNS) and " " in re.sub(r"`[^`]*`", "x", line).strip():
            yield number, len(line)


def comments_of(text):
    """Blanks all lines that are no comments, and keeps every line where it is."""
    found = (COMMENT.fullmatch(line) for line in text.splitlines())
    return "\n".join(it["words"] or "" if it else "" for it in found)


def long_comments(text):
    """Yields the number and the columns of each comment that is too long and has a space to break at."""
    for number, line in enumerate(text.splitlines(), 1):
        found = COMMENT.fullmatch(line)
        if found and len(line) > COLUMNS and " " in re.sub(r"`[^`]*`", "x", found["words"]).strip():
            yield number, len(line)


def files_like(*patterns):
    """Returns the paths of the tree's files like one of the patterns, from its root."""
    words = ["git", "ls-files", "-co", "--exclude-standard", *patterns]
    listed = subprocess.run(words, cwd=ROOT, stdout=subprocess.PIPE, text=True, check=True).stdout
    return [name for name in listed.splitlines() if (ROOT / name).is_file()]


def pages():
    """Returns the paths of the tree's Markdown pages, from its root."""
    return files_like("*.md")


def crates():
    """Returns by crate, as crates/NAME, the paths of its files with comments."""
    files = {}
    for name in files_like("crates/*.rt", "crates/*.antt"):
        files.setdefault("/".join(name.split("/")[:2]), []).append(name)
    return files


def crate_counts(files):
    """Returns how many turns and how many words the comments of these files have."""
    texts = [comments_of((ROOT / name).read_text()) for name in files]
    return sum(len(list(turns_of(text))) for text in texts), sum(len(without_code(text).split()) for text in texts)


def read_table(faults):
    """Returns by page and by crate its count and its state; adds to the faults each row that cannot be read."""
    rows = {}
    for number, line in enumerate(TABLE.read_text().splitlines(), 1):
        line = line.partition("#")[0].strip()
        found = ROW.fullmatch(line)
        if found:
            rows[found[3]] = int(found[1]), found[2]
        elif line:
            faults.append(f"tools/prose.txt:{number}: expected COUNT open NAME or COUNT kept NAME: {line}")
    return rows


def limit_of(text):
    """Returns how many turns a page of this text may have if no row lists it."""
    return max(1, len(without_code(text).split()) * TURNS_IN_A_THOUSAND // 1000)


def crate_limit(words):
    """Returns how many turns a crate with so many words in its comments may have if no row lists it."""
    return max(1, words * IN_COMMENTS // 1000)


def held(name, rows, faults):
    """Adds to the faults what is wrong with a page; returns whether nothing is."""
    text, before = (ROOT / name).read_text(), len(faults)
    count, (limit, state) = len(list(turns_of(text))), rows.get(name, (limit_of(text), "done"))
    if count > limit:
        faults.append(f"{name}: {count} turns, at most {limit} allowed; tools/prose.py {name} lists them")
    if state != "open":
        faults.extend(f"{name}:{number}: {columns} columns" for number, columns in long_lines(text))
    return len(faults) == before


def crate_held(name, files, rows, faults):
    """Adds to the faults what is wrong with the comments of a crate; returns whether nothing is."""
    before, (count, words) = len(faults), crate_counts(files)
    limit, state = rows.get(name, (crate_limit(words), "done"))
    if count > limit:
        faults.append(f"{name}: {count} turns in comments, at most {limit} allowed; tools/prose.py --comments {name} lists them")
    for file in [] if state == "open" else files:
        faults.extend(f"{file}:{number}: {columns} columns" for number, columns in long_comments((ROOT / file).read_text()))
    return len(faults) == before


def hold_all():
    """Holds all pages and crates, prints each fault and the sum; returns the exit status."""
    faults = []
    rows, listed, files = read_table(faults), pages(), crates()
    passed = sum(held(name, rows, faults) for name in listed) + sum(crate_held(name, files[name], rows, faults) for name in files)
    faults.extend(f"tools/prose.txt lists {name}, which is not in the tree" for name in rows if name not in {*listed, *files})
    for fault in faults:
        print("prose:", fault)
    print(f"prose: {passed} passed, {len(faults)} failed")
    return 1 if faults or not passed else 0


def print_table():
    """Prints the table with the counts of today where these are lower; a row that is not needed is left out."""
    rows, files = read_table([]), crates()
    print(*(line for line in TABLE.read_text().splitlines() if line.startswith("#")), "", sep="\n")
    for name in sorted(set(rows) & set(pages())):
        text = (ROOT / name).read_text()
        count, (limit, state) = len(list(turns_of(text))), rows[name]
        if count > limit_of(text) or (state == "open" and any(long_lines(text))):
            print(min(count, limit), state, name)
    print()
    for name in sorted(set(rows) & set(files)):
        (count, words), (limit, state) = crate_counts(files[name]), rows[name]
        if count > crate_limit(words) or (state == "open" and any(has_long_comments(file) for file in files[name])):
            print(min(count, limit), state, name)


def has_long_comments(file):
    return any(long_comments((ROOT / file).read_text()))


def list_turns(page, text):
    """Prints each turn and each long line of a page, and a line that sums them up."""
    turns, words = list(turns_of(text)), max(1, len(without_code(text).split()))
    print(*(f"{page}:{number}: {name}: '{said}': {better}\n" for number, name, said, better in turns), sep="", end="")
    print(*(f"{page}:{number}: {columns} columns\n" for number, columns in long_lines(text)), sep="", end="")
    in_a_thousand = 1000 * len(turns) / words
    print(f"{page}: {len(turns)} turns in {words} words, {in_a_thousand:.1f} in a thousand; at most {limit_of(text)} allowed")


def list_comments(name, files):
    """Prints each turn and each long line in the comments of a crate, and a line that sums them up."""
    for file in files:
        text = (ROOT / file).read_text()
        print(*(f"{file}:{number}: {kind}: '{said}': {better}\n" for number, kind, said, better in turns_of(comments_of(text))), sep="", end="")
        print(*(f"{file}:{number}: {columns} columns\n" for number, columns in long_comments(text)), sep="", end="")
    sum_up(name, files)


def sum_up(name, files):
    """Prints how many turns the comments of a crate have."""
    count, words = crate_counts(files)
    print(f"{name}: {count} turns in {words} words, {1000 * count / max(1, words):.1f} in a thousand; at most {crate_limit(words)} allowed")


def print_comments(read, given):
    """Lists the comments of these crates, or sums up those of all."""
    files = crates()
    for name in given:
        crate = f"crates/{Path(name).name}"
        if crate not in files:
            read.error(f"{name} is not a crate")
        list_comments(crate, files[crate])
    for crate in [] if given else files:
        sum_up(crate, files[crate])


def list_sentences(page, text):
    """Prints each sentence of a page that is too long."""
    for number, words in sentences_of(text):
        if len(words) > WORDS_OF_A_SENTENCE:
            print(f"{page}:{number}: {len(words)} words: {' '.join(words)}")


def main():
    read = argparse.ArgumentParser(description=__doc__, formatter_class=argparse.RawDescriptionHelpFormatter)
    read.add_argument("--long", action="store_true")
    read.add_argument("--table", action="store_true")
    read.add_argument("--comments", action="store_true")
    read.add_argument("pages", nargs="*", metavar="PAGE")
    given = read.parse_args()
    if given.comments:
        return print_comments(read, given.pages)
    for page in given.pages:
        if not Path(page).is_file():
            read.error(f"{page} is not a file")
        (list_sentences if given.long else list_turns)(page, Path(page).read_text())
    if given.table:
        print_table()
    return 0 if given.table or given.pages else hold_all()


if __name__ == "__main__":
    sys.exit(main())
