"""The own test of tests/wrong-bodies.py: that its judge, its sums and its ledger are as its page says."""
import os
import random
import re
import shutil
import tempfile

from rename import ROOT, TAKEN, Ambiguous, Taken

from . import ledger
from .judge import bodies_of, say
from .reach_test import wrong_sums
from .sums import Sums
from .trial import build_below, try_crate, try_over_holes

# The words of the verdict that each edit of tests/wrong-bodies/ has to end in.
VERDICTS = {
    "fails_it_adds_a_false_clause": "it edits no body, but a clause",
    "fails_it_asserts_what_is_false": "it has a `prove!` of its own",
    "fails_it_changes_nothing": "NOT REFUSED",
    "fails_it_compiles": "NOT REFUSED by the compiler",
    "fails_it_edits_a_clause": "it edits no body, but a clause",
    "fails_it_edits_a_definition": "is no file below src/",
    "fails_it_edits_a_hint": "it edits no body, but a clause",
    "fails_it_is_spelled_wrongly": "do not end in 'is private'",
    "fails_it_names_no_function": "it has no line 'fn:'",
    "fails_its_old_text_is_missing": "0 times, and not once",
    "fails_its_old_text_stands_twice": "times, and not once",
    "fails_no_function_has_its_name": "there_is_no_such_function",
    "fails_only_its_callee_is_wrong": "NOT REFUSED",
    "fails_the_compiler_has_other_words": "by other words than",
    "fails_the_refusal_is_not_the_first_line": "and is the first",
    "refused_by_its_loop_alone": "refused, but only since",
    "refused_by_its_shape_alone": "refused, but only since",
    "refused_by_the_compiler": "refused by the compiler: ",
    "refused_look_tells_the_other_way": "refused: ",
    "refused_the_callee": "refused: ",
    "refused_the_callee_of_a_right_caller": "refused: ",
    "refused_with_a_goal_of_its_own": "refused: ",
}
# Those of them that the first round has to judge, beside the others.
AT_ONCE = ("refused_by_its_shape_alone", "refused_the_callee", "refused_with_a_goal_of_its_own")
# Those that are weak: they turn nothing, and are refused by a stale name, or by a loop without a measure.
WEAK = ("refused_by_its_loop_alone", "refused_by_its_shape_alone")

# Edits of a copy of the tree: of a file the old text, of which `` stands for its end, and the new one, and which of two wrong bodies of shared_queue get
# another sum by it.
ONE, OTHER, BOTH = "queue_blocks_leaves_out_a_queue", "look_tells_the_other_way", "queue_blocks_leaves_out_a_queue look_tells_the_other_way"
SUMS = {
    "a comment": ("shared_queue/src/opening.rt", "/// Returns the locks of shared queues at boot", "/// Returns the locks at boot", ""),
    "a lemma of its own crate": ("shared_queue/proofs/Lib.antt", "pub mod OpeningLemmas", "mod OpeningLemmas", ""),
    "a proof below": ("layer_traits/proofs/Lib.antt", "pub mod Seen", "mod Seen", ""),
    "a body below": ("layer_traits/src/payloads.rt", "            value: Snapshot::of(value),", "            value: Snapshot::of(other),", ""),
    "the body of another function": ("shared_queue/src/opening.rt", "let mut number = 0u8;", "let mut number = 1u8;", ""),
    "its own body": ("shared_queue/src/opening.rt", "let kept = kept_homes(homes);", "let kept = homes;", ONE),
    "its own proof": ("shared_queue/proofs/opening/empty_queues/Answers.antt", "queues_more", "queues_other", ONE),
    "its contract": ("shared_queue/src/opening.rt", "more ≤ BUFFERS", "more < BUFFERS", ONE),
    "a trait that the other meets": ("layer_traits/src/layers.rt", "result ≡ is_inside self.now", "result ≡ true", OTHER),
    "a constant below": ("event_log/src/ids.rt", "THREADS: usize = 256", "THREADS: usize = 255", BOTH),
    "a function that is added below": ("event_log/src/ids.rt", "", "\npub fn new_one(t: Tid) -> bool\n    ensures { result ≡ true }\n{\n    true\n}\n", ""),
    "a definition that is added below": ("event_log/specs/Runs.antt", "", "\nabbrev pub new_one : ℕ → ℕ\nnew_one n = n\n", ""),
    "an impl for an added type": ("event_log/src/ids.rt", "", "\npub struct New;\n\nimpl Drop for New {\n    fn drop(self) {}\n}\n", ""),
}
# A rename in the copy: of all its sources a word, and the new one.
OLD, NEW = "empty_queues", "queues_at_boot"
SUM = "0123456789abcde"


def ended(body, name, words):
    """Returns whether an edit ended in these words, failed, weak or refused as its name says, and in the first round where it has to."""
    in_time = name not in AT_ONCE or (body.rounds == 1 and "it calls" in body.verdict) == (name == "refused_with_a_goal_of_its_own")
    return words in body.verdict and body.is_failure == name.startswith("fails_") and body.is_weak == (name in WEAK) and in_time


def lost_names(root):
    """Returns the edits that docs/spec/wrong-bodies.md names and that no crate has."""
    page = open(f"{root}/docs/spec/wrong-bodies.md", encoding="utf-8").read()
    return [it for it in re.findall(r"`(\w+/(?:wrong|must-fail)/\w+)`", page) if not os.path.isfile(f"{root}/crates/{it}.edit")]


def sums_are_right(lib, root, room):
    """Yields the edits of SUMS by which other sums change than they say, tried on a copy of the tree in this folder."""
    shutil.copy(f"{root}/crates.txt", room)
    shutil.copytree(f"{root}/crates", f"{room}/crates", ignore=shutil.ignore_patterns("out"))

    def sums(under="a logic and its rules", names=None):
        crate = next(it for it in lib.crates_below(room) if it.name == "shared_queue")
        told = Sums(lib, under, [crate], names).of(crate, bodies_of(crate, f"{crate.folder}/wrong"))
        return {name: told[f"shared_queue/{name}.edit"] for name in BOTH.split()}

    before = sums()
    for name, (file, old, new, wanted) in SUMS.items():
        path = f"{room}/crates/{file}"
        text = open(path, encoding="utf-8").read()
        with open(path, "w", encoding="utf-8") as it:
            it.write(text.replace(old, new, 1) if old else text + new)
        after = sums()
        if old not in text or {it for it in before if before[it] != after[it]} != set(wanted.split()):
            yield f"the sums after an edit of {name}"
        with open(path, "w", encoding="utf-8") as it:
            it.write(text)
    if {*before.values()} & {*sums("another rule").values()}:
        yield "the sums under other rules"
    yield from names_are_right(room, lambda line: sums(names=Taken(f"{open(f'{ROOT}/{TAKEN}', encoding='utf-8').read()}{line}")), before)


def names_are_right(room, sums, before):
    """Yields what does not hold of the sums by tests/names.txt and a further line, after a rename in this folder: the line keeps them, without it they change,
    and an old name that is left, or a line that takes two names to one, fails."""
    for folder, _, names in [*os.walk(f"{room}/crates", topdown=False)]:
        for path in (f"{folder}/{it}" for it in names if it.endswith((".rt", ".antt", ".edit"))):
            text = open(path, encoding="utf-8").read()
            with open(path, "w", encoding="utf-8") as it:
                it.write(re.sub(rf"\b{OLD}\b", NEW, text))
        if os.path.basename(folder) == OLD:
            os.rename(folder, f"{os.path.dirname(folder)}/{NEW}")
    if sums(f"{NEW} {OLD}\n") != before:
        yield "the sums after a rename that tests/names.txt has"
    if sums("")["queue_blocks_leaves_out_a_queue"] == before["queue_blocks_leaves_out_a_queue"]:
        yield "the sums after a rename that tests/names.txt has not"
    for line, why in ((f"queue_blocks {NEW}\n", f"{NEW} is an old name"), (f"{NEW} {OLD}\nother {OLD}\n", f"two lines for {OLD}")):
        try:
            sums(line)
            yield f"the line {line.strip()} of tests/names.txt, which takes two names to one"
        except Ambiguous as error:
            if why not in str(error):
                yield f"the reason why tests/names.txt is ambiguous: {error}"


def ledger_is_right(room):
    """Yields what does not hold of a ledger in this folder: it has what was refused, loses lines of no body, keeps those of other crates, and is read whole or
    not at all."""
    path, lines = f"{room}/refused.txt", f"a/gone.edit {SUM}1\na/kept.edit {SUM}2 weak\na/other.edit {SUM}3\nb/theirs.edit {SUM}4\n"
    with open(path, "w", encoding="utf-8") as it:
        it.write(lines)
    sums = {"a/kept.edit": f"{SUM}2", "a/new.edit": f"{SUM}5", "a/other.edit": f"{SUM}6"}
    ledger.write(path, sums, {"a/new.edit": "", "a/kept.edit": " weak"}, {"a"})
    if open(path, encoding="utf-8").read() != f"a/kept.edit {SUM}2 weak\na/new.edit {SUM}5\nb/theirs.edit {SUM}4\n":
        yield "the lines of a ledger"
    for odd in ("a/kept.edit", f"<<<<<<< HEAD\n{lines}", f"a/kept.edit {SUM}\n"):
        try:
            yield f"an unreadable ledger is read as {dict(ledger.lines_of(odd))}"
        except ledger.Unreadable:
            continue


def draws_are_right():
    """Yields what does not hold of what is drawn: bodies of one crate, one a function, each taken out once, and none of a crate that is too dear."""
    told = ["a/1.edit", "a/2.edit", "a/3.edit", "b/4.edit"]
    functions = {"a/1.edit": "f", "a/2.edit": "f", "a/3.edit": "g", "b/4.edit": "f"}
    names = ledger.draw(random.Random(0), left := [*told], set(), functions)
    if sorted([*names, *left]) != told or len({functions[it] for it in names}) != len(names) or len({it[0] for it in names}) != 1:
        yield "what is drawn of a ledger"
    dear = [f"{it}/1.edit" for it in ledger.RECKONED]
    if ledger.affordable([*dear, "a/1.edit"], 1) != ["a/1.edit"] or ledger.affordable(dear, max(ledger.RECKONED.values())) != dear:
        yield "what can be drawn in the minutes that are left"


def forged_line_is_found(lib, crate, root):
    """Returns whether of two bodies that a ledger has, and that are drawn, the one that is not refused fails, and the other is refused in one check."""
    wanted = {f"{crate.name}/fails_it_changes_nothing.edit": True, f"{crate.name}/refused_with_a_goal_of_its_own.edit": False}
    bodies = {it.name(): it for it in bodies_of(crate, f"{root}/tests/wrong-bodies") if it.name() in wanted}
    left, functions = [*bodies], {it: bodies[it].function for it in bodies}

    def draws(_):
        return ledger.draw(random.Random(0), left, set(), functions) if left else []

    tried = ledger.try_drawn(1, 9, draws, lambda names: try_over_holes(lib, crate, [bodies[it] for it in names], True))
    found = {it: bodies[it].is_failure for it in tried}
    return found == wanted and bodies[f"{crate.name}/refused_with_a_goal_of_its_own.edit"].rounds == 1


def run(lib, root):
    """Tries the edits of tests/wrong-bodies/, of which those that are named fails_* have to fail, each for its own reason, and the others to be refused.
    Each edit that docs/spec/wrong-bodies.md names has to be there. Sums and ledger have to be right, and a forged line has to be found."""
    crate = next(it for it in lib.crates_below(root) if it.name == "shared_queue")
    bodies = bodies_of(crate, f"{root}/tests/wrong-bodies")
    build_below(lib, [crate], True)
    try_crate(lib, crate, bodies, True)
    of = {os.path.basename(it.file).removesuffix(".edit"): it for it in bodies}
    right = [name for name, words in VERDICTS.items() if name in of and ended(of[name], name, words)]
    wrong = sorted((VERDICTS.keys() | of.keys()) - set(right)) + lost_names(root)
    with tempfile.TemporaryDirectory() as room:
        wrong += [*sums_are_right(lib, root, room), *wrong_sums(lib, f"{room}/reach"), *ledger_is_right(room), *draws_are_right()]
    wrong += [] if forged_line_is_found(lib, crate, root) else ["a forged line of the ledger"]
    say(f"wrong-bodies: its own test: {len(right)} ended as they must{''.join(f', {it} did not' for it in wrong)}")
    print(f"{len(right)} passed, {len(wrong)} failed")
    return 1 if wrong else 0
