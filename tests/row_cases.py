"""The cases of tests/rows.sh: each plan and row behind both locks, and each row of tests/tables.

    tests/row_cases.py lay ROOM SHARES      writes them into the folders ROOM/0, ROOM/1, .. for `rt try --cases`
    tests/row_cases.py judge ROOM SHARES    reads what was said of them in ROOM/0.out, ROOM/0.err, .., and counts
"""
import re
import sys
from pathlib import Path

from tables import ROOT, Case, cases, fault_of

sys.path.insert(0, str(ROOT / "plans"))
from schedules import schedule_in  # noqa: E402

# How `rt try --cases` tells the output of a case, and how it ended.
OUTPUT = re.compile(r"^== c(\d+)\n", re.M)
ENDED = re.compile(r"^case=c(\d+) run=ended status=(\d+).*\n", re.M)


def run_of(plan, lock):
    """The run of a plan by the schedule in its first lines, behind a lock: what is wanted is its stored text."""
    text = plan.read_text()
    expected = (plan.parent / "expected" / f"{plan.stem}.txt").read_text()
    return Case(["run", "--schedule", schedule_in(text)], f"{lock}\n{text}".encode(), expected, lambda status, out, told: out + told)


def all_cases():
    """Each case, with its name."""
    for plan in sorted([*ROOT.glob("plans/*.toml"), *ROOT.glob("tests/rows/*.toml")]):
        for lock in ("", 'lock = "ticket"'):
            yield f"{plan.relative_to(ROOT)} with '{lock}'", run_of(plan, lock)
    yield from cases()


def lay(room, shares):
    """Writes the cases into as many folders as there are shares."""
    for number, (_, case) in enumerate(all_cases()):
        folder = room / str(number % shares)
        folder.mkdir(exist_ok=True)
        (folder / f"c{number}").write_bytes(case.text)
        (folder / f"c{number}.args").write_text("".join(f"{word}\n" for word in case.words))


def answers_in(out, err):
    """The status, the output and the errors of each case that ended, by its number."""
    _, *pieces = OUTPUT.split(out)
    outputs = dict(zip(pieces[::2], pieces[1::2]))
    told = ENDED.split(err)
    return {int(number): (int(status), outputs.get(number, ""), errors) for errors, number, status in zip(told[::3], told[1::3], told[2::3])}


def judge(room, shares):
    """Prints each case that went otherwise; tells whether none did."""
    answers, failed, count = {}, 0, 0
    for share in range(shares):
        out, err = ((room / f"{share}.{stream}").read_text(errors="replace") for stream in ("out", "err"))
        answers.update(answers_in(out, err))
    for number, (name, case) in enumerate(all_cases()):
        fault = fault_of(name, case, answers[number]) if number in answers else f"{name}\n  no answer came"
        count += 1
        if fault:
            failed += 1
            print(f"rows: {fault}")
    print(f"rows: {count - failed} passed, {failed} failed")
    return failed == 0


def main(words):
    if len(words) != 3 or words[0] not in ("lay", "judge"):
        print(__doc__)
        return 0 if words == ["--help"] else 2
    room, shares = Path(words[1]), int(words[2])
    if words[0] == "lay":
        lay(room, shares)
        return 0
    return 0 if judge(room, shares) else 1


if __name__ == "__main__":
    sys.exit(main(sys.argv[1:]))
