#!/usr/bin/env python3
"""Prints what plans/states.py finds in the kernels of the lessons and in some more, for web/test.mjs: a line of JSON for each.

    web/searches.py

A line has the plan, the mistake, and what is found in three ways: by steps, by whole sections, and by whole sections without history. Of the first two it tells
how many states there are (or were looked at, up to a limit), the moves between them, the distance of the farthest, and each law that is broken with a shortest
schedule and why; of each a shortest schedule to a deadlock with the states that were looked at, and whether these are all. A mistake of a lock has the first
way alone.
"""
import json
import sys
from pathlib import Path

ROOT = Path(__file__).resolve().parent.parent
sys.path.append(str(ROOT / "plans"))
from asking import asked_for  # noqa: E402
from kernel import WRONG  # noqa: E402
from record import plan_of  # noqa: E402
from states import States  # noqa: E402

WHOLE = ("woken-from-afar", "two-senders", "receives-twice", "handed-over", "first-come")  # plans whose states are few, in the proved kernel
SMALL = "plans/woken-from-afar"  # in which each mistake is looked for
ROWS = (("tests/rows/words", "first-word-alone"), ("tests/rows/closed-with-an-item", "closed-before-empty"))  # what no lesson's run breaks
MOST = 20_000
ENDLESS = "two loops"  # a plan whose runs have no end
LOOPS = """cpus = 2
trace = 4
buffers = [1]
[[thread]]
cpu = 0
program = ["set r0 7", "send 0 r0", "jnz r0 1"]
[[thread]]
cpu = 1
program = ["set r1 1", "recv 0 r0", "jnz r1 1"]
"""


def kernels():
    """The plans and the mistakes that are looked at."""
    lessons = json.loads((ROOT / "web/page/lessons.json").read_text(encoding="utf-8"))
    chosen = [(f"plans/{plan}", None) for plan in WHOLE] + [(SMALL, mistake) for mistake in WRONG] + [*ROWS]
    lost = [(ENDLESS, mistake) for mistake in (None, "wait-frees-first", "other-side-only")]
    return dict.fromkeys(chosen + lost + [(f"plans/{lesson['plan']}", lesson["wrong"]) for lesson in lessons])


def laws_of(plan, wrong, by_sections):
    """What a search with history finds of the laws."""
    states = States(plan, wrong, by_sections)
    states.look(most=MOST)
    return {"count": len(states), "moves": states.moves, "depth": states.depth, "isAll": states.all, "broken": states.breaches()}


def deadlock_of(plan, wrong, by_sections, is_endless):
    """A shortest schedule to a deadlock, how many states were looked at, and whether these are all."""
    states = States(plan, wrong, by_sections, is_endless)
    number = states.look(most=MOST, wanted=asked_for("deadlock", plan), has_laws=False)
    return [None if number is None else states.schedule_to(number), len(states), states.all]


def searched(name, text, wrong):
    """What searches of a plan's states find."""
    plan = plan_of(text.encode())
    ways = {"steps": {**laws_of(plan, wrong, False), "deadlock": deadlock_of(plan, wrong, False, False)}} if name != ENDLESS else {}
    if wrong != "look-always-hits":
        ways |= {"sections": {**laws_of(plan, wrong, True), "deadlock": deadlock_of(plan, wrong, True, False)}} if name != ENDLESS else {}
        ways |= {"endless": {"deadlock": deadlock_of(plan, wrong, True, True)}}
    return {"plan": name, "text": text, "wrong": wrong, "most": MOST, "ways": ways}


def main():
    if sys.argv[1:] == ["--help"]:
        print(__doc__)
        return
    for name, wrong in kernels():
        text = LOOPS if name == ENDLESS else (ROOT / f"{name}.toml").read_text(encoding="utf-8")
        print(json.dumps(searched(name, text, wrong), separators=(",", ":")))


if __name__ == "__main__":
    main()
