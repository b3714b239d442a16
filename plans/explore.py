#!/usr/bin/env python3
"""Makes a page of a run of a plan, to step through forwards and backwards; or a page of all its states, in which the reader chooses the CPU of each step.

    plans/explore.py PLAN [SCHEDULE] > run.html     a run; the default schedule is the one in the first lines of the plan
    plans/explore.py PLAN --find WHAT > run.html    a shortest run to a state
    plans/explore.py PLAN --all > all.html          every state that some schedule reaches

A page is one file: a reader of it needs no network, no server and no Python. The states are those of plans/kernel.py, which is not proved. If the proved
program is built, it must print the same after each prefix of the run, or in each state under a shortest schedule; otherwise there is no page, and the status is
1. MCTOWER names that program. With --wrong the kernel makes a mistake, and the page shows the first step after which the proved program prints another text.
"""
import argparse
import base64
import hashlib
import json
import re
import sys
from pathlib import Path

import limits
from asking import GRAMMAR, asked_for
from kernel import WRONG, Kernel, run_alone
from laws import order_of
from reading import Refusal, bytes_at
from record import cells, changes, compared, frame, place_style, program_is_there, record
from schedules import chosen, read_run, schedule_of, steps_of
from states import MOST_STATES, States, compare, endings, none_of, report

HERE = Path(__file__).resolve().parent
MOST_STEPS = 20_000
MARK = re.compile(r"/\*(STYLE|RUN|SCRIPT)\*/|POLICY")


# --- what is in a page --------------------------------------------------------------------------------------------------------------


def run_of(name, text, plan, steps, wrong=None, note=None):
    """The record of a run as a page reads it, held beside the proved program after each step."""
    told, printed = record(plan, steps, wrong)
    is_there = program_is_there()
    differs = compared(plan, text, steps, printed, wrong) if is_there else None
    return {"plan": name, "source": text, "checked": is_there, "differs": differs, "note": note, "graph": None, **told}


def moves_of(states):
    """The moves between all states: each different move once, as a page's step; and of each state, for each CPU, the next state and the move to it."""
    pieces, records, edges = states.pieces, {}, []
    for state in states.number:
        pieces.load(state)
        before, earlier, row = cells(pieces.system), order_of(pieces.system), []
        for c in pieces.cpus:
            pieces.load(state)
            target, move = move_from(states, c, before, earlier)
            row += [target, records.setdefault(move, len(records)) if move else -1]
        edges.append(row)
    return [json.loads(move) for move in records], edges


def move_from(states, c, before, earlier):
    """The state behind a CPU's step from the loaded one, with the step as a text; -1 and None where it changes nothing."""
    pieces = states.pieces
    state = pieces.after(c)
    if state is None:
        return -1, None
    entry = list(pieces.system.entry) if pieces.system.entry else None
    return states.number[state], json.dumps([c, *pieces.did, entry, changes(before, cells(pieces.system, earlier, c))], separators=(",", ":"))


def all_of(name, text, plan, steps, most, wrong=None):
    """All states of a plan as a page reads them, each held beside the proved program."""
    states = States(plan, wrong)
    states.look(most=most)
    if not states.all:
        raise ValueError(f"{name} has more than {most} states: look at a run of it, or ask plans/states.py")
    is_compared = program_is_there() and not wrong
    if is_compared:
        compare(text, states)
    records, edges = moves_of(states)
    broken = [[f"BROKEN: {law}: {why}", schedule] for law, schedule, why in states.breaches()]
    ends = broken + [[f"quiet: {words}", states.schedule_to(number)] for words, number in endings(states).items()]
    told = frame(plan, Kernel(plan, wrong)) | {"wrong": wrong, "mistake": WRONG.get(wrong), "schedule": schedule_of(steps), "steps": []}
    graph = {"records": records, "edges": edges, "depth": states.depth, "ends": ends}
    return {"plan": name, "source": text, "checked": is_compared, "differs": None, "note": "\n".join(report(name, states)), "graph": graph, **told}


def found_run(name, text, plan, what, most, wrong=None):
    """The run by a shortest schedule to a state that is asked for."""
    states = States(plan, wrong)
    number = states.look(most=most, wanted=asked_for(what, plan), has_laws=False)
    if number is None:
        raise ValueError(f"{what}: {none_of(states)}")
    steps = states.calm_steps_to(number)
    return run_of(name, text, plan, steps, wrong, f"A shortest way to: {what} ({len(steps)} steps; {len(states)} states were looked at).")


# --- the page -----------------------------------------------------------------------------------------------------------------------


def packed(text):
    """A script or a style sheet without its comments and what stands in front of its lines."""
    lines = [line.strip() for line in text.splitlines()]
    return "\n".join(line for line in lines if line and not line.startswith(("// ", "/* ")))


def allowed(text):
    """A text of the page as its policy names it: what is not named is neither run nor applied."""
    return f"'sha256-{base64.b64encode(hashlib.sha256(text.encode()).digest()).decode()}'"


def page(run):
    """The page with a run in it: one file. A text that looks like markup is a text."""
    script = packed(limits.script() + "".join((HERE / name).read_text(encoding="utf-8") for name in ("look.js", "explore.js")))
    style = packed((HERE / "look.css").read_text(encoding="utf-8") + place_style())
    pieces = {"/*STYLE*/": style, "/*SCRIPT*/": script, "/*RUN*/": json.dumps(run, separators=(",", ":")).replace("<", "\\u003c"),
              "POLICY": f"default-src 'none'; style-src {allowed(style)}; script-src {allowed(script)}"}
    return MARK.sub(lambda mark: pieces[mark.group()], (HERE / "explore.html").read_text(encoding="utf-8"))


def shown(asked):
    """What is to be shown, as a page reads it."""
    raw = bytes_at(asked.plan)
    schedule = chosen(raw, asked.schedule)
    plan, _ = read_run(raw, schedule)
    name, text, steps = asked.plan.name, raw.decode("utf-8"), steps_of(schedule or "")
    if asked.find is not None:
        return found_run(name, text, plan, asked.find, asked.most, asked.wrong)
    if len(steps) > MOST_STEPS:
        raise ValueError(f"a page has room for {MOST_STEPS} steps: the schedule has {len(steps)}")
    if asked.all:
        return all_of(name, text, plan, steps, asked.most, asked.wrong)
    return run_of(name, text, plan, steps, asked.wrong)


def main():
    parser = argparse.ArgumentParser(description=__doc__, epilog=f"WHAT is {GRAMMAR}", formatter_class=argparse.RawDescriptionHelpFormatter)
    parser.add_argument("plan", type=Path)
    parser.add_argument("schedule", nargs="?")
    parser.add_argument("--wrong", choices=WRONG, metavar="MISTAKE", help="run the kernel that makes this mistake; plans/kernel.py --help lists them")
    parser.add_argument("--find", metavar="WHAT", help="show a shortest run to such a state")
    parser.add_argument("--all", action="store_true", help="show every state")
    parser.add_argument("--most", type=int, default=MOST_STATES, metavar="K", help=f"stop after K states (default: {MOST_STATES})")
    parser.add_argument("--record", action="store_true", help="print the data of the page, as JSON, instead of the page")
    asked = parser.parse_args()
    if not asked.plan.exists():
        parser.exit(2, f"explore: no such file: {asked.plan}; expected a plan, for example plans/one-send.toml\n")
    try:
        run = shown(asked)
    except Refusal as refusal:
        sys.stderr.write(refusal.told(asked.plan))
        return refusal.status
    except (OSError, ValueError, RuntimeError) as fault:
        sys.exit(f"explore: {fault}")
    sys.stdout.write(json.dumps(run, separators=(",", ":")) + "\n" if asked.record else page(run))
    return 0


if __name__ == "__main__":
    run_alone()
    sys.exit(main())
