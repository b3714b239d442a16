#!/usr/bin/env python3
"""Runs .ci/run in a folder where each of its steps is a stub that takes a second or less, and checks its output: for steps that pass, fail, are killed, run in
parallel or one at a time, or have nothing to test, and for missing tools and programs. docs/GATE.md must list each script that .ci/run runs, and no other.
.ci/run calls it; it takes seconds. The last line is 'gate: N passed, M failed'.

    tests/gate.py
"""
import argparse
import os
import re
import shutil
import subprocess
import sys
import tempfile
from concurrent.futures import ProcessPoolExecutor
from pathlib import Path

ROOT = Path(__file__).resolve().parent.parent
CORES = min(2, len(os.sched_getaffinity(0)))
BUILDS = ("crates/mctower/out/mctower", "crates/mctower/out/mctower.by-rattle")
TOOLS = ("rt", "node", "rustc")
# A stub tells when it begins and ends, and ends as a file of its name says, if there is one: by a status, or by a signal that it sends itself.
STUB = """#!/usr/bin/env bash
name="${0#"$ROOM"/}${1:+ $*}"
echo "$name begins"; echo "+ $name" >> "$ROOM/events"
[ ! -f "$0.before" ] || . "$0.before"
sleep 0.1; cat
echo "$name ends"; echo "- $name" >> "$ROOM/events"
[ ! -f "$0.how" ] || . "$0.how"
"""
# What the stub of `rt ci` waits for before it ends.
UNTIL = "for _ in {1..300}; do grep -qxs -- 'LINE' \"$ROOM/FILE\" && break; sleep 0.1; done"
# What the stub of a prover takes: as long as a check that gate-minutes.py sees.
PROVER = "timeout 2.5 bash -c 'exec -a /kit/rattle bash -c \"while :; do :; done\" --crate-name NAME'"
# It proves one crate of three, which leaves two: the early scripts begin. Then it proves the second, and what needs all libraries may begin.
RT = """#!/usr/bin/env bash
echo "rt $* begins"; echo "+ rt" >> "$ROOM/events"
[ ! -f "$0.before" ] || . "$0.before"
printf 'rt: %s proved\n' first second
[ ! -f "$0.how" ] || . "$0.how"
echo "- rt" >> "$ROOM/events"
echo '5 passed, 0 failed'
"""
MEMORY, LITTLE = "MemAvailable:   16000000 kB\n", "MemAvailable: 7000000 kB\n"
CRATES = "# Three crates.\nfirst:\nsecond: first\nmctower: second\n"
BODIES = """#!/usr/bin/env bash
if [ "$1" = --self-test ]; then echo '2 passed, 0 failed'; exit; fi
case "$*" in '--after-ci --minutes '[0-9]*) ;; *) echo "wrong bodies of $*"; exit 1 ;; esac
if grep -qx -- '- rt' "$ROOM/events"; then echo "$* late" >> "$ROOM/bodies"; else echo "$* early" >> "$ROOM/bodies"; fi
[ ! -f "$0.how" ] || . "$0.how"
echo "$* of wrong bodies"; echo '30 passed, 0 failed'
"""


class Rows:
    """Counts what held of the outcome of a run, and tells what did not."""

    def __init__(self):
        self.passed, self.failed = 0, 0

    def is_so(self, name, holds, shown=""):
        if holds:
            self.passed += 1
        else:
            self.failed += 1
            print(f"gate: not so: {name}\n{shown}")


def written(path, text):
    path.parent.mkdir(parents=True, exist_ok=True)
    path.write_text(text)
    path.chmod(0o755)


def made(room):
    """Puts the gate into a folder with a stub for each of its steps; returns the scripts that may run early, those that run beside others, and those that run
    alone."""
    for name in (".ci/run", "tools/gate.py", "tools/gate-minutes.py"):
        written(room / name, (ROOT / name).read_text())
    names = subprocess.run(["bash", room / ".ci/run", "--list"], stdout=subprocess.PIPE, text=True, check=True).stdout.splitlines()
    early, alone = ([it.removeprefix(kind) for it in names if it.startswith(kind)] for kind in ("early ", "alone "))
    beside = [it for it in names if " " not in it]
    for name in [*early, *beside, *alone]:
        written(room / name.split()[0], STUB)
    (room / "crates.txt").write_text(CRATES)
    (room / "meminfo").write_text(MEMORY)
    written(room / "bin/rt", RT)
    for name in ("node", "rustc"):
        written(room / "bin" / name, "#!/bin/sh\n")
    for name in BUILDS:
        written(room / name, "#!/bin/sh\n")
    written(room / "tests/wrong-bodies.py", BODIES)
    return early, beside, alone


def outcome(room, how, path=None):
    """Runs the gate on few cores with no input, where the steps named end as `how` says; returns its status and lines, and what its scripts told of when. It
    finds its tools along `path`, if one is given, and has no home."""
    for old in [*room.glob("*/*.how"), *room.glob("*/*.before"), room / "events", room / "bodies"]:
        old.unlink(missing_ok=True)
    for name, text in how.items():
        (room / (name if name.endswith(".before") else f"{name.split()[0]}.how")).write_text(text)
    few = sorted(os.sched_getaffinity(0))[:CORES]
    seen = {**os.environ, "CI": "true", "ROOM": str(room), "MEMINFO": f"{room}/meminfo", "HOME": str(room), "PATH": path or f"{room}/bin:{os.environ['PATH']}"}
    ran = subprocess.run([shutil.which("bash"), room / ".ci/run"], cwd="/", env=seen, stdin=subprocess.DEVNULL, stdout=subprocess.PIPE,
                         stderr=subprocess.DEVNULL, text=True, preexec_fn=lambda: os.sched_setaffinity(0, few))
    events = (room / "events").read_text().splitlines() if (room / "events").exists() else []
    return ran.returncode, ran.stdout.splitlines(), events


def most_at_once(events, names):
    """Returns how many of these scripts ran at once at most, and how many of all ran beside one of them."""
    running, most, others = set(), 0, 0
    for sign, name in (it.split(" ", 1) for it in events):
        running = running | {name} if sign == "+" else running - {name}
        if running & set(names):
            most, others = max(most, len(running & set(names))), max(others, len(running - set(names)))
    return most, others


def is_within(events, names):
    """Whether all of these scripts began and ended while `rt ci` ran."""
    of_it = events[events.index("+ rt") : events.index("- rt")]
    return all(f"{sign} {it}" in of_it for sign in "+-" for it in names)


def until(line, file="events"):
    """Returns what waits until a file of the room has a line."""
    return UNTIL.replace("LINE", line).replace("FILE", file)


def in_one_piece(lines, names):
    """Whether the two lines of each script stand together."""
    return all(f"{it} begins" in lines and lines[lines.index(f"{it} begins") + 1] == f"{it} ends" for it in names)


def all_pass(rows, room, early, beside, alone):
    other = subprocess.Popen(["bash", "-c", PROVER.replace("NAME", "outside")])
    status, lines, events = outcome(room, {"bin/rt": f"{PROVER.replace('NAME', 'inside')}\n{until(f'- {early[-1]}')}"})
    other.wait()
    shown, every = "\n".join(lines), [*early, *beside, *alone]
    rows.is_so("a run in which all passes ends with status 0", status == 0, shown)
    rows.is_so("the last line adds up what rt ci and wrong bodies counted", lines[-1] == "37 passed, 0 failed", shown)
    rows.is_so("each script's output stands in one piece", in_one_piece(lines, every), shown)
    rows.is_so("each script tells what it took, twice", all(sum(it.startswith(f"gate: {name} took") for it in lines) == 2 for name in every), shown)
    rows.is_so("early scripts run one at a time next to rt ci", most_at_once(events, early) == (1, 1) and is_within(events, early), "\n".join(events))
    rows.is_so("scripts run side by side, as many as there are cores", most_at_once(events, beside) == (CORES, 0), "\n".join(events))
    rows.is_so("and those that run alone run alone", most_at_once(events, alone) == (1, 0), "\n".join(events))
    minutes = [it for it in lines if it.startswith("| `")]
    own = len(minutes) == 1 and minutes[0].startswith("| `inside` | 0 | 0 | 0 | 0.0 ")
    rows.is_so("the minutes are of the run's own prover, and of no other's", own, shown)


def none_is_early(rows, room, early, beside, alone):
    """An early script that did not begin before `rt ci` ended runs with the others."""
    held = {f"{it.split()[0]}.before": until("- rt") for it in early}
    status, lines, events = outcome(room, {**held, "bin/rt": until(r"+ [^r].*")})
    of_it, late = set(events[: events.index("- rt")]), events[events.index("- rt") :]
    is_so = status == 0 and len(of_it) == 2 and all(f"+ {it}" in of_it or f"+ {it}" in late for it in early) and all(f"+ {it}" in late for it in beside)
    rows.is_so("early scripts that rt ci left no time for run after it", is_so, "\n".join(events))
    (room / "meminfo").write_text(LITTLE)
    status, lines, events = outcome(room, {"bin/rt": "sleep 2"})
    (room / "meminfo").write_text(MEMORY)
    of_it = events[events.index("+ rt") : events.index("- rt")]
    rows.is_so("where memory is short nothing runs next to rt ci, and all after it", status == 0 and of_it == ["+ rt"], "\n".join(events))
    status, lines, events = outcome(room, {early[0]: "exit 3"})
    is_one = lines[-2:] == [f"gate: failed: {early[0]}", "37 passed, 1 failed"]
    rows.is_so("an early script that fails is one failure", status == 1 and is_one, "\n".join(lines))


def a_lane_is_free(rows, room, early, beside, alone):
    """The lane of an early script that ends after `rt ci` runs others then."""
    last = early[-1]
    how = {"bin/rt": until(f"+ {last}"), f"{last}.before": until(f"+ {beside[0]}"), f"{beside[0]}.before": until(f"- {beside[1]}")}
    status, lines, events = outcome(room, how)
    of_it = events[events.index(f"- {last}") : events.index(f"- {beside[0]}")]
    rows.is_so("a lane runs others when its early script has ended", status == 0 and (CORES == 1 or f"- {beside[1]}" in of_it), "\n".join(events))


def bodies_are_drawn(rows, room, early, beside, alone):
    """Mutants are tried once: beside the last proof, or after all else where memory is short."""
    for memory, when in ((MEMORY, "early"), (MEMORY.replace("16", "10"), "late")):
        (room / "meminfo").write_text(memory)
        status, lines, events = outcome(room, {"bin/rt": until(f"- {early[-1]}")})
        calls = (room / "bodies").read_text().splitlines()
        is_so = status == 0 and calls == [f"--after-ci --minutes 16 {when}"] and is_within(events, early)
        rows.is_so(f"mutants are tried once: {when}", is_so, "\n".join([*calls, *events]))
    (room / "meminfo").write_text(MEMORY)


def some_fail(rows, room, early, beside, alone):
    status, lines, _ = outcome(room, {beside[0]: "exit 3", beside[-1]: "kill -9 $$", alone[0]: "kill -15 $$"})
    shown = "\n".join(lines)
    rows.is_so("three scripts that fail are three failures", status == 1 and lines[-1] == "37 passed, 3 failed", shown)
    rows.is_so("one that fails is named with its status", any(it.startswith(f"gate: {beside[0]} FAILED with status 3") for it in lines), shown)
    rows.is_so("one that is killed is named with the signal", any(it.startswith(f"gate: {beside[-1]} FAILED, killed by SIGKILL") for it in lines), shown)
    rows.is_so("and so is one that runs alone", any(it.startswith(f"gate: {alone[0]} FAILED, killed by SIGTERM") for it in lines), shown)
    named = lines[-2].removeprefix("gate: failed: ").split(", ")
    rows.is_so("the failed are named together at the end", sorted(named) == sorted([beside[0], beside[-1], alone[0]]), shown)


def a_count_fails(rows, room, early, beside, alone):
    (room / "meminfo").write_text(LITTLE)
    for name, how, last in (("rt ci that fails", "echo '4 passed, 1 failed'; exit 1", "4 passed, 1 failed"),
                            ("rt ci that is killed", "kill -9 $$", "0 passed, 1 failed"),
                            ("rt ci that says good and ends with a status", "echo '5 passed, 0 failed'; exit 2", "5 passed, 1 failed")):
        for at in ("before", "how"):
            status, lines, events = outcome(room, {"bin/rt" if at == "how" else "bin/rt.before": how})
            ran = {it[2:] for it in events} - {"rt"}
            is_so = status == 1 and lines[-1] == last and "gate: failed: rt ci" in lines and not ran
            rows.is_so(f"after {name} nothing runs", is_so, "\n".join(lines))
    (room / "meminfo").write_text(MEMORY)
    bodies = "tests/wrong-bodies.py"
    for name, how, last in (("wrong bodies that are killed", "kill -9 $$", "7 passed, 1 failed"),
                            ("wrong bodies of which some fail", "echo '28 passed, 2 failed'; exit 1", "35 passed, 2 failed"),
                            ("wrong bodies that end without a sum", "echo nothing; exit 0", "7 passed, 1 failed")):
        status, lines, _ = outcome(room, {bodies: how})
        rows.is_so(name, status == 1 and lines[-1] == last and lines[-2] == f"gate: failed: {bodies}", "\n".join(lines))


def some_look_at_nothing(rows, room, early, beside, alone):
    """Of those that may: one says why, one says nothing. Another one that ends so has failed."""
    status, lines, _ = outcome(room, {"metal/test.py": "echo 'metal: no QEMU'; exit 77", "web/in_browser.py": "exit 77"})
    shown = "\n".join(lines)
    told = ["gate: left out: web/in_browser.py (web/in_browser.py ends)", "gate: left out: metal/test.py (metal: no QEMU)", "37 passed, 0 failed"]
    rows.is_so("scripts that look at nothing are told in the last lines, and have not failed", status == 0 and lines[-3:] == told, shown)
    status, lines, _ = outcome(room, {beside[0]: "exit 77"})
    is_failure = lines[-2:] == [f"gate: failed: {beside[0]}", "37 passed, 1 failed"]
    rows.is_so("one that has to look at something has failed", status == 1 and is_failure, "\n".join(lines))


def a_program_is_missing(rows, room, early, beside, alone):
    for build in BUILDS:
        (room / build).rename(room / "elsewhere")
        status, lines, _ = outcome(room, {})
        (room / "elsewhere").rename(room / build)
        rows.is_so(f"without {build} the gate fails", status == 1 and lines[-2:] == [f"gate: failed: {build}", "37 passed, 1 failed"], "\n".join(lines))


def a_tool_is_missing(rows, room, early, beside, alone):
    """A folder of tools has what .ci/run and tools/gate.py are run by, and all that scripts ask for but one."""
    for missing in (*TOOLS, "python3"):
        tools = room / f"without-{missing}"
        tools.mkdir()
        for name in ("bash", "env", "dirname", "python3"):
            (tools / name).symlink_to(sys.executable if name == "python3" else shutil.which(name))
        for name in TOOLS:
            (tools / name).symlink_to(room / "bin" / name)
        (tools / missing).unlink()
        status, lines, events = outcome(room, {}, str(tools))
        told = [f"gate: nothing was run: there is no {missing} here", f"gate: failed: {missing}", "0 passed, 1 failed"]
        rows.is_so(f"without {missing} nothing is run, and that is told", status == 1 and lines == told and not events, "\n".join(lines))


def none_is_lost(rows, *kinds):
    """Nothing else misses a script that falls out of the lists of tools/gate.py."""
    page = (ROOT / "docs/GATE.md").read_text()
    told = page[page.index("- **Early scripts") : page.index("- **`tests/wrong-bodies.py`**")]
    named = set(re.findall(r"`((?:tests|tools|web|metal|explore|embed)/[\w.-]+\.(?:py|sh|mjs))`", told))
    listed = {it.split()[0] for kind in kinds for it in kind}
    rows.is_so("docs/GATE.md names the scripts that the gate runs", named == listed, f"{sorted(named ^ listed)}")


LOOKS = (all_pass, none_is_early, a_lane_is_free, bodies_are_drawn, some_fail, a_count_fails, some_look_at_nothing, a_program_is_missing, a_tool_is_missing)


def looked(look):
    """Looks at the gate in a room of its own; returns how many rows passed and failed."""
    rows = Rows()
    with tempfile.TemporaryDirectory() as name:
        room = Path(name).resolve()
        look(rows, room, *made(room))
    return rows.passed, rows.failed


def main():
    argparse.ArgumentParser(description=__doc__, formatter_class=argparse.RawDescriptionHelpFormatter).parse_args()
    rows = Rows()
    with tempfile.TemporaryDirectory() as name, ProcessPoolExecutor(len(LOOKS)) as pool:
        none_is_lost(rows, *made(Path(name).resolve()))
        for passed, failed in pool.map(looked, LOOKS):
            rows.passed, rows.failed = rows.passed + passed, rows.failed + failed
    print(f"gate: {rows.passed} passed, {rows.failed} failed")
    return 1 if rows.failed else 0


if __name__ == "__main__":
    sys.exit(main())
