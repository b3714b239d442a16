"""A run of a plan as a record that pages and pictures are drawn from, and the proved program beside it.

A record has the cells of the state before the first step, each with its name, and of each step what it did and which cells it changed. States come from
plans/kernel.py, which is not proved. Where the proved program is built it runs each beginning of the schedule, and all that it prints has to be what
kernel.py prints. MCTOWER names the program.
"""
import os
import subprocess
from concurrent.futures import ThreadPoolExecutor
from pathlib import Path

from kernel import RECEIVERS, SENDERS, WRONG, Kernel, spelled
from laws import LAWS, faults_in, is_quiet, order_of
from reading import bytes_at
from reading import read_plan as plan_of
from schedules import schedule_of

PROGRAM = os.environ.get("MCTOWER", str(Path(__file__).resolve().parent.parent / "crates/mctower/out/mctower"))
WORKERS = 4

# Each place of a thread: its letter, its colour, the colour of a text on it, and what it means; N stands for the number in the place.
PLACES = {
    "Running": ("R", "#077b49", "#ffffff", "running"),
    "Ready": ("r", "#dcefec", "#111111", "ready"),
    "Pending": ("p", "#fed01b", "#111111", "pending at its home"),
    "Hand": ("h", "#de9a29", "#111111", "in the hand of CPU N"),
    "LockSleeper": ("L", "#ed5bc5", "#111111", "asleep for buffer N"),
    "WaitRecv": ("G", "#6bc4ff", "#111111", "waits to receive from buffer N"),
    "WaitSend": ("S", "#a13500", "#ffffff", "waits to send to buffer N"),
    "Ended": ("E", "#8f8089", "#111111", "ended"),
}


def placed(place):
    """The name and the number of a place such as `WaitRecv(0)`, and what it means in words."""
    name, _, number = place.rstrip(")").partition("(")
    return name, number, PLACES[name][3].replace("N", number)


def place_style():
    """The colours of the places as rules of a style sheet: a class for each."""
    return "\n".join(f".{name} {{ background: {colour}; fill: {colour}; color: {ink}; }} .on{name} {{ fill: {ink}; }}"
                     for name, (_, colour, ink, _) in PLACES.items())


def read_plan(path):
    """The text of a plan's file, and the plan. What `mctower` refuses is a Refusal."""
    raw = bytes_at(path)
    return raw.decode("utf-8"), plan_of(raw)


# --- a state as named cells ---------------------------------------------------------------------------------------------------------


def cpu_cells(system, c):
    """The cells of a CPU; whether it rests between sections, waits for its turn at a lock, or is inside."""
    cpu, section = system.cpus[c], system.cpus[c].section
    ended = [t for t, guest in enumerate(system.guests) if guest.home == c and guest.place == "Ended"]
    doing = "rests" if section is None else "waits" if cpu.block is None else "inside"
    return {f"c{c}.state": system.halted(c) or "live", f"c{c}.current": cpu.current, f"c{c}.hand": cpu.hand, f"c{c}.ready": list(cpu.ready),
            f"c{c}.pending": list(system.blocks["pending", c]), f"c{c}.ended": ended, f"c{c}.section": section and section[0],
            f"c{c}.lock": section and f"{section[1][0]}{section[1][1]}", f"c{c}.doing": doing}


def thread_cells(system, t):
    """The cells of a thread. Registers are texts, since a page's numbers are exact to 2^53 alone."""
    guest = system.guests[t]
    return {f"t{t}.place": guest.place, f"t{t}.line": guest.line, f"t{t}.registers": [str(value) for value in guest.registers], f"t{t}.stage": guest.stage}


def buffer_cells(system, b):
    """The cells of a buffer, as its lock's block stands; a line has each thread with the position that it drew."""
    buffer = system.blocks["buffer", b]
    receive, send = ([[t, system.guests[t].position] for t in buffer.line[side]] for side in (RECEIVERS, SENDERS))
    return {f"b{b}.items": [spelled(item) for item in buffer.items], f"b{b}.closed": buffer.closed, f"b{b}.owner": buffer.owner,
            f"b{b}.sleepers": list(buffer.sleepers), f"b{b}.receivers": list(buffer.waiting[RECEIVERS]),
            f"b{b}.senders": list(buffer.waiting[SENDERS]), f"b{b}.receive": receive, f"b{b}.send": send}


def cells(system, earlier=None, stepped=None):
    """All that a page shows of a state: a name for each thing, and its value. The words of a lock are no cells: a page counts who took
    a ticket and who left. With the order of effects before a step of a CPU, laws on that step are looked up too."""
    told = {}
    for c in range(len(system.cpus)):
        told |= cpu_cells(system, c)
    for t in range(len(system.guests)):
        told |= thread_cells(system, t)
    for b in range(len(system.blocks) - len(system.cpus)):
        told |= buffer_cells(system, b)
    return told | {"quiet": is_quiet(system), "broken": faults_in(system, earlier, stepped)}


# --- a run as a record --------------------------------------------------------------------------------------------------------------


def change(old, new):
    """A new value, or of a long queue what it lost in front and got behind."""
    if not (isinstance(new, list) and len(new) > 4):
        return new
    for lost in (0, 1):
        kept = len(old) - lost
        if old[lost:] == new[:kept]:
            return {"lost": lost, "got": new[kept:]}
    return new


def changes(old, new):
    """The cells that changed, as the number of each and its change, one behind the other."""
    return [item for number, (name, value) in enumerate(new.items()) if value != old[name] for item in (number, change(old[name], value))]


def steps_record(system, steps, each=lambda: None):
    """Takes steps, and tells of each: CPU, section, part, entry, changes."""
    now, told = cells(system), []
    each()
    for c in steps:
        earlier = order_of(system)
        name, part = system.step(c)
        new = cells(system, earlier, c)
        told.append([c, name, part, list(system.entry) if system.entry else None, changes(now, new)])
        each()
        now = new
    return told


def frame(plan, system):
    """What a record has beside the steps: the plan, the places, and the cells before the first step."""
    boot = cells(system)
    threads = [{"home": guest.home, "program": [" ".join(line) for line in guest.program]} for guest in system.guests]
    return {"cpus": len(system.cpus), "lock": plan.get("lock", "grant"), "capacities": plan["buffers"], "threads": threads, "laws": LAWS,
            "places": PLACES, "names": list(boot), "boot": list(boot.values())}


def record(plan, steps, wrong=None):
    """The record of a run; and a hash of what kernel.py prints after each number of steps."""
    system, printed = Kernel(plan, wrong), []
    told = frame(plan, system) | {"wrong": wrong, "mistake": WRONG.get(wrong)}
    taken = steps_record(system, steps, lambda: printed.append(hash((system.text(), system.states()))))
    return told | {"schedule": schedule_of(steps), "steps": taken}, printed


# --- the proved program -------------------------------------------------------------------------------------------------------------


def beginnings(steps):
    """Each beginning of some steps, from none on, as the text of a schedule."""
    behind, last, times = "", None, 0
    yield ""
    for c in steps:
        if c != last and times:
            behind += f"{last}*{times},"
            times = 0
        last, times = c, times + 1
        yield f"{behind}{c}*{times}"


def program_is_there():
    return os.path.isfile(PROGRAM) and os.access(PROGRAM, os.X_OK)


def proved_prints(plan_text, schedule):
    """What the proved program prints of a plan after a schedule: trace text and state lines. It refuses by RuntimeError."""
    words = [PROGRAM, "run"] + (["--schedule", schedule] if schedule else [])
    ran = subprocess.run(words, input=plan_text, capture_output=True, text=True, check=False)
    if ran.returncode:
        raise RuntimeError(f"{PROGRAM} ended with status {ran.returncode}: {ran.stderr.strip()}")
    return ran.stdout, ran.stderr


def proved_prints_each(plan_text, schedules):
    """The same after each of many schedules, in their order."""
    with ThreadPoolExecutor(WORKERS) as pool:
        yield from pool.map(lambda schedule: proved_prints(plan_text, schedule), schedules)


def first_difference(plan_text, steps, printed):
    """After how many steps the proved program first prints something else than was printed, or None."""
    for number, proved in enumerate(proved_prints_each(plan_text, beginnings(steps))):
        if hash(proved) != printed[number]:
            return number
    return None


def difference(ours, theirs):
    """The first line in which what kernel.py and what the proved program printed differ."""
    for mine, proved in zip("".join(ours).splitlines() + ["(end)"], "".join(theirs).splitlines() + ["(end)"]):
        if mine != proved:
            return f"kernel.py prints `{mine}`, the proved program `{proved}`"
    return "one prints more lines"


def told_apart(plan, plan_text, steps):
    """What kernel.py and the proved program say otherwise after some steps, in words."""
    system = Kernel(plan)
    for c in steps:
        system.step(c)
    return difference((system.text(), system.states()), proved_prints(plan_text, schedule_of(steps)))


def places_in(told):
    """Where each thread stands in a record: by step, from none on."""
    where = {told["names"].index(f"t{t}.place"): t for t in range(len(told["threads"]))}
    now = [told["boot"][number] for number in where]
    places = [list(now)]
    for *_, changed in told["steps"]:
        for number, value in zip(changed[::2], changed[1::2]):
            if number in where:
                now[where[number]] = value
        places.append(list(now))
    return places


def compared(plan, plan_text, steps, printed, wrong=None):
    """After how many steps the proved program first prints something else, or None. Of the whole kernel a difference is a RuntimeError."""
    differs = first_difference(plan_text, steps, printed)
    if differs is not None and not wrong:
        said = told_apart(plan, plan_text, steps[:differs])
        raise RuntimeError(f"after step {differs} kernel.py and the proved program differ: {said}; nothing is shown")
    return differs
