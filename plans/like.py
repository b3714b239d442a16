"""Finds a schedule by which `mctower run` prints a given trace text, as that of a run of worker threads.

It takes whole sections as steps. That is enough by the laws of the locks: a section counts as one event.
"""
import heapq

from judging import fault_in

# The stages of a call in which its thread has drawn a position and has had no effect.
DRAWN = ("Try", "Wait", "Join", "Again")


def entries_in(text):
    """The entries of a trace text, as plans/kernel.py keeps them. A text that gets a no is refused, since no run prints it."""
    fault = fault_in(text.encode())
    if fault:
        raise ValueError(f"line {fault.line}: {fault.why}: give a text that `mctower threads` or `mctower run` printed")
    entries = []
    for line in text.splitlines():
        word, *pieces = line.split(" ")
        if word == "e" and len(pieces) == 7:
            cpu, thread, kind, buffer, message, operation, position = pieces
            entries.append((int(cpu), int(thread), kind, int(buffer), message, int(operation), int(position)))
    return entries


class Wanted:
    """The entries that are wanted, by CPU and by thread."""

    def __init__(self, plan, text):
        entries = entries_in(text)
        self.count = len(entries)
        self.of_cpu = [[entry for entry in entries if entry[0] == c] for c in range(plan["cpus"])]
        self.of_thread = [[entry for entry in entries if entry[1] == t] for t in range(len(plan["thread"]))]

    def may_become(self, system):
        """Whether what was done so far may become what is wanted: each CPU's entries begin its trace, and who has drawn a position drew that of its
        next entry."""
        if any(cpu.trace != wanted[:len(cpu.trace)] for cpu, wanted in zip(system.cpus, self.of_cpu)):
            return False
        done = [0] * len(system.guests)
        for cpu in system.cpus:
            for entry in cpu.trace:
                done[entry[1]] += 1
        return not any(guest.stage in DRAWN and own[count:] and own[count][6] != guest.position
                       for guest, own, count in zip(system.guests, self.of_thread, done))


def effects(system):
    return sum(len(cpu.trace) for cpu in system.cpus)


def schedule_like(plan, text, make_pieces, most):
    """The steps of a schedule that gives the trace text, or None; and how many states were looked at. It goes on first where most calls took effect."""
    wanted, pieces = Wanted(plan, text), make_pieces(plan)
    boot = tuple(pieces.now)
    came, heap = {boot: None}, [(0, 0, 0, boot)]
    while heap and len(came) <= most:
        missing, depth, _, state = heapq.heappop(heap)
        if -missing == wanted.count:
            return steps_to(came, state), len(came)
        for c in pieces.cpus:
            pieces.load(state)
            new, taken = pieces.after_section(c)
            if new is not None and new not in came and wanted.may_become(pieces.system):
                came[new] = state, c, taken
                heapq.heappush(heap, (-effects(pieces.system), depth + 1, len(came), new))
    return None, len(came)


def steps_to(came, state):
    """The steps that led to a state."""
    back = []
    while came[state] is not None:
        state, c, taken = came[state]
        back += [c] * taken
    return back[::-1]
