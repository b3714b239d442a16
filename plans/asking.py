"""What a search can look for in a state, for example `thread 0 WaitRecv and buffer 0 full`, as a test of a kernel."""
from kernel import Kernel
from laws import broken_in, is_quiet

PLACES = {"running": "Running", "ready": "Ready", "pending": "Pending", "hand": "Hand", "in hand": "Hand", "locksleeper": "LockSleeper",
          "asleep": "LockSleeper", "waitrecv": "WaitRecv", "waitsend": "WaitSend", "ended": "Ended"}
CPU_STATES = ("waits", "inside", "rests", "AllEnded", "TraceFull")
BUFFER_TESTS = {
    "full": lambda buffer: len(buffer.items) == buffer.capacity,
    "empty": lambda buffer: not buffer.items,
    "closed": lambda buffer: buffer.closed,
    "owned": lambda buffer: buffer.owner is not None,
    "free": lambda buffer: buffer.owner is None,
}
GRAMMAR = """terms joined by `and`, each optionally after `not`:
  thread T PLACE       PLACE as in the state lines, with or without its number: WaitRecv(0), WaitRecv, in hand, not ended
  some thread PLACE, every thread PLACE
  cpu C waits|inside|rests|AllEnded|TraceFull
  buffer B full|empty|closed|owned|free
  effects N            N calls have taken effect
  quiet                no CPU has work
  deadlock             quiet, and some thread has not ended
  broken               a law is broken"""


def place_test(words):
    """A test of a thread, from the words of a place."""
    is_wanted = words[:1] != ["not"]
    name, _, number = " ".join(words if is_wanted else words[1:]).lower().rstrip(")").partition("(")
    place = PLACES[name.strip()] + (f"({number})" if number else "")
    return lambda guest: (guest.place == place or guest.place.startswith(place + "(")) == is_wanted


def cpu_is(system, c, state):
    """Whether a CPU rests between sections, waits for its turn, is inside a lock, or is halted for that cause."""
    cpu = system.cpus[c]
    doing = "rests" if cpu.section is None else "waits" if cpu.block is None else "inside"
    return state in (doing, system.halted(c))


def thread_term(who, words):
    """A test of one thread, of some, or of every."""
    there = place_test(words)
    if who.isdigit():
        return lambda system: there(system.guests[int(who)])
    holds = {"some": any, "every": all}[who]
    return lambda system: holds(map(there, system.guests))


def term(words):
    """A test of a kernel, from one term. It raises KeyError or IndexError where the words are none."""
    if words[0] == "not":
        test = term(words[1:])
        return lambda system: not test(system)
    if words == ["quiet"]:
        return is_quiet
    if words == ["deadlock"]:
        return lambda system: is_quiet(system) and any(guest.place != "Ended" for guest in system.guests)
    if words == ["broken"]:
        return lambda system: bool(broken_in(system))
    if words[0] == "effects" and len(words) == 2 and words[1].isdigit():
        return lambda system: sum(len(cpu.trace) for cpu in system.cpus) == int(words[1])
    if words[0] == "thread":
        return thread_term(words[1], words[2:])
    if words[0] in ("some", "every") and words[1] == "thread":
        return thread_term(words[0], words[2:])
    if words[0] == "cpu" and len(words) == 3 and words[1].isdigit() and words[2] in CPU_STATES:
        return lambda system: cpu_is(system, int(words[1]), words[2])
    if words[0] == "buffer" and len(words) == 3 and words[1].isdigit():
        test = BUFFER_TESTS[words[2]]
        return lambda system: test(system.blocks["buffer", int(words[1])])
    raise KeyError(words[0])


def asked_for(text, plan):
    """A test of a kernel, from what a reader wrote. It raises ValueError with the grammar where a term cannot be asked of the plan."""
    terms = []
    for piece in text.split(" and "):
        try:
            terms.append(term(piece.split()))
            terms[-1](Kernel(plan))  # a thread, CPU or buffer that the plan has not is found here
        except (KeyError, IndexError):
            raise ValueError(f"`{piece.strip()}` does not fit this plan. Expected {GRAMMAR}") from None
    return lambda system: all(one(system) for one in terms)
