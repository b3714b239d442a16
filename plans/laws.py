"""What holds in each state of the proved program, looked up in a state of plans/kernel.py.

`faults_in` takes a kernel and tells which laws do not hold in it, each with a sentence that says why. Of what a step may do it also tells, where it is given
the effects before the step. Most laws fall into what one CPU, one thread, or one block says alone, and into what all of them say together: `part_of_*` tells
the one, `broken_by` the other. plans/states.py keeps the parts, since most of them are the same from state to state.
"""
from collections import Counter, namedtuple

from kernel import RECEIVERS, SENDERS, spelled

ONE_PLACE = "one place for each thread"
AT_HOME = "each thread runs at home"
ONE_INSIDE = "one CPU inside a lock"
ONE_OWNER = "only the owner works on a buffer"
NO_LOST_WAKE_UP = "no lost wake-up"
NO_FREE_SLEEPER = "nobody sleeps at a free lock"
NOTHING_LOST = "sent = received ++ left"
IN_THEIR_ORDER = "callers in their order"
TRUE_ANSWERS = "each answer fits its buffer"
ORDER_GROWS = "the order only grows"
QUIET_IS_STILL = "quiet only if nobody can go on"
LAWS = (ONE_PLACE, AT_HOME, ONE_INSIDE, ONE_OWNER, NO_LOST_WAKE_UP, NO_FREE_SLEEPER, NOTHING_LOST, IN_THEIR_ORDER, TRUE_ANSWERS, ORDER_GROWS, QUIET_IS_STILL)

# The threads that stand at a CPU, in a block, or have ended; the laws broken there; the lock that a CPU is inside of; the buffer that a thread works on, with
# the thread; and a buffer, with its owner.
Part = namedtuple("Part", "threads broken inside works owned", defaults=(None, None, None))
# The stages of a call between its AcqQ and its RelQ, in which its thread is the buffer's owner, but where it sleeps until the buffer is handed over.
OWNER_STAGES = ("Enter", "Shut", "Try", "Wait", "Other", "Own", "RelQ")
# An entry of a trace: a call that took effect.
CPU, THREAD, KIND, BUFFER, VALUE, OP, POSITION = range(7)
CALLS = {"send": "send", "sendc": "send", "recv": "receive", "recvc": "receive", "close": "close"}


# --- the laws ----------------------------------------------------------------------------------------------------------------------


def part_of_cpu(system, c):
    """What a CPU says: a thread that is ready or runs there has its home there, a thread in its hand has not."""
    cpu, home = system.cpus[c], [guest.home for guest in system.guests]
    own = [*cpu.ready] if cpu.current is None else [*cpu.ready, cpu.current]
    hand = [] if cpu.hand is None else [cpu.hand]
    strays = any(home[t] != c for t in own) or any(home[t] == c for t in hand)
    return Part((*own, *hand), (AT_HOME,) if strays else (), None if cpu.block is None else cpu.section[1])


def works_on(guest):
    """The buffer of which a thread has to be the owner, since its call is between AcqQ and RelQ and it does not sleep for the buffer; or None."""
    is_inside = guest.stage in OWNER_STAGES and not guest.place.startswith("LockSleeper")
    return guest.call()[0] if is_inside else None


def part_of_thread(system, t):
    """What a thread says: that it has ended, or the buffer that it works on."""
    guest = system.guests[t]
    b = works_on(guest)
    return Part((t,) if guest.place == "Ended" else (), (), None, None if b is None else (b, t))


def part_of_block(system, lock):
    """What a block says: of a buffer, or of a CPU's pending queue."""
    block = system.blocks[lock]
    if lock[0] == "pending":
        strays = any(system.guests[t].home != lock[1] for t in block)
        return Part(tuple(block), (AT_HOME,) if strays else ())
    threads = (*block.sleepers, *block.waiting[RECEIVERS], *block.waiting[SENDERS])
    broken = [NO_LOST_WAKE_UP] if block.owner is None and any(sleeps_in_vain(block, side) for side in (RECEIVERS, SENDERS)) else []
    broken += [NO_FREE_SLEEPER] if block.owner is None and block.sleepers else []
    return Part(threads, tuple(broken), owned=(lock[1], block.owner))


def sleeps_in_vain(buffer, side):
    """Whether the first in line waits though the buffer allows its call."""
    line = buffer.line[side]
    return bool(line) and line[0] in buffer.waiting[side] and buffer.may_go(side)


def broken_by(parts, count):
    """The laws that the parts of a state break, alone or together; count is how many threads there are."""
    broken = {law for part in parts for law in part.broken}
    threads = [t for part in parts for t in part.threads]
    if len(threads) != count or len(set(threads)) != count:
        broken.add(ONE_PLACE)
    inside = [part.inside for part in parts if part.inside is not None]
    if len(inside) != len(set(inside)):
        broken.add(ONE_INSIDE)
    owners = {part.owned for part in parts if part.owned is not None}
    if any(part.works is not None and part.works not in owners for part in parts):
        broken.add(ONE_OWNER)
    return broken


def effects_of(traces, b):
    """The calls that took effect on a buffer, in the order of their op."""
    return sorted((entry for trace in traces for entry in trace if entry[BUFFER] == b), key=lambda entry: entry[OP])


def values_of(effects, buffer):
    """What was sent to a buffer, what was received from it, and what is left in it."""
    sent, received = ([entry[VALUE] for entry in effects if entry[KIND] == kind] for kind in ("send", "recv"))
    return sent, received, [spelled(item) for item in buffer.items]


def is_nothing_lost(effects, buffer):
    """Whether what was sent is what was received and then what is left, in that order."""
    sent, received, left = values_of(effects, buffer)
    return sent == received + left


def out_of_turn(effects):
    """The first call that took effect before one which had drawn an earlier position, with how many took effect before it; or None."""
    counts = Counter()
    for entry in effects:
        if entry[POSITION] != counts[CALLS[entry[KIND]]]:
            return entry, counts[CALLS[entry[KIND]]]
        counts[CALLS[entry[KIND]]] += 1
    return None


def refusal_of(kind, held, closed, capacity):
    """Why a call cannot have taken effect so at a buffer that holds so many messages, or None."""
    if kind == "send":
        return "it is closed" if closed else "it is full" if held >= capacity else None
    if kind == "recv":
        return None if held else "it is empty"
    if kind == "close":
        return None
    return "it is open" if not closed else f"it still holds {held}" if kind == "recvc" and held else None


def false_answer(effects, buffer):
    """The first call whose answer does not fit what its buffer held just then, with why; None with why, if the calls lead to another end; or None."""
    held, closed = 0, False
    for entry in effects:
        why = refusal_of(entry[KIND], held, closed, buffer.capacity)
        if why:
            return entry, why
        held += {"send": 1, "recv": -1}.get(entry[KIND], 0)
        closed = closed or entry[KIND] == "close"
    return None if closed == buffer.closed else (None, "it is closed" if buffer.closed else "it is open")


def is_numbered(effects):
    """Whether the calls of a buffer are numbered 0, 1, 2, .. by their op."""
    return [entry[OP] for entry in effects] == list(range(len(effects)))


def order_of(system):
    """The calls that took effect on each buffer, in the order of their op."""
    traces = [cpu.trace for cpu in system.cpus]
    return [effects_of(traces, lock[1]) for lock in system.blocks if lock[0] == "buffer"]


def has_grown(earlier, later, c):
    """Whether the order after a step of a CPU is the order before it, and at most one call more, which is of that CPU."""
    more = [entry for old, new in zip(earlier, later) for entry in new[len(old):]]
    return all(new[:len(old)] == old for old, new in zip(earlier, later)) and len(more) <= 1 and all(entry[CPU] == c for entry in more)


def broken_at(traces, b, buffer):
    """The laws on effects that do not hold of a buffer."""
    effects = effects_of(traces, b)
    holds = {NOTHING_LOST: is_nothing_lost(effects, buffer), IN_THEIR_ORDER: out_of_turn(effects) is None, TRUE_ANSWERS: false_answer(effects, buffer) is None,
             ORDER_GROWS: is_numbered(effects)}
    return tuple(law for law, is_so in holds.items() if not is_so)


def is_quiet(system):
    return all(system.rests(c) for c in range(len(system.cpus)))


def could_go_on(system, guest):
    """Whether a thread that has not ended stands at a call that its buffer allows, or at none."""
    if guest.place == "Ended":
        return False
    call = guest.call()
    return call is None or guest.instruction()[0] == "close" or guest.stage == "Returns" or system.blocks["buffer", call[0]].may_go(call[1])


def is_stillness_false(system):
    """Whether the system is quiet though a thread could go on."""
    return is_quiet(system) and any(could_go_on(system, guest) for guest in system.guests)


def in_order(broken):
    """Laws in the order in which pages tell them."""
    return [law for law in LAWS if law in broken]


def broken_in(system, earlier=None, c=None):
    """The laws that do not hold in a state of a kernel; with the order of effects before a step of CPU c, also those that this step broke."""
    parts = [part_of_cpu(system, k) for k in range(len(system.cpus))] + [part_of_thread(system, t) for t in range(len(system.guests))]
    broken = broken_by(parts + [part_of_block(system, lock) for lock in system.blocks], len(system.guests))
    traces = [cpu.trace for cpu in system.cpus]
    for lock, block in system.blocks.items():
        broken.update(broken_at(traces, lock[1], block) if lock[0] == "buffer" else ())
    if earlier is not None and not has_grown(earlier, order_of(system), c):
        broken.add(ORDER_GROWS)
    if is_stillness_false(system):
        broken.add(QUIET_IS_STILL)
    return in_order(broken)


# --- why a law does not hold -----------------------------------------------------------------------------------------------------------


def standing_at(lock, block):
    """Who stands in a block, each with the place in words."""
    if lock[0] == "pending":
        return [(t, f"pending at CPU {lock[1]}") for t in block]
    waits = ((block.sleepers, "asleep for"), (block.waiting[RECEIVERS], "waiting to receive from"), (block.waiting[SENDERS], "waiting to send to"))
    return [(t, f"{does} buffer {lock[1]}") for threads, does in waits for t in threads]


def standing(system):
    """Where each thread stands: a list of places in words for each."""
    found = [[] for _ in system.guests]
    for c, cpu in enumerate(system.cpus):
        for t, words in ((cpu.current, f"running on CPU {c}"), *((t, f"ready at CPU {c}") for t in cpu.ready), (cpu.hand, f"in the hand of CPU {c}")):
            if t is not None:
                found[t].append(words)
    for lock, block in system.blocks.items():
        for t, words in standing_at(lock, block):
            found[t].append(words)
    for t, guest in enumerate(system.guests):
        found[t] += ["ended"] if guest.place == "Ended" else []
    return found


def why_two_places(system):
    t, places = next((t, places) for t, places in enumerate(standing(system)) if len(places) != 1)
    return f"t{t} is {' and '.join(places)}" if places else f"t{t} stands nowhere"


def why_astray(system):
    for c, cpu in enumerate(system.cpus):
        running = [] if cpu.current is None else [cpu.current]
        for threads, does in ((running, "runs on"), (cpu.ready, "is ready at"), (system.blocks["pending", c], "is pending at")):
            stray = next((t for t in threads if system.guests[t].home != c), None)
            if stray is not None:
                return f"t{stray} {does} CPU {c}, and its home is CPU {system.guests[stray].home}"
    c, t = next((c, cpu.hand) for c, cpu in enumerate(system.cpus) if cpu.hand is not None and system.guests[cpu.hand].home == c)
    return f"t{t} is in the hand of CPU {c}, its home"


def why_two_inside(system):
    inside = [(cpu.section[1], c) for c, cpu in enumerate(system.cpus) if cpu.block is not None]
    lock = next(lock for lock, _ in inside if sum(one == lock for one, _ in inside) > 1)
    name = f"buffer {lock[1]}" if lock[0] == "buffer" else f"CPU {lock[1]}'s pending queue"
    return f"{' and '.join(f'CPU {c}' for one, c in inside if one == lock)} are inside the spin lock of {name}"


def why_not_owner(system):
    works = ((t, works_on(guest)) for t, guest in enumerate(system.guests))
    t, b, owner = next((t, b, system.blocks["buffer", b].owner) for t, b in works if b is not None and system.blocks["buffer", b].owner != t)
    return f"t{t} is between AcqQ and RelQ at buffer {b}, {'which is free' if owner is None else f'whose owner is t{owner}'}"


def buffers_of(system):
    return [(lock[1], block) for lock, block in system.blocks.items() if lock[0] == "buffer"]


def allowing(buffer, side):
    """What of a buffer lets a call of a side go on, in words."""
    if buffer.closed:
        return "is closed"
    return f"holds {' '.join(map(spelled, buffer.items))}" if side == RECEIVERS else "has room"


def why_lost(system):
    sides = ((b, block, side) for b, block in buffers_of(system) for side in (RECEIVERS, SENDERS))
    b, block, side = next((b, block, side) for b, block, side in sides if block.owner is None and sleeps_in_vain(block, side))
    return f"buffer {b} {allowing(block, side)}, is free, and t{block.line[side][0]}, first in its {('receive', 'send')[side]} line, sleeps"


def why_free(system):
    b, block = next((b, block) for b, block in buffers_of(system) if block.owner is None and block.sleepers)
    return f"buffer {b} is free, and t{block.sleepers[0]} sleeps until it is handed over"


def listed(values):
    return f"[{' '.join(values)}]"


def amiss(sent, received, left):
    """What is wrong with values that were sent, received and left, in words."""
    there = received + left
    lost, more = Counter(sent) - Counter(there), Counter(there) - Counter(sent)
    doubled, foreign = [value for value in more.elements() if value in sent], [value for value in more.elements() if value not in sent]
    told = [f"{' '.join(some)} {words}" for some, words in ((list(lost.elements()), "lost"), (doubled, "doubled"), (foreign, "never sent")) if some]
    return ", ".join(told) or "out of order"


def why_not_the_same(system):
    all_values = ((b, values_of(effects, block)) for (b, block), effects in zip(buffers_of(system), order_of(system)))
    b, (sent, received, left) = next((b, values) for b, values in all_values if values[0] != values[1] + values[2])
    return f"buffer {b}: sent {listed(sent)}, received {listed(received)}, left {listed(left)}: {amiss(sent, received, left)}"


def named_call(entry):
    """A call that took effect, as a sentence has it."""
    return f"t{entry[THREAD]}'s {CALLS[entry[KIND]]}" + ("" if entry[VALUE] == "-" else f" of {entry[VALUE]}")


def why_out_of_turn(system):
    b, (entry, count) = next((b, found) for b, found in enumerate(map(out_of_turn, order_of(system))) if found)
    return f"buffer {b}: {named_call(entry)} has position {entry[POSITION]} in its line, and went where position {count} is due"


def why_false(system):
    answers = ((b, false_answer(effects, block)) for (b, block), effects in zip(buffers_of(system), order_of(system)))
    b, (entry, why) = next((b, found) for b, found in answers if found)
    if entry is None:
        return f"buffer {b}: {why}, and no call made it so"
    return f"buffer {b}: {named_call(entry)} {'finds it closed' if entry[KIND] in ('sendc', 'recvc') else 'goes through'}, and {why}"


def why_not_grown(system):
    b, effects = next(((b, effects) for b, effects in enumerate(order_of(system)) if not is_numbered(effects)), (None, []))
    if b is None:
        return "in this step the order got a call that is not at its end, or not of the CPU that stepped"
    one, other = next(((x, y) for x, y in zip(effects, effects[1:]) if x[OP] == y[OP]), (effects[-1], None))
    return f"buffer {b}: {named_call(one)} has op {one[OP]}" + (f", and so has {named_call(other)}" if other else ", and one before it is missing")


def why_not_still(system):
    t, guest = next((t, guest) for t, guest in enumerate(system.guests) if could_go_on(system, guest))
    call, words = guest.call(), " ".join(guest.instruction())
    because = "" if call is None or guest.instruction()[0] == "close" else f" and buffer {call[0]} {allowing(system.blocks['buffer', call[0]], call[1])}"
    return f"no CPU has anything to do, but t{t} stands at “{words}”{because}"


WHY = {ONE_PLACE: why_two_places, AT_HOME: why_astray, ONE_INSIDE: why_two_inside, ONE_OWNER: why_not_owner, NO_LOST_WAKE_UP: why_lost,
       NO_FREE_SLEEPER: why_free, NOTHING_LOST: why_not_the_same, IN_THEIR_ORDER: why_out_of_turn, TRUE_ANSWERS: why_false, ORDER_GROWS: why_not_grown,
       QUIET_IS_STILL: why_not_still}


def faults_in(system, earlier=None, c=None):
    """The laws that do not hold, as broken_in has them, each with why."""
    return [[law, WHY[law](system)] for law in broken_in(system, earlier, c)]
