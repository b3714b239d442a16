"""Finds a schedule under which `mctower run` prints a given trace text, guided by that text.

A text tells the order of the effects at each buffer and on each CPU, and the position that each call drew. What it does not tell is where threads slept
on their way. The search goes on with whatever stands before the first entry that has not come: the CPU of its thread, else who owns the lock that it
wants, else who has to run before it. It goes back where a thread owns a lock and its call would take effect out of turn.

Whole sections are steps, since a section counts as one event. It needs Python alone, 3.9 or later.
"""
import random

from kernel import RECEIVERS, SENDERS, Kernel

BUFFER, OP, POSITION = 3, 5, 6
MOST_ATTEMPTS = 1000
GROUPS = {"send": SENDERS, "sendc": SENDERS, "recv": RECEIVERS, "recvc": RECEIVERS}


class Wanted:
    """The entries of a text: of each CPU, of each thread, of each buffer by their op, and by the positions that they drew."""

    def __init__(self, plan, entries):
        self.entries = entries
        self.number = {(entry[BUFFER], entry[OP]): i for i, entry in enumerate(entries)}
        self.of_cpu = [[entry for entry in entries if entry[0] == c] for c in range(plan["cpus"])]
        self.of_thread = [[entry for entry in entries if entry[1] == t] for t in range(len(plan["thread"]))]
        self.of_buffer = [[entry for entry in entries if entry[BUFFER] == b] for b in range(len(plan["buffers"]))]
        self.drawn = {(b, side): [entry for entry in self.of_buffer[b] if GROUPS.get(entry[2]) == side]
                      for b in range(len(plan["buffers"])) for side in (RECEIVERS, SENDERS)}


class Trace:
    """The trace of a CPU as a count of the entries that came. `is_off` tells that one came which is not wanted."""

    def __init__(self, wanted):
        self.wanted, self.count, self.is_off = wanted, 0, False

    def __len__(self):
        return self.count

    def append(self, entry):
        self.is_off = self.count >= len(self.wanted) or self.wanted[self.count] != entry
        self.count += 1

    def due(self):
        """The entry that comes next, or None."""
        return self.wanted[self.count] if self.count < len(self.wanted) else None


class Guided(Kernel):
    """A kernel that goes section by section towards a text, and can take each move back."""

    def __init__(self, plan, wanted, stops):
        super().__init__(plan)
        self.wanted, self.stops, self.came = wanted, stops, [0] * len(self.guests)
        for cpu, own in zip(self.cpus, wanted.of_cpu):
            cpu.trace = Trace(own)
        homes = [guest.home for guest in self.guests]
        self.shared = [c for c in range(len(self.cpus)) if homes.count(c) > 1]
        self.missing, self.key, self.last, self.choose = len(wanted.entries), 0, None, None

    # --- moves

    def lock_of(self, c):
        """The lock of the section that a CPU would take next, or None."""
        cpu = self.cpus[c]
        if cpu.hand is not None:
            return "pending", self.guests[cpu.hand].home
        if cpu.current is None:
            return None if cpu.ready else ("pending", c)
        call = self.guests[cpu.current].call()
        if call is None:
            return ("pending", c) if self.guests[cpu.current].instruction()[0] == "yield" else None
        return "buffer", call[0]

    def is_still(self, c):
        """Whether a move of a CPU would change nothing: it is halted, or has nothing to do."""
        cpu = self.cpus[c]
        nothing = cpu.hand is None and cpu.current is None and not cpu.ready and not self.blocks["pending", c]
        return nothing or self.halted(c) is not None

    def threads_at(self, c, lock):
        """The threads that a move of a CPU may touch."""
        cpu = self.cpus[c]
        threads = [cpu.current, cpu.hand, cpu.ready[0] if cpu.ready else None]
        block = self.blocks[lock] if lock else ()
        if lock and lock[0] == "buffer":
            threads += [queue[0] for queue in (block.sleepers, *block.line) if queue]
        else:
            threads += block
        return {t for t in threads if t is not None}

    def pieces(self, c, threads, lock):
        """What a move may change, as plain data."""
        cpu = self.cpus[c]
        own = [("c", c, cpu.current, cpu.hand, tuple(cpu.ready), cpu.begun, cpu.trace.count)]
        for t in threads:
            guest = self.guests[t]
            own.append(("t", t, guest.line, tuple(guest.registers), guest.stage, guest.position, guest.effect, guest.place))
        return own + ([(lock, *block_piece(self.blocks[lock]))] if lock else [])

    def go(self, c):
        """Takes the next section of a CPU, or its next step without a lock. Returns how to take it back."""
        lock, cpu = self.lock_of(c), self.cpus[c]
        threads = self.threads_at(c, lock)
        old, block, key = self.pieces(c, threads, lock), self.blocks.get(lock), self.key
        self.step(c)
        taken = 1
        while cpu.section is not None:
            self.step(c)
            taken += 1
        entry, self.last = self.entry, c
        if entry:
            self.came[entry[1]] += 1
            self.missing -= 1
        self.key ^= self.changed(old, self.pieces(c, threads, lock))
        return c, taken, old, lock, block, key, entry

    @staticmethod
    def changed(old, new):
        key = 0
        for one, other in zip(old, new):
            key ^= hash(one) ^ hash(other)
        return key

    def undo(self, moved):
        """Takes the last move back."""
        c, _, old, lock, block, self.key, entry = moved
        cpu = self.cpus[c]
        _, _, cpu.current, cpu.hand, ready, cpu.begun, cpu.trace.count = old[0]
        cpu.ready.clear()
        cpu.ready.extend(ready)
        cpu.trace.is_off = False
        for piece in old[1:]:
            if piece[0] == "t":
                guest = self.guests[piece[1]]
                _, _, guest.line, registers, guest.stage, guest.position, guest.effect, guest.place = piece
                guest.registers = list(registers)
        if lock:
            self.blocks[lock] = block
        if entry:
            self.came[entry[1]] -= 1
            self.missing += 1

    # --- what may be

    def due_of(self, t):
        """The next entry of a thread, or None."""
        own = self.wanted.of_thread[t]
        return own[self.came[t]] if self.came[t] < len(own) else None

    def would(self, t, block, stage):
        """What becomes of a call whose thread owns the lock of its buffer: 'waits' or 'goes'; or, where the text does not allow it, the entry that has to
        come before it, or None if none helps."""
        guest, due = self.guests[t], self.due_of(t)
        b, side = guest.call()
        goes, first = True, False
        if stage == "Enter":
            drawn, all_drawn = block.positions[side], self.wanted.drawn[b, side]
            if drawn != due[POSITION] if due and due[BUFFER] == b else due or drawn < len(all_drawn):
                return all_drawn[drawn] if drawn < len(all_drawn) else None
            first = not block.line[side]
        elif stage == "Try":
            first = bool(block.line[side]) and block.line[side][0] == t
        if stage != "Shut":
            goes = first and block.may_go(side)
        if not goes:
            return "waits"
        own = self.wanted.of_buffer[b]
        wanted = own[block.effects] if block.effects < len(own) else None
        if wanted is not due or due is None:
            return wanted
        at = self.cpus[guest.home]
        return "goes" if at.current != t or at.trace.due() is due else at.trace.due()

    def stage_of(self, t):
        """The stage of a thread that is about to ask for its buffer's lock, once it owns that."""
        guest = self.guests[t]
        return "Try" if guest.stage == "Again" else "Shut" if guest.instruction()[0] == "close" else "Enter"

    def may_stand(self, moved):
        """Whether the text allows what a move led to."""
        c, lock = moved[0], moved[3]
        if self.cpus[c].trace.is_off:
            return False
        halted = self.halted(c)
        if self.stops and halted and halted != self.stops[c]:
            return False
        if halted and self.cpus[c].trace.due() is not None:
            return False
        if lock and lock[0] == "buffer" and self.blocks[lock].owner is not None:
            block = self.blocks[lock]
            owner = self.guests[block.owner]
            if owner.stage in ("Enter", "Try", "Shut"):
                return self.would(block.owner, block, owner.stage) in ("waits", "goes")
        return True

    def is_there(self):
        """Whether all that is wanted came."""
        if self.missing:
            return False
        return not self.stops or all(stop == (self.halted(c) or "live") for c, stop in enumerate(self.stops))

    # --- where to go on

    def moves(self):
        """The CPUs that may move, the best first; now and then in any order, where the order of choices is another."""
        seen, cpus = set(), self.suggested()
        if self.choose and self.choose.random() < 0.1:
            cpus = list(dict.fromkeys(cpus))
            self.choose.shuffle(cpus)
        for c in cpus:
            if c not in seen:
                seen.add(c)
                if not self.is_still(c):
                    yield c

    def suggested(self):
        yield from (c for c in self.shared if self.may_sleep_now(c))
        if not self.shared and self.last is not None and self.ends_call(self.last):
            yield self.last
        due = sorted((self.wanted.number[entry[BUFFER], entry[OP]], c) for c, entry in enumerate(cpu.trace.due() for cpu in self.cpus) if entry)
        for number, c in due:
            yield from self.towards(c, self.wanted.entries[number][1], set())
        if self.stops:
            for c, stop in enumerate(self.stops):
                if stop != (self.halted(c) or "live"):
                    live = next((t for t, guest in enumerate(self.guests) if guest.home == c and guest.place != "Ended"), None)
                    yield from self.towards(c, live, set())
        yield from range(len(self.cpus))

    def ends_call(self, c):
        """Whether the call of a CPU took effect and goes on to its end: where each CPU has one thread, its schedule is shorter so."""
        t = self.cpus[c].current
        return t is not None and self.guests[t].stage in ("Other", "Own", "RelQ")

    def may_sleep_now(self, c):
        """Whether the thread that runs on a CPU has to make room for another, and would sleep now."""
        cpu = self.cpus[c]
        due = cpu.trace.due()
        if due is None or cpu.current is None or cpu.current == due[1] or cpu.hand is not None:
            return False
        t = cpu.current
        guest = self.guests[t]
        call = guest.call()
        if call is None:
            return False
        block = self.blocks["buffer", call[0]]
        if block.owner == t:
            return guest.stage in ("Enter", "Try", "Wait")
        if guest.stage not in (None, "AcqQ", "Again"):
            return False
        if block.owner is None:
            return self.would(t, block, self.stage_of(t)) == "waits"
        return not block.sleepers and self.guests[block.owner].stage in ("Other", "Own", "RelQ") and self.would_sleep_well(t, block)

    def would_sleep_well(self, t, block):
        """Whether the text allows that a thread sleeps at a lock, and gets it as the block is."""
        guest, due = self.guests[t], self.cpus[self.guests[t].home].trace.due()
        found = self.would(t, block, self.stage_of(t))
        return found in ("waits", "goes") or (found is due and self.due_of(t) is not None and self.due_of(t)[OP] == block.effects
                                              and self.due_of(t)[BUFFER] == guest.call()[0])

    def towards(self, c, t, seen):
        """The CPUs that have to move so that a thread runs on its CPU and goes on, the best first."""
        if (c, t) in seen:
            return
        seen.add((c, t))
        cpu = self.cpus[c]
        if cpu.hand is not None:
            yield c
        elif cpu.current is None:
            if cpu.ready or self.blocks["pending", c]:
                yield c
            elif t is not None:
                yield from self.towards_waking(t, seen)
        else:
            yield from self.towards_call(c, cpu.current, t, seen)

    def towards_call(self, c, u, t, seen):
        """The same, where thread u runs on the CPU."""
        call = self.guests[u].call()
        block = call and self.blocks["buffer", call[0]]
        if call is None or block.owner == u:
            yield c
        elif block.owner is not None:
            if u != t:
                yield c
            yield from self.towards_owner(block, seen)
            yield c
        else:
            found = self.would(u, block, self.stage_of(u))
            if found in ("waits", "goes"):
                yield c
            if u != t:
                yield from self.takers(call[0], block, u)
            if isinstance(found, tuple):
                yield from self.towards(found[0], found[1], seen)

    def takers(self, b, block, u):
        """The CPUs whose threads may take a buffer's lock, so that thread u finds it owned."""
        for c, cpu in enumerate(self.cpus):
            v = cpu.current
            if v is None or v == u or cpu.hand is not None or self.guests[v].stage not in (None, "Again", "AcqQ"):
                continue
            call = self.guests[v].call()
            if call and call[0] == b and not self.is_still(c) and self.would(v, block, self.stage_of(v)) in ("waits", "goes"):
                yield c

    def towards_waking(self, t, seen):
        """The CPUs that have to move so that a thread which sleeps or is in a hand gets home."""
        name, _, number = self.guests[t].place.rstrip(")").partition("(")
        if name == "Hand":
            yield int(number)
        elif name in ("LockSleeper", "WaitRecv", "WaitSend"):
            block = self.blocks["buffer", int(number)]
            if block.owner is not None:
                yield from self.towards_owner(block, seen)
            elif block.effects < len(self.wanted.of_buffer[int(number)]):
                entry = self.wanted.of_buffer[int(number)][block.effects]
                yield from self.towards(entry[0], entry[1], seen)

    def towards_owner(self, block, seen):
        """The CPUs that have to move so that the owner of a lock goes on."""
        owner = self.guests[block.owner]
        if owner.place.startswith("Hand"):
            yield int(owner.place[5:-1])
        else:
            yield from self.towards(owner.home, block.owner, seen)


def block_piece(block):
    """A block as plain data."""
    if not hasattr(block, "owner"):
        return tuple(block)
    return (block.owner, len(block.items), block.effects, tuple(block.sleepers), tuple(block.waiting[0]), tuple(block.waiting[1]),
            tuple(block.line[0]), tuple(block.line[1]), tuple(block.positions), block.closed)


def schedule_towards(make_system, most):
    """The steps of a schedule as items (CPU, steps), or None; and how many states were looked at, and the fewest entries that were missing.

    An early mistake may cost a search all its states, so it begins anew, each time with more of them, and with another order of choices now and then."""
    system = make_system()
    limit, total, least = 2000 + 10 * system.missing, 0, system.missing
    for attempt in range(MOST_ATTEMPTS):
        system.choose = random.Random(attempt) if attempt else None
        items, count, missing = search(system, min(limit, most - total))
        total, least = total + count, min(least, missing)
        if items is not None or total >= most or count < limit:
            return items, total, least
        limit += limit // 8
        system = make_system()
    return None, total, least


def search(system, most):
    """The same of one search, in which each state is looked at once."""
    seen, path, least = {system.key}, [], system.missing
    choices = [system.moves()]
    while choices and len(seen) < most:
        least = min(least, system.missing)
        if system.is_there():
            return [(moved[0], moved[1]) for moved in path], len(seen), 0
        c = next(choices[-1], None)
        if c is None:
            choices.pop()
            if path:
                system.undo(path.pop())
            continue
        moved = system.go(c)
        if system.key in seen or not system.may_stand(moved):
            system.undo(moved)
            continue
        seen.add(system.key)
        path.append(moved)
        choices.append(system.moves())
    return None, len(seen), least
