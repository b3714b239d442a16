"""All interleavings of the hand-over of a thread's record from processor A to processor B, by a model of the stores and loads of host/threads.c in the order
of the program: `starts` and `next_of`, `run`, `work`, `end`. Is a thread ever resumed behind its end? The model is sequentially consistent.

A's thread waits, is woken, ends and is joined; then the creator gives its record to B, which looks meanwhile. A state is: the record's state, its
processor, who has the lock, how far the creator is, how far B is, and what B has read of the two.
"""

BEGIN = ("WAITS", "A", None, 0, 0, None, None)
RESUMED_BEHIND_ITS_END = 9  # how far B is then


def of_creator(it):
    """The creator's next step: A's life to its end and its join, one step since A runs alone; the lock; the processor; the state; the unlock."""
    state, at, lock, creator, *b = it
    if creator == 0:
        yield ("RESTS", at, lock, 1, *b)
    if creator == 1 and lock is None:
        yield (state, at, "creator", 2, *b)
    if creator == 2:
        yield (state, "B", lock, 3, *b)
    if creator == 3:
        yield ("READY", at, lock, 4, *b)
    if creator == 4:
        yield (state, at, None, 5, *b)


def of_b(it, looks_twice):
    """B's next step: it reads the state, then the processor, then the state again; it runs the thread, which ends; it sees the end, and tells it."""
    state, at, lock, creator, b, read_state, read_at = it
    if b == 0:
        yield (state, at, lock, creator, 1, state, read_at)
    if b == 1:
        yield (state, at, lock, creator, 2, read_state, at) if read_state in ("READY", "WAITS") else (state, at, lock, creator, 0, None, None)
    if b == 2:
        takes = read_at == "B" and (not looks_twice or state == read_state)
        yield (state, at, lock, creator, 3 if takes else 0, None, None)
    if b == 3:
        yield ("READY", at, lock, creator, 4, None, None)
    if b == 4:
        yield ("ENDS", at, lock, creator, 5, None, None)
    if b == 5:
        yield (state, at, lock, creator, 6 if state == "ENDS" else RESUMED_BEHIND_ITS_END, None, None)
    if b == 6 and lock is None:
        yield ("ENDED", at, lock, creator, 7, None, None)


def has_bad_end(looks_twice):
    """Whether some interleaving resumes a thread behind its end."""
    seen, todo = {BEGIN}, [BEGIN]
    while todo:
        it = todo.pop()
        for following in (*of_creator(it), *of_b(it, looks_twice)):
            if following not in seen:
                seen.add(following)
                todo.append(following)
    return any(it[4] == RESUMED_BEHIND_ITS_END for it in seen)
