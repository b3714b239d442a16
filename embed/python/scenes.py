#!/usr/bin/env python3
"""Tries the Python module: two producers and a consumer in threads, each wrong call with its error, bytes, what is left, and the end of contexts.

    embed/python/scenes.py

embed/test.py runs it. The library is that of TOWER_LIBRARY, or embed/out/libtower.so. The last line counts; the status is 1 if a row differs.
"""
import argparse
import os
import sys
import threading
import time

sys.dont_write_bytecode = True
EACH = 600


class Rows:
    """Counts rows, and prints those that differ."""

    def __init__(self):
        self.count, self.faults = 0, 0

    def same(self, name, came, wanted):
        self.count += 1
        if came != wanted:
            self.faults += 1
            print(f"NOT SO: {name}: {came!r}, and wanted is {wanted!r}")

    def raises(self, name, error, status, call, *words):
        """A row: the call raises this error."""
        try:
            came = call(*words)
        except Exception as raised:  # pylint: disable=broad-except
            came = type(raised), getattr(raised, "status", None)
        self.same(name, came, (error, status))


def produced(rows, tower):
    """Each producer's numbers are received in order, while a third thread computes."""
    seen, began = [[], []], time.perf_counter()
    with tower.Tower([4], callers=3) as t:
        senders, last = [t.caller(), t.caller()], t.caller()

        def produce(me):
            for number in range(EACH):
                senders[me].send(0, me, number)

        def consume():
            for me, number in last.messages(0):
                seen[me].append(number)

        threads = [threading.Thread(target=produce, args=(me,)) for me in (0, 1)]
        consumer = threading.Thread(target=consume)
        for thread in [consumer, *threads]:
            thread.start()
        for thread in threads:
            thread.join()
        senders[0].close(0)
        consumer.join()
        rows.raises("a closed buffer", tower.Closed, 16, senders[1].send, 0, 7)
    rows.same("each producer's numbers", seen, [list(range(EACH))] * 2)
    print(f"python: {2 * EACH / (time.perf_counter() - began):.0f} messages a second")


def wrong_calls(rows, tower):
    t = tower.Tower([2, 1], 2)
    caller, other = t.caller(), t.caller()
    for name, call, words in [
            ("buffer 2", caller.send, (2, 1)), ("buffer -1", caller.send, (-1, 1)), ("buffer 2^64", caller.recv, (2**64,)), ("no words", caller.send, (0,)),
            ("nine words", caller.send, (0, *range(9))), ("no bytes", caller.send_bytes, (0, b"")), ("64 bytes", caller.send_bytes, (0, bytes(64))),
            ("close of buffer 2", caller.close, (2,)), ("left of buffer 2", t.left, (2,))]:
        status = {"no words": 66, "no bytes": 66, "nine words": 67, "64 bytes": 67}.get(name, 65)
        rows.raises(name, tower.BadNumber, status, call, *words)
    rows.raises("a word of 65 bits", OverflowError, None, caller.send, 0, 2**64)
    rows.raises("a word below 0", OverflowError, None, caller.send, 0, -1)
    rows.raises("a buffer by name", TypeError, None, caller.close, "0")
    rows.raises("all callers are taken", tower.Busy, 82, t.caller)
    rows.raises("a caller has not left", tower.Busy, 83, t.shut)
    caller.send(0, 2**64 - 1, 0)
    caller.send_bytes(0, b"text")
    rows.same("left", t.left(0), 2)
    other.leave()
    rows.raises("a caller that has left", tower.Gone, 81, other.send, 0, 1)
    caller.leave()
    rows.same("rest", t.shut(), [[(2**64 - 1, 0), (int.from_bytes(b"text\0\0\0\4", sys.byteorder),)], []])
    for name, call, words in [("shut again", t.shut, ()), ("send after", caller.send, (0, 1)), ("take after", t.caller, ()), ("left after", t.left, (0,))]:
        rows.raises(name, tower.Gone, 81, call, *words)
    for name, status, words in [("17 callers", 68, ([1], 17)), ("no callers", 68, ([1], 0)), ("17 buffers", 69, ([1] * 17, 1)), ("capacity 0", 70, ([0], 1)),
                                ("capacity 33", 70, ([33], 1)), ("capacity 256", 70, ([256], 1)), ("callers below 0", 68, ([1], -1))]:
        rows.raises(name, tower.BadNumber, status, tower.Tower, *words)


def both_kinds(rows, tower):
    with tower.Tower([3], 1) as t, t.caller() as caller:
        for data in (b"x", b"1234567", b"12345678", bytes(range(63))):
            caller.send_bytes(0, data)
            rows.same("bytes", caller.recv_bytes(0), data)
        caller.send(0, 5, 6)
        rows.same("words where bytes are asked for", caller.recv_bytes(0), (5, 6))


def in_use(rows, tower):
    """A caller that waits in another thread; a message ends the wait, and the processor is free meanwhile."""
    with tower.Tower([1], 2) as t:
        waits, sends, got = t.caller(), t.caller(), []
        thread = threading.Thread(target=lambda: got.append(waits.recv(0)))
        thread.start()
        time.sleep(0.2)
        rows.raises("a caller in a call", tower.Busy, 80, waits.send, 0, 1)
        sends.send(0, 8)
        thread.join()
        rows.same("the message", got, [(8,)])


def forked(rows, tower):
    with tower.Tower([1], 1) as t, t.caller() as caller:
        child = os.fork()
        if not child:
            try:
                caller.send(0, 1)
            except tower.Gone as gone:
                os._exit(gone.status)
            os._exit(1)
        rows.same("a child of a fork", os.waitstatus_to_exitcode(os.waitpid(child, 0)[1]), 86)


def main():
    argparse.ArgumentParser(description=__doc__, formatter_class=argparse.RawDescriptionHelpFormatter).parse_args()
    import tower  # pylint: disable=import-outside-toplevel
    rows = Rows()
    for scene in (produced, wrong_calls, both_kinds, in_use, forked):
        scene(rows, tower)
    print(f"python: {rows.count - rows.faults} passed, {rows.faults} failed")
    return 1 if rows.faults else 0


if __name__ == "__main__":
    sys.exit(main())
