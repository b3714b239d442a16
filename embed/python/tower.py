"""The verified thread tower for Python: bounded FIFO buffers between threads.

    import threading
    import tower

    with tower.Tower([4], callers=2) as t:
        def produce(caller):
            with caller:
                for number in range(1, 10):
                    caller.send(0, number)
                caller.close(0)

        threading.Thread(target=produce, args=(t.caller(),)).start()
        print(sum(message[0] for message in t.caller().messages(0)))  # 45

A message is a tuple of 1 to 8 numbers of 64 bits, or 1 to 63 bytes. A wrong call raises an error, and nothing is lost. While a call waits, other threads
run: ctypes lets go of the interpreter's lock. The library is TOWER_LIBRARY, or libtower.so beside this file or in embed/out.
"""
import ctypes
import os
import threading
from pathlib import Path

WORDS, BYTES, CAPACITY = 8, 63, 32
_HERE = Path(__file__).resolve().parent
_PLACES = [_HERE / "libtower.so", _HERE.parent / "out/libtower.so"]


class Error(Exception):
    """A call did nothing. `status` is that of the C library."""
    status = -1

    def __init__(self, status):
        super().__init__(_text(status))
        self.status = status


class Closed(Error):
    """The buffer is closed and, for a receive, empty."""


class NoMemory(Error, MemoryError):
    """There is no memory for a tower, or no room for a stack."""


class BadNumber(Error, ValueError):
    """There is no such buffer, or a message, a capacity or a number of callers is outside of its limits."""


class Busy(Error):
    """Another thread is in a call of this caller, or a caller has not left, or none is left to take."""


class Gone(Error):
    """The caller has left, or its tower was shut, or this process is a child of the one that opened it."""


_KINDS = {1: NoMemory, 5: NoMemory, 16: Closed, **{status: BadNumber for status in (65, 66, 67, 68, 69, 70)}, 80: Busy, 82: Busy, 83: Busy, 81: Gone, 86: Gone}
_NOT_BYTES, _GONE, _NULL = 87, 81, 84


class _Message(ctypes.Structure):
    _fields_ = [("count", ctypes.c_size_t), ("words", ctypes.c_uint64 * WORDS)]


class _Rest(ctypes.Structure):
    _fields_ = [("count", ctypes.c_size_t), ("messages", _Message * CAPACITY)]


def _library():
    place = os.environ.get("TOWER_LIBRARY") or next((str(it) for it in _PLACES if it.exists()), "libtower.so")
    library, at, size = ctypes.CDLL(place), ctypes.c_void_p, ctypes.c_size_t
    for name, arguments in {
            "open": [at, ctypes.c_char_p, size, size], "take": [at, at], "send": [at, size, at, size], "recv": [at, size, at, at], "close": [at, size],
            "send_bytes": [at, size, ctypes.c_char_p, size], "recv_bytes": [at, size, at, at], "leave": [at], "left": [at, size, at], "shut": [at, at]}.items():
        getattr(library, f"tower_{name}").argtypes = arguments
    library.tower_text.restype = library.tower_version.restype = ctypes.c_char_p
    return library


_LIBRARY = _library()
VERSION = _LIBRARY.tower_version().decode()


def _text(status):
    return _LIBRARY.tower_text(status).decode()


def _judged(status):
    if status:
        raise _KINDS.get(status, Error)(status)


def _number(value):
    """A number as C's size_t has it. One that it cannot have is no buffer's and no message's length."""
    if not isinstance(value, int):
        raise TypeError(f"a whole number is needed here, and not {value!r}")
    return value if 0 <= value < 2**64 else 2**64 - 1


class Tower:
    """An open tower, with buffers of these capacities. As a context it lets its callers leave, and shuts."""

    def __init__(self, capacities, callers):
        capacities = [_number(it) for it in capacities]
        at, odd = ctypes.c_void_p(), any(it > 255 for it in capacities)
        _judged(70 if odd else _LIBRARY.tower_open(ctypes.byref(at), bytes(capacities), len(capacities), _number(callers)))
        self._at, self._buffers, self._callers, self._lock = at, len(capacities), [], threading.Lock()

    def caller(self):
        """Takes a caller."""
        at = ctypes.c_void_p()
        with self._lock:
            if self._at is None:
                raise Gone(_GONE)
            _judged(_LIBRARY.tower_take(self._at, ctypes.byref(at)))
            self._callers.append(Caller(self, at))
            return self._callers[-1]

    def left(self, buffer):
        """How many messages are in a buffer: exact while no call on it is running, else an estimate."""
        count = ctypes.c_size_t()
        with self._lock:
            if self._at is None:
                raise Gone(_GONE)
            _judged(_LIBRARY.tower_left(self._at, _number(buffer), ctypes.byref(count)))
        return count.value

    def shut(self):
        """Shuts the tower once each caller that was taken has left. Returns for each buffer the messages that are left."""
        rest = (_Rest * self._buffers)()
        with self._lock:
            if self._at is None:
                raise Gone(_GONE)
            _judged(_LIBRARY.tower_shut(self._at, rest))
            self._at = None
        return [[tuple(it.words[: it.count]) for it in buffer.messages[: buffer.count]] for buffer in rest]

    def __enter__(self):
        return self

    def __exit__(self, *_):
        if self._at is not None:
            for caller in self._callers:
                caller.leave()
            self.shut()


class Caller:
    """A caller, which one thread uses at a time. As a context it leaves at the end."""

    def __init__(self, tower, at):
        self._tower, self._at = tower, at

    def _called(self, name, *arguments):
        if self._tower._at is None:  # pylint: disable=protected-access
            raise Gone(_GONE)
        return getattr(_LIBRARY, f"tower_{name}")(self._at, *arguments)

    def send(self, buffer, *words):
        """Sends a message of these numbers, once the buffer has room and it is this caller's turn."""
        for word in words:
            if not 0 <= word < 2**64:
                raise OverflowError(f"a word is a number of 64 bits, and not {word}")
        _judged(self._called("send", _number(buffer), (ctypes.c_uint64 * len(words))(*words), len(words)))

    def send_bytes(self, buffer, data):
        """Sends 1 to 63 bytes."""
        _judged(self._called("send_bytes", _number(buffer), bytes(data), len(data)))

    def recv(self, buffer):
        """Returns the oldest message, a tuple, once there is one and it is this caller's turn. Raises Closed if the buffer is closed and empty by then."""
        words, count = (ctypes.c_uint64 * WORDS)(), ctypes.c_size_t()
        _judged(self._called("recv", _number(buffer), words, ctypes.byref(count)))
        return tuple(words[: count.value])

    def recv_bytes(self, buffer):
        """As recv; returns bytes if the message was sent as bytes, and else a tuple of its words."""
        room, count = (ctypes.c_uint64 * WORDS)(), ctypes.c_size_t()
        status = self._called("recv_bytes", _number(buffer), room, ctypes.byref(count))
        if status == _NOT_BYTES:
            return tuple(room[: count.value // 8])
        _judged(status)
        return bytes(room)[: count.value]

    def messages(self, buffer):
        """Receives messages until the buffer is closed and empty."""
        while True:
            try:
                message = self.recv(buffer)
            except Closed:
                return
            yield message

    def close(self, buffer):
        """Closes a buffer."""
        _judged(self._called("close", _number(buffer)))

    def leave(self):
        """The caller makes no more calls. One that has left may leave again."""
        if self._tower._at is not None:  # pylint: disable=protected-access
            status = self._called("leave")
            _judged(0 if status == _GONE else status)

    def __enter__(self):
        return self

    def __exit__(self, *_):
        self.leave()
