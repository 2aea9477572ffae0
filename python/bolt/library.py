"""The calls of libbolt.so, as include/bolt.h declares them, and a client with the account of its requests."""
from __future__ import annotations

import ctypes
import os
import weakref
from typing import Any, Optional

from .errors import LOST, OUTCOMES, UNKNOWN, NotSent
from .values import Unpacked, unpack_message

OK, NOT_ALLOWED, FULL, CLOSED, MEMORY, BAD_PEER, NO_REQUEST, LARGE, NO_CLIENT = 0, 1, 2, 4, 5, 6, 8, 12, 100
# A request with one of these codes can't be sent at all: it is too long, can't be written, or is no request.
UNSENDABLE = 3, 7, NO_REQUEST
WAITS, MESSAGE, PIPELINE, ALL = 6, 65536, 32, (1 << 63) - 1


class Handle(ctypes.Structure):
    _fields_ = [("at", ctypes.c_void_p)]


class Asked(ctypes.Structure):
    _fields_ = [(it, ctypes.c_uint64) for it in ("ordinal", "rule", "place")]


class Standing(ctypes.Structure):
    _fields_ = [("first", ctypes.c_uint64), *[(it, ctypes.c_uint32) for it in (
        "pending", "phase", "version", "has_ended", "awaits", "padding")]]


def library(path: str) -> Any:
    # A call holds the interpreter's lock: a handle is given to one call at a time, whatever threads ask for outcomes.
    made = ctypes.PyDLL(path)
    code, number, count, text = ctypes.c_uint32, ctypes.c_uint64, ctypes.c_size_t, ctypes.c_char_p
    to = ctypes.POINTER
    calls: tuple[tuple[Any, ...], ...] = (
        ("open", code, code, count), ("close", None), ("ask", code, text, count, to(Asked)),
        ("unsent", code, text, count, to(count)), ("sent", code, count), ("feed", code, text, count, to(count)),
        ("outcome", code, number, to(code)), ("response", code, number, text, count, to(count)),
        ("rows", code, number, to(number), to(number)), ("row", code, number, number, text, count, to(count)),
        ("drop_rows", code, number),
        ("lose", code), ("settle", code), ("state", code, to(Standing)))
    for name, result, *rest in calls:
        call = getattr(made, "bolt_" + name)
        call.restype, call.argtypes = result, [to(Handle), *rest]
    return made


LIBRARY = library(os.environ.get("BOLT_SO") or os.path.join(os.path.dirname(os.path.abspath(__file__)), "libbolt.so"))


def check(code: int) -> None:
    if code:
        raise NotSent(code)


class Client:
    """A client of the library. It has the account of its requests, which no interrupt of Python's can break off.

    A request asks it until its outcome is known. The session that owns the client feeds it.
    If the session is gone, nothing is read any more."""

    handle = Handle()  # null if none was opened

    def __init__(self, versions: int, owner: object) -> None:
        self.handle, self._owner = Handle(), weakref.ref(owner)
        self._taken = self._gone = 0  # how many bytes were taken off, and how many may have gone out
        self._process = os.getpid()
        self._buffer, self._length = ctypes.create_string_buffer(MESSAGE), ctypes.c_size_t()
        self._bytes = memoryview(self._buffer).cast("B")
        check(LIBRARY.bolt_open(self.handle, versions, ALL))

    def close(self) -> None:
        LIBRARY.bolt_close(self.handle)

    def __del__(self) -> None:
        LIBRARY.bolt_close(self.handle)

    def state(self) -> Standing:
        standing = Standing()
        check(LIBRARY.bolt_state(self.handle, standing))
        return standing

    def unsent(self) -> bytes:
        """Returns the next bytes that are to be sent, none if all are."""
        check(LIBRARY.bolt_unsent(self.handle, self._buffer, MESSAGE, self._length))
        return self._bytes[:self._length.value].tobytes()

    def end(self) -> int:
        """Returns how many bytes there are of all that was asked, also of what was sent."""
        check(LIBRARY.bolt_unsent(self.handle, self._buffer, 0, self._length))
        return self._taken + self._length.value

    def goes(self, count: int) -> None:
        """Notes that so many bytes more may be gone if this call is broken off."""
        self._gone = self._taken + count

    def sent(self, count: int) -> None:
        """Notes that so many bytes more have gone out, and none after them."""
        check(LIBRARY.bolt_sent(self.handle, count))
        self._taken += count
        self._gone = self._taken

    def feed(self, piece: bytes) -> int:
        """Feeds bytes of the server, and returns a code. What they say is in the account, whatever the code."""
        return int(LIBRARY.bolt_feed(self.handle, piece, len(piece), self._length))

    def outcome(self, ordinal: int, begins: int) -> Optional[str]:
        """Returns what became of a request whose bytes begin there, None while it waits.

        It is None also if the client was closed meanwhile: the caller that closed it has asked before."""
        told, state = ctypes.c_uint32(), Standing()
        if self._owner() is None:
            LIBRARY.bolt_lose(self.handle)
        if LIBRARY.bolt_outcome(self.handle, ordinal, told):
            return None
        if told.value == WAITS and LIBRARY.bolt_state(self.handle, state):
            return None
        if told.value == WAITS:
            # After the end none waits: the library never took this one.
            return self._lost() if state.has_ended and not state.pending else None
        # If no byte of a request has gone out, it has committed nothing.
        return self._lost() if OUTCOMES[told.value] == UNKNOWN and self.is_unsent(begins) else OUTCOMES[told.value]

    def is_unsent(self, begins: int) -> bool:
        """Returns true if no byte of a request whose bytes begin there can have gone out."""
        return begins >= self._gone

    def _lost(self) -> str:
        """Returns the outcome of what this process hasn't sent. After a fork the parent may send it."""
        return LOST if self._process == os.getpid() else UNKNOWN

    def response(self, ordinal: int) -> list[Any]:
        """Returns the fields of a request's summary."""
        check(LIBRARY.bolt_response(self.handle, ordinal, self._buffer, MESSAGE, self._length))
        return unpack_message(self._bytes[:self._length.value].tobytes())[1]

    def take_rows(self, ordinal: int) -> list[list[Any]]:
        """Returns the held rows of a request, and drops them in the account."""
        held, left, rows = ctypes.c_uint64(), ctypes.c_uint64(), []
        check(LIBRARY.bolt_rows(self.handle, ordinal, held, left))
        row, handle, buffer, text, length = LIBRARY.bolt_row, self.handle, self._buffer, self._bytes, self._length
        for index in range(held.value):
            if code := row(handle, ordinal, index, buffer, MESSAGE, length):
                raise NotSent(code)
            # The list of cells follows the two bytes of a row.
            rows.append(Unpacked(text[2:length.value].tobytes()).value())
        if rows:
            check(LIBRARY.bolt_drop_rows(handle, ordinal))
        return rows
