"""A server in memory, and the client's end of a connection to it: a socket, or a stream of asyncio.

The connection ends after any byte of either way, and any call of its socket fails or is interrupted."""
import paths  # noqa: F401

import asyncio
import contextlib
import socket
import types
import unittest.mock

import bolt
import bolt.aio
import fakes
import rules

MANY = 1 << 40
# A socket that was shut down for writing: a send of the system's own fails, and has sent nothing.
SHUT, PEER = socket.socketpair()
SHUT.shutdown(socket.SHUT_WR)


class Waits(Exception):
    """The server waits for more bytes."""


class Talk(fakes.Serving):
    """The server's end of a connection. `requests` are those that came whole. `said` are all bytes of its answers."""

    def __init__(self, table):
        table.asked.append([])
        super().__init__(table, self, len(table.asked) - 1)
        self.heard, self.said, self.at, self.requests, self.has_ended = b"", b"", 0, [], False
        self.answer = None

    def sendall(self, data):
        """Takes what the server says."""
        self.said += data

    def _exactly(self, count):
        if len(self.heard) - self.at < count:
            raise Waits
        self.at += count
        return self.heard[self.at - count:self.at]

    def _put(self, tag, *fields):
        super()._put(tag, *fields)
        self.answer = tag, bool(fields and isinstance(fields[0], dict) and fields[0].get("has_more"))

    def hear(self, data):
        """Takes bytes of the client, and answers the messages that have come whole."""
        self.heard += data
        with contextlib.suppress(Waits):
            while not self.has_ended:
                begins = self.at
                try:
                    self._next(begins)
                except Waits:
                    self.at = begins
                    raise

    def _next(self, begins):
        if not begins:
            self._exactly(20)
            return self.sendall(fakes.VERSION)
        tag, fields = self._read()
        try:
            self._take(tag, fields)
        except fakes.Broke:
            self.has_ended = True
        else:
            has_count = tag in (fakes.PULL, fakes.DISCARD) and fields[0]["n"] != -1
            self.requests.append(rules.Asked(fakes.TEXTS[tag], has_count, begins, *self.answer, len(self.said)))


class Line:
    """A connection. From `arm` on it ends after `told` bytes of the server or `asked` bytes of the client.

    `fails` has the number of a call of the socket from then on, from 0, whether it fails after it did its work, and
    the exception that it raises. `by_system`: the send after the last byte fails as the system's own does.

    `heard` bytes came to the client. `gone` bytes of its own went out, and `handed` bytes may have."""

    def __init__(self, table):
        self.talk = Talk(table)
        self.taken = self.heard = self.gone = self.handed = 0
        self.arm()

    def arm(self, told=MANY, asked=MANY, fails=None, by_system=True):
        self.by_system, self.fails, self.is_shut = by_system, fails, False
        self.told, self.asked = len(self.talk.said) + told, self.gone + asked
        self.calls = 0

    def _called(self, work, *words):
        """Does the work of a call of the socket, unless the call fails before it.

        After a failure the server says no more, unless that was a send that did its work."""
        number, is_after, failure = self.fails or (None, None, None)
        fails, self.calls = number == self.calls, self.calls + 1
        if fails and not is_after:
            self.is_shut = True
            raise failure
        found = work(*words)
        if fails:
            self.is_shut = work == self._get
            raise failure
        return found

    def put(self, data):
        """Sends what may go out, and returns how many bytes that are."""
        self.handed = self.gone + len(data)
        count = self._called(self._put, data)
        self.handed = self.gone
        return count

    def _put(self, data):
        data = data[:self.asked - self.gone]
        if not data:
            raise BrokenPipeError(32, "nothing more goes out")
        self._pass(data)
        return len(data)

    def hand(self, data):
        """Takes all, as a transport of asyncio does, and sends what may go out."""
        self.handed += len(data)
        self._called(self._pass, data[:self.asked - self.gone])

    def _pass(self, data):
        self.gone += len(data)
        self.talk.hear(data)

    def get(self):
        """Returns what the server has said since, no bytes at its end."""
        piece = self._called(self._get)
        self.heard += len(piece)
        return piece

    def _get(self):
        piece = self.talk.said[self.taken:self.told]
        if not piece and not self.is_over:
            raise AssertionError("nothing will come")
        self.taken += len(piece)
        return piece

    @property
    def is_over(self):
        """True if the server says no more."""
        return self.taken >= self.told or self.gone >= self.asked or self.talk.has_ended or self.is_shut


class Socket:
    """The socket of a line. It is of another package, as one that is wrapped for tracing."""

    def __init__(self, line):
        self.line, self.is_closed = line, False

    def connect(self, address):
        pass

    def setsockopt(self, *_):
        pass

    def settimeout(self, seconds):
        pass

    def shutdown(self, how):
        pass

    def fileno(self):
        return -1

    def close(self):
        self.is_closed = True

    @property
    def send(self):
        is_cut = self.line.by_system and self.line.gone >= self.line.asked
        return SHUT.send if is_cut else self.line.put

    def recv(self, count):
        return self.line.get()


def connected(line, **how):
    """Returns a connection over a line."""
    there = types.SimpleNamespace(**{**vars(socket), "socket": lambda *_: Socket(line)})
    with unittest.mock.patch.object(bolt.session, "socket", there):
        return bolt.connect("127.0.0.1", 7687, auth=("user", "pass"), timeout=None, **how)


class Stream:
    """Both ends of a stream of asyncio over a line, with its transport."""

    def __init__(self, line):
        self.line, self.transport, self.is_closed = line, self, False

    async def read(self, count):
        return self.line.get()

    def write(self, data):
        self.line.hand(data)

    def is_closing(self):
        return self.is_closed

    def abort(self):
        self.is_closed = True

    def close(self):
        self.is_closed = True

    async def wait_closed(self):
        pass


async def connected_by_aio(line, **how):
    """Returns a connection of asyncio over a line."""
    async def opened(*_, **__):
        stream = Stream(line)
        return stream, stream

    with unittest.mock.patch.object(asyncio, "open_connection", opened):
        return await bolt.aio.connect("127.0.0.1", 7687, auth=("user", "pass"), timeout=None, **how)
