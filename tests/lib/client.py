"""A Bolt client of this product's servers that writes its messages byte by byte."""
import contextlib
import re
import socket

from tests.lib import programs

HANDSHAKE = bytes.fromhex("6060B01700000105") + bytes(12)
HELLO = bytes.fromhex("B101A18A757365725F6167656E7483742F31")
LOGON = bytes.fromhex("B16AA386736368656D65856261736963897072696E636970616C84757365728B"
                      "63726564656E7469616C738470617373")
PULL, COMMIT, RESET, GOODBYE = [bytes.fromhex(it) for it in ("B13FA1816EFF", "B012", "B00F", "B002")]
# The result of a transaction whose token is already used for other writes.
CLASH = "a clash"
# How many seconds a client waits for an answer.
LONGEST = 2 * programs.PATIENCE


def text(it):
    """Returns a text of fewer than 256 bytes in its shortest PackStream encoding."""
    data = it.encode()
    return (bytes([0x80 | len(data)]) if len(data) < 16 else bytes([0xD0, len(data)])) + data


def begin(token):
    """Returns a BEGIN under a token."""
    return bytes([0xB1, 0x11, 0xA1]) + text("tx_metadata") + bytes([0xA1]) + text("token") + text(token)


def run(query, **params):
    """Returns a RUN of a query whose parameters are already encoded."""
    pairs = b"".join(text(name) + value for name, value in params.items())
    return bytes([0xB3, 0x10]) + text(query) + bytes([0xA0 | len(params)]) + pairs + bytes([0xA0])


def put(key, value):
    """Returns a RUN that puts a text under a key."""
    return run("PUT", key=text(key), value=text(value))


def framed(message):
    """Returns a message of fewer than 65,536 bytes in one chunk, with its end mark."""
    return len(message).to_bytes(2, "big") + message + bytes(2)


class Client:
    """A connection that is logged on. It raises an OSError if the server is gone or refuses."""

    def __init__(self, port, logon=LOGON):
        self.socket = socket.create_connection(("127.0.0.1", port), timeout=LONGEST)
        self.socket.setsockopt(socket.IPPROTO_TCP, socket.TCP_NODELAY, 1)
        self.file = self.socket.makefile("rb")
        try:
            self.socket.sendall(HANDSHAKE + framed(HELLO) + framed(logon))
            self.take(4)
            for _ in range(2):
                self.summary()
        except OSError:
            self.close()
            raise

    def take(self, count):
        """Reads so many bytes."""
        data = self.file.read(count)
        if len(data) < count:
            raise ConnectionError("the server is gone")
        return data

    def message(self):
        """Reads the next message."""
        while True:
            message = b""
            while count := int.from_bytes(self.take(2), "big"):
                message += self.take(count)
            if message:
                return message

    def summary(self):
        """Reads messages up to the next summary, and returns it."""
        while (message := self.message())[1:2] == b"\x71":
            pass
        return message

    def commit(self, token, key, value):
        """Commits one write under a token. Returns the entry's place in the ledger, or CLASH."""
        self.socket.sendall(b"".join(framed(it) for it in (begin(token), put(key, value), PULL, COMMIT)))
        for _ in range(3):
            self.summary()
        last = self.summary()
        if b"TokenClash" in last:
            self.socket.sendall(framed(RESET))
            self.summary()
            return CLASH
        found = re.search(rb"bk:(\d+)", last)
        if not found:
            raise ConnectionError("the server refuses")
        return int(found[1])

    def close(self):
        """Says GOODBYE, and closes the socket."""
        with contextlib.suppress(OSError):
            self.socket.sendall(framed(GOODBYE))
        self.file.close()
        self.socket.close()

    def __enter__(self):
        return self

    def __exit__(self, *_):
        self.close()
