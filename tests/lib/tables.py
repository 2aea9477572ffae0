"""Reads the table of a server over another connection, to compare it with what a client reported of its commits."""
import re
import socket

from tests.lib import programs

HANDSHAKE = bytes.fromhex("6060B01700000105") + bytes(12)
HELLO = bytes.fromhex("B101A18A757365725F6167656E7483742F31")
LOGON = (b"\xB1\x6A\xA3" b"\x86scheme" b"\x85basic" b"\x89principal" b"\x84user" b"\x8Bcredentials" b"\x84pass")
PULL, GOODBYE = bytes.fromhex("B13FA1816EFF"), bytes.fromhex("B002")
SUCCESS, RECORD = 0x70, 0x71
ABSENT = "absent"
# What the table may show of a key, by the outcome that the client reported of its commit. The outcome is None if the
# client didn't ask for a commit.
ALLOWED = {"COMMITTED": [[1]], "UNKNOWN": [[1], ABSENT], "LOST": [ABSENT], None: [ABSENT]}


def framed(message):
    """Returns a message in one chunk."""
    return len(message).to_bytes(2, "big") + message + bytes(2)


def text(it):
    """Returns a text of fewer than 256 bytes in PackStream."""
    data = it.encode()
    return (bytes([0x80 | len(data)]) if len(data) < 16 else bytes([0xD0, len(data)])) + data


def value(data):
    """Returns a value that is a text of fewer than 256 bytes or an integer of one byte."""
    if data[0] < 0x80:
        return data[0]
    return re.fullmatch(rb"(?:[\x80-\x8f]|\xd0.)(.*)", data, re.S)[1].decode()


class Reader:
    """A connection that runs queries of one column."""

    def __init__(self, port):
        self.stream = socket.create_connection(("127.0.0.1", port), timeout=programs.PATIENCE)
        self.file = self.stream.makefile("rb")
        self.stream.sendall(HANDSHAKE + framed(HELLO) + framed(LOGON))
        self.take(4)
        for _ in range(2):
            self.message()

    def take(self, count):
        data = self.file.read(count)
        if len(data) < count:
            raise ConnectionError("the server closed the connection")
        return data

    def message(self):
        """Returns the next message, which isn't a FAILURE."""
        message = b""
        while length := int.from_bytes(self.take(2), "big"):
            message += self.take(length)
        if message[1] not in (SUCCESS, RECORD):
            raise AssertionError(f"the server answered {message!r}")
        return message

    def run(self, query, parameters=bytes([0xA0])):
        """Returns the values of a query's rows."""
        extra = b"\xA1" + text("mode") + text("r")
        self.stream.sendall(framed(b"\xB3\x10" + text(query) + parameters + extra) + framed(PULL))
        self.message()
        values = []
        while (message := self.message())[1] == RECORD:
            values.append(value(message[3:]))
        return values

    def close(self):
        self.stream.sendall(framed(GOODBYE))
        self.file.close()
        self.stream.close()


def table(port):
    """Returns each key of the server's table with the list of its values."""
    reader = Reader(port)
    try:
        keys = reader.run("KEYS")
        if len(keys) != len(set(keys)):
            raise AssertionError(f"KEYS has a key twice: {sorted(keys)}")
        return {key: reader.run("GET", b"\xA1" + text("key") + text(key)) for key in keys}
    finally:
        reader.close()


def compare(test, outcomes, port):
    """Fails for each key whose value in the table contradicts the outcome of its commit.

    It also fails unless an UNKNOWN commit is in the table after some cuts, and isn't after others.
    """
    shown = table(port)
    for key, outcome in outcomes.items():
        with test.subTest(key=key, outcome=outcome):
            test.assertIn(outcome, ALLOWED)
            test.assertIn(shown.get(key, ABSENT), ALLOWED[outcome])
    unknown = {key in shown for key, outcome in outcomes.items() if outcome == "UNKNOWN"}
    test.assertEqual({True, False}, unknown, "whether UNKNOWN commits are in the table")
