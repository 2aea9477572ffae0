"""A server that gives each connection fixed answers, and the bytes of such answers."""
import contextlib
import socket

from tests.lib import proxy

V51, V50 = bytes.fromhex("00000105"), bytes.fromhex("00000005")
DONE, IGNORED, ROW = bytes.fromhex("B170A0"), bytes.fromhex("B07E"), bytes.fromhex("B1719101")
# A server that closes the connection without an answer.
CLOSED = b""
# Codes of a FAILURE. BUSY means that the client may try again, CLASH that the token was used for other writes.
REFUSED = "Neo.ClientError.Statement.SyntaxError"
BUSY = "Neo.TransientError.General.DatabaseUnavailable"
CLASH = "Neo.ClientError.Transaction.TokenClash"
UNAUTHORIZED = "Neo.ClientError.Security.Unauthorized"


def text(said):
    """Returns a text as PackStream has it; at most 255 bytes."""
    data = said.encode()
    return (bytes([0x80 + len(data)]) if len(data) < 16 else bytes([0xD0, len(data)])) + data


def failure(code, message="no"):
    """Returns the message FAILURE with this code and text."""
    return bytes.fromhex("B17FA2") + text("code") + text(code) + text("message") + text(message)


def hello(name):
    """Returns the answer to HELLO of a server with this name."""
    return bytes.fromhex("B170A1") + text("server") + text(name)


def told(*messages):
    """Returns the messages as they are sent, each in one chunk."""
    return b"".join(len(it).to_bytes(2, "big") + it + bytes(2) for it in messages)


# The answers to HELLO, LOGON, BEGIN, RUN and DISCARD, which a transaction sends before its COMMIT.
BEFORE = [DONE] * 5


class Server(proxy.Listening):
    """Gives each connection the answer at its index, and every later connection the last answer.

    An answer is a tuple of parts: the version, and then what the server sends after each read. Bytes are the same with
    two parts, of which the version is the first four bytes. After the last part the server ends its side of the
    connection if `ends` is true. `asked` holds, for each connection, what the client sent after its handshake.
    """

    def __init__(self, answers, ends=True):
        self.answers, self.ends, self.asked = answers, ends, []
        super().__init__()
        self.port = self.listener.getsockname()[1]

    def answer(self, client):
        """Serves one connection until the client closes it."""
        answer = self.answers[min(len(self.asked), len(self.answers) - 1)]
        with client, contextlib.suppress(OSError):
            client.settimeout(60)
            self.asked.append(b"")
            client.recv(20, socket.MSG_WAITALL)
            first, *parts = answer if isinstance(answer, tuple) else (answer[:4], *([answer[4:]] if answer[4:] else []))
            client.sendall(first)
            for part in parts:
                self.asked[-1] += client.recv(65536)
                client.sendall(part)
            if self.ends:
                client.shutdown(socket.SHUT_WR)
            while part := client.recv(65536):
                self.asked[-1] += part
