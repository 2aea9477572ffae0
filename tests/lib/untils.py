"""Runs `examples query` through a proxy that cuts its connections, and counts what the server's ledger got."""
import re
import socket

from tests.lib import programs, proxy

HANDSHAKE = bytes.fromhex("6060B01700000105") + bytes(12)
# HELLO, LOGON, RUN of ONE, PULL, and GOODBYE. The result ends with the bookmark of the entry that it adds.
ASKS = ["B101A18A757365725F6167656E7483742F31",
        "B16AA386736368656D65856261736963897072696E636970616C84757365728B63726564656E7469616C738470617373",
        "B310834F4E45A0A0", "B13FA1816EFF", "B002"]


def entries(port):
    """Returns the number of entries of the server's ledger. It adds one, which is counted."""
    asked = b"".join(len(it).to_bytes(2, "big") + it + bytes(2) for it in map(bytes.fromhex, ASKS))
    said = b""
    with socket.create_connection(("127.0.0.1", port), timeout=120) as stream:
        stream.sendall(HANDSHAKE + asked)
        while part := stream.recv(65536):
            said += part
    return int(re.findall(rb"bk:(\d+)", said)[-1])


class Sends:
    """Runs of `examples query` against one server. Each has its own token, and `puts` queries in its transaction.

    Nobody else may add entries to the server's ledger. `options` are further words of the program.
    """

    def __init__(self, port, puts, options=()):
        self.port, self.puts, self.options, self.token, self.entries = port, puts, options, 0, entries(port)

    def added(self, others):
        """Returns how many entries came since the last count, without `others` entries that the caller knows of."""
        now = entries(self.port)
        added, self.entries = now - self.entries - 1 - others, now
        return added

    def query(self, port, tries, **how):
        """Runs the program at a port under the next token. Returns both outputs and the status."""
        self.token += 1
        words = ["query", port, f"{self.puts} token {self.token}", tries, self.puts, *self.options]
        done = programs.run("examples", words, **how)
        return done.stdout, done.stderr, done.returncode

    def through(self, tries, cuts):
        """Runs the program with these cuts of its first connections.

        Returns the lines of standard output, the status, how many entries the transaction added, and how many bytes
        passed on each connection.
        """
        with proxy.Door(self.port, cuts) as door:
            out, _, status = self.query(door.listener.getsockname()[1], tries)
        # The query after the transaction adds an entry too.
        return out.splitlines(), status, self.added(1), door.passed
