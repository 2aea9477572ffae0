"""A small Bolt server for tests: it counts what it commits, and breaks connections when a test wants it to."""
import contextlib
import socket
import struct
import threading

import paths  # noqa: F401
import bolt
from bolt.values import pack_structure, unpack_message

HELLO, GOODBYE, RESET, RUN, BEGIN, COMMIT, ROLLBACK, DISCARD, PULL, LOGON = (
    0x01, 0x02, 0x0F, 0x10, 0x11, 0x12, 0x13, 0x2F, 0x3F, 0x6A)
SUCCESS, RECORD, IGNORED, FAILURE = 0x70, 0x71, 0x7E, 0x7F
TEXTS = {HELLO: "HELLO", GOODBYE: "GOODBYE", RESET: "RESET", RUN: "RUN", BEGIN: "BEGIN", COMMIT: "COMMIT",
         ROLLBACK: "ROLLBACK", DISCARD: "DISCARD", PULL: "PULL", LOGON: "LOGON"}
# What a query of these texts is refused by.
CODES = {"NOPE": "Neo.ClientError.Statement.SyntaxError", "BUSY": "Neo.TransientError.General.DatabaseUnavailable"}
CLASH = "Neo.ClientError.Transaction.TokenClash"
NEO4J, OURS = "Neo4j/5.1", "BoltTable/1"
# The answer to a handshake.
VERSION = bytes([0, 0, 1, 5])


class Broke(Exception):
    """The connection has ended, by the client or because a test wants it."""


class Serving:
    """One connection of a fake server."""

    def __init__(self, fake, client, number):
        self.fake, self.client, self.asked = fake, client, fake.asked[number]
        self.name = fake.names[min(number, len(fake.names) - 1)]
        self.in_transaction, self.has_failed, self.token, self.rest = False, False, None, []

    def serve(self):
        with self.client, contextlib.suppress(OSError, Broke):
            self._exactly(20)
            self.client.sendall(VERSION)
            while True:
                self._take(*self._read())

    def _take(self, tag, fields):
        self.asked.append(TEXTS[tag])
        if TEXTS[tag] in self.fake.breaks:
            raise Broke
        if self.has_failed and tag not in (RESET, GOODBYE):
            self._put(IGNORED)
        else:
            self._answer(tag, fields)

    def _answer(self, tag, fields):
        if tag == GOODBYE:
            raise Broke
        if tag == RUN:
            self._run(*fields)
        elif tag in (PULL, DISCARD):
            self._pull(tag, fields[0]["n"])
        elif tag == COMMIT:
            self._commit()
        else:
            if tag in (RESET, BEGIN, ROLLBACK):
                self.in_transaction, self.has_failed, self.rest = tag == BEGIN, False, []
                self.token = fields[0].get("tx_metadata", {}).get("token") if tag == BEGIN else None
            hints = {} if self.fake.hints is None else {"hints": self.fake.hints}
            hello = {"server": self.name, "connection_id": "bolt-1", **hints}
            self._put(SUCCESS, hello if tag == HELLO else {})

    def _run(self, text, parameters, _):
        self.fake.queries.append((text, parameters))
        if text in CODES:
            return self._fail(CODES[text])
        self.rest = list(self.fake.rows)
        self._put(SUCCESS, {"fields": ["x"]})

    def _pull(self, tag, count):
        taken = self.rest if count == -1 else self.rest[:count]
        self.rest = self.rest[len(taken):]
        for row in taken if tag == PULL else ():
            self._put(RECORD, list(row))
        if self.rest:
            return self._put(SUCCESS, {"has_more": True})
        if not self.in_transaction:
            self._keep()
        self._put(SUCCESS, {} if self.in_transaction else {"bookmark": "b:1"})

    def _commit(self):
        with self.fake.lock:
            self.fake.asked_commits += 1
            number = self.fake.asked_commits
        if number in self.fake.unheard:
            raise Broke
        if number not in self.fake.failed or not self.fake.keeps:
            self._keep()
        if number in self.fake.failed:
            return self._fail(self.fake.failed[number])
        if number in self.fake.lost:
            raise Broke
        self.in_transaction = False
        self._put(SUCCESS, {"bookmark": "b:1"})

    def _fail(self, code):
        self.has_failed = True
        self._put(FAILURE, {"code": code, "message": "no"})

    def _keep(self):
        with self.fake.lock:
            if not (self.fake.keeps and self.token is not None and self.token in self.fake.commits):
                self.fake.commits.append(self.token)

    def _exactly(self, count):
        data = b""
        while len(data) < count:
            piece = self.client.recv(count - len(data))
            if not piece:
                raise Broke
            data += piece
        return data

    def _read(self):
        message = b""
        while True:
            size, = struct.unpack(">H", self._exactly(2))
            if size:
                message += self._exactly(size)
            elif message:
                return unpack_message(message)

    def _put(self, tag, *fields):
        message = pack_structure(tag, fields, bolt.V5_1)
        chunks = [message[at:at + 60_000] for at in range(0, len(message), 60_000)]
        self.client.sendall(b"".join(struct.pack(">H", len(it)) + it for it in chunks) + bytes(2))


class Table:
    """A server of Bolt 5.1 without its connections: its answers, and what it has committed.

    - `names`: its name in the answer to HELLO, for each connection; the last one for all further connections.
    - `lost`: numbers of COMMITs, from 1, that it commits without an answer. The connection ends.
    - `unheard`: numbers of COMMITs that it doesn't commit. The connection ends.
    - `failed`: the code of the FAILURE that answers a COMMIT, by its number. Without tokens it has committed.
    - `hints`: the hints in its answer to HELLO, None for no hints.
    - `breaks`: texts of messages, as `DISCARD`, at which the connection ends.
    - `keeps`: if it keeps tokens, a second commit under a token adds nothing.
    - `rows`: the rows of each query. A query of its own is committed with its last row.

    `commits` has the token of each committed transaction, None without one."""

    def __init__(self, names=(NEO4J,), lost=(), unheard=(), breaks=(), keeps=False, rows=((1,),), failed=None,
                 hints=None):
        self.names, self.lost, self.unheard, self.breaks = names, lost, unheard, breaks
        self.keeps, self.rows, self.failed, self.hints = keeps, rows, failed or {}, hints
        self.commits, self.asked, self.queries = [], [], []
        self.asked_commits, self.lock = 0, threading.Lock()


class Fake(Table):
    """A server at a free port. A `with` block ends it."""

    serving = Serving

    def __init__(self, *words, **how):
        super().__init__(*words, **how)
        self.threads, self.clients = [], []
        self.listener = socket.create_server(("127.0.0.1", 0))
        self.port = self.listener.getsockname()[1]
        self.accepting = threading.Thread(target=self._accept, daemon=True)
        self.accepting.start()

    def __enter__(self):
        return self

    def __exit__(self, *_):
        with contextlib.suppress(OSError):
            self.listener.shutdown(socket.SHUT_RDWR)
        self.listener.close()
        self.accepting.join()
        for client in self.clients:
            with contextlib.suppress(OSError):
                client.shutdown(socket.SHUT_RDWR)
        for thread in self.threads:
            thread.join()

    @property
    def connections(self):
        """How many connections were made."""
        return len(self.asked)

    def _accept(self):
        with contextlib.suppress(OSError):
            while True:
                client, _ = self.listener.accept()
                client.setsockopt(socket.IPPROTO_TCP, socket.TCP_NODELAY, 1)
                self.asked.append([])
                self.clients.append(client)
                serving = self.serving(self, client, len(self.asked) - 1)
                thread = threading.Thread(target=serving.serve, daemon=True)
                self.threads.append(thread)
                thread.start()
