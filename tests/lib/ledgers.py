"""`lasting_server` over a file, also if it doesn't serve it, and checks of the ledger in that file."""
import contextlib
import pathlib
import re
import shutil
import signal
import sqlite3
import tempfile
import threading
import unittest

from tests.lib import preloads, programs
from tests.lib.client import LONGEST, Client, text

TABLE = ("CREATE TABLE entry (number INTEGER PRIMARY KEY, opening INTEGER NOT NULL, connection INTEGER NOT NULL, "
         "ordinal INTEGER NOT NULL, token TEXT UNIQUE, writes BLOB NOT NULL) STRICT")
# A server that serves five transactions makes at least so many disk calls, and at most so many.
LEAST_CALLS, MOST_CALLS = 9, 500


class Server:
    """A `lasting_server` that was started over a file. `port` is None if it doesn't serve the file."""

    def __init__(self, file, **how):
        self.said = tempfile.TemporaryFile("w+", encoding="utf-8")
        self.process = programs.start("lasting_server", ["0", file], stderr=self.said, **how)
        line = self.process.stdout.readline()
        self.port = int(line.split()[1]) if line.startswith("listening ") else None
        # The server blocks if nobody reads its standard output.
        self.reader = threading.Thread(target=self.process.stdout.read, daemon=True)
        self.reader.start()

    def ended(self):
        """Waits until the server ends by itself. Returns its status and what it wrote to standard error."""
        status = self.process.wait(timeout=LONGEST)
        self.said.seek(0)
        return status, self.said.read()

    def __enter__(self):
        return self

    def __exit__(self, *_):
        self.process.send_signal(signal.SIGKILL)
        self.process.wait()
        self.reader.join()
        programs.end(self.process)
        self.said.close()


class LedgerTest(unittest.TestCase):
    """A test of files with a ledger, in a folder of its own."""

    maxDiff = None

    def setUp(self):
        programs.built("lasting_server")
        folder = tempfile.TemporaryDirectory(prefix="bolt-ledger-")
        self.addCleanup(folder.cleanup)
        self.folder = pathlib.Path(folder.name)

    def check_file(self, file, before, told):
        """Checks the ledger in a file, and returns its entries.

        SQLite finds the file whole. The entries are numbered from 1, and begin with those of `before`.
        No token is there twice. `told` has the place, the key and the value of each transaction that was reported
        committed: its entry has just these.
        """
        whole, rows = entries(file)
        self.assertEqual([("ok",)], whole, "SQLite's test of integrity")
        self.assertEqual(before, rows[:len(before)], "the entries that the file had before")
        self.assertEqual([*range(1, len(rows) + 1)], [number for number, _, _ in rows], "the entries' numbers")
        found = {token: (number, writes) for number, token, writes in rows}
        self.assertEqual(len(rows), len(found), "one entry for each token")
        wanted = {token: (place, text(key) + text(value)) for token, (place, key, value) in told.items()}
        self.assertEqual(wanted, {token: found.get(token) for token in wanted}, "the transactions reported committed")
        return rows

    def send_five(self, port, told):
        """Has a client send five transactions under tokens, until one fails.

        It adds each that is reported committed to `told`.
        """
        with contextlib.suppress(OSError), Client(port) as client:
            for at in range(5):
                told[f"t{at}"] = client.commit(f"t{at}", f"k{at}", "v"), f"k{at}", "v"

    def check_next_server(self, file, told):
        """Sends five transactions to a server that opens the file next.

        Fails if one that was reported committed before, in `told`, has another place now.
        It also fails if the ledger doesn't have just five entries.
        """
        again = {}
        with Server(file) as server:
            if server.port is None:
                self.fail(f"the next server doesn't serve the file: {server.ended()}")
            self.send_five(server.port, again)
        self.assertEqual([f"t{at}" for at in range(5)], [*again], "the transactions that the next server commits")
        self.assertEqual(told, {token: again[token] for token in told}, "what the next server reports of them")
        self.assertEqual(5, len(self.check_file(file, [], again)), "the ledger's length")


class DiskTest(LedgerTest):
    """A test of servers whose disk fails."""

    def check_each_call(self, **forever):
        """Fails each write and each sync of the server in turn. After that the next server opens the file."""
        library = preloads.compiled("disk", self.folder)
        step = programs.count(1, 13)
        number, ended, calls = 1 - step, 0, MOST_CALLS
        # A server that makes fewer calls than this number felt no failure.
        while calls >= number and number < MOST_CALLS:
            number += step
            with self.subTest(call=number):
                said, calls = self.check_call(number, library, forever)
                ended += "the disk failed" in said
        self.assertGreater(number, LEAST_CALLS, "the first disk call that no server made")
        self.assertLess(number, MOST_CALLS, "the first disk call that no server made")
        self.assertGreater(ended, 0, "servers that a failing disk ended while they served")

    def check_call(self, number, library, forever):
        """Fails the disk call of this number.

        Returns what the server wrote to standard error, and how many disk calls it made.
        """
        file, told, said = self.folder / f"fails{number}.db", {}, ""
        count = self.folder / "count"
        count.unlink(missing_ok=True)
        with Server(file, env=preloads.env(library, FAIL=number, COUNT=count, **forever)) as server:
            if server.port is not None:
                self.send_five(server.port, told)
            if len(told) < 5:
                status, said = server.ended()
                # A fault of the connection may come first.
                self.assertRegex(said, rf"\A(fault I[123]\n)*{re.escape(str(file))}: [^\n]+\n\Z")
                self.assertEqual(1, status)
        if "the disk failed" in said:
            self.assertNotIn("fault I3", said, "a failed disk is reported as out of memory")
        calls = int(count.read_text())
        self.check_next_server(file, told)
        return said, calls


def entries(file):
    """Reads a copy of the file. Returns SQLite's test of integrity, and each entry's number, token and writes."""
    with tempfile.TemporaryDirectory(prefix="bolt-ledger-") as copies:
        for name in (file.name, f"{file.name}-wal"):
            with contextlib.suppress(FileNotFoundError):
                shutil.copy(file.parent / name, copies)
        with contextlib.closing(sqlite3.connect(pathlib.Path(copies) / file.name)) as database:
            whole = database.execute("PRAGMA integrity_check").fetchall()
            rows = database.execute("SELECT number, token, writes FROM entry ORDER BY number").fetchall()
    return whole, rows


def make(file, *statements):
    """Makes a database of these statements. A statement is a text, or a pair of a text and its values."""
    with contextlib.closing(sqlite3.connect(file)) as database:
        for statement in statements:
            database.execute(*(statement if isinstance(statement, tuple) else (statement,)))
        database.commit()


def entry(number, token=None, writes=text("k") + text("v"), connection=0, opening=1, ordinal=0):
    """Returns the statement that inserts an entry."""
    return "INSERT INTO entry VALUES (?, ?, ?, ?, ?, ?)", (number, opening, connection, ordinal, token, writes)
