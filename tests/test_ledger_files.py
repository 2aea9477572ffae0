"""Files that `lasting_server` refuses, and how it ends if its streams, its descriptors or its connections fail."""
import contextlib
import hashlib
import os
import re
import resource
import shutil
import socket
import sqlite3
import subprocess
import time
import unittest

from tests.lib import ledgers, preloads, programs
from tests.lib.client import GOODBYE, HANDSHAKE, HELLO, LONGEST, Client, framed, text
from tests.lib.ledgers import TABLE, Server, entry, make

NOBODY = 65534
OTHER_KIND = "file is not a database that obeys its schema|database disk image is malformed"
OTHER_THING = "the database holds another thing than a ledger"
NO_OPENING = "unable to open database file"
WRITES = text("k") + text("v")


def cut(file):
    """Makes a ledger of 199 entries, and cuts the file in half."""
    make(file, TABLE, *[entry(number, f"t{number}", text("k") + text("v" * 200)) for number in range(1, 200)])
    os.truncate(file, file.stat().st_size // 2)


def change_token(file):
    """Makes a ledger of two entries, and writes the token of one over that of the other."""
    make(file, TABLE, entry(1, "a token"), entry(2, "b token"))
    file.write_bytes(file.read_bytes().replace(b"b token", b"a token"))


def link(file):
    """Makes a ledger whose file has a second name."""
    make(file, TABLE)
    os.link(file, f"{file} too")


def leave_journal(file):
    """Makes a ledger beside a journal."""
    make(file, TABLE)
    file.with_name(f"{file.name}-journal").write_bytes(b"j" * 512)


# Files that are no ledger: what each is, how it is made, and a pattern of what the server says of it.
BAD = [
    ("a file of another kind", lambda file: file.write_text("no database\n" * 1000), OTHER_KIND),
    ("a database of another kind", lambda file: make(file, "CREATE TABLE other (x)"), OTHER_THING),
    ("a table of entries and another", lambda file: make(file, TABLE, "CREATE TABLE other (x)"), OTHER_THING),
    ("another version", lambda file: make(file, TABLE.replace("opening", "run")), OTHER_THING),
    ("a token twice", lambda file: make(file, TABLE.replace(" UNIQUE", ""), entry(1, "t"), entry(2, "t")), OTHER_THING),
    ("a file that is cut", cut, OTHER_KIND),
    ("a hole in the numbers", lambda file: make(file, TABLE, entry(1), entry(3)),
     "the database holds no ledger, at row 2"),
    ("numbers from 0", lambda file: make(file, TABLE, entry(0), entry(1)), "the database holds no ledger, at row 1"),
    ("bytes that are no writes", lambda file: make(file, TABLE, entry(1), entry(2, None, b"\x81")),
     "the database holds no ledger, at row 2"),
    ("a byte too many", lambda file: make(file, TABLE, entry(1, None, WRITES + b"\x00")),
     "the database holds no ledger, at row 1"),
    ("a connection below 0", lambda file: make(file, TABLE, entry(1, None, WRITES, -1)),
     "the database holds no ledger, at row 1"),
    ("a token twice, by its bytes", change_token, OTHER_KIND),
    ("an ordinal below 0", lambda file: make(file, TABLE, entry(1, ordinal=-1)),
     "the database holds no ledger, at row 1"),
    ("no number left for an opening", lambda file: make(file, TABLE, entry(1, opening=2**63 - 1)),
     "the database holds no ledger, at row 0"),
    ("a key that is no text", lambda file: make(file, TABLE, entry(1, None, b"\x01" + text("v"))),
     "the database holds no ledger, at row 1"),
    ("a value that is no cell", lambda file: make(file, TABLE, entry(1, None, text("k") + b"\xB1\x00\x01")),
     "the database holds no ledger, at row 1"),
    ("a file with two names", link, NO_OPENING),
    ("a journal that SQLite left", leave_journal, NO_OPENING),
    ("a device", lambda file: file.symlink_to("/dev/null"), NO_OPENING),
    ("a folder", lambda file: file.mkdir(), NO_OPENING),
    ("a folder that isn't there", None, NO_OPENING),
]


def state_of(path):
    """Returns what a path is, to compare it later: a file by its bytes."""
    if path.is_file():
        return hashlib.sha256(path.read_bytes()).hexdigest()
    return "a folder" if path.is_dir() else "nothing or a device"


class RefusedFiles(ledgers.LedgerTest):
    def assert_refused(self, file, pattern, program=None, **how):
        """Fails if a server doesn't end with status 1 and one line that matches."""
        words = [str(program or programs.built("lasting_server")), "0", str(file)]
        try:
            done = subprocess.run(words, capture_output=True, text=True, stdin=subprocess.DEVNULL,
                                  timeout=LONGEST, **how)
        except subprocess.TimeoutExpired as late:
            self.fail(f"the server still runs after {LONGEST} s, and printed {late.stdout!r}")
        self.assertEqual(1, done.returncode, done.stderr)
        self.assertRegex(done.stderr, rf"\A{re.escape(str(file))}: (the database: )?({pattern})\n\Z")
        self.assertEqual("", done.stdout)

    def test_file_that_is_no_ledger_is_refused_and_unchanged(self):
        for number, (what, make_file, pattern) in enumerate(BAD):
            with self.subTest(what):
                file = self.folder / f"bad{number}"
                if make_file:
                    make_file(file)
                else:
                    file = self.folder / "none" / "ledger.db"
                before = state_of(file)
                self.assert_refused(file, pattern)
                self.assertEqual(before, state_of(file), "the file")

    def test_file_that_another_server_holds_is_refused(self):
        file = self.folder / "held.db"
        with Server(file) as first:
            self.assertIsNotNone(first.port)
            self.assert_refused(file, "database is locked")

    def test_file_that_sqlite_writes_is_refused(self):
        file = self.folder / "written.db"
        make(file, TABLE)
        with contextlib.closing(sqlite3.connect(file, isolation_level=None)) as database:
            database.execute("BEGIN EXCLUSIVE")
            self.assert_refused(file, "database is locked")

    def as_nobody(self):
        """Returns how a server is started without root's rights, from a copy of the program that everybody may run."""
        program = shutil.copy(programs.built("lasting_server"), self.folder / "lasting_server")
        program.chmod(0o755)
        how = {"program": program}
        if os.geteuid() == 0:
            self.folder.chmod(0o755)
            how["user"] = NOBODY
        return how

    def test_file_without_the_right_to_write_is_refused(self):
        file = self.folder / "unwritable.db"
        make(file, TABLE)
        file.chmod(0o444)
        self.assert_refused(file, NO_OPENING, **self.as_nobody())

    def test_folder_without_the_right_to_write_is_refused(self):
        folder = self.folder / "closed"
        folder.mkdir(mode=0o555)
        self.assert_refused(folder / "ledger.db", NO_OPENING, **self.as_nobody())

    def test_file_whose_name_is_not_utf_8_is_refused(self):
        file = os.fsencode(self.folder) + b"/\xFF"
        done = subprocess.run([str(programs.built("lasting_server")), "0", file], capture_output=True, text=True,
                              timeout=LONGEST)
        self.assertEqual((1, "", "error: a word is not UTF-8\n"), (done.returncode, done.stdout, done.stderr))


class Ends(ledgers.LedgerTest):
    def test_faults_go_to_no_client_if_standard_streams_are_closed(self):
        def close():
            os.close(0)
            os.close(2)

        with Server(self.folder / "closed.db", preexec_fn=close) as server:
            self.assertIsNotNone(server.port)
            said = b""
            with socket.create_connection(("127.0.0.1", server.port), timeout=LONGEST) as stream:
                stream.sendall(HANDSHAKE + framed(HELLO))
                # The server gives up the silent client, and reports a fault.
                while piece := stream.recv(65536):
                    said += piece
        self.assertEqual(HANDSHAKE[4:8], said[:4])
        self.assertEqual(b"bolt-0\0\0", said[-8:])

    def test_server_ends_if_no_descriptor_is_free_for_a_connection(self):
        for limit in range(5, 64):
            file = self.folder / f"short{limit}.db"
            bound = {"preexec_fn": lambda: resource.setrlimit(resource.RLIMIT_NOFILE, (limit, limit))}
            with Server(file, **bound) as server:
                if server.port is None:
                    continue
                with contextlib.ExitStack() as held:
                    # The server may have ended before anybody connects.
                    with contextlib.suppress(ConnectionError):
                        held.enter_context(socket.create_connection(("127.0.0.1", server.port), timeout=LONGEST))
                    self.assertEqual((1, f"{file}: no connection comes any more\n"), server.ended())
                return
        self.fail("no server began with fewer than 64 descriptors")

    def test_64_failed_accepts_are_passed_over_and_one_more_ends_the_server(self):
        library = preloads.compiled("accept", self.folder)
        with Server(self.folder / "accepts64.db", env=preloads.env(library, ACCEPTS=64)) as served:
            with Client(served.port) as client:
                self.assertEqual(1, client.commit("t", "k", "v"))
        file = self.folder / "accepts65.db"
        with Server(file, env=preloads.env(library, ACCEPTS=65)) as server:
            self.assertEqual((1, f"{file}: no connection comes any more\n"), server.ended())

    def test_client_is_served_after_one_that_said_goodbye_and_keeps_its_socket(self):
        took = []
        # The server waits 10 s for a silent client. A try on a busy machine may take as long without that.
        while len(took) < 3 and (not took or took[-1] >= 9):
            with Server(self.folder / f"goodbye{len(took)}.db") as server:
                with socket.create_connection(("127.0.0.1", server.port), timeout=LONGEST) as stays:
                    stays.sendall(HANDSHAKE + framed(GOODBYE))
                    self.assertEqual(HANDSHAKE[4:8], b"".join(iter(lambda: stays.recv(4096), b"")))
                    begun = time.monotonic()
                    with Client(server.port) as client:
                        self.assertEqual(1, client.commit("t", "k", "v"))
                        took.append(time.monotonic() - begun)
        self.assertLess(took[-1], 9, "seconds until the second client is answered")


if __name__ == "__main__":
    unittest.main()
