"""Tests the example programs `query` and `driver` at servers that commit, refuse, break off or aren't there."""
import pathlib
import re
import socket
import struct
import subprocess
import tempfile

from tests.data import attempts
from tests.lib import cases, fake_servers, preloads, programs, servers, untils

USAGE = ("usage: examples query PORT TOKEN TRIES PUTS [tokens], examples driver PORT, examples server PORT"
         " or examples engine\n")
MISUSED = [[], ["driver"], ["server"], ["driver", "99999"], ["query", "1", "token", "1"],
           ["query", "1", "token", "1", "-1"], ["driver", "1", "more"], ["engine", "more"],
           ["query", "1", "token", "1", "1", "token"], ["query", "1", "token", "1", "1", "tokens", "more"]]
# What the driver prints if its transaction is committed: the outcome of each request, and the row of GET.
COMMITTED = [*(f"{number}: Done" for number in range(6)), "row [Int(1)]", "6: Done", "7: Committed"]
LOST = "the connection was lost"
ALL_LOST = [f"{number}: Lost, {LOST}" for number in range(8)]
COMMIT_UNKNOWN = [*ALL_LOST[:7], f"7: Unknown, {LOST}"]
REFUSAL = f'1: Refused, Failure {{ code: "{fake_servers.UNAUTHORIZED}", message: "no" }}'
COMMIT = bytes([0, 2, 0xB0, 0x12, 0, 0])
BEGIN = bytes([0xB1, 0x11])
# For a failing standard output: the program and its words, whether a server is there, a pattern of standard error, and
# the status.
WITHOUT_OUTPUT = [
    ("query", ["my-token", "2", "1"], True, "Error: Stands, and then: [^\\n]+\n", 3),
    ("query", ["my-token", "2", "1"], False, f"{attempts.MEANING['Absent']}\nError: Absent, and then: [^\\n]+\n", 7),
    ("driver", [], True, "0: Done, (?:.|\n)*\n7: Committed, [^\\n]+\nError: [^\\n]+\n", 3),
]
# How many entries the run added by what it printed first: the transaction's, and the query's after it. A run without a
# line knows no fate, and has sent nothing.
ADDED = {"Stands": (1, 2), "Open": (0, 1, 2), "Absent": (0, 1), None: (0, 1)}


def setUpModule():
    programs.built("examples")


class ExamplesTest(cases.ProgramTest):
    program = "examples"

    def server(self):
        """Starts `examples server`, and kills it when the test ends."""
        server = servers.ExampleServer()
        self.addCleanup(server.__exit__)
        return server

    def free_port(self):
        """Returns a port that refuses connections until the test ends."""
        held = socket.socket()
        self.addCleanup(held.close)
        held.bind(("127.0.0.1", 0))
        return held.getsockname()[1]


class Words(ExamplesTest):
    def test_wrong_words_are_answered_with_the_usage(self):
        for words in MISUSED:
            with self.subTest(" ".join(words)):
                self.assert_prints(words, "", USAGE, 2)


class Query(ExamplesTest):
    def asked(self, answers, token, tries, options=()):
        """Runs the program against a fake server. Returns its lines, standard error, status, and what it asked for."""
        with fake_servers.Server(answers) as server:
            out, err, status = self.ran(["query", server.port, token, tries, "1", *options])
        return out.splitlines(), err.strip(), status, server.asked

    def test_transaction_is_committed_and_repeated_under_its_token(self):
        port = self.server().port
        for run in ("first", "second"):
            with self.subTest(f"{run} run"):
                self.assert_prints(["query", port, "my-token", "5", "1", "tokens"], "Stands\nrow [Int(1)]\n")

    def assert_fate(self, fate, lines, err, status):
        """Compares the first line, standard error and the status with what the program says of a fate."""
        self.assertEqual([fate], lines[:1], err)
        self.assertIn(status, attempts.STATUS[fate], err)
        if fate == "Stands":
            self.assertEqual(status != 0, err != "", f"status {status}, and on standard error: {err!r}")
        else:
            self.assertEqual(attempts.MEANING[fate], err.partition("\n")[0])
            self.assertRegex(err, rf"\A[^\n]*(?:\nError: {fate}, and then: [^\n]+)?\Z")

    def test_fate_at_servers_that_refuse_or_break_off(self):
        for name, answers, tries, fate in attempts.ATTEMPTS:
            with self.subTest(f"a server that {name}"):
                lines, err, status, _ = self.asked(answers, "t", tries, ["tokens"])
                self.assert_fate(fate, lines, err, status)

    def test_nothing_is_sent_again_after_a_doubt_without_the_word_tokens(self):
        for name, answers, tries, fate in attempts.ATTEMPTS:
            with self.subTest(f"a server that {name}"):
                lines, err, status, asked = self.asked(answers, "t", tries)
                self.assert_fate("Open" if name in attempts.DOUBTS else fate, lines, err, status)
                if name in attempts.DOUBTS:
                    # The second connection is that of the query after the transaction.
                    self.assertEqual([True, False], [BEGIN in it for it in asked])

    def test_table_of_doubts_names_rows(self):
        self.assertEqual(set(), attempts.DOUBTS - {name for name, *_ in attempts.ATTEMPTS})

    def test_token_that_no_request_can_carry_is_refused_without_a_connection(self):
        for name, token in attempts.TOKENS:
            with self.subTest(f"a token {name}"):
                lines, err, status, asked = self.asked([attempts.STANDS], token, 2)
                self.assertEqual(([], "Error: a token has 1 to 64 bytes", 1, []), (lines, err, status, asked))

    def test_query_after_the_transaction_prints_rows_or_the_error(self):
        for name, answer, rows, error in attempts.QUERIES:
            with self.subTest(f"a query {name}"):
                lines, err, status, _ = self.asked([attempts.STANDS, answer], "t", 1)
                failed = f"Error: Stands, and then: {error}" if error else ""
                self.assertEqual((["Stands", *rows], failed, 3 if error else 0), (lines, err, status))


class Driver(ExamplesTest):
    def outcomes(self, process):
        """Returns the lines of outcomes and rows that the driver prints, standard error, and the status."""
        out, err, status = self.ended(process)
        return [line for line in out.split("\n") if re.match(r"\d+: |row ", line)], err, status

    def assert_outcomes(self, version, answers, wanted, error, resets=False):
        """Runs the driver at a server that sends a version, reads all up to COMMIT, answers, and closes the connection.

        If `resets` is true, it resets the connection in place of all that. The driver must send nothing after a version
        that it doesn't speak.
        """
        with socket.create_server(("127.0.0.1", 0)) as listener:
            listener.settimeout(programs.PATIENCE)
            driver = self.started(["driver", listener.getsockname()[1]])
            peer, _ = listener.accept()
        with peer:
            peer.settimeout(programs.PATIENCE)
            peer.recv(20, socket.MSG_WAITALL)
            asked, part = b"", b"."
            if resets:
                peer.setsockopt(socket.SOL_SOCKET, socket.SO_LINGER, struct.pack("ii", 1, 0))
            else:
                peer.sendall(version)
                while part and not asked.endswith(COMMIT):
                    part = peer.recv(4096)
                    asked += part
                peer.sendall(answers)
        lines, err, status = self.outcomes(driver)
        self.assertEqual((wanted, 1), (lines, status), err)
        self.assertRegex(err, rf"\AError: {error}\n\Z")
        self.assertEqual(version == fake_servers.V51, asked != b"", f"the driver sent {asked!r}")

    def test_transaction_is_committed(self):
        server = self.server()
        lines, err, status = self.outcomes(self.started(["driver", server.port]))
        self.assertEqual((COMMITTED, "", 0), ([line.partition(",")[0] for line in lines], err, status))
        self.until(lambda: server.lines, "the connection has ended")
        self.assertEqual(["conn 0 E8\n"], server.lines)

    def test_commit_without_an_answer_is_unknown(self):
        self.assert_outcomes(fake_servers.V51, b"", COMMIT_UNKNOWN, "not known to be committed")

    def test_refused_login_has_code_and_message(self):
        answers = fake_servers.told(fake_servers.DONE, fake_servers.failure(fake_servers.UNAUTHORIZED))
        self.assert_outcomes(fake_servers.V51, answers, ["0: Done, Success([])", REFUSAL, *ALL_LOST[2:]],
                             "not known to be committed")

    def test_nothing_is_sent_to_a_server_that_takes_no_version(self):
        self.assert_outcomes(bytes(4), b"", [], "C4")

    def test_reset_has_the_reason_of_the_system(self):
        self.assert_outcomes(b"", b"", [], "[^\\n]+", resets=True)


class Output(ExamplesTest):
    def assert_fate_is_on_standard_error(self, name, words, has_server, err, status, **how):
        """Runs a program whose standard output fails, and matches its standard error."""
        port = self.server().port if has_server else self.free_port()
        _, said, ended = self.ran([name, port, *words], **how)
        self.assertRegex(said, rf"\A(?:{err})\Z")
        self.assertEqual(status, ended)

    def test_fate_is_on_standard_error_if_the_output_is_full(self):
        for name, words, has_server, err, status in WITHOUT_OUTPUT:
            with self.subTest(f"{name}{'' if has_server else ' without a server'}"), open("/dev/full", "wb") as full:
                self.assert_fate_is_on_standard_error(name, words, has_server, err, status, capture_output=False,
                                                      stdout=full, stderr=subprocess.PIPE)

    def test_fate_is_on_standard_error_if_the_output_is_closed(self):
        for name, words, has_server, err, status in WITHOUT_OUTPUT:
            with self.subTest(f"{name}{'' if has_server else ' without a server'}"):
                self.assert_fate_is_on_standard_error(name, words, has_server, err, status, **cases.closing(1))


class Allocations(ExamplesTest):
    def test_fate_is_true_of_the_ledger_with_each_allocation_refused(self):
        server = servers.OneServer()
        self.addCleanup(server.__exit__)
        sends = untils.Sends(server.port, 1)
        folder = tempfile.TemporaryDirectory()
        self.addCleanup(folder.cleanup)
        count = pathlib.Path(folder.name) / "count"
        library = preloads.compiled("allocations", pathlib.Path(folder.name))
        # The first run has no allocation refused, and counts them.
        number, asked = 0, 1
        while number <= asked:
            with self.subTest(f"allocation {number} refused"):
                env = preloads.env(library, REFUSED=number, COUNT=count)
                out, err, status = sends.query(server.port, 1, env=env)
                asked = max(asked, int(count.read_text().split()[0]))
                lines, added = out.splitlines(), sends.added(0)
                fate = lines[0] if lines else None
                self.assertIn(added, ADDED.get(fate, ()), f"entries that {lines} may add; {err}")
                is_whole = lines == ["Stands", "row [Int(1)]"]
                self.assertEqual(is_whole, status == 0, f"status {status}, and the lines {lines}; {err}")
            number += 1
        self.assertGreater(asked, 30, "allocations of a run")
