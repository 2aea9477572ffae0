"""Tests `bolt loop`, which sends the requests of a file from a client to a server in the same process."""
import pathlib
import tempfile

from tests.lib import cases, programs

REQUESTS = ("expected hello, logon [bad], logoff, goodbye, reset, run TEXT HEX [r] [token T], begin [r] [token T], "
            "commit, rollback, discard N or pull N\n")
PUT = "run PUT A2836B657981618576616C756501"
# A name, the lines of the file, both outputs, and the status. A refused line is printed with its number. After GOODBYE
# each line is refused. If a line can't be read, nothing is sent.
LOOPS = [
    ("a result in two PULLs", "hello\nlogon\nrun ROWS A1816E03\npull 2\npull 2\n",
     "heard 0 Done Unauth\nheard 1 Done Ready\nheard 2 Done Streaming\nrow 9101\nrow 9102\nheard 3 Done Streaming\n"
     "row 9103\nheard 4 Committed Ready\nentry 0 4 0\n", "", 0),
    ("a result twice under a token, and another result under it",
     f"hello\nlogon\n{PUT} token t1\npull -1\n{PUT} token t1\npull -1\nrun ONE A0 r token t1\npull -1\n",
     "heard 0 Done Unauth\nheard 1 Done Ready\nheard 2 Done Streaming\nheard 3 Committed Ready\n"
     "heard 4 Done Streaming\nheard 5 Committed Ready\nheard 6 Done Streaming\nrow 9101\nheard 7 Refused Halted\n"
     "entry 0 3 1 token 7431\n", "", 0),
    ("a query in mode r, which uses its token up", "hello\nlogon\nrun ONE A0 r token t\npull -1\n",
     "heard 0 Done Unauth\nheard 1 Done Ready\nheard 2 Done Streaming\nrow 9101\nheard 3 Committed Ready\n"
     "entry 0 3 0 token 74\n", "", 0),
    ("lines after GOODBYE", "hello\ngoodbye\nreset\n\npull 1", "heard 0 Done Unauth\nline 3 C1\nline 5 C1\n", "", 0),
    ("a line that is no request", "hello\n\nnothing\n", "", f"line 3 unreadable\n{REQUESTS}", 2),
    ("lines that are refused", "pull 1\n\nhello\nlogon\ngoodbye\nreset",
     "line 1 C1\nheard 0 Done Unauth\nheard 1 Done Ready\nline 6 C1\n", "", 0),
    ("a request with a word too many", "hello\n\nlogon 1\n", "", f"line 3 unreadable\n{REQUESTS}", 2),
]


def setUpModule():
    programs.built("bolt")


class Loop(cases.ProgramTest):
    def test_loop_prints_answers_and_ledger(self):
        for name, lines, out, err, status in LOOPS:
            with self.subTest(name), tempfile.TemporaryDirectory() as folder:
                file = pathlib.Path(folder) / "lines"
                file.write_bytes(lines.encode())
                self.assert_prints(["loop", file], out, err, status)

    def test_missing_file_is_named(self):
        self.assert_prints_pattern(["loop", "no such file"], "", "fault I1\nno such file: [^\\n]+\n", 1)
