"""The command line of `bolt_server`, its user, and what it answers to the bytes of official drivers."""
import os
import pathlib
import re
import socket
import subprocess
import tempfile
import unittest

from tests.data import transcripts
from tests.lib import crowd, programs
from tests.lib.client import Client, framed, text
from tests.lib.crowd import OPENING, Server, connect, rest

# A row: the words, where standard output goes, the status, and patterns of both outputs.
# A dot of a pattern is any character.
WORDS = [
    (["--help"], "pipe", 0, r".*--password-file <FILE>.*", ""),
    (["--version"], "pipe", 0, r"bolt_server \d+\.\d+\.\d+\n", ""),
    (["--help"], "full", 1, None, r"fault I2\n"),
    (["--version"], "closed", 1, None, r"fault I2\n"),
    ([], "pipe", 2, "", r"error: .*<PORT>.*"),
    (["65536"], "pipe", 2, "", r"error: .*65536.*"),
    (["0", "1"], "pipe", 2, "", r"error: .*"),
    (["0", "--sessions", "0"], "pipe", 2, "", r"error: .*1\.\.=16.*"),
    (["0", "--sessions", "17"], "pipe", 2, "", r"error: .*1\.\.=16.*"),
    (["0", "--agent", ""], "pipe", 2, "", r"error: the name of --agent has 1 to 40 bytes\n"),
    (["0", "--agent", "a" * 41], "pipe", 2, "", r"error: the name of --agent has 1 to 40 bytes\n"),
    (["0", "--silence", "-1"], "pipe", 2, "", r"error: .*"),
    (["0", "--silence", "0"], "pipe", 2, "", r"error: .*1\.\.=4294967295.*"),
    (["0", "--arrival", "0"], "pipe", 2, "", r"error: .*1\.\.=4294967295.*"),
    (["0", "--password-file", "/none/there"], "pipe", 1, "",
     r"fault I1\n/none/there: No such file or directory \(os error 2\)\n"),
    (["0", "--password-file", "/dev/null"], "pipe", 2, "", r"error: the first line of --password-file is empty\n"),
    (["0", "--host", "192.0.2.1"], "pipe", 1, "",
     r"fault I1\n192\.0\.2\.1 port 0: Cannot assign requested address \(os error 99\)\n"),
    (["0"], "full", 1, None, r"fault I2\n"),
    (["0"], "closed", 1, None, r"fault I2\n"),
]


class Words(crowd.ManyTest):
    def test_words_are_answered(self):
        for words, output, status, out, err in WORDS:
            with self.subTest(words=words, output=output):
                self.check_words(words, output, status, out, err)

    def check_words(self, words, output, status, out, err):
        """Runs the server with these words, and fails if its status or its outputs aren't these."""
        how = {"capture_output": False, "stdout": subprocess.PIPE, "stderr": subprocess.PIPE}
        if output == "closed":
            how["preexec_fn"] = lambda: os.close(1)
        with open("/dev/full", "w", encoding="utf-8") as full:
            if output == "full":
                how["stdout"] = full
            done = programs.run("bolt_server", words, timeout=programs.PATIENCE, **how)
        self.assertEqual(status, done.returncode, done.stderr)
        self.assertRegex(done.stderr, re.compile(rf"\A(?:{err})\Z", re.DOTALL))
        if out is not None:
            self.assertRegex(done.stdout, re.compile(rf"\A(?:{out})\Z", re.DOTALL))

    def test_port_that_is_taken_is_refused(self):
        with Server() as server:
            done = programs.run("bolt_server", [server.port], timeout=programs.PATIENCE)
            said = f"fault I1\n127.0.0.1 port {server.port}: Address already in use (os error 98)\n"
            self.assertEqual((1, said), (done.returncode, done.stderr))

    def test_user_and_password_of_a_file_are_the_only_ones(self):
        rows = {"a file of two lines": "a secret\nand more\n",
                "a file with a byte order mark and CR LF": "\ufeffa secret\r\n"}
        logon = bytes.fromhex("B16AA3") + b"".join(
            map(text, ("scheme", "basic", "principal", "me", "credentials", "a secret")))
        for name, lines in rows.items():
            with self.subTest(name), tempfile.TemporaryDirectory(prefix="bolt-many-") as folder:
                file = pathlib.Path(folder) / "password"
                file.write_text(lines, encoding="utf-8", newline="")
                with Server("--user", "me", "--password-file", str(file)) as server:
                    Client(server.port, logon).close()
                    # The first user's end comes first, so the numbers of the connections are known.
                    self.assertEqual([(0, "E7")], server.ends(1))
                    with connect(server) as stream:
                        stream.sendall(OPENING)
                        self.assertIn(b"Unauthorized", rest(stream))
                    self.assertEqual([(0, "E7"), (1, "E6")], server.ends(2))


class Transcripts(crowd.ManyTest):
    """Plays what each driver sends, and compares each byte of the answers."""

    def check(self, split):
        """Plays each transcript to a server of its own.

        `split` returns pairs of a transcript: the pieces to send, and the answer to them.
        """
        for name, handshake, version, messages in transcripts.TRANSCRIPTS:
            pairs = [(transcripts.data(handshake), transcripts.data(version))]
            pairs += [(framed(transcripts.data(it)), b"".join(framed(transcripts.data(one)) for one in answers))
                      for it, answers in messages]
            with self.subTest(name), Server() as server, connect(server) as stream:
                stream.setsockopt(socket.IPPROTO_TCP, socket.TCP_NODELAY, 1)
                for number, (pieces, answer) in enumerate(split(pairs)):
                    for piece in pieces:
                        stream.sendall(piece)
                    said = b""
                    while len(said) < len(answer) and (piece := stream.recv(len(answer) - len(said))):
                        said += piece
                    self.assertEqual(answer.hex(), said.hex(), f"answer {number}, to {b''.join(pieces).hex()}")
                self.assertEqual(b"", stream.recv(1), "more is answered")
                self.assert_each_end_is_printed_once(server, 1)

    def test_drivers_are_answered_message_by_message(self):
        self.check(lambda pairs: [([asked], answer) for asked, answer in pairs])

    def test_drivers_that_send_all_at_once_are_answered(self):
        self.check(lambda pairs: [([b"".join(it for it, _ in pairs)], b"".join(it for _, it in pairs))])

    def test_drivers_that_send_byte_by_byte_are_answered(self):
        self.check(lambda pairs: [([bytes([it]) for it in asked], answer) for asked, answer in pairs])


if __name__ == "__main__":
    unittest.main()
