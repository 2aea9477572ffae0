"""Tests `bolt shell` at servers that answer, close, reset or are silent, and with a closed standard stream."""
import contextlib
import re
import socket
import struct
import subprocess
import tempfile
import threading
import time

from tests.data import shells
from tests.lib import cases, pages, programs, servers

REASON = "[^\\n]+"
# Any lines.
SOME = "(?:[^\\n]*\\n)*"
# A host name that would print a forged line, and how it is printed.
FORGED_HOST = ("h\nlost 1 Lost", r"h\nlost 1 Lost")
# The stream that is closed from the start, both outputs, and the status.
CLOSED = [
    ("standard input", "", f"connected to {SOME}", 0),
    ("standard output", "", f"connected to {SOME}fault I2\n{SOME}standard output: {REASON}\n", 1),
    ("standard error", "heard 0 Done Unauth\n", "", 0),
]
# A shell that waits for a silent peer takes a minute. A shell that doesn't takes less than this.
SOON = programs.PATIENCE


def setUpModule():
    programs.built("bolt")


def reset(peer):
    """Makes the close of a socket send RST."""
    peer.setsockopt(socket.SOL_SOCKET, socket.SO_LINGER, struct.pack("ii", 1, 0))


def serve(listener, answers, resets):
    """Accepts one connection, answers each request with the next of the answers, and closes after one more request."""
    peer, _ = listener.accept()
    with peer, contextlib.suppress(OSError):
        peer.settimeout(4 * programs.PATIENCE)
        asked = peer.recv(20, socket.MSG_WAITALL)
        for said in answers:
            if not asked:
                return
            peer.sendall(bytes.fromhex(said))
            asked = peer.recv(65536)
        if resets:
            reset(peer)


class Shell(cases.ProgramTest):
    def talked(self, answers, resets, lines):
        """Returns both outputs and the status of a shell with these lines, and its server's port."""
        with socket.create_server(("127.0.0.1", 0)) as listener:
            listener.settimeout(4 * programs.PATIENCE)
            server = threading.Thread(target=serve, args=(listener, answers, resets), daemon=True)
            server.start()
            port = listener.getsockname()[1]
            came = self.ran(["shell", "127.0.0.1", port], input=lines.encode())
            server.join(programs.PATIENCE)
        return came, port

    def test_outcomes_are_printed_for_each_end_of_the_connection(self):
        for name, answers, resets, lines, greeting, out, err, status in shells.SHELLS:
            with self.subTest(name):
                (printed, told, ended), port = self.talked(answers, resets, lines)
                wanted = f"connected to 127.0.0.1 port {port}\n{greeting}{err}"
                if resets:
                    wanted += "the server: REASON\n"
                    told = re.sub(rf"(\nthe server: ){REASON}\n\Z", r"\1REASON\n", told)
                self.assert_run((out, wanted, status), (printed, told, ended))

    def test_text_of_a_failure_is_escaped(self):
        for message, printed in shells.ESCAPES:
            with self.subTest(repr(message)):
                answers = [shells.V51, shells.SUCCESS, shells.SUCCESS, shells.failure(message)]
                (out, _, status), _ = self.talked(answers, False, "hello\nlogon\nrun NOPE A0\n")
                wanted = f"heard 0 Done Unauth\nheard 1 Done Ready\nheard 2 Refused Halted\nfault X {printed}\n"
                self.assertEqual((wanted, 0), (out, status))

    def test_port_without_a_server_is_named(self):
        # A bound socket that doesn't listen refuses connections, and keeps the port from others.
        with socket.socket() as held:
            held.bind(("127.0.0.1", 0))
            port = held.getsockname()[1]
            self.assert_prints_pattern(["shell", "127.0.0.1", port], "",
                                       f"fault I1\n127\\.0\\.0\\.1 port {port}: {REASON}\n", 1)

    def test_name_of_unknown_host_is_escaped(self):
        host, printed = FORGED_HOST
        self.assert_prints_pattern(["shell", host, "7"], "", f"fault I1\n{re.escape(printed)} port 7: {REASON}\n", 1)

    def test_reset_in_place_of_an_answer_has_a_reason(self):
        with socket.create_server(("127.0.0.1", 0)) as listener:
            listener.settimeout(programs.PATIENCE)
            port = listener.getsockname()[1]
            shell = self.started(["shell", "127.0.0.1", port])
            peer, _ = listener.accept()
            peer.recv(20, socket.MSG_WAITALL)
            reset(peer)
            peer.close()
            self.assert_pattern("", f"connected to 127\\.0\\.0\\.1 port {port}\nfault I1\nthe server: {REASON}\n", 1,
                                self.ended(shell))

    def test_silent_server_is_given_up_after_60_seconds(self):
        with socket.create_server(("127.0.0.1", 0)) as listener:
            listener.settimeout(programs.PATIENCE)
            shell = self.started(["shell", "127.0.0.1", listener.getsockname()[1]], stdin=self.lines(shells.COMMITS))
            peer, _ = listener.accept()
        with peer:
            peer.recv(20, socket.MSG_WAITALL)
            peer.sendall(bytes.fromhex(shells.V51))
            for _ in range(3):
                peer.recv(4096)
                peer.sendall(bytes.fromhex(shells.SUCCESS))
            said = f"connected to {SOME}lost 3 Unknown\n{SOME}fault I1\n{SOME}the server: said nothing for 60 seconds\n"
            self.assert_pattern(shells.BEGUN, said, 1, self.ended(shell))

    def lines(self, text):
        """Returns a file of these lines, for standard input."""
        file = tempfile.TemporaryFile()
        self.addCleanup(file.close)
        file.write(text.encode())
        file.seek(0)
        return file

    def test_closed_stream_loses_no_request(self):
        for number, (name, out, err, status) in enumerate(CLOSED):
            with self.subTest(name), servers.OneServer(1, stderr=subprocess.PIPE) as server:
                begun = time.monotonic()
                lines = self.lines("hello\n")
                came = self.ran(["shell", "127.0.0.1", server.port], stdin=lines, **cases.closing(number))
                self.assert_pattern(out, err, status, came)
                self.assert_server_ends(server, "conn 0 E8\n")
                self.assertLess(time.monotonic() - begun, SOON)

    def test_page_has_a_talk(self):
        requests, wanted = pages.talk(pages.read("docs/PROGRAM.md"))
        self.assertTrue(requests and wanted, "docs/PROGRAM.md has no requests for the shell, or no lines `heard ..`")
        with servers.OneServer(1, stderr=subprocess.PIPE) as server:
            out, _, status = self.ran(["shell", "127.0.0.1", server.port], input=requests.encode())
            self.assertEqual((wanted, 0), (out, status))
            self.assert_server_ends(server, "conn 0 E8\n")
