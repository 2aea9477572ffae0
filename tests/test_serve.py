"""Tests `bolt serve` and `examples server` with strangers, ended connections, little memory, and a stop."""
import contextlib
import os
import pathlib
import re
import resource
import signal
import socket
import struct
import subprocess
import tempfile

from tests.lib import cases, preloads, programs, servers

# A handshake for 4.4, and one for 5.1.
HANDSHAKE_44 = bytes.fromhex("6060B01700000404") + bytes(12)
HANDSHAKE = bytes.fromhex("6060B01700000105") + bytes(12)
# HELLO, LOGON, BEGIN, RUN of PUT, PULL and COMMIT.
COMMITS = ["B101A18A757365725F6167656E7483742F31",
           "B16AA386736368656D65856261736963897072696E636970616C84757365728B63726564656E7469616C738470617373",
           "B111A0", "B31083505554A2836B6579816B8576616C756501A0", "B13FA1816EFF", "B012"]
GOODBYE, RESET = "B002", "B00F"
# A last request, why the session ends at it, and the tags of its answers: FAILURE for COMMIT outside a transaction.
ENDS = [(GOODBYE, "E7", []), ("B012", "E5", [0x7F]), ("B05A", "E4", [])]
SUCCESS = 0x70
# ECHO of 60,000 bytes, and PULL.
ECHO = ["B310844543484FA18178CDEA60" + "00" * 60_000 + "A0", "B13FA1816EFF"]
# RUN with 56 lists of 1,153 integers each. Its cells take 6 MB.
MEMBERS = bytes.fromhex("D50481") + bytes(1153)
LARGEST = (bytes.fromhex("B31080A18178D438") + MEMBERS * 56 + bytes.fromhex("A0")).hex()
# How many bytes a server may take more than it has while it waits for its first client: enough for a conversation, but
# not for those cells.
FEW_BYTES = 3_000 * 1024


def setUpModule():
    programs.built("bolt")


def chunked(requests):
    """Returns requests in hex as they are sent, each in one chunk."""
    messages = [bytes.fromhex(request) for request in requests]
    return b"".join(len(message).to_bytes(2, "big") + message + bytes(2) for message in messages)


def tags(said):
    """Returns the tags of answers, each of which is one chunk."""
    found = []
    while said:
        length = int.from_bytes(said[:2], "big")
        found.append(said[3] if len(said) > 3 else None)
        said = said[length + 4:]
    return found


def heard_from(port, asked, is_all=False):
    """Returns all that a server answers to these bytes. If `is_all` is true, the client then ends its side."""
    said = b""
    with contextlib.suppress(OSError), socket.create_connection(("127.0.0.1", port), timeout=120) as stream:
        stream.sendall(asked)
        if is_all:
            stream.shutdown(socket.SHUT_WR)
        while part := stream.recv(65536):
            said += part
    return said


def reset(port):
    """Connects, and resets the connection."""
    with socket.create_connection(("127.0.0.1", port), timeout=programs.PATIENCE) as lost:
        lost.setsockopt(socket.SOL_SOCKET, socket.SO_LINGER, struct.pack("ii", 1, 0))


def state(process):
    """Returns the letter of a process's state; T means that it is stopped."""
    return pathlib.Path(f"/proc/{process.pid}/stat").read_text().rpartition(") ")[2][0]


class ServeTest(cases.ProgramTest):
    def server(self, connections, **how):
        """Starts `bolt serve` for this many connections, and kills it when the test ends."""
        server = servers.OneServer(connections, stderr=subprocess.PIPE, **how)
        self.addCleanup(server.__exit__)
        return server


class Serve(ServeTest):
    def test_no_connection_is_served(self):
        self.assert_server_ends(self.server(0), "")

    def test_client_at_4_4_says_goodbye_and_sends_no_more(self):
        server = self.server(1)
        said = heard_from(server.port, HANDSHAKE_44 + chunked([GOODBYE]), is_all=True)
        self.assertEqual(bytes([0, 0, 4, 4]), said)
        self.assert_server_ends(server, "conn 0 E7\n")

    def test_next_client_is_served_after_a_reset(self):
        server = self.server(2)
        reset(server.port)
        self.assertEqual(HANDSHAKE_44[4:8], heard_from(server.port, HANDSHAKE_44 + chunked([GOODBYE])))
        self.assert_server_ends(server, "conn 0 E8\nconn 1 E7\n")

    def test_port_in_use_is_named(self):
        with socket.create_server(("127.0.0.1", 0)) as taken:
            port = taken.getsockname()[1]
            self.assert_prints_pattern(["serve", port, "0"], "", f"fault I1\n127\\.0\\.0\\.1 port {port}: [^\\n]+\n", 1)

    def test_closed_output_is_a_fault(self):
        # `serve` takes no port 0. If another process has the port, the server says so, and the next port is tried.
        for _ in range(5):
            with socket.socket() as taken:
                taken.bind(("127.0.0.1", 0))
                port = taken.getsockname()[1]
            came = self.ran(["serve", port, "0"], **cases.closing(1))
            if not came[1].startswith(f"fault I1\n127.0.0.1 port {port}: "):
                break
        self.assert_run(("", "fault I2\n", 1), came)

    def test_all_answers_arrive_when_the_server_ends_with_bytes_unread(self):
        count = programs.count(1000, 300)
        server, wanted = self.server(count), ""
        for number in range(count):
            last, cause, more = ENDS[number % len(ENDS)]
            said = heard_from(server.port, HANDSHAKE + chunked(COMMITS + [last] + [RESET] * 1000))
            self.assertEqual((HANDSHAKE[4:8], [SUCCESS] * len(COMMITS) + more), (said[:4], tags(said[4:])),
                             f"connection {number}")
            wanted += f"conn {number} {cause}\n"
        self.assert_server_ends(server, wanted)

    def test_server_answers_after_it_was_stopped(self):
        server = self.server(1)
        with socket.create_connection(("127.0.0.1", server.port), timeout=programs.PATIENCE) as stream:
            stream.sendall(HANDSHAKE + chunked(COMMITS[:-1]))
            said = b""
            while tags(said[4:]).count(SUCCESS) < len(COMMITS) - 1 and (part := stream.recv(65536)):
                said += part
            self.until(lambda: state(server.process) == "S", "the server waits for a request")
            os.kill(server.process.pid, signal.SIGSTOP)
            self.until(lambda: state(server.process) == "T", "the server is stopped")
            os.kill(server.process.pid, signal.SIGCONT)
            self.until(lambda: state(server.process) == "S", "the server waits again")
            stream.sendall(chunked(COMMITS[-1:]))
            self.assertEqual([SUCCESS], tags(stream.recv(65536)))


class Memory(ServeTest):
    def test_largest_message_of_a_stranger_leaves_the_next_client_served(self):
        server = self.server(2)
        size = int(re.search(r"VmSize:\s+(\d+) kB", pathlib.Path(f"/proc/{server.process.pid}/status").read_text())[1])
        limit = size * 1024 + FEW_BYTES
        resource.prlimit(server.process.pid, resource.RLIMIT_AS, (limit, limit))
        said = heard_from(server.port, HANDSHAKE + chunked([LARGEST]))
        said += heard_from(server.port, HANDSHAKE + chunked([GOODBYE]))
        self.assertEqual(HANDSHAKE[4:8] * 2, said)
        self.assert_server_ends(server, "conn 0 E8\nconn 1 E7\n")


class Accepts(ServeTest):
    def failing(self, count):
        """Returns the keyword that starts a program whose first accepts fail, as those of lost connections do."""
        folder = tempfile.TemporaryDirectory()
        self.addCleanup(folder.cleanup)
        return {"env": preloads.env(preloads.compiled("accept", pathlib.Path(folder.name)), ACCEPTS=count)}

    def test_64_failed_accepts_are_passed_over(self):
        server = self.server(1, **self.failing(64))
        self.assertEqual(HANDSHAKE[4:8], heard_from(server.port, HANDSHAKE + chunked([GOODBYE])))
        self.assert_server_ends(server, "conn 0 E7\n")

    def test_65_failed_accepts_end_the_server(self):
        self.assert_server_ends(self.server(1, **self.failing(65)), "", "fault I1\n", 1)


class Many(cases.ProgramTest):
    def test_client_is_served_beside_a_peer_that_reads_nothing(self):
        server = servers.ExampleServer(stderr=subprocess.PIPE)
        self.addCleanup(server.__exit__)
        reset(server.port)
        with socket.create_connection(("127.0.0.1", server.port), timeout=1) as deaf:
            with contextlib.suppress(OSError):
                deaf.sendall(HANDSHAKE + chunked(COMMITS[:2] + ECHO * 1000))
            self.assertEqual(HANDSHAKE[4:8], heard_from(server.port, HANDSHAKE + chunked([GOODBYE])))
            # The server gives the deaf peer up after 10 seconds in which it takes no byte.
            self.until(lambda: len(server.lines) == 3, "three connections have ended")
        server.process.terminate()
        self.assert_server_ends(server, "conn 0 E8\nconn 2 E7\nconn 1 E8\n", "", -signal.SIGTERM)
