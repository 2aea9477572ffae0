"""Runs the C example, and the first program of docs/C.md, against servers that answer, answer badly or don't answer."""
import contextlib
import os
import socket
import subprocess
import time
import unittest

from tests.lib import compiling, fake_servers, modules, pauses, programs, servers, tables

LIMIT = 120
COMMIT = fake_servers.told(bytes.fromhex("B012"))
USAGE = "commit ADDRESS PORT VERSION KEY\n"
COMMITTED = "value: 1\n" + "".join(f"{number}: Done\n" for number in range(7)) + "7: Committed\n"


def setUpModule():
    global folder, library, program, server
    library, folder = programs.built("libbolt.a"), modules.folder()
    program = compiling.compile_c(programs.ROOT / "examples" / "commit.c", library, folder / "commit")
    server = modules.enter(servers.OneServer())


def run(port, version, key, **how):
    """Runs the example; its status, its output and what it wrote to standard error."""
    how = {"stdout": subprocess.PIPE, **how}
    words = [program, "127.0.0.1", str(port), str(version), key]
    done = subprocess.run(words, stderr=subprocess.PIPE, text=True, timeout=LIMIT, **how)
    return done.returncode, done.stdout, done.stderr


class TestPage(unittest.TestCase):
    def output(self, port):
        """Returns what the first program of the page prints, with the page's port replaced."""
        page = (programs.ROOT / "docs" / "C.md").read_text().partition("```c\n")[2].partition("```\n")[0]
        self.assertIn("7687", page)
        source = folder / "first.c"
        source.write_text(page.replace("7687", str(port)))
        first = compiling.compile_c(source, library, folder / "first")
        return subprocess.run([first], stdout=subprocess.PIPE, text=True, timeout=LIMIT).stdout

    def test_first_program_commits(self):
        self.assertEqual("committed\n", self.output(server.port))

    def test_first_program_says_unknown_after_more_rows_than_it_keeps(self):
        rows = fake_servers.told(*[fake_servers.DONE] * 3, *[fake_servers.ROW] * 1001, fake_servers.DONE)
        with fake_servers.Server([(fake_servers.V51, rows)], ends=False) as fake:
            self.assertEqual("unknown\n", self.output(fake.port))


class TestOutput(unittest.TestCase):
    def test_full_output_is_reported(self):
        with open("/dev/full", "w") as full:
            status, _, error = run(server.port, 51, "full", stdout=full)
        self.assertEqual((1, "standard output failed\n"), (status, error))

    def test_closed_output_is_reported_and_nothing_of_it_reaches_the_server(self):
        # If the socket got the descriptor of the closed standard output, the server would read what the example prints.
        ended = run(server.port, 51, "closed", stdout=None, preexec_fn=lambda: os.close(1))
        self.assertEqual((1, None, "standard output failed\n"), ended)
        self.assertEqual([1], tables.table(server.port).get("closed"))
        self.assertEqual((0, COMMITTED, ""), run(server.port, 51, "next"))


class TestServers(unittest.TestCase):
    def test_silent_server_is_given_up_after_ten_seconds_though_example_was_stopped(self):
        with fake_servers.Server([fake_servers.V51], ends=False) as fake:
            begun = time.monotonic()
            words = [program, "127.0.0.1", str(fake.port), "51", "k"]
            with subprocess.Popen(words, stdout=subprocess.PIPE, text=True) as process:
                try:
                    pauses.wait_for_bytes(fake, COMMIT)
                    pauses.stop_and_continue(process)
                    said, _ = process.communicate(timeout=LIMIT)
                finally:
                    process.kill()
            taken = time.monotonic() - begun
        self.assertEqual("".join(f"{number}: Lost\n" for number in range(7)) + "7: Unknown\n", said)
        self.assertGreater(taken, 9)

    def test_nothing_is_asked_without_a_version(self):
        http = b"HTTP/1.1 400 Bad Request\r\n\r\n"
        for name, answer in {"no version": bytes(4), "another protocol": http, "a closed connection": b""}.items():
            with self.subTest(name), fake_servers.Server([answer]) as fake:
                self.assertEqual((3, "", "no version was taken\n"), run(fake.port, 0, "k"))
                self.assertEqual([b""], fake.asked)

    def test_interrupted_connect_is_tried_again(self):
        # The queue of the listener takes one connection. So the example waits in its `connect`.
        with contextlib.ExitStack() as opened:
            listener = opened.enter_context(socket.create_server(("127.0.0.1", 0), backlog=0))
            listener.settimeout(LIMIT)
            held = [opened.enter_context(socket.socket()) for _ in range(2)]
            for it in held:
                it.setblocking(False)
                it.connect_ex(listener.getsockname())
            words = [program, "127.0.0.1", str(listener.getsockname()[1]), "51", "k"]
            process = opened.enter_context(subprocess.Popen(words, stderr=subprocess.PIPE, text=True))
            opened.callback(process.kill)
            pauses.stop_and_continue(process)
            for it in held:
                it.close()
            offer = b""
            while not offer and process.poll() is None:
                peer, _ = listener.accept()
                with peer:
                    offer = peer.recv(20, socket.MSG_WAITALL)
            _, error = process.communicate(timeout=LIMIT)
            # The test closed the connection after it had read the offer of versions.
            self.assertEqual((3, "no version was taken\n"), (process.returncode, error))
            self.assertEqual(bytes.fromhex("6060B017"), offer[:4])


class TestWords(unittest.TestCase):
    def test_words_that_are_no_port_are_refused(self):
        for word in (str(server.port + 65536), f"{server.port}x", ""):
            with self.subTest(word=word):
                self.assertEqual((2, "", USAGE), run(word, 51, "k"))


if __name__ == "__main__":
    unittest.main()
