"""Limits of `bolt_server`: silent clients, no free descriptor, refused allocations, a lost output, signals."""
import contextlib
import pathlib
import resource
import signal
import tempfile
import time
import unittest

from tests.lib import crowd, preloads, programs
from tests.lib.client import GOODBYE, HANDSHAKE, LONGEST, Client, framed, text
from tests.lib.crowd import MOST_KB, OPENING, VERSION_5_1, Server, at_once, connect, rest

# More refused allocations than these have to end a client.
ENOUGH = 50


class Silence(crowd.ManyTest):
    def test_three_silent_clients_are_given_up_in_time(self):
        least = {"who never logs on": 0.9, "who sends a byte now and then": 0.9, "who is silent after its LOGON": 1.9}

        def waits(number):
            begun = time.monotonic()
            with connect(server) as stream:
                if number == 1:
                    with contextlib.suppress(OSError):
                        for byte in HANDSHAKE:
                            stream.sendall(bytes([byte]))
                            time.sleep(0.2)
                elif number == 2:
                    stream.sendall(OPENING)
                rest(stream)
            return time.monotonic() - begun

        with Server("--arrival", "1", "--silence", "2") as server:
            for (who, seconds), took in zip(least.items(), at_once(3, waits), strict=True):
                with self.subTest(who):
                    self.assertIsInstance(took, float, took)
                    self.assertGreater(took, seconds)
                    self.assertLess(took, programs.PATIENCE)
            self.assertEqual([(number, "E8") for number in range(3)], server.ends(3))

    def test_client_that_sends_while_the_server_is_stopped_is_answered(self):
        with Server("--silence", "2") as server, Client(server.port) as client:
            server.stopped_for(2.5)
            self.assertEqual(1, client.commit("t", "k", "v"))

    def assert_idle(self, server, seconds, most):
        """Fails if the server uses more ticks in each of ten spans of so many seconds.

        One span isn't enough, because a busy machine delays older work.
        """
        for _ in range(10):
            before = server.ticks()
            time.sleep(seconds)
            took = server.ticks() - before
            if took <= most:
                return
        self.assertLessEqual(took, most, f"ticks in {seconds} s")

    def test_waiting_takes_no_processor_time(self):
        with Server("--arrival", "60") as server, contextlib.ExitStack() as held:
            with self.subTest("nobody is there"):
                self.assert_idle(server, 2, 2)
            streams = [held.enter_context(connect(server)) for _ in range(16)]
            crowd.asks_and_never_reads(streams[0], lambda: server.most_memory() >= MOST_KB)
            streams[1].sendall(OPENING)
            with self.subTest("14 are silent, one has logged on, one never reads"):
                self.assert_idle(server, 2, 2)
            held.enter_context(connect(server)).sendall(OPENING)
            with self.subTest("a 17th waits, too"):
                self.assert_idle(server, 2, 2)

    def test_30_are_served_in_turn_with_few_descriptors(self):
        def bound():
            resource.setrlimit(resource.RLIMIT_NOFILE, (16, 16))

        with Server(preexec_fn=bound) as server:
            streams = [connect(server) for _ in range(30)]
            for it in streams:
                it.sendall(OPENING)
            self.assert_idle(server, 1, 10)
            answers = []
            # A client that the server took is answered, and goes; then the server takes another.
            for it in streams:
                it.settimeout(LONGEST)
                answers.append(it.recv(4))
                it.close()
            self.assertEqual([VERSION_5_1] * 30, answers)
            self.assert_each_end_is_printed_once(server, 30)
            self.assert_one_is_served(server)
            self.assertEqual("a connection waits: Too many open files (os error 24)\n", server.killed())


class Ends(crowd.ManyTest):
    def test_server_whose_output_fails_says_so_once_and_serves_on(self):
        with programs.running("bolt_server", ["0"]) as program:
            port, places = int(program.stdout.readline().split()[1]), []
            program.stdout.close()
            for number in range(4):
                with Client(port) as client:
                    places.append(client.commit(f"t{number}", "k", "v"))
            program.kill()
            self.assertEqual([1, 2, 3, 4], places)
            self.assertEqual("fault I2\nthe server goes on, and prints no more\n", program.stderr.read())

    def test_signals_end_the_server(self):
        # A program that a shell started in the background ignores SIGINT, and so would the server.
        for number in (signal.SIGTERM, signal.SIGINT):
            with self.subTest(number.name):
                with Server(preexec_fn=lambda: signal.signal(signal.SIGINT, signal.SIG_DFL)) as server:
                    server.process.send_signal(number)
                    self.assertEqual(-number, server.process.wait(timeout=LONGEST))


class RefusedAllocations(crowd.ManyTest):
    @classmethod
    def setUpClass(cls):
        folder = tempfile.TemporaryDirectory(prefix="bolt-many-")
        cls.addClassCleanup(folder.cleanup)
        cls.library = preloads.compiled("allocations", pathlib.Path(folder.name))

    def test_refused_allocation_ends_one_pair_of_clients_at_most(self):
        # The server's start asks for the first allocations. A refused one of them may end nobody.
        felt, idle, number = 0, 0, 0
        # After 100 that nobody felt in a row, all allocations were refused once.
        while idle < 100 and number < 5000:
            number += 1
            with self.subTest(refused=number):
                idle += 1
                lost = self.pairs_lost(number)
                felt, idle = felt + bool(lost), idle if lost == 0 else 0
        self.assertGreater(felt, ENOUGH, f"clients that felt a refused allocation, of {number}")

    def pairs_lost(self, number):
        """Returns how many of three pairs of clients the server ended because this allocation was refused.

        Returns None if the server didn't begin.
        """
        with programs.running("bolt_server", ["0"], env=preloads.env(self.library, REFUSED=number)) as program:
            line, lost, places = program.stdout.readline(), 0, []
            for who in range(3 if line else 0):
                try:
                    with Client(int(line.split()[1])) as one, Client(int(line.split()[1])) as other:
                        places += [one.commit(f"{who} one", "a", "v"), other.commit(f"{who} other", "b", "v")]
                except OSError:
                    lost += 1
            if not line or lost == 3:
                self.assertEqual((3, "fault I3\n"), (program.wait(timeout=LONGEST), program.stderr.read()))
                return None
            self.assertLessEqual(lost, 1, "pairs of clients that ended")
            self.assertEqual(sorted({*places}), sorted(places), "two transactions have one place")
            return lost


class Names(crowd.ManyTest):
    def test_agent_is_the_name_that_hello_is_answered_with(self):
        with Server("--agent", "Neo4j/5.1.0") as server, connect(server) as stream:
            stream.sendall(OPENING + framed(GOODBYE))
            self.assertIn(text("server") + text("Neo4j/5.1.0"), rest(stream))


if __name__ == "__main__":
    unittest.main()
