"""`bolt.Session` reports with its reason how a server ends a connection, and what was sent before."""
import paths  # noqa: F401

import contextlib
import os
import socket
import subprocess
import sys
import threading
import time
import types
import unittest
from unittest import mock

import bolt
import ends
import support
from bolt import library
from tests.lib import fake_servers


class Ends(unittest.TestCase):
    """Ends of a connection while it is opened."""

    def test_each_end_is_reported_with_its_reason_in_time(self):
        ends.check(self, lambda port, timeout: support.opened(port, timeout=timeout))


def out_of_memory(_):
    raise NotSent(MEMORY)  # noqa: F821


# As if the library raised it: an exception with a frame from elsewhere counts as an interrupt.
out_of_memory = types.FunctionType(out_of_memory.__code__, vars(library))


def interrupt(*_):
    raise support.Interrupt


class Reasons(support.ServerCase):
    """Reasons by which the client itself ends a connection."""

    def test_out_of_memory_is_the_reason(self):
        with support.opened(self.port) as connection:
            connection.ask_begin()
            connection._client.feed = lambda _: library.MEMORY
            self.assertEqual("BEGIN: LOST (out of memory)", str(support.raised(connection.settle)))

    def test_out_of_memory_is_the_reason_if_a_failure_cannot_be_read(self):
        with support.opened(self.port) as connection:
            # A FAILURE that ends the session, a request after it, and no memory for the failure's text.
            connection.ask("LOGOFF", 0x6B)
            connection.ask("LOGON", 0x6A, {"scheme": "basic", "principal": "user", "credentials": "bad"})
            feed, connection._client.response = connection._client.feed, out_of_memory
            connection._client.feed = lambda piece: feed(piece) or library.CLOSED
            why = support.raised(connection.settle)
        self.assertEqual("LOGOFF: DONE, LOGON: REFUSED (out of memory)", str(why))

    def test_interrupt_is_raised_and_is_the_reason_afterwards(self):
        with support.opened(self.port) as connection:
            asked = connection.ask_run("ROWS", {"n": 2})
            connection._client.feed = interrupt
            self.assertEqual(support.Interrupt, type(support.raised(connection.settle)))
            self.assertEqual(bolt.UNKNOWN, asked.outcome)
            told, after = support.raised(connection.settle), support.raised(connection.begin)
        wanted = "RUN ROWS: LOST, PULL of ROWS: UNKNOWN (interrupted)"
        self.assertEqual((wanted, bolt.Broken, wanted), (str(told), type(after), str(after)))

    def test_request_after_a_failure_that_ends_the_session_is_lost(self):
        with support.opened(self.port) as connection:
            connection.ask("LOGOFF", 0x6B)
            connection.ask("LOGON", 0x6A, {"scheme": "basic", "principal": "user", "credentials": "bad"})
            connection.ask_begin()
            with self.assertRaises(bolt.Refused) as refused:
                connection.settle()
        told = [it.outcome for it in refused.exception.requests]
        self.assertEqual([bolt.DONE, bolt.REFUSED, bolt.LOST], told)

    def test_socket_that_cannot_be_closed_has_failed(self):
        # A process of its own, in which nothing else takes the number of the closed descriptor.
        environment = {**os.environ, "PYTHONPATH": os.path.dirname(support.PACKAGE)}
        told = subprocess.run([sys.executable, "-B", "-c", SHUT, str(self.port)], env=environment,
                              stdout=subprocess.PIPE, stderr=subprocess.DEVNULL, text=True, timeout=60)
        self.assertEqual(f"BEGIN: LOST ({bolt.FAILED})\n", told.stdout)


SHUT = """
import bolt, os, sys
with bolt.Session("127.0.0.1", int(sys.argv[1]), ("basic", "user", "pass")) as connection:
    connection.ask_begin()
    os.close(connection._socket.fileno())
    try:
        connection.settle()
    except bolt.Broken as broken:
        print(broken)
"""


class Wrapped:
    """A socket of another package, such as eventlet's: an object with the methods of a socket, of another class."""

    def __init__(self, *kind):
        self.below = socket.socket(*kind)

    def __getattr__(self, name):
        return getattr(self.below, name)


def answers_first(listener, size):
    """Answers the first requests of a pipeline before it reads the rest, which has so many bytes."""
    row = bytes.fromhex("B17191") + fake_servers.text("x" * 200)
    peer, _ = listener.accept()
    with peer, contextlib.suppress(OSError):
        peer.recv(20, socket.MSG_WAITALL)
        # The answers to HELLO and LOGON, and to a BEGIN and a RUN with its PULL.
        rows = fake_servers.told(*[fake_servers.DONE] * 2, *[row] * 2_000, fake_servers.DONE)
        for said in (ends.TOOK, ends.SUCCESS * 2, rows):
            peer.sendall(said)
            size -= len(peer.recv(4096))
        while size > 0:
            size -= len(peer.recv(65536))
        peer.sendall(ends.SUCCESS * 28)
        while peer.recv(65536):
            pass


class Sockets(unittest.TestCase):
    """Servers that take little at once, or end early."""

    def check_full_pipeline(self):
        with support.listening(32_768) as listener:
            support.in_thread(answers_first, listener, 14 * 60_000)
            with support.opened(support.port_of(listener), timeout=support.PATIENCE) as connection:
                support.shrink(connection._socket, 32_768)
                connection.ask_begin()
                first = connection.ask_run("ROWS")
                last = [connection.ask_run("ECHO", {"x": bytes(60_000)}) for _ in range(14)][-1]
                why = support.raised(connection.settle)
        self.assertEqual((None, 2_000, bolt.DONE), (why, len(first.rows), last.outcome))

    def test_pipeline_is_sent_while_its_answers_are_read(self):
        self.check_full_pipeline()

    def test_pipeline_is_sent_while_its_answers_are_read_without_poll(self):
        # Sockets of some packages have no poll.
        with mock.patch.object(bolt.session, "select", types.SimpleNamespace()):
            self.check_full_pipeline()

    def test_end_is_reported_by_wrapped_sockets(self):
        wrapped = types.SimpleNamespace(**{**vars(socket), "socket": Wrapped})
        login = fake_servers.V51, fake_servers.told(*[fake_servers.DONE] * 2)
        with mock.patch.object(bolt.session, "socket", wrapped), fake_servers.Server([login]) as server:
            with support.opened(server.port) as connection:
                why = support.raised(connection.begin)
        self.assertEqual(f"BEGIN: LOST ({bolt.GONE})", str(why))

    def test_requests_that_were_not_sent_are_lost_and_others_unknown(self):
        def takes_some():
            peer, _ = listener.accept()
            with peer:
                peer.recv(20, socket.MSG_WAITALL)
                for said in (ends.TOOK, ends.SUCCESS * 2):
                    peer.sendall(said)
                    peer.recv(100)
                is_over.wait(4 * support.PATIENCE)

        is_over = threading.Event()
        with support.listening() as listener:
            listener.setsockopt(socket.SOL_SOCKET, socket.SO_RCVBUF, 32_768)
            support.in_thread(takes_some)
            with support.opened(support.port_of(listener), timeout=ends.LONG) as connection:
                connection._socket.setsockopt(socket.SOL_SOCKET, socket.SO_SNDBUF, 32_768)
                asked = [connection.ask_run("PUT", {"key": "went", "value": bytes(60_000)}) for _ in range(15)]
                connection.timeout = 2
                why = support.raised(connection.settle)
                is_over.set()
        told = [it.outcome for it in asked]
        self.assertEqual((bolt.Broken, bolt.TIMED_OUT), support.seen(why, "why"))
        self.assertEqual([bolt.UNKNOWN] * told.count(bolt.UNKNOWN) + [bolt.LOST] * told.count(bolt.LOST), told)
        self.assertEqual((bolt.UNKNOWN, bolt.LOST), (told[0], told[-1]))

    def test_long_timeouts_are_kept(self):
        def answer(listener, wait):
            peer, _ = listener.accept()
            with peer, contextlib.suppress(OSError):
                peer.recv(20, socket.MSG_WAITALL)
                peer.sendall(ends.TOOK)
                peer.recv(4096)
                time.sleep(wait)
                peer.sendall(ends.SUCCESS * 2)
                while peer.recv(4096):
                    pass

        # The low 32 bits of the first timeout in milliseconds are 0.1 seconds. The others have more than 31 bits.
        for seconds, wait in ((4_294_967.4, 0.3), (1e10, 0), (float("inf"), 0), (10 ** 400, 0)):
            with self.subTest(timeout=seconds), support.listening() as listener:
                support.in_thread(answer, listener, wait)
                with support.opened(support.port_of(listener), timeout=seconds) as connection:
                    self.assertEqual(51, connection.version)


if __name__ == "__main__":
    unittest.main()
