"""Connections over TLS: certificates, and closings during a call. The certificate is made by `openssl`."""
import paths  # noqa: F401

import contextlib
import socket
import ssl
import subprocess
import sys
import tempfile
import unittest

import bolt
import loops
import support
from bolt import aio
from tests.lib import programs, proxy

# The folder with the certificate and its key.
FOLDER = None


def setUpModule():
    global FOLDER
    programs.needs("openssl")
    folder = tempfile.TemporaryDirectory()
    unittest.addModuleCleanup(folder.cleanup)
    FOLDER = folder.name
    words = ["openssl", "req", "-x509", "-newkey", "rsa:2048", "-nodes", "-keyout", f"{FOLDER}/key.pem",
             "-out", f"{FOLDER}/certificate.pem", "-days", "2", "-subj", "/CN=localhost",
             "-addext", "subjectAltName=DNS:localhost"]
    subprocess.run(words, check=True, stdout=subprocess.DEVNULL, stderr=subprocess.DEVNULL)


class Tunnel:
    """Accepts TLS connections, and passes them on to a port."""

    def __init__(self, port):
        self.target = port
        self.context = ssl.SSLContext(ssl.PROTOCOL_TLS_SERVER)
        self.context.load_cert_chain(f"{FOLDER}/certificate.pem", f"{FOLDER}/key.pem")
        self.listener = socket.create_server(("127.0.0.1", 0))
        self.port = support.port_of(self.listener)
        self.thread = support.in_thread(self.serve)

    def serve(self):
        with contextlib.suppress(OSError):
            while True:
                peer, _ = self.listener.accept()
                support.in_thread(self.take, peer)

    def take(self, peer):
        with contextlib.suppress(OSError), self.context.wrap_socket(peer, server_side=True) as client:
            proxy.Passing().pass_on(client, self.target)

    def __enter__(self):
        return self

    def __exit__(self, *_):
        with contextlib.suppress(OSError):
            self.listener.shutdown(socket.SHUT_RDWR)
        self.thread.join(support.PATIENCE)
        self.listener.close()


class ClosesInTls(support.CallsAtLine):
    """Closes a connection at a line of the module `ssl`."""

    def __call__(self, frame, event, _):
        is_there = frame.f_code.co_filename == ssl.__file__
        if is_there and event == "line":
            self.passed += 1
            if self.passed == self.number:
                self.come()
        return self if is_there else None


class Tls(support.ServerCase):
    """A server that is reached through a tunnel of TLS."""

    def setUp(self):
        super().setUp()
        self.tunnel = self.enter(Tunnel(self.port))

    def context(self):
        """Returns a context that knows the certificate."""
        return ssl.create_default_context(cafile=f"{FOLDER}/certificate.pem")

    def connect(self):
        return bolt.connect("localhost", self.tunnel.port, auth=support.AUTH, tls=self.context())

    def test_server_with_a_known_certificate_is_connected(self):
        with self.connect() as connection:
            self.assertEqual(1024, len(connection.run("ROWS", n=1024).values()))

    def test_closing_sends_nothing_unencrypted(self):
        # At each line of the closing, another call that has the session tries to send.
        went = []

        def line(frame, event, _):
            if frame.f_code.co_filename == ssl.__file__ and session._socket._sslobj is None:
                with contextlib.suppress(OSError):
                    went.append(session._socket.send(b"plain"))
            return line

        with self.connect() as connection:
            connection.run("ROWS", n=1024).values()
            session = connection.session
            session._amid["call"] = line
            sys.settrace(line)
            try:
                session._shut()
            finally:
                sys.settrace(None)
        self.assertEqual([], went)

    def closed(self, number):
        """Closes a connection at a line of `ssl` during a transaction. Returns a list with what that raised."""
        with self.connect() as connection:
            with ClosesInTls(number, connection.close) as closing:
                why = support.raised(lambda: support.pipeline(connection, "closed"))
        return [why] if closing.has_come else None

    def test_call_whose_connection_is_closed_meanwhile_reports_that(self):
        told = support.at_each_line(self.closed)
        self.assertGreater(len(told), 4)
        for number, (why,) in told.items():
            with self.subTest(line=number):
                self.assertEqual((bolt.Broken, bolt.CLOSED_HERE), (type(why), getattr(why, "why", None)), repr(why))

    def test_server_with_an_unknown_certificate_is_not_connected(self):
        why = support.raised(lambda: bolt.connect("localhost", self.tunnel.port, auth=support.AUTH, tls=True))
        self.assertEqual((bolt.Broken, ssl.SSLCertVerificationError), (type(why), type(why.__cause__)))

    def test_connection_without_tls_is_broken(self):
        why = support.raised(lambda: bolt.connect("localhost", self.tunnel.port, auth=support.AUTH, timeout=2))
        self.assertEqual(bolt.Broken, type(why))

    @loops.in_loop
    async def test_asyncio_connects_to_a_server_with_a_known_certificate(self):
        async with await aio.connect("localhost", self.tunnel.port, auth=support.AUTH,
                                     tls=self.context()) as connection:
            self.assertEqual(1024, len(await (await connection.run("ROWS", n=1024)).values()))

    @loops.in_loop
    async def test_asyncio_does_not_connect_to_a_server_with_an_unknown_certificate(self):
        why = await loops.raised(aio.connect("localhost", self.tunnel.port, auth=support.AUTH, tls=True))
        self.assertEqual((bolt.Broken, ssl.SSLCertVerificationError), (type(why), type(why.__cause__)))


if __name__ == "__main__":
    unittest.main()
