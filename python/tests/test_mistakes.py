"""Each mistake of a connection has its own text, with the cause and what to do."""
import paths  # noqa: F401

import asyncio
import pickle
import socket
import ssl
import unittest
import unittest.mock

import bolt
import driving
import support
import test_tls
from bolt import aio
from fakes import Fake
from tests.lib import servers

# The test of TLS makes the certificate.
setUpModule = test_tls.setUpModule


def refusing():
    """Returns a port at which nobody listens, and what keeps others from it."""
    taken = socket.socket()
    taken.bind(("127.0.0.1", 0))
    return taken.getsockname()[1], taken


class Says(unittest.TestCase):
    """Servers that say one thing, whatever they get."""

    def both(self, port, **how):
        """Returns what the blocking connect raises, and that of asyncio."""
        how = {"auth": driving.USER, "timeout": 2, **how}
        host = how.pop("host", "127.0.0.1")
        one = driving.raised(bolt.connect, host, port, **how)
        other = asyncio.run(driving.awaited(aio.connect(host, port, **how)))
        return one, other

    def assert_text(self, port, why, *texts, **how):
        """Checks the reason and the texts of what each connect raises."""
        for one in self.both(port, **how):
            self.assertIsInstance(one, bolt.Broken)
            self.assertEqual(why, one.why)
            for text in texts:
                self.assertIn(text, str(one))
            self.assertEqual(str(one), str(pickle.loads(pickle.dumps(one))))

    def answering(self, said):
        """Returns the port of a server that says this and closes."""
        listener = socket.create_server(("127.0.0.1", 0))
        self.addCleanup(listener.close)

        def serve():
            for _ in range(2):
                peer, _ = listener.accept()
                with peer:
                    peer.recv(20, socket.MSG_WAITALL)
                    peer.sendall(said)

        support.in_thread(serve)
        return support.port_of(listener)

    def test_uri_in_place_of_a_host(self):
        for one in (
            lambda: bolt.connect("bolt://h:17"),
            lambda: asyncio.run(aio.connect("bolt://h:17")),
        ):
            with self.assertRaisesRegex(ValueError, "write 'h', 17 for 'bolt://h:17'"):
                one()

    def test_closed_port(self):
        port, taken = refusing()
        with taken:
            self.assert_text(port, bolt.UNREACHED, "[Errno 111]", "no server listens at this port")

    def test_unknown_name(self):
        failed = socket.gaierror(-2, "Name or service not known")
        with unittest.mock.patch("socket.getaddrinfo", side_effect=failed):
            text = "Name or service not known: no address was found for this host"
            self.assert_text(7687, bolt.UNREACHED, text, host="nowhere")

    def test_tls_to_a_plain_port(self):
        context = ssl.create_default_context()
        with servers.ManyServer() as server:
            self.assert_text(
                server.port, bolt.UNREACHED, "speaks no TLS at this port", "bolt://", tls=context
            )
        # This one takes the bytes of TLS, and waits for more.
        with Fake() as fake:
            self.assert_text(
                fake.port, bolt.UNREACHED, "speaks no TLS at this port", tls=context, timeout=0.3
            )

    def test_plain_connection_to_a_tls_port(self):
        with Fake() as fake, test_tls.Tunnel(fake.port) as tunnel:
            for one in self.both(tunnel.port):
                self.assertIsInstance(one, bolt.Broken)
                self.assertIn("TLS", str(one))
                self.assertIn("bolt+s://", str(one))

    def test_certificate_that_is_not_trusted(self):
        with Fake() as fake, test_tls.Tunnel(fake.port) as tunnel:
            text = "the server's certificate isn't trusted"
            self.assert_text(tunnel.port, bolt.UNREACHED, text, host="localhost", tls=True)

    def test_wrong_password(self):
        with servers.ManyServer() as server:
            for one in self.both(server.port, auth=("user", "no")):
                self.assertEqual((bolt.Refused, False), (type(one), one.is_retryable()))
                self.assertIn("Check the user and the password", str(one))

    def test_another_protocol(self):
        for said, text in (
            (b"HTTP/1.1 400 Bad Request\r\n\r\n", "this is HTTP"),
            (b"\x15\x03\x01\x00\x02\x02\x46", "this is TLS"),
            (b"SSH-2.0-OpenSSH\r\n", "this is SSH"),
        ):
            with self.subTest(said):
                self.assert_text(self.answering(said), bolt.NOT_BOLT, text, repr(said[:12]))

    def test_server_with_all_its_connections(self):
        with servers.ManyServer("--sessions", "1") as server, bolt.connect(
            "127.0.0.1", server.port, auth=driving.USER
        ):
            text = "as many connections as it takes"
            self.assert_text(server.port, bolt.TIMED_OUT, text, timeout=0.5)

    def test_broken_connection_after_the_handshake_has_no_advice(self):
        with Fake(breaks=("RUN",)) as fake, bolt.connect(
            "127.0.0.1", fake.port, auth=driving.USER
        ) as connection:
            why = driving.raised(connection.run, "ONE")
            self.assertEqual(("", bolt.GONE), (why.detail, why.why))


class Parameters(unittest.TestCase):
    """A keyword that looks like an option of the call isn't sent as a parameter."""

    def test_options_are_refused_as_keywords(self):
        with Fake() as fake:
            with bolt.connect("127.0.0.1", fake.port, auth=driving.USER) as connection:
                for name in ("timeout", "metadata", "bookmarks", "database_"):
                    with self.subTest(name), self.assertRaisesRegex(
                        TypeError, f"{name} isn't taken .*{{'{name}'"
                    ):
                        connection.run("PUT", **{name: 3})
            self.assertEqual([], fake.queries)

    def test_options_are_parameters_in_a_mapping(self):
        async def main():
            async with await aio.connect("127.0.0.1", fake.port, auth=driving.USER) as connection:
                await connection.run("PUT", given, y=1)

        given = {"timeout": 3, "database_": 4, "y": 0}
        with Fake() as fake:
            with bolt.connect("127.0.0.1", fake.port, auth=driving.USER) as connection:
                connection.run("PUT", given)
                connection.read("PUT", given, y=1)
                with connection.transaction() as tx:
                    tx.run("PUT", given, y=1)
                with connection.pipeline() as asked:
                    asked.run("PUT", given, y=1)
            asyncio.run(main())
            self.assertEqual([("PUT", given)] + 4 * [("PUT", {**given, "y": 1})], fake.queries)

    def test_parameters_that_are_no_mapping_are_refused(self):
        with Fake() as fake, bolt.connect("127.0.0.1", fake.port, auth=driving.USER) as connection:
            for given in (3, ["a"], "text"):
                with self.subTest(given), self.assertRaisesRegex(TypeError, "are a mapping"):
                    connection.run("PUT", given)


class Retryable(unittest.TestCase):
    """`is_retryable` of the exceptions of a connection."""

    def test_refusals(self):
        begun = [bolt.Request("BEGIN", bolt.DONE)]
        # The codes are those that the official driver's documentation calls retryable, or doesn't.
        for code, wanted in (
            ("Neo.TransientError.Transaction.DeadlockDetected", True),
            ("Neo.TransientError.Transaction.Terminated", False),
            ("Neo.TransientError.Transaction.LockClientStopped", False),
            ("Neo.ClientError.Cluster.NotALeader", True),
            ("Neo.ClientError.General.ForbiddenOnReadOnlyDatabase", True),
            ("Neo.ClientError.Statement.SyntaxError", False),
            ("Neo.DatabaseError.General.UnknownError", False),
            ("", False),
        ):
            with self.subTest(code):
                self.assertEqual(wanted, bolt.Refused(code, "", begun).is_retryable())
        for outcome, wanted in ((bolt.UNKNOWN, False), (bolt.COMMITTED, False), (bolt.LOST, True)):
            with self.subTest(outcome):
                told = [bolt.Request("COMMIT", outcome)]
                self.assertEqual(
                    wanted, bolt.Refused("Neo.TransientError.A.B", "", told).is_retryable()
                )
                self.assertEqual(wanted, bolt.Broken(told, bolt.GONE).is_retryable())

    def test_broken_connections(self):
        for why, wanted in (
            (bolt.UNREACHED, True),
            (bolt.TIMED_OUT, True),
            (bolt.GONE, True),
            (bolt.FAILED, True),
            (bolt.NOT_BOLT, False),
            (bolt.NO_VERSION, False),
            (bolt.TOO_LARGE, False),
            (bolt.INTERRUPTED, False),
            (bolt.CLOSED_HERE, False),
            (bolt.BAD_ANSWER, False),
        ):
            with self.subTest(why):
                self.assertEqual(wanted, bolt.Broken([], why).is_retryable())
        self.assertFalse(bolt.NotSent(1).is_retryable())


if __name__ == "__main__":
    unittest.main()
