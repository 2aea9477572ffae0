"""Bad cases of `bolt.driver`: each exception says what to do, and no connection is lost."""
import paths  # noqa: F401

import gc
import socket
import unittest

import bolt
import driving
import support
from bolt import exceptions
from fakes import Fake
from tests.lib import servers


class BadCases(driving.PoolCase):
    """Bad cases. `PoolCase` looks after each test whether a connection is out of a pool."""

    def test_unreachable_host(self):
        with socket.socket() as taken:
            taken.bind(("127.0.0.1", 0))
            driver = self.driver(taken.getsockname()[1], max_transaction_retry_time=0)
            for call in (
                driver.verify_connectivity,
                lambda: driver.execute_query("PUT"),
                lambda: driver.session().run("PUT"),
                lambda: driver.session().begin_transaction(),
            ):
                why = driving.raised(call)
                self.assertIsInstance(why, exceptions.ServiceUnavailable)
                self.assertIn("no server listens at this port", str(why))
                self.assertTrue(why.is_retryable())
        self.assertEqual(0, len(driver.pool._slots))

    def test_wrong_login(self):
        with servers.ManyServer() as server:
            driver = self.driver(server.port, auth=("user", "no"))
            why = driving.raised(lambda: driver.execute_query("ONE"))
            self.assertIsInstance(why, exceptions.AuthError)
            self.assertIn("Check the user and the password", str(why))
        self.assertEqual(0, len(driver.pool._slots))

    def test_server_with_too_many_sessions(self):
        with servers.ManyServer("--sessions", "2") as server:
            with self.driver(
                server.port, max_connection_pool_size=3, connection_timeout=0.5
            ) as driver:
                with driver.session() as one, driver.session() as other, driver.session() as third:
                    one.begin_transaction(), other.begin_transaction()
                    why = driving.raised(third.run, "ONE")
                    self.assertIsInstance(why, exceptions.ServiceUnavailable)
                    self.assertIn(
                        "16 at bolt_server: close some, or make the pool smaller", str(why)
                    )
                    one.close()
                    self.assertEqual([1], third.run("ONE").value())

    def test_another_protocol(self):
        with socket.create_server(("127.0.0.1", 0)) as listener:

            def serve():
                with listener.accept()[0] as peer:
                    peer.recv(20, socket.MSG_WAITALL)
                    peer.sendall(b"HTTP/1.1 400 Bad Request\r\n\r\n")

            support.in_thread(serve)
            driver = self.driver(support.port_of(listener))
            why = driving.raised(lambda: driver.execute_query("ONE"))
        self.assertEqual((exceptions.ServiceUnavailable, False), (type(why), why.is_retryable()))
        self.assertIn("this is HTTP", str(why))

    def test_wrong_types(self):
        with Fake() as fake, self.driver(fake.port) as driver, driver.session() as session:
            for call, kind in (
                (lambda: session.run(3), exceptions.ConfigurationError),
                (lambda: session.run("PUT", 3), TypeError),
                (lambda: session.run("PUT", x=object()), TypeError),
                (lambda: session.run("PUT", x=1 << 70), ValueError),
                (lambda: session.run("PUT", x=bolt.Date("no")), exceptions.RequestError),
                (lambda: session.run("PUT", x="y" * 70_000), exceptions.RequestError),
                (lambda: session.execute_write(None), TypeError),
                (lambda: session.execute_write(lambda: 1), TypeError),
                (lambda: session.run("PUT").fetch("x"), exceptions.ConfigurationError),
                (lambda: driver.execute_query(None), exceptions.ConfigurationError),
                (lambda: driver.session(fetch_size=0), exceptions.ConfigurationError),
            ):
                with self.subTest(kind):
                    self.assertIsInstance(driving.raised(call), kind)
            self.assertEqual([1], session.run("PUT").value())

    def test_wrong_options(self):
        for name, wrong in (
            ("max_connection_pool_size", 0),
            ("max_connection_pool_size", True),
            ("max_connection_pool_size", "8"),
            ("connection_timeout", -1),
            ("connection_timeout", "1"),
            ("max_connection_lifetime", None),
            ("liveness_check_timeout", -1),
            ("user_agent", 1),
            ("encrypted", 1),
            ("trusted_certificates", "ca.pem"),
            ("ssl_context", True),
            ("fetch_size", 0),
            ("keep_alive", None),
            ("resolver", print),
            ("notifications_min_severity", "OFF"),
            ("telemetry_disabled", False),
            ("no_option", 1),
            ("max_transaction_retry_time", float("nan")),
        ):
            with self.subTest(name, wrong=wrong), self.assertRaisesRegex(
                exceptions.ConfigurationError, name
            ):
                bolt.driver("bolt://h", **{name: wrong})
        for auth in ("user", ("user",), ("user", 1), 3, ("a", "b", "c")):
            with self.subTest(auth=auth), self.assertRaisesRegex(
                exceptions.ConfigurationError, "a pair of texts"
            ):
                bolt.driver("bolt://h", auth=auth)

    def test_wrong_uris(self):
        for uri, text in (
            ("neo4j://h:17", "write 'bolt://h:17'"),
            ("neo4j+s://h", r"write 'bolt\+s://h:7687'"),
            ("neo4j+ssc://h", r"write 'bolt\+ssc://h:7687'"),
            ("http://h", "write 'bolt://h:7687'"),
            ("h:17", "doesn't begin with"),
            ("bolt:h", "doesn't begin with"),
            ("", "doesn't begin with"),
            ("bolt://", "a host and a port only"),
            ("bolt://h/db", "a host and a port only"),
            ("bolt://h?x=1", "a host and a port only"),
            ("bolt://u:p@h", "write auth="),
            ("bolt://h:x", "is no URI"),
            ("bolt://h:99999", "is no URI"),
            (None, "a URI is a text"),
            (b"bolt://h", "a URI is a text"),
        ):
            with self.subTest(uri), self.assertRaisesRegex(exceptions.ConfigurationError, text):
                bolt.driver(uri)
        for uri, host, port, tls in (
            ("bolt://h", "h", 7687, False),
            ("bolt://[::1]:17", "::1", 17, False),
            ("bolt+s://h:1", "h", 1, True),
            ("bolt+ssc://h", "h", 7687, True),
        ):
            address = bolt.driver(uri).pool.address
            self.assertEqual(
                (host, port, tls), (address.host, address.port, address.tls is not None)
            )

    def test_tls_options_with_a_scheme_that_says_it(self):
        for given in ({"encrypted": True}, {"encrypted": False}):
            with self.assertRaisesRegex(exceptions.ConfigurationError, "by itself how TLS is used"):
                bolt.driver("bolt+s://h", **given)
        self.assertTrue(bolt.driver("bolt://h", encrypted=True).encrypted)
        self.assertFalse(bolt.driver("bolt://h", encrypted=False).encrypted)

    def test_call_has_its_time(self):
        with driving.Holding() as fake, self.driver(fake.port, call_timeout=0.2) as driver:
            with driver.session() as session:
                why = driving.raised(session.run, "WAIT")
                fake.may_go_on.set()
                self.assertIsInstance(why, exceptions.ServiceUnavailable)
                self.assertEqual((bolt.TIMED_OUT, bolt.UNKNOWN), (why.why, why.outcome))
                self.assertEqual(exceptions.IncompleteCommit, type(why))
                self.assertEqual([1], session.run("PUT").value())

    def test_connections_are_kept_alive_if_asked(self):
        for asked in (True, False):
            with Fake() as fake, self.driver(fake.port, keep_alive=asked) as driver:
                driver.verify_connectivity()
                (slot,) = driver.pool._idle
                made = slot.connection.session._socket
                found = made.getsockopt(socket.SOL_SOCKET, socket.SO_KEEPALIVE)
                self.assertEqual(asked, bool(found))

    def test_session_in_two_threads(self):
        with driving.Holding() as fake, self.driver(
            fake.port
        ) as driver, driver.session() as session:
            thread = support.in_thread(lambda: session.run("WAIT"))
            fake.is_there.wait(support.PATIENCE)
            why = driving.raised(session.run, "PUT")
            fake.may_go_on.set()
            thread.join(support.PATIENCE)
            self.assertEqual(exceptions.SessionError, type(why))
            self.assertIn("needs its own session", str(why))
            self.assertEqual([1], session.run("PUT").value())

    def test_session_after_its_end(self):
        with Fake() as fake, self.driver(fake.port) as driver:
            session = driver.session()
            tx = session.begin_transaction()
            result = tx.run("PUT")
            session.close()
            session.close()
            for call, kind in (
                (lambda: session.run("PUT"), exceptions.SessionError),
                (session.begin_transaction, exceptions.SessionError),
                (lambda: session.execute_read(print), exceptions.SessionError),
                (lambda: tx.run("PUT"), exceptions.TransactionError),
                (tx.commit, exceptions.TransactionError),
                (tx.rollback, exceptions.TransactionError),
                (lambda: list(result), exceptions.ResultConsumedError),
                (result.peek, exceptions.ResultConsumedError),
            ):
                self.assertEqual(kind, type(driving.raised(call)))
            self.assertEqual([], fake.commits)

    def test_open_transaction_keeps_its_session(self):
        with Fake() as fake, self.driver(fake.port) as driver, driver.session() as session:
            tx = session.begin_transaction()
            for call in (
                lambda: session.run("PUT"),
                session.begin_transaction,
                lambda: session.execute_write(lambda tx: 1),
            ):
                self.assertEqual(exceptions.TransactionError, type(driving.raised(call)))
            tx.commit()
            self.assertEqual(1, len(fake.commits))

    def test_failed_transaction(self):
        with Fake() as fake, self.driver(fake.port) as driver, driver.session() as session:
            tx = session.begin_transaction()
            self.assertEqual(exceptions.CypherSyntaxError, type(driving.raised(tx.run, "NOPE")))
            why = driving.raised(tx.run, "PUT")
            self.assertEqual(exceptions.TransactionError, type(why))
            self.assertIn("the transaction failed", str(why))
            self.assertEqual(exceptions.TransactionError, type(driving.raised(tx.commit)))
            tx.close()
            self.assertEqual([1], session.run("PUT").value())
            self.assertEqual([None], fake.commits)

    def test_failure_that_a_block_ignores_is_raised_at_its_end(self):
        def work():
            with session.begin_transaction() as tx:
                driving.raised(tx.run, "NOPE")

        with Fake() as fake, self.driver(fake.port) as driver, driver.session() as session:
            self.assertEqual(exceptions.TransactionError, type(driving.raised(work)))
            self.assertEqual([1], session.run("PUT").value())
            managed = driving.raised(
                session.execute_write, lambda tx: driving.raised(tx.run, "NOPE")
            )
            self.assertEqual(exceptions.TransactionError, type(managed))
            self.assertEqual([None], fake.commits)

    def test_work_that_would_run_later_commits_nothing(self):
        async def later(tx):
            tx.run("PUT")

        works = (
            later,
            lambda tx: (tx.run("PUT") for _ in range(2)),
            lambda tx: map(tx.run, ["PUT"]),
        )
        with Fake() as fake, self.driver(fake.port) as driver, driver.session() as session:
            for work in works:
                why = driving.raised(session.execute_write, work)
                self.assertEqual(TypeError, type(why))
                self.assertIn("would run after the commit", str(why))
            # A result is read no more, but it was run.
            result = session.execute_write(lambda tx: tx.run("PUT"))
            self.assertEqual(exceptions.ResultConsumedError, type(driving.raised(list, result)))
            self.assertEqual([None], fake.commits)
        self.warned.clear()

    def test_session_that_is_lost_gives_its_connection_back(self):
        with Fake() as fake, self.driver(fake.port, max_connection_pool_size=1) as driver:
            session = driver.session()
            session.begin_transaction()
            del session
            gc.collect()
            driver.verify_connectivity()
            self.assertEqual(2, fake.connections)
        self.warned.clear()

    def test_unread_result_is_committed_at_the_end_of_its_session(self):
        for fails, commits in ((False, [None]), (True, [])):
            with self.subTest(fails=fails), Fake(rows=[(n,) for n in range(30)]) as fake:
                with self.driver(fake.port, fetch_size=10) as driver:

                    def work():
                        with driver.session() as session:
                            session.run("PUT")
                            if fails:
                                raise KeyError

                    self.assertEqual(KeyError if fails else type(None), type(driving.raised(work)))
                self.assertEqual(commits, fake.commits)


if __name__ == "__main__":
    unittest.main()
