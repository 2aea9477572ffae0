"""The connection of the driver: results, transactions, pipelines and errors."""
import paths  # noqa: F401

import asyncio
import contextlib
import socket
import ssl
import time
import unittest

import bolt
import bolt.aio
import support
from bolt import library
from tests.lib import fake_servers

DONE, ROW = fake_servers.DONE, fake_servers.ROW
REFUSED = library.NOT_ALLOWED


class Results(support.ServerCase):
    """Results and their records."""

    def test_records_are_pulled_as_they_are_read(self):
        with support.connected(self.port, fetch=2) as connection:
            records = connection.run("ROWS", n=5)
            first = next(records)
            # The rest of an open result is kept while another query runs.
            self.assertEqual([1], connection.run("ROWS", n=1).single())
            self.assertEqual([2, 3, 4, 5], [it["i"] for it in records])
        self.assertEqual((1, 1, 7), (first["i"], first[0], first.get("j", 7)))
        self.assertEqual(({"i": 1}, ["i"], [1]), (first.data(), first.keys(), first.values()))
        self.assertEqual({(1,)}, {first})
        self.assertEqual(KeyError, type(support.raised(lambda: first["j"])))

    def test_results_are_read_as_a_whole(self):
        with support.connected(self.port, fetch=2) as connection:
            kept = connection.run("ROWS", n=5)
            summary = kept.consume()
            three = connection.run("ROWS", n=3)
            self.assertEqual((bolt.COMMITTED, "bk:"), (summary.outcome, summary.bookmark[:3]))
            self.assertEqual([], list(kept))
            self.assertEqual([{"i": 1}, {"i": 2}, {"i": 3}], three.data())
            self.assertEqual(["i"], three.keys())
            self.assertIsInstance(support.raised(lambda: connection.run("ROWS", n=2).single()), ValueError)
            self.assertEqual([], connection.run("ROWS", n=0).values())

    def test_reading_of_a_whole_result_ends_after_the_timeout(self):
        with support.connected(self.port, fetch=1) as connection:
            records, hear = connection.run("ROWS", n=40), connection.session._receive
            connection.session._receive = lambda: time.sleep(0.1) or hear()
            connection.timeout = 1
            why = support.raised(records.values)
        self.assertEqual((bolt.Broken, bolt.TIMED_OUT), support.seen(why, "why"))

    def test_whole_result_is_readable_during_another_call(self):
        with support.connected(self.port, fetch=2) as connection:
            done, *ones, part = (connection.run("PUT", key="held", value=1), connection.run("ONE"),
                                 connection.run("ONE"), connection.run("ROWS", n=3))
            # The other call first pulls the rest of `part`, and waits for its rows.
            other = support.WaitingCall(connection.session, lambda: connection.run("ONE"))
            told = done.summary.outcome, ones[0].values(), list(ones[1]), support.code_of(lambda: part.summary)
            self.assertEqual((bolt.COMMITTED, [[1]], [[1]], REFUSED), told)
            self.assertEqual([None], other.end(), "what the other call raised")
            self.assertEqual([[1], [2], [3]], part.values())

    def test_result_that_a_reset_ended_takes_no_rows_of_another(self):
        def reset(connection):
            left = connection.run("ROWS", n=5)
            connection.reset()
            return left

        def rolled_back(connection):
            with contextlib.suppress(KeyError), connection.transaction() as tx:
                left = tx.run("ROWS", n=5)
                raise KeyError
            return left

        with support.connected(self.port, fetch=2) as connection:
            for end in (reset, rolled_back):
                with self.subTest(end.__name__):
                    left = end(connection)
                    other = connection.run("ROWS", n=5)
                    self.assertEqual([1, 2], [next(left)[0], next(left)[0]])
                    self.assertEqual(REFUSED, support.code_of(lambda: next(left)))
                    self.assertEqual(REFUSED, support.code_of(lambda: left.summary))
                    self.assertEqual(5, len(other.values()))


def names(fields):
    """Returns a SUCCESS with these bytes for the names of the columns."""
    return bytes.fromhex("B170A1") + fake_servers.text("fields") + fields


class FixedAnswers(unittest.TestCase):
    """Results of servers with fixed answers."""

    more = bytes.fromhex("B170A1") + fake_servers.text("has_more") + b"\xC3"
    login = (fake_servers.V51, fake_servers.told(DONE, DONE))

    @contextlib.contextmanager
    def connection(self, *answers, **words):
        with fake_servers.Server([(*self.login, *answers)]) as server:
            with support.connected(server.port, **words) as connection:
                yield connection

    def test_result_whose_pull_failed_raises_that_each_time(self):
        # The last answer of the second row is that of a RESET.
        broken, refused = f"PULL of ROWS: UNKNOWN ({bolt.GONE})", f"{fake_servers.REFUSED}: no"
        failure = fake_servers.told(ROW, fake_servers.failure(fake_servers.REFUSED))
        for answers, text, outcome in (((fake_servers.told(ROW),), broken, bolt.UNKNOWN),
                                       ((failure, fake_servers.told(DONE)), refused, bolt.REFUSED)):
            with self.subTest(outcome), self.connection(
                    fake_servers.told(DONE, ROW, self.more), *answers, fetch=1) as connection:
                left = connection.run("ROWS", n=3)
                self.assertEqual(1, next(left)[0])
                self.assertEqual([text] * 3, [str(support.raised(lambda: list(left))) for _ in range(3)])
                self.assertEqual(outcome, left.summary.outcome)

    def test_wrong_names_of_columns_name_none(self):
        # `has_more` is 1, which isn't true, so the result ends.
        for fields in (b"\x05", b"\x91\x90"):
            answer = fake_servers.told(names(fields), ROW, self.more[:-1] + b"\x01")
            with self.subTest(fields=fields), self.connection(answer) as connection:
                only = connection.run("ROWS").single()
                self.assertEqual([1], only.values())
                self.assertIsNone(support.raised(only.data))
                self.assertEqual([], only.keys())

    def test_row_with_fewer_cells_than_names_lacks_the_last(self):
        fields = b"\x92" + fake_servers.text("a") + fake_servers.text("b")
        with self.connection(fake_servers.told(names(fields), ROW, DONE)) as connection:
            short = connection.run("ROWS").single()
        self.assertEqual((1, 7, {"a": 1}), (short["a"], short.get("b", 7), short.data()))
        self.assertEqual(KeyError, type(support.raised(lambda: short["b"])))


def in_block(connection, end):
    """Runs a transaction whose block stops half way."""
    with connection.transaction() as tx:
        end(tx)
        yield


def run_nope(tx):
    """Runs a query that the server refuses, and ignores that."""
    support.raised(lambda: tx.run("NOPE"))


def piped(connection, key):
    """Runs a query in a pipeline."""
    with connection.pipeline() as asked:
        asked.run("PUT", key=key, value=1)


class Transactions(support.ServerCase):
    """Transactions in blocks."""

    def setUp(self):
        super().setUp()
        self.connection = self.enter(support.connected(self.port))

    def put(self, tx, key="goes"):
        return tx.run("PUT", key=key, value=1)

    def code_of_put(self, tx, key="goes"):
        return support.code_of(lambda: self.put(tx, key))

    def assert_nothing_open(self):
        """Checks that no transaction is open: a query commits by itself, or the connection has ended."""
        self.assertIn(support.code_of_next(self.connection), support.NOTHING_OPEN)

    def assert_rolled_back(self):
        """Checks that nothing is open, and that the writes of `put` weren't committed."""
        self.assert_nothing_open()
        self.connection.close()
        self.assertEqual([], support.value_of(self.port, "goes"))

    def test_transaction_commits_at_the_end_of_its_block(self):
        with self.connection.transaction() as tx:
            self.put(tx, "stays")
            self.assertEqual([1], [it["value"] for it in tx.run("GET", key="stays")])
        self.assertEqual((bolt.COMMITTED, "bk:"), (tx.outcome, tx.bookmark[:3]))
        self.connection.close()
        self.assertEqual([1], support.value_of(self.port, "stays"))

    def test_exception_rolls_back(self):
        with contextlib.suppress(KeyError), self.connection.transaction() as tx:
            self.put(tx)
            raise KeyError
        self.assert_rolled_back()

    def test_failure_rolls_back(self):
        with contextlib.suppress(bolt.Refused), self.connection.transaction() as tx:
            self.put(tx)
            tx.run("NOPE")
        self.assert_rolled_back()

    def test_block_that_ignores_a_failure_raises(self):
        def block():
            with self.connection.transaction() as tx:
                run_nope(tx)

        ended = "the request isn't allowed here: the transaction has ended"
        self.assertEqual(ended, str(support.raised(block)))
        self.assert_nothing_open()

    def test_rollback_ends_the_transaction(self):
        with self.connection.transaction() as tx:
            self.put(tx)
            tx.rollback()
            self.assertEqual(REFUSED, support.code_of(lambda: tx.run("ONE")))
        self.assert_rolled_back()

    def test_read_transaction_refuses_writes(self):
        with self.connection.transaction(write=False) as tx:
            why = support.raised(lambda: self.put(tx))
            self.assertEqual((bolt.Refused, "Neo.ClientError.Statement.ReadOnly"), support.seen(why, "code"))
            tx.is_open = False
        self.assert_rolled_back()

    def test_ended_transaction_refuses_queries(self):
        for end in (run_nope, lambda _: self.connection.reset()):
            with contextlib.suppress(bolt.NotSent), self.connection.transaction() as tx:
                support.raised(lambda: end(tx))
                self.assertEqual(REFUSED, self.code_of_put(tx))
        self.assert_rolled_back()

    def test_exception_ends_the_connection_if_something_is_not_settled(self):
        # A RESET isn't allowed before that is settled.
        with contextlib.suppress(KeyError), self.connection.transaction():
            self.connection.session.ask_run("PUT", {"key": "goes", "value": 1})
            raise KeyError
        self.assert_rolled_back()

    def test_block_ends_the_connection_if_something_is_not_settled(self):
        # The transaction can't be committed, and isn't left open.
        with contextlib.suppress(bolt.NotSent), self.connection.transaction() as tx:
            self.put(tx)
            self.connection.session.ask_run("ONE")
        self.assert_rolled_back()

    def test_block_does_not_commit_a_pipelines_transaction(self):
        with contextlib.suppress(bolt.NotSent), self.connection.transaction() as tx:
            run_nope(tx)
            with self.connection.pipeline() as asked:
                asked.begin()
                self.put(asked)
        self.assert_rolled_back()

    def test_open_transaction_refuses_calls_that_would_end_it(self):
        with self.connection.transaction() as over:
            over.run("ONE")
        with contextlib.suppress(KeyError), self.connection.transaction() as tx:
            self.put(tx)
            calls = (over.commit, over.rollback, lambda: self.put(self.connection),
                     lambda: self.connection.read("PUT", key="goes", value=1))
            self.assertEqual([REFUSED] * 4, [support.code_of(it) for it in calls])
            raise KeyError
        self.assert_rolled_back()

    def test_ended_transaction_refuses_queries_in_a_later_one(self):
        with contextlib.suppress(bolt.NotSent), self.connection.transaction() as tx:
            run_nope(tx)
            self.connection.session.begin()
            self.assertEqual(REFUSED, self.code_of_put(tx))
        self.assert_rolled_back()

    def test_abandoned_block_ends_nothing_of_others(self):
        def receive():
            half.close()
            return hear()

        connection, hear = self.connection, self.connection.session._receive
        for end in (run_nope, lambda _: connection.reset()):
            half = in_block(connection, end)
            next(half)
            with contextlib.suppress(bolt.NotSent), connection.transaction() as tx:
                self.put(tx, "behind it")
                half.close()
            self.assertEqual(bolt.COMMITTED, tx.outcome, "another block")
            half = in_block(connection, end)
            next(half)
            connection.session._receive = receive
            self.assertEqual(0, self.code_of_put(connection, "amid"), "a call that goes on")
            connection.session._receive = hear

    def test_transaction_that_its_pipeline_commits_has_its_outcome(self):
        with self.connection.transaction() as tx:
            self.put(tx, "below")
            with self.connection.pipeline() as asked:
                asked.commit()
            self.assertEqual(REFUSED, self.code_of_put(tx))
        self.assertEqual((bolt.COMMITTED, "bk:", False), (tx.outcome, tx.bookmark[:3], tx.is_open))
        self.assert_rolled_back()
        self.assertEqual([1], support.value_of(self.port, "below"))

    def test_transaction_that_its_pipeline_rolls_back_has_its_outcome(self):
        with self.connection.transaction() as tx:
            self.put(tx, "below")
            with self.connection.pipeline() as asked:
                asked.rollback()
            self.assertEqual(REFUSED, self.code_of_put(tx))
        self.assertEqual((bolt.DONE, None, False), (tx.outcome, tx.bookmark or None, tx.is_open))
        self.assert_rolled_back()
        self.assertEqual([], support.value_of(self.port, "below"))

    def test_commit_after_a_failure_in_a_pipeline_is_ignored(self):
        # The block ends by NotSent.
        with contextlib.suppress(bolt.NotSent), self.connection.transaction() as tx:
            with contextlib.suppress(bolt.Refused), self.connection.pipeline() as asked:
                asked.run("NOPE")
                asked.commit()
            outcome = tx.outcome
        self.assertEqual(bolt.IGNORED, outcome)
        self.assert_nothing_open()

    def test_until_known_reports_what_a_pipeline_of_its_work_committed(self):
        made = []

        def connect():
            made.append(support.connected(self.port))
            return made[-1]

        def pipes_and_fails(_):
            with made[-1].pipeline() as asked:
                asked.run("PUT", key="known below", value=1)
                asked.commit()
            made[-1].run("NOPE")

        self.connection.close()
        known = bolt.until_known(connect, pipes_and_fails, tries=1)
        self.assertEqual((bolt.STANDS, "bk:"), (known.fate, known.bookmark[:3]))
        self.assertEqual([1], support.value_of(self.port, "known below"))

    def test_pipeline_in_an_ended_block_is_refused(self):
        for end in (run_nope, lambda _: self.connection.reset()):
            with contextlib.suppress(bolt.NotSent), self.connection.transaction() as tx:
                end(tx)
                self.assertEqual(REFUSED, support.code_of(lambda: piped(self.connection, "goes")))
        self.assertEqual(0, support.code_of(lambda: piped(self.connection, "after the block")))
        with self.connection.transaction() as tx:
            tx.rollback()
            self.assertEqual(0, support.code_of(lambda: piped(self.connection, "after its rollback")))
        self.assert_rolled_back()
        self.assertEqual([1], support.value_of(self.port, "after the block"))
        self.assertEqual([1], support.value_of(self.port, "after its rollback"))


class Pipelines(support.ServerCase):
    """Pipelines outside transactions."""

    def test_records_are_there_at_the_end_of_the_block(self):
        with support.connected(self.port) as connection:
            with connection.pipeline() as asked:
                asked.begin()
                asked.run("PUT", key="piped", value=2)
                got = asked.run("GET", key="piped")
                self.assertIsInstance(support.raised(lambda: list(got)), ValueError)
                asked.commit()
            self.assertEqual([2], [it["value"] for it in got])
        self.assertEqual([2], support.value_of(self.port, "piped"))

    def test_exception_ends_the_connection_and_nothing_is_sent(self):
        with support.connected(self.port) as connection:
            with contextlib.suppress(KeyError), connection.pipeline() as asked:
                asked.run("PUT", key="unsent", value=1)
                raise KeyError
            self.assertEqual(library.NO_CLIENT, support.code_of(lambda: piped(connection, "unsent")))
        self.assertEqual([], support.value_of(self.port, "unsent"))

    def test_second_pipeline_sends_nothing_of_the_first(self):
        with contextlib.suppress(KeyError), support.connected(self.port) as connection:
            with connection.pipeline() as asked:
                asked.run("PUT", key="unsent", value=1)
                with contextlib.suppress(bolt.NotSent), connection.pipeline() as other:
                    other.run("ONE")
                raise KeyError
        self.assertEqual([], support.value_of(self.port, "unsent"))

    def test_second_pipeline_is_refused(self):
        with support.connected(self.port) as connection:
            # Its requests would be sent at the end of the first, which alone would report their outcomes.
            with connection.pipeline() as asked:
                self.assertEqual(REFUSED, support.code_of(lambda: piped(connection, "unsent")))
                asked.run("ONE")
            self.assertEqual(REFUSED, support.code_of(lambda: asked.run("PUT", key="unsent", value=1)))
            self.assertIn(support.code_of_next(connection), support.NOTHING_OPEN)
        self.assertEqual([], support.value_of(self.port, "unsent"))


# A loop and a context of TLS of another package, and a signal handler's exception.
ANOTHER = """
class Loop(asyncio.SelectorEventLoop):
    async def create_connection(self, *words, **named):
        return await super().create_connection(*words, **named)


class Context(ssl.SSLContext):
    def wrap_socket(self, *words, **named):
        return super().wrap_socket(*words, **named)
"""
HANDLER = """
def handler(*_):
    raise TimeoutError
"""


class Errors(support.ServerCase):
    """Errors of a connection."""

    def assert_unreached(self, why, cause):
        """Checks that the server couldn't be reached, for a cause of this type."""
        text = f"before any request ({bolt.UNREACHED}: {why.__cause__}"
        seen = *support.seen(why, "why"), type(why.__cause__), str(why)[:len(text)]
        self.assertEqual((bolt.Broken, bolt.UNREACHED, cause, text), seen)

    def test_server_that_is_not_there_is_reported(self):
        with socket.socket() as taken:
            taken.bind(("127.0.0.1", 0))
            why = support.raised(lambda: support.connected(taken.getsockname()[1]))
        self.assertEqual((bolt.Broken, bolt.UNREACHED, None, ConnectionRefusedError),
                         (*support.seen(why, "why", "outcome"), type(why.__cause__)))
        self.assertIsInstance(why, bolt.BoltError)

    def test_login_that_is_refused_is_reported(self):
        why = support.raised(lambda: bolt.connect("127.0.0.1", self.port, auth=("user", "no")))
        self.assertEqual((bolt.Refused, fake_servers.UNAUTHORIZED), support.seen(why, "code"))
        self.assertIsInstance(why, bolt.BoltError)

    def test_query_that_cannot_be_written_is_not_sent(self):
        with support.connected(self.port) as connection:
            why = support.raised(lambda: connection.run("ECHO", x=bolt.Date("no")))
            self.assertEqual((bolt.NotSent, "S3"), support.seen(why, "rule"))
            self.assertIsInstance(why, bolt.BoltError)
            self.assertEqual([1], connection.run("ONE").single())

    def test_error_of_another_packages_tls_means_that_the_server_cannot_be_reached(self):
        another = {"__name__": "another.below", "asyncio": asyncio, "ssl": ssl}
        exec(ANOTHER, another)
        context = another["Context"](ssl.PROTOCOL_TLS_CLIENT)
        with support.listening() as mute:
            port = support.port_of(mute)
            why = support.raised(lambda: bolt.connect("localhost", port, tls=context, timeout=0.2))
        self.assert_unreached(why, TimeoutError)

    def test_error_of_another_packages_loop_means_that_the_server_cannot_be_reached(self):
        another = {"__name__": "another.below", "asyncio": asyncio, "ssl": ssl}
        exec(ANOTHER, another)
        loop = another["Loop"]()
        self.addCleanup(loop.close)
        with support.listening() as closed:
            port = support.port_of(closed)
        why = support.raised(lambda: loop.run_until_complete(bolt.aio.connect("127.0.0.1", port)))
        self.assert_unreached(why, ConnectionRefusedError)

    def test_exception_of_a_signal_handler_is_raised_as_it_is(self):
        handling = {"__name__": "another.handlers"}
        exec(HANDLER, handling)
        with support.connected(self.port) as connection:
            connection.session._client.sent = handling["handler"]
            self.assertEqual(TimeoutError, type(support.raised(lambda: connection.run("ONE"))))

    def test_handshake_of_tls_has_the_time_that_connecting_left(self):
        given = []

        class Slow(bolt.Session):
            def _give(self, left):
                given.append(left)
                time.sleep(0.1)
                # The handshake never ends, so the test gives it less than it is given here.
                super()._give(left if len(given) == 1 else 0.1)

        with support.listening() as mute:
            why = support.raised(lambda: Slow("127.0.0.1", support.port_of(mute), timeout=support.PATIENCE,
                                              tls=ssl.create_default_context()))
        self.assertEqual((bolt.Broken, bolt.UNREACHED, 2), (*support.seen(why, "why"), len(given)))
        self.assertLess(given[1], support.PATIENCE - 0.05)


if __name__ == "__main__":
    unittest.main()
