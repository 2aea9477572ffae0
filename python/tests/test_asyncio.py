"""`bolt.aio`: results, transactions, tasks, loops, errors, and `until_known`."""
import paths  # noqa: F401

import asyncio
import contextlib
import socket
import struct
import sys
import threading
import unittest
import warnings

import bolt
import ends
import fates
import loops
import support
from bolt import aio, library
from loops import connected, in_loop, put, raised
from tests.lib import fake_servers, proxy


class Results(support.ServerCase):
    """Results and their records."""

    @in_loop
    async def test_records_are_pulled_as_they_are_read(self):
        async with await connected(self.port, fetch=2) as connection:
            records = await connection.run("ROWS", n=5)
            self.assertEqual([1], await records.__anext__())
            # The rest of an open result is kept while another query runs.
            self.assertEqual([1], await (await connection.run("ROWS", n=1)).single())
            self.assertEqual([2, 3, 4, 5], [it["i"] async for it in records])

    @in_loop
    async def test_results_are_read_as_a_whole(self):
        async with await connected(self.port, fetch=2) as connection:
            kept = await connection.run("ROWS", n=5)
            summary = await kept.consume()
            self.assertEqual((bolt.COMMITTED, []), (summary.outcome, await kept.values()))
            self.assertEqual([{"i": 1}, {"i": 2}, {"i": 3}], await (await connection.run("ROWS", n=3)).data())
            self.assertIsInstance(await raised((await connection.run("ROWS", n=2)).single()), ValueError)

    @in_loop
    async def test_result_whose_pull_was_cancelled_raises_that_each_time(self):
        async with await connected(self.port, fetch=2) as connection:
            records = await connection.run("ROWS", n=5)
            self.assertEqual([1, 2], [(await records.__anext__())["i"] for _ in range(2)])
            pulling = asyncio.ensure_future(records.__anext__())
            await asyncio.sleep(0)
            pulling.cancel()
            await asyncio.wait({pulling})
            told = [str(await raised(records.values())) for _ in range(2)]
        self.assertTrue(pulling.cancelled())
        self.assertEqual([f"PULL of ROWS: UNKNOWN ({bolt.INTERRUPTED})"] * 2, told)

    @in_loop
    async def test_reading_of_a_whole_result_ends_after_the_timeout(self):
        async with await connected(self.port, fetch=1) as connection:
            records, hear = await connection.run("ROWS", n=40), connection.session._receive

            async def receive():
                await asyncio.sleep(0.1)
                return await hear()

            connection.session._receive, connection.timeout = receive, 1
            why = await raised(records.values())
        self.assertEqual((bolt.Broken, bolt.TIMED_OUT), support.seen(why, "why"))


class Transactions(support.ServerCase):
    """Transactions in blocks, and pipelines."""

    @in_loop
    async def test_transaction_commits_at_the_end_of_its_block(self):
        async with await connected(self.port) as connection:
            async with connection.transaction() as tx:
                await tx.run("PUT", key="stays", value=1)
                self.assertEqual([[1]], await (await tx.run("GET", key="stays")).values())
            self.assertEqual((bolt.COMMITTED, "bk:"), (tx.outcome, tx.bookmark[:3]))

    @in_loop
    async def test_exception_failure_and_rollback_commit_nothing(self):
        async with await connected(self.port) as connection:
            with contextlib.suppress(KeyError):
                async with connection.transaction() as tx:
                    await tx.run("PUT", key="goes", value=1)
                    raise KeyError
            with contextlib.suppress(bolt.Refused):
                async with connection.transaction() as tx:
                    await tx.run("PUT", key="goes", value=1)
                    await tx.run("NOPE")
            async with connection.transaction() as tx:
                await tx.run("PUT", key="goes", value=1)
                await tx.rollback()
            self.assertEqual([], await (await connection.read("GET", key="goes")).values())

    @in_loop
    async def test_records_of_a_pipeline_are_there_at_the_end_of_its_block(self):
        async with await connected(self.port) as connection:
            async with connection.transaction() as tx:
                await tx.run("PUT", key="stays", value=1)
            async with connection.pipeline() as asked:
                asked.begin()
                got = asked.run("GET", key="stays")
                asked.commit()
            self.assertEqual([1], [it["value"] for it in got])

    @in_loop
    async def test_transaction_that_its_pipeline_commits_has_its_outcome(self):
        async with await connected(self.port) as connection:
            async with connection.transaction() as tx:
                async with connection.pipeline() as asked:
                    asked.commit()
        self.assertEqual(bolt.COMMITTED, tx.outcome)

    @in_loop
    async def test_transaction_whose_connection_another_task_closes_is_broken(self):
        async with await connected(self.port) as connection:
            session = connection.session
            hear = session._receive

            async def receive():
                piece = await hear()
                await session.close()
                return piece

            session._receive = receive
            why = await raised(loops.in_one(connection, "closed"))
        self.assertEqual((bolt.Broken, bolt.UNKNOWN), support.seen(why, "outcome"))


class Tasks(support.ServerCase):
    """Tasks and loops that share a connection."""

    @in_loop
    async def test_second_task_is_refused_and_the_first_goes_on(self):
        connection = await connected(self.port)
        whole = await connection.run("ONE")
        first = asyncio.ensure_future(connection.run("ROWS", n=3))
        await asyncio.sleep(0)
        # The exception's frames hold the connection.
        second = (await raised(connection.run("ONE"))).with_traceback(None)
        self.assertEqual((bolt.NotSent, 1), support.seen(second, "code"))
        self.assertEqual(1, support.code_of(connection.session.ask_reset))
        # A result that was read as a whole is still readable.
        self.assertEqual((bolt.COMMITTED, [[1]]), ((await whole.summary()).outcome, await whole.values()))
        self.assertEqual([[1], [2], [3]], await (await first).values())
        await connection.close()

    @in_loop
    async def test_dropped_connection_warns_and_its_requests_have_outcomes(self):
        connection = await connected(self.port)
        await (await connection.run("ROWS", n=3)).values()
        # The loop holds what it called last.
        await asyncio.sleep(0)
        asked = connection.session.ask_begin()
        with warnings.catch_warnings(record=True) as told:
            warnings.simplefilter("always")
            del connection
        self.assertEqual(bolt.LOST, asked.outcome)
        self.assertIn(ResourceWarning, [it.category for it in told])

    @in_loop
    async def test_call_in_another_loop_is_refused_and_sends_nothing(self):
        connection = await connected(self.port)

        async def elsewhere(call):
            return await asyncio.to_thread(lambda: asyncio.run(raised(call)))

        why = await elsewhere(connection.run("PUT", key="elsewhere", value=1))
        self.assertEqual((bolt.NotSent, library.NOT_ALLOWED), support.seen(why, "code"))
        self.assertEqual([], await (await connection.read("GET", key="elsewhere")).values())
        self.assertIsNone(await elsewhere(connection.close()))
        self.assertEqual(library.NO_CLIENT, await loops.code_of(connection.run("ONE")))

    def closing(self, connection):
        """Closes a connection in another thread, which has a loop of its own."""
        return support.in_thread(lambda: asyncio.run(connection.close()))

    @in_loop
    async def test_waiting_call_ends_when_another_thread_closes_the_connection(self):
        loop = asyncio.get_running_loop()
        # In debug mode a loop refuses calls of another thread.
        for is_debugged in (False, True):
            loop.set_debug(is_debugged)
            with self.subTest(is_debugged=is_debugged), fake_servers.Server([fates.BEFORE[:2]], ends=False) as server:
                connection = await connected(server.port, timeout=None)
                waiting = asyncio.ensure_future(raised(connection.run("ONE")))
                await asyncio.sleep(0.1)
                thread = self.closing(connection)
                await asyncio.wait({waiting}, timeout=support.PATIENCE)
                self.assertTrue(waiting.done(), f"the call has ended after {support.PATIENCE} seconds")
                self.assertEqual(f"RUN ONE: LOST, PULL of ONE: UNKNOWN ({bolt.CLOSED_HERE})", str(await waiting))
                thread.join()
        loop.set_debug(False)

    @in_loop
    async def test_nothing_is_sent_after_it_was_reported_as_lost(self):
        told = []

        def goes(count):
            self.closing(connection).join()
            told.append(asked.outcome)
            library.Client.goes(client, count)

        connection = await connected(self.port)
        asked = connection.session.ask_run("PUT", {"key": "waking", "value": 1})
        client = connection.session._client
        client.goes = goes
        why = await raised(connection.session.settle())
        there = await asyncio.to_thread(support.value_of, self.port, "waking")
        self.assertEqual(([bolt.LOST], bolt.Broken, []), (told, type(why), there))


class Errors(support.ServerCase):
    """Errors of a connection."""

    @in_loop
    async def test_server_that_is_not_there_is_reported(self):
        why = await raised(connected(1))
        self.assertEqual((bolt.Broken, bolt.UNREACHED, ConnectionRefusedError),
                         (*support.seen(why, "why"), type(why.__cause__)))

    @in_loop
    async def test_login_that_is_refused_is_reported(self):
        why = await raised(aio.connect("127.0.0.1", self.port, auth=("user", "no")))
        self.assertEqual((bolt.Refused, fake_servers.UNAUTHORIZED), support.seen(why, "code"))

    @in_loop
    async def test_wrong_arguments_are_refused(self):
        there = {"host": "127.0.0.1", "port": self.port, "auth": support.AUTH}
        for words, kind in (({"auth": ("user",)}, ValueError), ({"port": self.port + 65536}, ValueError),
                            ({"port": str(self.port + 65536)}, ValueError), ({"port": self.port + 0.5}, TypeError),
                            ({"auth": "ab"}, TypeError), ({"host": None}, TypeError), ({"tls": "yes"}, TypeError)):
            with self.subTest(**words):
                self.assertEqual(kind, type(await raised(aio.connect(**{**there, **words}))))

    @in_loop
    async def test_connection_goes_on_after_a_query_that_cannot_be_written(self):
        async with await connected(self.port) as connection:
            self.assertEqual(TypeError, type(await raised(connection.run("ECHO", x={1}))))
            self.assertEqual([1], await (await connection.run("ONE")).single())


class Resets(fake_servers.Server):
    """A server that answers the login and so many further pieces, reads no more, and resets when it may."""

    def __init__(self, further):
        self.further, self.may_reset = further, threading.Event()
        super().__init__([])

    def answer(self, client):
        with client, contextlib.suppress(OSError):
            client.recv(20, socket.MSG_WAITALL)
            client.sendall(fake_servers.V51)
            for _ in range(1 + self.further):
                client.recv(200)
                client.sendall(fates.RAN)
            self.may_reset.wait(support.PATIENCE)
            client.setsockopt(socket.SOL_SOCKET, socket.SO_LINGER, struct.pack("ii", 1, 0))


class Ends(unittest.TestCase):
    """Ends of a connection by the server."""

    def test_each_end_is_reported_with_its_reason_in_time(self):
        ends.check(self, lambda port, timeout: asyncio.run(connected(port, timeout=timeout)))

    @in_loop
    async def test_answer_before_a_reset_counts(self):
        with Resets(1) as server:
            async with await connected(server.port) as connection:
                session = connection.session
                session._writer.get_extra_info("socket").setsockopt(socket.SOL_SOCKET, socket.SO_SNDBUF, 4096)
                first = session.ask_run("PUT", {"key": "k", "value": 1})
                last = [session.ask_run("PUT", {"key": "k", "value": bytes(65000)}) for _ in range(15)][-1]
                hear = session._receive

                async def receive():
                    # The server may reset the connection once its answer was read.
                    if first.outcome:
                        server.may_reset.set()
                    return await hear()

                session._receive = receive
                why = await raised(session.settle())
        self.assertEqual((bolt.Broken, bolt.GONE, bolt.COMMITTED, bolt.UNKNOWN),
                         (*support.seen(why, "why"), first.outcome, last.outcome))

    @in_loop
    async def test_query_after_a_reset_is_lost_and_not_written(self):
        written = []
        with Resets(0) as server:
            async with await connected(server.port) as connection:
                server.may_reset.set()
                transport = connection.session._writer.transport
                while not transport.is_closing():
                    await asyncio.sleep(0.01)
                # The transports of some loops refuse what is written then.
                transport.write = written.append
                why = await raised(connection.run("PUT", key="k", value=1))
        self.assertEqual((bolt.Broken, bolt.GONE, bolt.LOST), support.seen(why, "why", "outcome"))
        self.assertEqual([], written)


class UntilKnown(support.ServerCase):
    """Transactions that are sent until they are known."""

    def connect(self):
        return connected(self.port)

    @in_loop
    async def test_fates(self):
        async def drops(tx):
            await tx.run("PUT", key="dropped", value=1)
            await tx.rollback()

        made = await aio.until_known(self.connect, put("fates", 1))
        self.assertEqual((bolt.STANDS, 1), (made.fate, made.value))
        for wanted, connect, work, words in (
                (bolt.CLASH, self.connect, put("fates", 2), {"token": made.token}),
                (bolt.REFUSED, self.connect, lambda tx: tx.run("NOPE"), {}),
                (bolt.ABSENT, lambda: connected(1), put("fates", 3), {"tries": 2, "pause": lambda _: 0}),
                (bolt.ABSENT, self.connect, drops, {})):
            with self.subTest(wanted):
                self.assertEqual(wanted, (await aio.until_known(connect, work, **words)).fate)

    @in_loop
    async def test_transaction_stands_though_its_first_try_is_cut(self):
        for way in ("told", "asked"):
            for at in range(0, 400, 19):
                with self.subTest(way, at=at), proxy.Door(self.port, [{way: at}]) as door:
                    there = support.port_of(door.listener)
                    known = await aio.until_known(lambda: connected(there), put(f"{way} {at}", at), pause=lambda _: 0)
                    self.assertEqual(bolt.STANDS, known.fate, repr(known))

    @in_loop
    async def test_cancellation_after_the_commit_has_the_token(self):
        async def stops(tx):
            await put("stopped", 1)(tx)
            await tx.commit()
            bookmarks.append(tx.bookmark)
            sent.cancel()
            await asyncio.sleep(2 * support.PATIENCE)

        bookmarks = []
        sent = asyncio.ensure_future(aio.until_known(self.connect, stops))
        with self.assertRaises(asyncio.CancelledError) as cancelled:
            await sent
        # Before Python 3.11 a task raises another CancelledError, whose context is that of the task.
        why = cancelled.exception if sys.version_info >= (3, 11) else cancelled.exception.__context__
        again = await aio.until_known(self.connect, put("stopped", 1), why.token)
        self.assertEqual((bolt.STANDS, bookmarks), (again.fate, [again.bookmark]))

    def test_answer_counts_though_the_server_then_closes_or_says_too_much(self):
        fates.check(self, lambda port: asyncio.run(
            aio.until_known(lambda: connected(port), put("heard", 1), tries=1)))


if __name__ == "__main__":
    unittest.main()
