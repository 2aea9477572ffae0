"""Outcomes that say no more than is known: after lazy work, interrupts, failed sockets, unread results and ends."""
import asyncio
import contextlib
import gc
import os
import pickle
import signal
import socket
import ssl
import sys
import types
import unittest
import unittest.mock
import warnings

import paths  # noqa: F401
import bolt
from bolt import aio
from bolt.library import BAD_PEER, LARGE, LIBRARY, Asked, Client
from bolt.values import pack_structure
from fakes import OURS, Fake
from tests.lib import programs, servers

USER = ("user", "pass")
PACKAGE = os.path.dirname(bolt.__file__)


def now(_):
    return 0


def connected(server, **how):
    return bolt.connect("127.0.0.1", server.port, auth=USER, **how)


def connected_by_aio(server, **how):
    return aio.connect("127.0.0.1", server.port, auth=USER, **how)


def put(tx):
    tx.run("PUT", key="k", value=1)


def until(server, work=put, **how):
    return bolt.until_known(lambda: connected(server), work, **{"pause": now, "tries": 5, **how})


def until_by_aio(server, work, **how):
    return asyncio.run(aio.until_known(lambda: connected_by_aio(server), work, **{"pause": now, "tries": 5, **how}))


def raised(call, *words, **how):
    """Returns what a call raises, None if it returns."""
    try:
        call(*words, **how)
    except BaseException as why:
        return why
    return None


async def raised_by_aio(call):
    """Returns what awaiting this raises, None if it returns."""
    try:
        await call
    except BaseException as why:
        return why
    return None


# Work that leaves its queries for later.

def generates(tx):
    yield tx.run("PUT")


async def is_coroutine(tx):
    tx.run("PUT")


async def generates_later(tx):
    yield tx.run("PUT")


def generates_after_query(tx):
    tx.run("PUT")
    return (tx.run("PUT") for _ in range(2))


LAZY = (
    ("a generator function", generates),
    ("a generator", lambda tx: (tx.run("PUT") for _ in range(2))),
    ("an async def", is_coroutine),
    ("an async generator", generates_later),
    ("map", lambda tx: map(tx.run, ["PUT"])),
    ("filter", lambda tx: filter(tx.run, ["PUT"])),
    ("zip", lambda tx: zip(map(tx.run, ["PUT"]))),
    ("a generator after a query", generates_after_query),
    ("a list of generators", lambda tx: (tx.run("PUT"), [generates(tx)])[1]),
    ("a tuple with a map", lambda tx: (tx.run("PUT"), map(tx.run, ["PUT"]))),
    ("no query", lambda tx: None),
    ("no query, and a value", lambda tx: 1),
    ("no query, and its own COMMIT", lambda tx: tx.commit()),
    ("a dict with a generator", lambda tx: (tx.run("PUT"), {"rows": generates(tx)})[1]),
    ("a set of generators", lambda tx: (tx.run("PUT"), {generates(tx)})[1]),
)


async def forgets_await(tx):
    tx.run("PUT")


async def forgets_second_await(tx):
    await tx.run("PUT")
    tx.run("PUT")


async def forgets_await_and_commits(tx):
    tx.run("PUT")
    await tx.commit()


async def commits_nothing(tx):
    await tx.commit()


async def returns_coroutine(tx):
    return tx.run("PUT")


async def returns_coroutines(tx):
    return [tx.run("PUT") for _ in range(2)]


async def returns_own_coroutines(tx):
    await tx.run("PUT")
    return [forgets_await(tx)]


async def returns_generator(tx):
    await tx.run("PUT")
    return (tx.run("PUT") for _ in range(2))


async def returns_async_generator(tx):
    await tx.run("PUT")
    return generates_later(tx)


async def asks_nothing(_):
    return 1


LAZY_BY_AIO = (
    ("a forgotten await", forgets_await),
    ("a second await that is forgotten", forgets_second_await),
    ("a forgotten await before its own COMMIT", forgets_await_and_commits),
    ("no query, and its own COMMIT", commits_nothing),
    ("a coroutine", returns_coroutine),
    ("a list of coroutines", returns_coroutines),
    ("a list of its own coroutines", returns_own_coroutines),
    ("a generator", returns_generator),
    ("an async generator", returns_async_generator),
    ("an async generator function", generates_later),
    ("a plain function", lambda tx: None),
    ("no query", asks_nothing),
)


def pipes(tx):
    with tx._connection.pipeline() as asked:
        asked.run("PUT")


async def gathers(tx):
    return [await it for it in [tx.run("PUT") for _ in range(2)]]


async def reads(tx):
    return await tx.run("PUT")


class LazyWork(unittest.TestCase):
    """Work that has run no query when it returns commits nothing, so it isn't reported to be committed."""

    def check(self, fake, why):
        asked = [it for connection in fake.asked for it in connection]
        self.assertIsInstance(why, TypeError)
        told = fake.commits, "COMMIT" in asked, why.known.fate, len(why.token)
        self.assertEqual(([], False, bolt.ABSENT, 32), told)

    def test_lazy_work_is_refused_before_commit(self):
        for name, work in LAZY:
            with self.subTest(name), Fake() as fake, warnings.catch_warnings():
                # Python warns of coroutines that are never awaited.
                warnings.simplefilter("ignore")
                self.check(fake, raised(until, fake, work))
                gc.collect()

    def test_lazy_work_of_asyncio_is_refused_before_commit(self):
        for name, work in LAZY_BY_AIO:
            with self.subTest(name), Fake() as fake, warnings.catch_warnings():
                warnings.simplefilter("ignore")
                self.check(fake, raised(until_by_aio, fake, work))
                gc.collect()

    def test_lazy_work_is_rolled_back_at_server(self):
        with servers.ManyServer() as server:
            why = raised(until, server, lambda tx: (tx.run("PUT", key="lazy", value=1), map(tx.run, ["ONE"])))
            with connected(server) as connection:
                self.assertEqual((TypeError, []), (type(why), connection.read("GET", key="lazy").values()))

    def test_other_work_is_committed(self):
        for name, work in (("a result", lambda tx: tx.run("PUT")), ("a list of results", lambda tx: [tx.run("PUT")]),
                           ("a pipeline in its block", pipes), ("no value", put)):
            with self.subTest(name), Fake() as fake:
                self.assertEqual((bolt.STANDS, 1), (until(fake, work).fate, len(fake.commits)))
        for name, work in (("a result", reads), ("awaited one after another", gathers),
                           ("run itself", lambda tx: tx.run("PUT"))):
            with self.subTest(name, by="asyncio"), Fake() as fake:
                self.assertEqual((bolt.STANDS, 1), (until_by_aio(fake, work).fate, len(fake.commits)))


class Outcome(unittest.TestCase):
    """`outcome` of several requests, and of a result."""

    def test_outcome_is_unknown_if_one_commit_is(self):
        with Fake(lost=(1,)) as fake, connected(fake) as connection:
            with self.assertRaises(bolt.Broken) as broken, connection.pipeline() as asked:
                asked.run("PUT")
                asked.begin()
                asked.run("PUT")
                asked.commit()
        outcomes = dict(broken.exception.outcomes)
        self.assertEqual((bolt.UNKNOWN, bolt.UNKNOWN), (outcomes["COMMIT"], broken.exception.outcome))
        self.assertIn(bolt.COMMITTED, [it.outcome for it in broken.exception.requests])

    def test_outcome_of_each_combination(self):
        done, committed, lost, unknown = bolt.DONE, bolt.COMMITTED, bolt.LOST, bolt.UNKNOWN
        rows = (((), None), ((done,), lost), ((lost, done), lost), ((done, committed), committed),
                ((committed, lost), committed), ((unknown, committed), unknown), ((committed, unknown), unknown),
                ((committed, None), unknown), ((None,), unknown))
        for outcomes, wanted in rows:
            with self.subTest(outcomes):
                self.assertEqual(wanted, bolt.Broken([bolt.Request("X", it) for it in outcomes], bolt.GONE).outcome)

    def test_summary_of_unknown_end_is_unknown(self):
        with Fake() as fake, connected(fake) as connection:
            result = bolt.Result(connection.session, bolt.Request("RUN"), bolt.Request("PULL"), "PUT", 1)
            self.assertEqual(bolt.UNKNOWN, result._summary().outcome)


class Own(Exception):
    """An exception that isn't of the package."""


class Fixed(Exception):
    """An exception that refuses the attributes `token` and `known`."""

    def __setattr__(self, name, value):
        if name in ("token", "known"):
            raise TypeError(name)
        super().__setattr__(name, value)


class Interrupts:
    """Raises an exception at a line of the package, by number, once it is armed."""

    def __init__(self, number, kind):
        self.number, self.kind, self.passed, self.raised = number, kind, 0, None

    def arm(self):
        """Traces the frames that are there and those that follow."""
        frame = sys._getframe(1)
        sys.settrace(self)
        while frame:
            frame.f_trace = self(frame, "call", None)
            frame = frame.f_back

    def __call__(self, frame, event, _):
        if os.path.dirname(frame.f_code.co_filename) != PACKAGE or frame.f_code.co_name == "__del__":
            return None
        if event == "line":
            self.passed += 1
            if self.passed == self.number:
                self.raised = self.kind()
                raise self.raised
        return self


class Cancelled:
    """Awaits steps, and cancels the task when these wait for the time of a number."""

    def __init__(self, steps, number):
        self.steps, self.number, self.passed = steps, number, 0

    def __await__(self):
        step, word = self.steps.send, None
        while True:
            try:
                waited = step(word)
            except StopIteration as done:
                return done.value
            self.passed += 1
            if self.passed == self.number:
                asyncio.current_task().cancel()
            try:
                step, word = self.steps.send, (yield waited)
            except BaseException as why:
                step, word = self.steps.throw, why


class Interrupted(unittest.TestCase):
    """The exception that leaves `until_known` has what is known so far."""

    def interrupt(self, fake, number, kind, after_commit):
        """Returns what is known after an interrupt at a line, by number, and whether there is such a line."""
        interrupts, found, feed = Interrupts(number, kind), [], bolt.library.Client.feed

        def work(tx):
            found.append(tx)
            put(tx)

        def fed(client, piece):
            code = feed(client, piece)
            if after_commit and found and found[0].outcome == bolt.COMMITTED:
                interrupts.arm()
            return code

        with unittest.mock.patch.object(bolt.library.Client, "feed", fed):
            try:
                if not after_commit:
                    interrupts.arm()
                known = until(fake, work, tries=1)
            except (KeyboardInterrupt, Own) as why:
                # Before the first try nothing is known, and nothing was sent.
                known = getattr(why, "known", bolt.Known(bolt.ABSENT, "none") if not fake.connections else None)
                self.assertEqual((interrupts.raised, getattr(why, "token", "none")), (why, known.token))
            finally:
                sys.settrace(None)
        return known, interrupts.raised is not None

    def test_interrupt_at_each_line_after_commit_is_known_to_stand(self):
        number, is_there = 1, True
        while is_there:
            kind = (KeyboardInterrupt, Own)[number % 2]
            with self.subTest(line=number, kind=kind.__name__), Fake() as fake:
                known, is_there = self.interrupt(fake, number, kind, True)
                self.assertEqual((bolt.STANDS, 1), (known.fate, len(fake.commits)))
            number += 1
        self.assertGreater(number, 50)

    def test_interrupt_at_each_line_says_no_more_than_is_true(self):
        number, step, fates, is_there = 1, programs.count(1, 7), set(), True
        while is_there:
            with self.subTest(line=number), Fake() as fake:
                known, is_there = self.interrupt(fake, number, KeyboardInterrupt, False)
                fates.add(known.fate)
                # Once the server's end of the connection is closed, it commits no more.
                fake.__exit__()
                true = (bolt.ABSENT, 0), (bolt.OPEN, 0), (bolt.OPEN, 1), (bolt.STANDS, 1)
                self.assertIn((known.fate, len(fake.commits)), true)
            number += step
        self.assertEqual({bolt.ABSENT, bolt.OPEN, bolt.STANDS}, fates)

    def test_cancellation_at_each_await_says_no_more_than_is_true(self):
        async def main(number):
            async def work(tx):
                found.append(tx)
                await tx.run("PUT")

            steps = aio.until_known(lambda: connected_by_aio(fake), work, tries=1)
            found, sent = [], Cancelled(steps, number)
            try:
                await sent
            except asyncio.CancelledError as why:
                return why.known.fate, found[0].outcome if found else None, True
            return None, None, False

        # How often it waits depends on how answers come, so some further numbers are tried.
        for number in range(1, 20):
            with self.subTest(place=number), Fake() as fake:
                fate, outcome, is_there = asyncio.run(main(number))
                wanted = {bolt.COMMITTED: bolt.STANDS, bolt.UNKNOWN: bolt.OPEN}.get(outcome, bolt.ABSENT)
                self.assertEqual(wanted if is_there else None, fate)
                self.assertTrue(is_there or number > 3, f"it waits {number - 1} times")

    def test_cancellation_around_the_answer_to_commit(self):
        """The task is cancelled when COMMIT was sent, and when its SUCCESS was read."""
        async def work(tx):
            found.append(tx)
            await tx.run("PUT")

        def then_cancel(call, outcome):
            def patched(client, word):
                code = call(client, word)
                if found and found[0]._last and found[0].outcome == outcome:
                    asyncio.current_task().cancel()
                return code
            return patched

        for name, outcome, fate in (("sent", None, bolt.OPEN), ("feed", bolt.COMMITTED, bolt.STANDS)):
            found, patched = [], then_cancel(getattr(Client, name), outcome)
            with self.subTest(fate), Fake() as fake, unittest.mock.patch.object(Client, name, patched):
                why = raised(until_by_aio, fake, work)
                # Before Python 3.11 `asyncio.run` raises another exception, with this one as its context.
                why = why if hasattr(why, "known") else why.__context__
                told = type(why), why.known.fate, why.token == why.known.token
                self.assertEqual((asyncio.CancelledError, fate, True), told)

    def test_exception_of_work_has_what_is_known(self):
        def fails(tx):
            put(tx)
            raise Own

        def fails_after_commit(tx):
            put(tx)
            tx.commit()
            raise Own

        def fails_after_doubt(tx):
            tries.append(1)
            put(tx)
            if len(tries) == 2:
                raise Own

        def fails_in_doubt(tx):
            put(tx)
            with contextlib.suppress(bolt.Broken):
                tx.commit()
            raise Own

        tries = []
        for work, how, server, fate in ((fails, {}, {}, bolt.ABSENT), (fails_after_commit, {}, {}, bolt.STANDS),
                                        (fails, {"in_doubt": True, "token": "t"}, {"names": (OURS,)}, bolt.OPEN),
                                        (fails_after_doubt, {}, {"names": (OURS,), "lost": (1,)}, bolt.OPEN),
                                        (fails_in_doubt, {}, {"lost": (1,)}, bolt.OPEN)):
            with self.subTest(work.__name__, **how), Fake(**server) as fake:
                why = raised(until, fake, work, **how)
                self.assertEqual((Own, fate, why.token), (type(why), why.known.fate, why.known.token))


    def test_exception_that_refuses_attributes_has_what_is_known(self):
        def fails(tx):
            put(tx)
            tx.commit()
            raise Fixed

        with Fake() as fake:
            why = raised(until, fake, fails)
            self.assertEqual((Fixed, bolt.STANDS, why.token), (type(why), why.known.fate, why.known.token))


# Sockets and a context of TLS as another package wraps them.
ANOTHER = """
class Watched(socket.socket):
    def connect(self, address):
        fail("connect")
        return super().connect(address)

    def send(self, data):
        fail("send")
        return super().send(data)

    def recv(self, count):
        fail("recv")
        return super().recv(count)

    def shutdown(self, how):
        fail("shutdown")
        return super().shutdown(how)


class Context(ssl.SSLContext):
    def wrap_socket(self, *words, **named):
        raise OSError(5, "of another package")


def handler(*_):
    raise failure()
"""


class Sockets(unittest.TestCase):
    """Errors of a socket's own calls are the socket's, whatever package wraps it. Those of a handler go through."""

    def setUp(self):
        self.failing = set()
        self.another = {"__name__": "another.sockets", "socket": socket, "ssl": ssl, "fail": self.fail_in,
                        "failure": Own}
        exec(ANOTHER, self.another)
        there = types.SimpleNamespace(**{**vars(socket), "socket": self.another["Watched"]})
        patched = unittest.mock.patch.object(bolt.session, "socket", there)
        patched.start()
        self.addCleanup(patched.stop)

    def fail_in(self, call):
        if call in self.failing:
            raise ConnectionResetError(104, f"{call} of another package")

    def test_error_of_wrapped_socket_leaves_outcome(self):
        for calls in ({"recv"}, {"send"}, {"recv", "shutdown"}, {"send", "recv", "shutdown"}):
            def work(tx):
                put(tx)
                self.failing |= calls

            with self.subTest(sorted(calls)), Fake() as fake:
                self.failing.clear()
                known = bolt.until_known(lambda: connected(fake, timeout=1), work)
                self.failing.clear()
                told = known.fate, type(known.error), known.error.outcomes
                self.assertEqual((bolt.OPEN, bolt.Broken, [("COMMIT", bolt.UNKNOWN)]), told)
                self.assertIsInstance(known.error.__cause__, ConnectionResetError)

    def test_error_of_wrapped_socket_of_asyncio_leaves_outcome(self):
        """The socket fails before COMMIT is answered, and after its SUCCESS was read."""
        def fails_after_commit(client, piece):
            code = feed(client, piece)
            if after and fake.commits:
                self.failing |= calls
            return code

        async def work(tx):
            await tx.run("PUT")
            if not after:
                self.failing.update(calls)

        feed = Client.feed
        there = unittest.mock.patch.object(asyncio.base_events, "socket", bolt.session.socket)
        fed = unittest.mock.patch.object(Client, "feed", fails_after_commit)
        for calls in ({"recv"}, {"send"}, {"send", "recv", "shutdown"}):
            for after, fate in ((False, bolt.OPEN), (True, bolt.STANDS)):
                with self.subTest(sorted(calls), after=after), Fake() as fake, there, fed:
                    self.failing.clear()
                    known = until_by_aio(fake, work)
                    self.failing.clear()
                    self.assertEqual(fate, known.fate)
                    if not after:
                        told = type(known.error), known.error.outcomes
                        self.assertEqual((bolt.Broken, [("COMMIT", bolt.UNKNOWN)]), told)

    def test_error_of_wrapped_connect_is_unreached(self):
        self.failing.add("connect")
        with Fake() as fake:
            why = raised(connected, fake)
        self.assertEqual((bolt.Broken, bolt.UNREACHED, ConnectionResetError), (type(why), why.why, type(why.__cause__)))

    def test_error_of_wrapped_tls_is_unreached(self):
        with Fake() as fake:
            why = raised(connected, fake, tls=self.another["Context"](ssl.PROTOCOL_TLS_CLIENT))
        self.assertEqual((bolt.Broken, bolt.UNREACHED, OSError), (type(why), why.why, type(why.__cause__)))

    def test_exception_of_handler_goes_through(self):
        """An alarm rings while the client waits for a server that says nothing."""
        for kind in (TimeoutError, ConnectionResetError, Own, KeyboardInterrupt):
            with self.subTest(kind.__name__), socket.create_server(("127.0.0.1", 0)) as mute:
                self.another["failure"] = kind
                before = signal.signal(signal.SIGALRM, self.another["handler"])
                signal.setitimer(signal.ITIMER_REAL, 0.2)
                try:
                    port = mute.getsockname()[1]
                    why = raised(bolt.until_known, lambda: bolt.connect("127.0.0.1", port, auth=USER), put)
                finally:
                    signal.setitimer(signal.ITIMER_REAL, 0)
                    signal.signal(signal.SIGALRM, before)
                self.assertEqual((kind, bolt.ABSENT), (type(why), why.known.fate))


ROWS = tuple((it,) for it in range(5))


class Unread(unittest.TestCase):
    """A query of its own that isn't read to its end is finished with its connection, or reported as not committed."""

    def ends(self, leave, fails=False, **server):
        """Leaves a connection with a result. Returns the count of commits, the outcome and the classes of warnings."""
        with Fake(rows=ROWS, **server) as fake, warnings.catch_warnings(record=True) as told:
            warnings.simplefilter("always")
            with contextlib.suppress(Own), connected(fake, fetch=2) as connection:
                result = connection.run("PUT")
                leave(connection, result)
                if fails:
                    raise Own
            return (len(fake.commits), result.summary.outcome, [it.category for it in told]), fake.asked[0], result

    def test_unread_result_is_committed_at_end(self):
        for name, leave in (("unread", lambda *_: None), ("one read", lambda _, result: next(result)),
                            ("close", lambda connection, _: connection.close()),
                            ("closed twice", lambda connection, _: (connection.close(), connection.close()))):
            with self.subTest(name):
                told, asked, result = self.ends(leave)
                said = told, asked.count("DISCARD"), result.summary.bookmark
                self.assertEqual(((1, bolt.COMMITTED, []), 1, "b:1"), said)

    def test_read_result_isnt_discarded(self):
        for name, leave in (("read", lambda _, result: list(result)), ("consumed", lambda _, result: result.consume()),
                            ("another asked", lambda connection, _: list(connection.run("PUT")))):
            with self.subTest(name):
                told, asked, _ = self.ends(leave)
                self.assertEqual((bolt.COMMITTED, 0), (told[1], asked.count("DISCARD")))

    def test_unread_result_is_lost_after_exception(self):
        told, asked, _ = self.ends(lambda *_: None, fails=True)
        self.assertEqual(((0, bolt.LOST, [ResourceWarning]), 0), (told, asked.count("DISCARD")))

    def test_unread_result_is_unknown_if_finishing_breaks(self):
        told, _, _ = self.ends(lambda *_: None, breaks=("DISCARD",))
        self.assertEqual((0, bolt.UNKNOWN, [ResourceWarning]), told)

    def test_records_that_were_discarded_are_missed(self):
        """They don't end as if the result had no more."""
        for fails in (False, True):
            with self.subTest(fails=fails):
                _, _, result = self.ends(lambda *_: None, fails)
                read = []
                self.assertIsInstance(raised(lambda: read.extend(it[0] for it in result)), bolt.Broken)
                self.assertEqual([0, 1], read)

    def test_result_of_transaction_isnt_discarded(self):
        with Fake(rows=ROWS) as fake, connected(fake, fetch=2) as connection:
            with contextlib.suppress(Own), connection.transaction() as tx:
                tx.run("PUT")
                raise Own
        self.assertEqual(([], False), (fake.commits, "DISCARD" in fake.asked[0]))

    def test_unread_result_of_asyncio_ends_alike(self):
        async def leave(fake, fails):
            with contextlib.suppress(Own):
                async with await connected_by_aio(fake, fetch=2) as connection:
                    result = await connection.run("PUT")
                    if fails:
                        raise Own
            return (await result.summary()).outcome

        for fails, server, wanted in ((False, {}, (1, bolt.COMMITTED, [])),
                                      (True, {}, (0, bolt.LOST, [ResourceWarning])),
                                      (False, {"breaks": ("DISCARD",)}, (0, bolt.UNKNOWN, [ResourceWarning]))):
            with self.subTest(fails=fails, **server), Fake(rows=ROWS, **server) as fake, \
                    warnings.catch_warnings(record=True) as told:
                warnings.simplefilter("always")
                outcome = asyncio.run(leave(fake, fails))
                self.assertEqual(wanted, (len(fake.commits), outcome, [it.category for it in told]))

    def test_unread_result_is_committed_at_server(self):
        def entries():
            with connected(server) as connection:
                return int(connection.run("ONE").summary.bookmark.split(":")[1])

        with servers.ManyServer() as server:
            before = entries()
            with connected(server, fetch=2) as connection:
                connection.run("ROWS", n=5)
            self.assertEqual(before + 2, entries())


class AfterEnd(unittest.TestCase):
    """A call after the end of a connection raises the end again, with all outcomes."""

    def test_call_after_end_has_outcomes(self):
        calls = {
            "tx.run": lambda c, tx: tx.run("PUT"), "tx.commit": lambda c, tx: tx.commit(),
            "tx.rollback": lambda c, tx: tx.rollback(), "run": lambda c, tx: c.run("PUT"),
            "read": lambda c, tx: c.read("PUT"), "reset": lambda c, tx: c.reset(),
            "settle": lambda c, tx: c.session.settle(), "ask_begin": lambda c, tx: c.session.ask_begin(),
            "begin": lambda c, tx: c.session.begin(), "pipeline": lambda c, tx: c.pipeline().__enter__(),
            "transaction": lambda c, tx: c.transaction().__enter__(),
        }
        for name, call in calls.items():
            with self.subTest(name), Fake(lost=(1,)) as fake, connected(fake) as connection:
                with connection.transaction() as tx:
                    put(tx)
                    first = raised(tx.commit)
                    again = [raised(call, connection, tx) for _ in range(2)]
                told = [(type(it), getattr(it, "outcomes", it)) for it in (first, *again)]
                self.assertEqual([(bolt.Broken, [("COMMIT", bolt.UNKNOWN)])] * 3, told)

    def test_call_after_end_leaves_block_with_outcomes(self):
        with Fake(lost=(1,)) as fake, connected(fake) as connection:
            with self.assertRaises(bolt.Broken) as left, connection.transaction() as tx:
                put(tx)
                raised(tx.commit)
                tx.run("PUT")
        self.assertEqual(bolt.UNKNOWN, left.exception.outcome)

    def test_call_after_end_of_asyncio_has_outcomes(self):
        async def main(call):
            async with await connected_by_aio(fake) as connection:
                async with connection.transaction() as tx:
                    await tx.run("PUT")
                    first = await raised_by_aio(tx.commit())
                    return [first, *[await raised_by_aio(call(connection, tx)) for _ in range(2)]]

        for name, call in {"tx.run": lambda c, tx: tx.run("PUT"), "tx.commit": lambda c, tx: tx.commit(),
                           "run": lambda c, tx: c.run("PUT"), "reset": lambda c, tx: c.reset(),
                           "settle": lambda c, tx: c.session.settle()}.items():
            with self.subTest(name), Fake(lost=(1,)) as fake:
                told = [(type(it), getattr(it, "outcomes", it)) for it in asyncio.run(main(call))]
                self.assertEqual([(bolt.Broken, [("COMMIT", bolt.UNKNOWN)])] * 3, told)

    def test_call_after_close_is_refused(self):
        with Fake() as fake:
            connection = connected(fake)
            connection.close()
            why = raised(connection.run, "ONE")
            self.assertEqual((bolt.NotSent, 100), (type(why), why.code))


# The message of a row with one text takes six bytes more than the text.
LONGEST = 65_536 - 6


class TooLarge(unittest.TestCase):
    """A message of the server that is too large has its own reason, and isn't asked for again."""

    def test_too_large_row_is_named(self):
        for size, before in ((LONGEST + 1, 0), (LONGEST + 1, 3), (70_000, 0), (70_000, 200), (1_000_000, 1)):
            rows = [("x" * 300,)] * before + [("x" * size,)]
            with self.subTest(size, before=before), Fake(rows=rows) as fake, connected(fake) as connection:
                why = raised(connection.run, "PUT")
                self.assertEqual((bolt.Broken, bolt.TOO_LARGE), (type(why), why.why))
                self.assertIn("65,536 bytes", str(why))

    def test_row_of_largest_size_is_taken(self):
        with Fake(rows=[("x" * LONGEST,)] * 3) as fake, connected(fake) as connection:
            self.assertEqual([LONGEST] * 3, [len(it[0]) for it in connection.run("PUT").values()])

    def test_torn_messages_are_told_apart(self):
        """The library is fed pieces of each size: a row, and then one that is too large, or malformed, or neither."""
        def framed(message):
            chunks = [message[at:at + 30_000] for at in range(0, len(message), 30_000)]
            return b"".join(len(it).to_bytes(2, "big") + it for it in chunks) + bytes(2)

        def row(letters):
            return bytes.fromhex("B17191") + bolt.pack("x" * letters)

        login = {"scheme": "basic", "principal": "user", "credentials": "pass"}
        asked = [pack_structure(0x01, ({"user_agent": "test/1"},), 51), pack_structure(0x6A, (login,), 51),
                 pack_structure(0x10, ("PUT", {}, {}), 51), pack_structure(0x3F, ({"n": -1},), 51)]
        done = framed(bytes.fromhex("B170A0"))
        cut_off = bytes.fromhex("B17191D2FFFFFFFF") + b"x" * 60_000
        for last, code in ((row(LONGEST), 0), (row(LONGEST + 1), LARGE), (row(200_000), LARGE),
                           (b"\xB1\x72\x90", BAD_PEER), (row(10) + b"\x01", BAD_PEER), (cut_off, BAD_PEER)):
            for size in (1, 7, 4096, 1 << 20):
                owner = unittest.mock.Mock()
                client = Client(bolt.V5_1, owner)
                client.feed(bytes([0, 0, 1, 5]))
                for at, message in enumerate(asked):
                    self.assertEqual(0, LIBRARY.bolt_ask(client.handle, message, len(message), Asked()))
                    if at == 1:
                        client.feed(done * 2)
                # What follows the message that ends the client isn't looked at.
                stream = done + framed(row(100)) + framed(last) + (framed(row(200_000)) if code else b"")
                codes = (client.feed(stream[at:at + size]) for at in range(0, len(stream), size))
                with self.subTest(last[:8].hex(), length=len(last), pieces=size):
                    self.assertEqual(code, next((it for it in codes if it), 0))

    def test_bad_answer_isnt_too_large(self):
        with Fake(rows=((1,),)) as fake, connected(fake) as connection:
            with unittest.mock.patch("fakes.RECORD", 0x72):
                self.assertEqual(bolt.BAD_ANSWER, raised(connection.run, "PUT").why)

    def test_too_large_row_isnt_asked_for_again(self):
        def pipeline(tx):
            with tx._connection.pipeline() as asked:
                asked.run("PUT")
                asked.commit()

        for work, fate in ((put, bolt.ABSENT), (pipeline, bolt.OPEN)):
            with self.subTest(work.__name__), Fake(names=(OURS,), keeps=True, rows=[("x" * 70_000,)]) as fake:
                known = until(fake, work)
                self.assertEqual((fate, bolt.TOO_LARGE, 1), (known.fate, known.error.why, fake.connections))


class Mistakes(unittest.TestCase):
    """Mistakes of the caller are reported at once, and say what to write."""

    def test_token_that_cant_be_sent_is_refused_before_connecting(self):
        with Fake() as fake:
            for token in ("", "x" * 65, "é" * 33, 5, b"t"):
                for ask, work in ((until, put), (until_by_aio, reads)):
                    with self.subTest(token, by=ask.__name__):
                        why = raised(ask, fake, work, token=token)
                        told = type(why), why.code, why.rule, why.known.fate, why.token
                        self.assertEqual((bolt.NotSent, 8, "M5", bolt.ABSENT, token), told)
            self.assertEqual(0, fake.connections)
            self.assertEqual(bolt.STANDS, until(fake, token="é" * 32).fate)

    def test_request_that_cant_be_written_ends_tries(self):
        with Fake() as fake:
            why = raised(until, fake, lambda tx: tx.run("ECHO", x=bolt.Date("no")))
            told = type(why), why.rule, why.known.fate, fake.connections
            self.assertEqual((bolt.NotSent, "S3", bolt.ABSENT, 1), told)

        def writes_once(tx):
            tries.append(1)
            tx.run("ECHO", x=bolt.Date(1 if len(tries) == 1 else "no"))

        tries = []
        with Fake(names=(OURS,), lost=(1,)) as fake:
            known = until(fake, writes_once)
            self.assertEqual((bolt.OPEN, "S3", 2), (known.fate, known.error.rule, fake.connections))

    def test_words_of_another_driver_are_refused(self):
        async def main(call):
            async with await connected_by_aio(fake) as connection:
                async with connection.transaction() as tx:
                    return await raised_by_aio(call(connection, tx))

        with Fake() as fake:
            with connected(fake) as connection, connection.transaction() as tx:
                tx.run("PUT", database="no word of the call", _timeout=1)
                for name, call in (("run", connection.run), ("read", connection.read), ("tx.run", tx.run)):
                    with self.subTest(name), self.assertRaisesRegex(TypeError, "database_ isn't taken"):
                        call("PUT", database_="neo4j")
            with self.assertRaisesRegex(TypeError, "routing_ isn't taken"), connected(fake) as connection:
                with connection.pipeline() as asked:
                    asked.run("PUT", routing_="r")
            for call in (lambda c, tx: c.run("PUT", timeout_=1), lambda c, tx: tx.run("PUT", timeout_=1)):
                with self.subTest("asyncio"):
                    self.assertIn("timeout_ isn't taken", str(asyncio.run(main(call))))
            self.assertEqual([("PUT", {"database": "no word of the call", "_timeout": 1})], fake.queries)

    def test_unreachable_server_has_reason(self):
        failed = socket.gaierror(-2, "Name or service not known")
        unknown = unittest.mock.patch("socket.getaddrinfo", side_effect=failed)
        with unknown:
            name = raised(bolt.connect, "nowhere", auth=USER)
        # The port is taken, and nobody listens.
        with socket.socket() as taken:
            taken.bind(("127.0.0.1", 0))
            port = taken.getsockname()[1]
            closed = raised(bolt.connect, "127.0.0.1", port, auth=USER)
            later = asyncio.run(raised_by_aio(aio.connect("127.0.0.1", port, auth=USER)))
        with socket.create_server(("127.0.0.1", 0)) as mute:
            silent = raised(bolt.connect, "127.0.0.1", mute.getsockname()[1], auth=USER, timeout=0.2,
                            tls=ssl.create_default_context())
        for what, why, text in (("an unknown name", name, "Name or service not known"),
                                ("a closed port", closed, "Connection refused"),
                                ("a closed port, by asyncio", later, "onnect"),
                                ("TLS to a port that says nothing", silent, "timed out")):
            with self.subTest(what):
                self.assertEqual((bolt.Broken, bolt.UNREACHED), (type(why), why.why))
                self.assertIn(text, str(why).partition(bolt.UNREACHED)[2])
                self.assertEqual(str(why), str(pickle.loads(pickle.dumps(why))))

    def test_host_with_more_than_a_host_is_refused(self):
        for host, wanted in (("bolt://h:7687", "'h', 7687"), ("bolt+s://h", "'h', 7687"), ("neo4j://h:17/", "'h', 17"),
                             ("h:17", "'h', 17"), (b"h:17", "'h', 17"), ("[::1]:17", "'::1', 17"),
                             ("[::1]", "'::1', 7687"), ("127.0.0.1:17", "'127.0.0.1', 17")):
            for connect in (lambda: bolt.connect(host), lambda: asyncio.run(aio.connect(host)),
                            lambda: bolt.Session(host, 7687)):
                with self.subTest(host), self.assertRaisesRegex(ValueError, f"write {wanted} "):
                    connect()

    def test_host_alone_is_taken(self):
        for host in ("localhost", "127.0.0.1", "::1", b"h", "fe80::1%eth0"):
            with self.subTest(host):
                self.assertEqual(host, bolt.core.host_of(host))


if __name__ == "__main__":
    unittest.main()
