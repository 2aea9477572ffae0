"""Managed transactions of `bolt.driver` in a doubt, and many of them through a proxy that cuts at
random."""
import paths  # noqa: F401

import asyncio
import collections
import contextlib
import random
import threading
import unittest
import unittest.mock

import bolt
import driving
import support
from bolt import exceptions
from fakes import CLASH, CODES, NEO4J, OURS, Fake
from tests.lib import proxy

DOWN, WRONG = CODES["BUSY"], CODES["NOPE"]
DATABASE = "Neo.DatabaseError.General.UnknownError"
OK, UNKNOWN = None, exceptions.IncompleteCommit
# A server, and what has to come of `execute_write` there: what is raised, how often the server has
# committed, how many
# COMMITs it got, and what is known.
ROWS = (
    ("no tokens, nothing is lost", {}, (OK, 1, 1, None)),
    ("no tokens, the answer is lost", {"lost": (1,)}, (UNKNOWN, 1, 1, bolt.OPEN)),
    ("no tokens, the COMMIT is lost", {"unheard": (1,)}, (UNKNOWN, 0, 1, bolt.OPEN)),
    ("no tokens, COMMIT fails for a time", {"failed": {1: DOWN}}, (UNKNOWN, 1, 1, bolt.OPEN)),
    (
        "no tokens, COMMIT fails for good",
        {"failed": {1: WRONG}},
        (exceptions.CypherSyntaxError, 1, 1, bolt.OPEN),
    ),
    (
        "no tokens, the server fails at COMMIT",
        {"failed": {1: DATABASE}},
        (UNKNOWN, 1, 1, bolt.OPEN),
    ),
    (
        "tokens, the answer is lost",
        {"names": (OURS,), "keeps": True, "lost": (1,)},
        (OK, 1, 2, None),
    ),
    (
        "tokens, the COMMIT is lost",
        {"names": (OURS,), "keeps": True, "unheard": (1,)},
        (OK, 1, 2, None),
    ),
    (
        "tokens by a hint",
        {"hints": {"bolt.tokens": True}, "keeps": True, "lost": (1, 2)},
        (OK, 1, 3, None),
    ),
    ("tokens first, then none", {"names": (OURS, NEO4J), "lost": (1,)}, (UNKNOWN, 1, 1, bolt.OPEN)),
    ("none first, then tokens", {"names": (NEO4J, OURS), "lost": (1,)}, (UNKNOWN, 1, 1, bolt.OPEN)),
    (
        "tokens, COMMIT fails for a time",
        {"names": (OURS,), "keeps": True, "failed": {1: DOWN}},
        (OK, 1, 2, None),
    ),
    (
        "tokens, COMMIT fails for good",
        {"names": (OURS,), "keeps": True, "failed": {1: WRONG}},
        (exceptions.CypherSyntaxError, 0, 1, bolt.REFUSED),
    ),
    (
        "tokens, other writes have the token",
        {"names": (OURS,), "keeps": True, "failed": {1: CLASH}},
        (exceptions.ClientError, 0, 1, bolt.CLASH),
    ),
    (
        "tokens, the server fails at COMMIT",
        {"names": (OURS,), "keeps": True, "failed": {1: DATABASE}},
        (exceptions.DatabaseError, 0, 1, bolt.ABSENT),
    ),
    (
        "BEGIN is lost",
        {"names": (NEO4J,), "breaks": ("BEGIN",)},
        (exceptions.ServiceUnavailable, 0, 0, bolt.ABSENT),
    ),
)


def put(tx, key="k"):
    return tx.run("PUT", key=key, value=1).single()[0]


async def awaited(tx, key="k"):
    return (await (await tx.run("PUT", key=key, value=1)).single())[0]


def put_by_connection(tx):
    tx.run("PUT", key="k", value=1).consume()


def transfer(tx, key):
    tx.run("PUT", key=key, value=1).consume()


async def transfer_by_aio(tx, key):
    await (await tx.run("PUT", key=key, value=1)).consume()


class Fates(driving.PoolCase):
    """`execute_write` at servers that keep tokens, and at those that don't."""

    # A server that breaks each BEGIN is tried again for this time.
    within = {"max_transaction_retry_time": 0.3}

    def check(self, how, write):
        """Compares what a row says with what `write` raises or returns."""
        for name, server, (kind, commits, asked, fate) in ROWS:
            within = self.within if "breaks" in server else {}
            with self.subTest(name, how=how), Fake(**server) as fake:
                found = write(fake.port, within)
                known = getattr(found, "known", None)
                seen = (
                    OK if found == 1 else type(found),
                    len(fake.commits),
                    fake.asked_commits,
                    known and known.fate,
                )
                self.assertEqual((kind, commits, asked, fate), seen, str(found))
                if kind is UNKNOWN:
                    self.assertEqual((False, bolt.UNKNOWN), (found.is_retryable(), found.outcome))
                    self.assertIn("look at the data before you send it again", str(found))

    def test_threads(self):
        def write(port, within):
            with self.driver(port, **within) as driver, driver.session() as session:
                try:
                    return session.execute_write(put)
                except bolt.BoltError as why:
                    return why

        self.check("threads", write)

    def test_asyncio(self):
        async def main(port, within):
            async with self.async_driver(port, **within) as driver, driver.session() as session:
                try:
                    return await session.execute_write(awaited)
                except bolt.BoltError as why:
                    return why

        self.check("asyncio", lambda port, within: asyncio.run(main(port, within)))

    def test_token_goes_only_to_a_server_that_keeps_tokens(self):
        for name, is_there in ((NEO4J, False), (OURS, True)):
            with self.subTest(name), Fake(names=(name,)) as fake, self.driver(fake.port) as driver:
                driver.execute_query("PUT")
                self.assertEqual([is_there], [it is not None for it in fake.commits])

    def test_work_is_done_again_after_a_passing_refusal(self):
        def work(tx):
            tried.append(1)
            return put(tx) if len(tried) == 3 else tx.run("BUSY")

        tried = []
        with Fake() as fake, self.driver(fake.port) as driver, driver.session() as session:
            self.assertEqual(
                (1, 3, 1), (session.execute_write(work), len(tried), len(fake.commits))
            )

    def test_work_is_not_done_again_after_another_exception(self):
        for kind in (
            ZeroDivisionError,
            KeyboardInterrupt,
            exceptions.ResultNotSingleError,
            bolt.NotSent,
        ):

            def work(tx):
                tried.append(1)
                raise kind(*([1] if kind is bolt.NotSent else []))

            tried = []
            with self.subTest(kind), Fake() as fake, self.driver(
                fake.port
            ) as driver, driver.session() as session:
                with self.assertRaises(kind):
                    session.execute_write(work)
                self.assertEqual(([1], []), (tried, fake.commits))

    def test_refusal_after_a_doubt_does_not_hide_the_doubt(self):
        """The answer of the first COMMIT is lost, and the second try is refused before its COMMIT."""
        for text, kind in (("NOPE", exceptions.CypherSyntaxError), ("none", ZeroDivisionError)):

            def work(tx):
                tried.append(1)
                if len(tried) == 2:
                    return tx.run("NOPE") if text == "NOPE" else 1 / 0
                return put(tx)

            tried = []
            with self.subTest(text), Fake(names=(OURS,), keeps=True, lost=(1,)) as fake:
                with self.driver(fake.port) as driver, driver.session() as session:
                    why = driving.raised(session.execute_write, work)
                self.assertEqual(
                    (bolt.OPEN, True, 1), (why.known.fate, why.known.may_repeat, len(fake.commits))
                )
                if text == "NOPE":
                    self.assertEqual((UNKNOWN, kind), (type(why), type(why.__cause__)))
                    self.assertIn(why.token, fake.commits)
                    with bolt.connect("127.0.0.1", fake.port, auth=driving.USER) as connection:
                        again = bolt.until_known(
                            lambda: connection, put_by_connection, why.token, in_doubt=True
                        )
                    self.assertEqual((bolt.STANDS, 1), (again.fate, len(fake.commits)))
                else:
                    self.assertEqual(kind, type(why))

    def test_commit_in_doubt_without_managed_work(self):
        for lost in ({"lost": (1,)}, {"unheard": (1,)}):
            with Fake(names=(OURS,), **lost) as fake, self.driver(fake.port) as driver:
                session = driver.session()
                tx = session.begin_transaction()
                put(tx)
                why = driving.raised(tx.commit)
                self.assertEqual(
                    (UNKNOWN, bolt.UNKNOWN, 1), (type(why), tx.outcome, fake.asked_commits)
                )
                session.close()

    def test_exception_in_a_block_rolls_back(self):
        with Fake() as fake, self.driver(fake.port) as driver, driver.session() as session:
            with self.assertRaises(ZeroDivisionError):
                with session.begin_transaction() as tx:
                    put(tx)
                    1 / 0
            self.assertEqual(([], "ROLLBACK"), (fake.commits, fake.asked[0][-1]))


class Cutting(proxy.Listening):
    """Passes connections on to a port, and cuts three of four after a random number of bytes."""

    def __init__(self, port, seed):
        self.target, self.chance, self.cuts = port, random.Random(seed), 0
        super().__init__()
        self.port = self.listener.getsockname()[1]

    def answer(self, client):
        cut = {}
        if self.chance.random() < 0.75:
            cut = {self.chance.choice(("told", "asked")): self.chance.randrange(2500)}
            self.cuts += 1
        passing = proxy.Passing(**cut)
        threading.Thread(target=self.pass_on, args=(passing, client), daemon=True).start()

    def pass_on(self, passing, client):
        with contextlib.suppress(OSError):
            passing.pass_on(client, self.target)


class Cuts(driving.ServerCase):
    """Eight threads, or tasks, over one driver through a proxy that cuts at random: each transfer
    is there once."""

    WORKERS, TRANSFERS = 8, 60

    def keys(self, name):
        """Returns how often each key of a test is in the table."""
        with bolt.connect("127.0.0.1", self.port, auth=driving.USER) as connection:
            found = [it["key"] for it in connection.read("KEYS")]
        return collections.Counter(it for it in found if it.startswith(name))

    def check(self, name, work):
        with Cutting(self.port, 1) as cutting:
            work(cutting.port)
        wanted = {
            f"{name}{worker:02}{number:03}": 1
            for worker in range(self.WORKERS)
            for number in range(self.TRANSFERS)
        }
        self.assertEqual(wanted, dict(self.keys(name)))
        self.assertGreater(cutting.cuts, 5)

    def test_threads(self):
        def transfers(driver, worker, told):
            try:
                for number in range(self.TRANSFERS):
                    with driver.session() as session:
                        session.execute_write(transfer, f"thread{worker:02}{number:03}")
            except BaseException as why:
                told.append(why)

        def work(port):
            told = []
            with self.driver(port) as driver:
                threads = [
                    threading.Thread(target=transfers, args=(driver, it, told))
                    for it in range(self.WORKERS)
                ]
                for thread in threads:
                    thread.start()
                for thread in threads:
                    thread.join()
            self.assertEqual([], told)

        self.check("thread", work)

    def test_asyncio(self):
        async def transfers(driver, worker):
            for number in range(self.TRANSFERS):
                async with driver.session() as session:
                    await session.execute_write(transfer_by_aio, f"task{worker:02}{number:03}")

        async def main(port):
            async with self.async_driver(port) as driver:
                await asyncio.gather(*(transfers(driver, it) for it in range(self.WORKERS)))

        self.check("task", lambda port: asyncio.run(main(port)))


class EachByte(driving.ServerCase):
    """The first connection of a driver is cut after each number of bytes, in each direction."""

    def transferred(self, key, **cut):
        """Puts a key by managed work, and returns how many bytes passed in the first connection."""
        with proxy.Door(self.port, [cut]) as door:
            port = support.port_of(door.listener)
            with self.driver(port) as driver, driver.session() as session:
                session.execute_write(transfer, key)
        # The door has ended, so its counts are there.
        return door.passed[0]

    def test_each_transfer_is_there_once(self):
        whole = self.transferred("cut")
        wanted = {"cut": 1}
        with unittest.mock.patch.object(bolt.retry, "pause", lambda _: 0):
            for way in ("told", "asked"):
                for count in range(whole[way] + 1):
                    key = f"cut{way}{count:03}"
                    self.transferred(key, **{way: count})
                    wanted[key] = 1
        with bolt.connect("127.0.0.1", self.port, auth=driving.USER) as connection:
            found = collections.Counter(it["key"] for it in connection.read("KEYS"))
        self.assertEqual(wanted, dict(found))
        self.assertGreater(len(wanted), 300)


if __name__ == "__main__":
    unittest.main()
