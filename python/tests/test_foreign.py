"""Fates at servers that keep no tokens, at servers that keep them, and at an address that leads to both."""
import asyncio
import contextlib
import socket
import unittest

import paths  # noqa: F401
import bolt
from bolt import aio
from fakes import CLASH, CODES, NEO4J, OURS, Fake

USER = ("user", "pass")


def now(_):
    return 0


def put(tx):
    tx.run("PUT", key="k", value=1)


def known(server, *words, work=put, **how):
    """Returns what is known of a transaction that is sent to a server, or to a port."""
    port = getattr(server, "port", server)
    how = {"pause": now, "tries": 5, **how}
    return bolt.until_known(lambda: bolt.connect("127.0.0.1", port, auth=USER), work, *words, **how)


async def awaited(tx):
    await tx.run("PUT", key="k", value=1)


def known_by_aio(server, *words, work=awaited, **how):
    """Returns the same by `aio.until_known`."""
    port = getattr(server, "port", server)
    how = {"pause": now, "tries": 5, **how}
    return asyncio.run(aio.until_known(lambda: aio.connect("127.0.0.1", port, auth=USER), work, *words, **how))


HINT = {"bolt.tokens": True}
# The server, the caller's words, and what has to come of it: the fate, the count of commits, and that of connections.
ROWS = (
    ("no tokens, the answer is lost", {"lost": (1,)}, {}, (bolt.OPEN, 1, 1)),
    ("no tokens, the COMMIT is lost", {"unheard": (1,)}, {}, (bolt.OPEN, 0, 1)),
    ("no tokens, nothing is lost", {}, {}, (bolt.STANDS, 1, 1)),
    ("no name, the answer is lost", {"names": ("",), "lost": (1,)}, {}, (bolt.OPEN, 1, 1)),
    ("tokens, the answer is lost", {"names": (OURS,), "keeps": True, "lost": (1,)}, {}, (bolt.STANDS, 1, 2)),
    ("tokens, the COMMIT is lost", {"names": (OURS,), "keeps": True, "unheard": (1,)}, {}, (bolt.STANDS, 1, 2)),
    ("tokens, three answers are lost", {"names": (OURS,), "keeps": True, "lost": (1, 2, 3)}, {}, (bolt.STANDS, 1, 4)),
    ("tokens, each answer is lost", {"names": (OURS,), "keeps": True, "lost": range(9)}, {}, (bolt.OPEN, 1, 5)),
    ("tokens first, then none", {"names": (OURS, NEO4J), "lost": (1,)}, {}, (bolt.OPEN, 1, 2)),
    ("none first, then tokens", {"names": (NEO4J, OURS), "lost": (1,)}, {}, (bolt.OPEN, 1, 1)),
    ("tokens, then tokens, then none", {"names": (OURS, OURS, NEO4J), "keeps": True, "lost": (1, 2)}, {},
     (bolt.OPEN, 1, 3)),
    ("tokens under another name", {"keeps": True, "lost": (1,)}, {"keeps_tokens": True}, (bolt.STANDS, 1, 2)),
    ("tokens, and the caller says none", {"names": (OURS,), "keeps": True, "lost": (1,)}, {"keeps_tokens": False},
     (bolt.OPEN, 1, 1)),
    ("a name that only begins alike", {"names": ("BoltTables/1",), "lost": (1,)}, {}, (bolt.OPEN, 1, 1)),
    ("tokens by a hint, the answer is lost", {"hints": HINT, "keeps": True, "lost": (1,)}, {}, (bolt.STANDS, 1, 2)),
    ("a hint that isn't true", {"hints": {"bolt.tokens": 1}, "lost": (1,)}, {}, (bolt.OPEN, 1, 1)),
    ("hints that are no dict", {"hints": ["bolt.tokens"], "lost": (1,)}, {}, (bolt.OPEN, 1, 1)),
)
# The same of a COMMIT that is answered by a FAILURE. A server without tokens has committed it nonetheless.
BUSY, FINAL = CODES["BUSY"], CODES["NOPE"]
FAILED = (
    ("no tokens, for now", {"failed": {1: BUSY}}, {}, (bolt.OPEN, 1, 1)),
    ("no tokens, for good", {"failed": {1: FINAL}}, {}, (bolt.OPEN, 1, 1)),
    ("no tokens, for other writes", {"failed": {1: CLASH}}, {}, (bolt.OPEN, 1, 1)),
    ("no tokens, without a code", {"failed": {1: ""}}, {}, (bolt.OPEN, 1, 1)),
    ("the caller says none", {"names": (OURS,), "failed": {1: BUSY}}, {"keeps_tokens": False}, (bolt.OPEN, 1, 1)),
    ("tokens, for now", {"names": (OURS,), "keeps": True, "failed": {1: BUSY}}, {}, (bolt.STANDS, 1, 2)),
    ("tokens, for good", {"names": (OURS,), "keeps": True, "failed": {1: FINAL}}, {}, (bolt.REFUSED, 0, 1)),
    ("tokens, for other writes", {"names": (OURS,), "keeps": True, "failed": {1: CLASH}}, {}, (bolt.CLASH, 0, 1)),
    ("the caller says tokens", {"keeps": True, "failed": {1: FINAL}}, {"keeps_tokens": True}, (bolt.REFUSED, 0, 1)),
)
# The same of a token that an earlier call left in doubt.
DOUBTED = (
    ("no tokens: nothing is sent", {}, {}, (bolt.OPEN, 0, 1)),
    ("tokens", {"names": (OURS,), "keeps": True}, {}, (bolt.STANDS, 1, 1)),
    ("the caller says tokens", {"keeps": True}, {"keeps_tokens": True}, (bolt.STANDS, 1, 1)),
    ("the caller says none: no connection", {"names": (OURS,)}, {"keeps_tokens": False}, (bolt.OPEN, 0, 0)),
)


class SendsAgain(unittest.TestCase):
    def check(self, rows, **how):
        for ask in (known, known_by_aio):
            for name, server, said, wanted in rows:
                with self.subTest(name, by=ask.__name__), Fake(**server) as fake:
                    fate = ask(fake, **how, **said).fate
                    self.assertEqual(wanted, (fate, len(fake.commits), fake.connections))

    def test_sends_again_after_doubt_only_to_server_that_keeps_tokens(self):
        self.check(ROWS)

    def test_failure_of_commit_is_doubt_unless_server_keeps_tokens(self):
        self.check(FAILED)

    def test_failure_of_commit_that_work_ignores_is_doubt(self):
        def ignores(tx):
            put(tx)
            with contextlib.suppress(bolt.Refused):
                tx.commit()

        def fails(tx):
            ignores(tx)
            raise KeyError

        for server, wanted in (({}, (bolt.OPEN, 1, 1)), ({"names": (OURS,), "keeps": True}, (bolt.STANDS, 1, 2))):
            with self.subTest(**server), Fake(failed={1: BUSY}, **server) as fake:
                fate = known(fake, work=ignores).fate
                self.assertEqual(wanted, (fate, len(fake.commits), fake.connections))
        for server, wanted in (({}, bolt.OPEN), ({"names": (OURS,), "keeps": True}, bolt.ABSENT)):
            with self.subTest("an exception", **server), Fake(failed={1: BUSY}, **server) as fake:
                with self.assertRaises(KeyError) as left:
                    known(fake, work=fails)
                self.assertEqual(wanted, left.exception.known.fate)

    def test_open_fate_says_if_transaction_may_be_sent_again(self):
        lost = range(9)
        rows = (("no tokens", {"lost": lost}, {}, False), ("no tokens, COMMIT fails", {"failed": {1: BUSY}}, {}, False),
                ("tokens", {"names": (OURS,), "keeps": True, "lost": lost}, {}, True),
                ("tokens first, then none", {"names": (OURS, NEO4J), "keeps": True, "lost": lost}, {}, True),
                ("the caller says tokens", {"keeps": True, "lost": lost}, {"keeps_tokens": True}, True),
                ("the caller says none", {"names": (OURS,), "lost": lost}, {"keeps_tokens": False}, False))
        for ask in (known, known_by_aio):
            for name, server, said, wanted in rows:
                with self.subTest(name, by=ask.__name__), Fake(**server) as fake:
                    told = ask(fake, **said)
                    self.assertEqual((bolt.OPEN, wanted), (told.fate, told.may_repeat))

    def test_sends_token_in_doubt_only_to_server_that_keeps_tokens(self):
        self.check(DOUBTED, token="t", in_doubt=True)

    def test_sends_again_without_doubt_to_any_server(self):
        def busy_once(tx):
            tries.append(1)
            tx.run("BUSY" if len(tries) == 1 else "PUT")

        tries = []
        with Fake() as fake:
            self.assertEqual((bolt.STANDS, 2), (known(fake, work=busy_once).fate, fake.connections))


class InDoubt(unittest.TestCase):
    """A token that an earlier call left in doubt is never reported as ABSENT or REFUSED."""

    def test_token_in_doubt_stays_open_if_no_server_is_there(self):
        # The port is taken, and nobody listens.
        taken = socket.socket()
        self.addCleanup(taken.close)
        taken.bind(("127.0.0.1", 0))
        port = taken.getsockname()[1]
        for ask in (known, known_by_aio):
            with self.subTest(by=ask.__name__):
                self.assertEqual(bolt.ABSENT, ask(port, tries=2).fate)
                told = ask(port, "t", tries=2, in_doubt=True)
                self.assertEqual((bolt.OPEN, bolt.Broken), (told.fate, type(told.error)))

    def test_token_in_doubt_stays_open_if_it_is_refused(self):
        async def nope(tx):
            await tx.run("NOPE")

        for ask, work in ((known, lambda tx: tx.run("NOPE")), (known_by_aio, nope)):
            with self.subTest(by=ask.__name__), Fake(names=(OURS,)) as fake:
                self.assertEqual(bolt.REFUSED, ask(fake, work=work).fate)
                self.assertEqual(bolt.OPEN, ask(fake, "t", work=work, tries=2, in_doubt=True).fate)

    def test_token_in_doubt_stays_open_if_work_rolls_back(self):
        with Fake(names=(OURS,)) as fake:
            self.assertEqual(bolt.OPEN, known(fake, "t", work=lambda tx: (put(tx), tx.rollback()), in_doubt=True).fate)

    def test_wrong_words_are_refused_before_connecting(self):
        with Fake() as fake:
            for how in ({"in_doubt": "yes"}, {"keeps_tokens": 1}, {"keeps_tokens": "Neo4j"}, {"pause": 1},
                        {"within": "1"}, {"tries": "1"}):
                for ask in (known, known_by_aio):
                    with self.subTest(how, by=ask.__name__), self.assertRaises(TypeError) as left:
                        ask(fake, "t", **how)
                    fate = bolt.OPEN if "in_doubt" in how else bolt.ABSENT
                    self.assertEqual(("t", fate), (left.exception.token, left.exception.known.fate))
            self.assertEqual(0, fake.connections)


class Names(unittest.TestCase):
    def test_connection_has_name_of_its_server(self):
        async def name(port):
            async with await aio.connect("127.0.0.1", port, auth=USER) as connection:
                return connection.server, connection.keeps_tokens

        with Fake(names=("Neo4j/5.1", "BoltTable/1")) as fake:
            with bolt.connect("127.0.0.1", fake.port, auth=USER) as connection:
                self.assertEqual(("Neo4j/5.1", False), (connection.server, connection.keeps_tokens))
            self.assertEqual(("BoltTable/1", True), asyncio.run(name(fake.port)))
        with Fake(hints=HINT) as fake, bolt.connect("127.0.0.1", fake.port, auth=USER) as connection:
            self.assertEqual(("Neo4j/5.1", True), (connection.server, connection.keeps_tokens))


if __name__ == "__main__":
    unittest.main()
