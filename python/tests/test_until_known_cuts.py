"""`until_known` reports a true fate through cuts and interrupts, and a transaction under a token commits once."""
import paths  # noqa: F401

import contextlib
import unittest

import bolt
import fates
import support
from support import put
from tests.lib import fake_servers, proxy


def at_once(_):
    """Makes no pause between two tries."""
    return 0


class Cuts(support.ServerCase):
    """Connections that are cut after each number of bytes."""

    def through(self, door, *words, **named):
        """Calls `until_known` with connections through a proxy."""
        return bolt.until_known(lambda: support.connected(support.port_of(door.listener)), *words, **named)

    def test_fate_is_true_and_the_transaction_commits_once_at_each_cut(self):
        with proxy.Door(self.port, []) as door:
            whole = self.through(door, put("whole", 1))
        self.assertEqual((bolt.STANDS, 1), (whole.fate, whole.value))
        cuts = [(way, at) for way in ("told", "asked") for at in range(door.passed[0][way] + 1)]
        self.assertGreater(len(cuts), 300)
        before = support.entries(self.port)
        for number, (way, at) in enumerate(cuts):
            key, token = f"{way} {at}", f"t{number}"
            with self.subTest(key), proxy.Door(self.port, [{way: at}]) as door:
                once = self.through(door, put(key, 1), token, tries=1)
                values = support.value_of(self.port, key)
                again = self.through(door, put(key, 1), token, pause=at_once)
                self.assertTrue(again.stands, repr(again))
                if once.fate != bolt.OPEN:
                    self.assertEqual((once.fate == bolt.STANDS, once.fate), (values == [1], once.fate), repr(once))
        # Each transaction adds an entry, and so do the look at its value and the last look.
        self.assertEqual(before + 2 * len(cuts) + 1, support.entries(self.port))

    def test_second_try_is_made_after_a_cut(self):
        with proxy.Door(self.port, [{"told": 0}]) as door:
            second = self.through(door, put("second", 1), pause=lambda _: None)
        self.assertTrue(second.stands, repr(second))
        self.assertIsInstance(second.error, bolt.Broken)


class InRetry(support.InFiles):
    """Interrupts at a line of `until_known` itself."""

    files = ("retry.py",)


class Frozen(Exception):
    """An exception that takes no `token`."""

    def __setattr__(self, name, value):
        if name == "token":
            raise AttributeError(name)
        super().__setattr__(name, value)


class Tokens(support.InterruptCase):
    """Exceptions that leave `until_known` have the token."""

    def connect(self):
        return support.connected(self.port)

    def test_interrupted_transaction_commits_once_under_the_token_of_the_interrupt(self):
        # A BoltError would count as the try's own.
        known = []

        def attempt(number):
            interrupt, token = InRetry(number, support.INTERRUPTS[:3]), None
            try:
                with interrupt:
                    known.append(bolt.until_known(self.connect, put(f"line{number}", 1)))
            except support.INTERRUPTS as why:
                token = getattr(why, "token", None)
            if not interrupt.raised:
                return None
            # The interrupt's frames hold the connection.
            interrupt.raised.__traceback__ = None
            return bolt.until_known(self.connect, put(f"line{number}", 1), token)

        told = support.at_each_line(attempt)
        self.assertGreater(len(told), 19)
        self.assertTrue(known[-1].stands, repr(known[-1]))
        for number, again in told.items():
            with self.subTest(line=number):
                self.assertEqual(bolt.STANDS, again.fate, repr(again))
        # One entry of each transaction and of the last one, and that of this look.
        self.assertEqual(len(told) + 2, support.entries(self.port))

    def test_interrupt_after_the_commit_has_the_token(self):
        bookmarks = []

        def stops(tx):
            tx.run("PUT", key="stopped", value=1)
            tx.commit()
            bookmarks.append(tx.bookmark)
            raise KeyboardInterrupt

        with self.assertRaises(KeyboardInterrupt) as interrupt:
            bolt.until_known(self.connect, stops)
        again = bolt.until_known(self.connect, put("stopped", 1), interrupt.exception.token)
        self.assertEqual((bolt.STANDS, bookmarks), (again.fate, [again.bookmark]))

    def test_error_of_an_argument_has_the_token(self):
        why = support.raised(lambda: bolt.until_known(self.connect, lambda tx: tx.run("PUT", key={1}, value=1)))
        self.assertEqual((TypeError, 32), (type(why), len(getattr(why, "token", ""))))

    def test_exception_that_takes_no_attribute_has_the_token(self):
        def fails(_):
            raise Frozen

        why = support.raised(lambda: bolt.until_known(self.connect, fails))
        self.assertEqual((Frozen, 32), (type(why), len(getattr(why, "token", ""))))


class Fates(support.ServerCase):
    """Fates of transactions."""

    def connect(self):
        return support.connected(self.port)

    def until(self, work, *words, **named):
        return bolt.until_known(self.connect, work, *words, **named)

    def test_committed_transaction_stands(self):
        made = self.until(put("fates", 1))
        self.assertEqual((bolt.STANDS, None, 32), (made.fate, made.error, len(made.token)))

    def test_same_writes_under_the_token_stand_once(self):
        made = self.until(put("fates", 1))
        again = self.until(put("fates", 1), made.token, within=10 ** 400)
        self.assertEqual((bolt.STANDS, made.bookmark), (again.fate, again.bookmark))

    def test_other_writes_under_the_token_clash(self):
        made = self.until(put("fates", 1))
        self.assertEqual(bolt.CLASH, self.until(put("fates", 2), made.token).fate)
        self.assertEqual([1], support.value_of(self.port, "fates"))

    def test_refused_transaction_is_refused(self):
        refused = self.until(lambda tx: tx.run("NOPE"), tries=3)
        self.assertEqual((bolt.REFUSED, bolt.Refused), (refused.fate, type(refused.error)))

    def test_transaction_is_absent_without_a_server(self):
        absent = bolt.until_known(lambda: support.connected(1), put("fates", 3), tries=2, pause=at_once)
        self.assertEqual(bolt.ABSENT, absent.fate)

    def test_transaction_is_absent_if_the_time_is_over(self):
        late = bolt.until_known(lambda: support.connected(1), put("fates", 3), tries=9, within=0, pause=lambda _: 0.01)
        self.assertEqual(bolt.ABSENT, late.fate)

    def test_pause_is_at_most_five_seconds(self):
        pause = bolt.retry.pause(5000)
        self.assertTrue(2 < pause <= 5, pause)

    def test_transaction_that_its_work_rolls_back_is_absent(self):
        dropped = self.until(lambda tx: (tx.run("PUT", key="fates", value=3), tx.rollback()))
        self.assertEqual((bolt.ABSENT, []), (dropped.fate, support.value_of(self.port, "fates")))

    def test_transaction_that_its_work_commits_stands(self):
        by_itself = self.until(lambda tx: (tx.run("PUT", key="alone", value=1), tx.commit()))
        self.assertEqual((bolt.STANDS, "bk:"), (by_itself.fate, by_itself.bookmark[:3]))

    def test_transaction_stands_though_its_work_fails_after_the_commit(self):
        def goes_wrong(tx):
            tx.run("PUT", key="behind", value=1)
            tx.commit()
            tx._connection.read("NOPE")

        behind = self.until(goes_wrong, tries=1)
        self.assertEqual((bolt.STANDS, bolt.Refused), (behind.fate, type(behind.error)))

    def test_failure_of_another_connection_is_not_the_transactions(self):
        def fails_elsewhere(tx):
            tx.run("PUT", key="elsewhere", value=1)
            failure = fake_servers.failure(fake_servers.REFUSED)
            answers = (fake_servers.V51, fates.told(*[fates.DONE] * 2), fates.told(*[fates.DONE] * 2, failure))
            with fake_servers.Server([answers]) as server:
                with support.connected(server.port) as other, other.pipeline() as asked:
                    asked.run("PUT", key="other", value=1)
                    asked.run("NOPE")

        elsewhere = self.until(fails_elsewhere, tries=1)
        self.assertNotEqual(bolt.STANDS, elsewhere.fate)
        self.assertEqual([], support.value_of(self.port, "elsewhere"))
        self.assertIn(bolt.COMMITTED, [it.outcome for it in elsewhere.error.requests])

    def test_wrong_arguments_are_refused_before_anything_is_sent(self):
        for words in ({"within": "1"}, {"pause": 1}, {"tries": "1"}):
            with self.subTest(**words):
                with self.assertRaises(TypeError):
                    self.until(put("mistaken", 1), **words)
                self.assertEqual([], support.value_of(self.port, "mistaken"))


def ignores(tx):
    """Runs a transaction, and ignores what becomes of its COMMIT."""
    tx.run("PUT", key="heard", value=1)
    with contextlib.suppress(bolt.Broken, bolt.Refused):
        tx.commit()


def ignores_and_goes_on(tx):
    """Ignores what becomes of the COMMIT, and runs another query."""
    ignores(tx)
    tx.run("ONE")


class Answers(unittest.TestCase):
    """Fates by the answers of a server."""

    def test_answer_counts_though_the_server_then_closes_or_says_too_much(self):
        fates.check(self, lambda port: bolt.until_known(lambda: support.connected(port), put("heard", 1), tries=1))

    def until(self, server, work, **words):
        return bolt.until_known(lambda: support.connected(server.port), work, pause=at_once, keeps_tokens=True,
                                **words)

    def test_transaction_is_sent_until_it_is_known_if_its_work_ignores_the_commit(self):
        for work in (ignores, ignores_and_goes_on):
            for first, fate in ((fates.CLOSES_BEFORE_COMMIT, bolt.STANDS), (fates.CLASHES, bolt.CLASH)):
                with self.subTest(work.__name__, fate=fate), fake_servers.Server([first, fates.COMMITS]) as server:
                    known = self.until(server, work)
                    self.assertEqual(fate, known.fate, repr(known))

    def test_transaction_is_open_after_all_tries_if_its_work_ignores_the_commit(self):
        for work in (ignores, ignores_and_goes_on):
            with self.subTest(work.__name__), fake_servers.Server([fates.CLOSES_BEFORE_COMMIT]) as server:
                known = self.until(server, work, tries=3)
                self.assertEqual((bolt.OPEN, 3), (known.fate, len(server.asked)), repr(known))


if __name__ == "__main__":
    unittest.main()
