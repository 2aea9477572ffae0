"""`bolt.Session`: its refusals, its requests and outcomes, and what it does when it is dropped, copied or misused."""
import paths  # noqa: F401

import contextlib
import copy
import gc
import pickle
import unittest
import warnings

import bolt
import support
from bolt import library
from tests.lib import fake_servers


def attempt(connection, value):
    """Runs a transaction under a token, and returns its COMMIT."""
    connection.ask_begin(token="t1")
    connection.ask_run("PUT", {"key": "repeated", "value": value})
    connection.ask_commit()
    return connection.settle()[-1]


class Requests(support.ServerCase):
    """Requests, refusals and outcomes."""

    def test_failure_is_raised_and_the_session_goes_on(self):
        with support.opened(self.port) as connection:
            with self.assertRaises(bolt.Refused):
                connection.run("NOPE")
            self.assertEqual([[1], [2]], connection.run("ROWS", {"n": 2}))
            self.assertEqual(1, support.code_of(connection.commit), "a COMMIT without a transaction")
            self.assertEqual(8, support.code_of(lambda: connection.ask("NONE", 0x7E)), "an unknown request")
            connection.close()
            connection.close()
        self.assertEqual(100, support.code_of(connection.begin), "a call after the end")

    def test_close_sends_nothing_that_was_asked(self):
        with contextlib.suppress(ValueError), support.opened(self.port) as connection:
            support.ask_all(connection, "unsettled")
            raise ValueError
        self.assertNotIn("unsettled", support.table(self.port))

    def test_run_without_place_for_its_pull_is_not_asked(self):
        with support.opened(self.port) as connection:
            connection.ask_begin()
            for number in range(15):
                connection.ask_run("PUT", {"key": "both", "value": number})
            self.assertEqual(2, support.code_of(lambda: connection.ask_run("ONE")))
            self.assertEqual(31, len(connection.settle()))
            self.assertEqual(bolt.COMMITTED, connection.commit())

    def test_transaction_under_a_token_commits_once(self):
        with support.opened(self.port) as connection:
            first, second = attempt(connection, 1), attempt(connection, 1)
            self.assertEqual((bolt.COMMITTED, bolt.COMMITTED), (first.outcome, second.outcome))
            self.assertEqual(first.metadata, second.metadata)
            why = support.raised(lambda: attempt(connection, 2))
            self.assertEqual((bolt.Refused, fake_servers.CLASH), support.seen(why, "code"))
            self.assertTrue(support.is_there(connection, "repeated"), "the first writes")

    def test_calls_are_refused_until_earlier_requests_are_settled(self):
        calls = {
            "run": lambda it: it.run("PUT", {"key": "swallowed", "value": 1}), "begin": lambda it: it.begin(),
            "commit": lambda it: it.commit(), "rollback": lambda it: it.rollback(), "reset": lambda it: it.reset()}
        refusal = "the request isn't allowed here: what was asked before isn't settled"
        for name, call in calls.items():
            with self.subTest(name), support.opened(self.port) as connection:
                connection.ask_begin()
                with self.assertRaises(TypeError):
                    connection.ask_run("PUT", {"key": "swallowed", "value": {1, 2}})
                self.assertEqual(refusal, str(support.raised(lambda: call(connection))))
                self.assertEqual(["BEGIN"], [it.text for it in connection.settle()])

    def test_dropped_session_frees_its_client_and_warns(self):
        connection = support.opened(self.port)
        client, other = connection._client, connection._socket
        asked = connection.ask_begin()
        with warnings.catch_warnings(record=True) as told:
            warnings.simplefilter("always")
            del connection
            never = support.raised(lambda: support.opened(self.port, timeout="no"))
            gc.collect()
        warned = [it for it in told if it.category is ResourceWarning]
        ours = [it for it in warned if getattr(it.source, "_client", None) is client]
        self.assertEqual(1, len(ours), "warnings of the dropped session")
        self.assertEqual((None, -1), (client.handle.at or None, other.fileno()), "the client, the socket")
        self.assertEqual(bolt.LOST, asked.outcome)
        self.assertEqual(TypeError, type(never))
        unopened = [it for it in told if getattr(it.source, "timeout", None) == "no"]
        self.assertEqual([], unopened, "warnings of a session that was never opened")

    def test_library_keeps_only_the_last_requests(self):
        def told(ordinal):
            found = library.ctypes.c_uint32()
            return library.LIBRARY.bolt_outcome(connection._client.handle, ordinal, found) or found.value

        with support.opened(self.port) as connection:
            for _ in range(3):
                connection.run("ONE")
            last = connection.requests[-1].ordinal
            wanted = [library.WAITS] * (last - 1) + [bolt.OUTCOMES.index(it) for it in (bolt.DONE, bolt.COMMITTED)]
            self.assertEqual(wanted, [told(it) for it in range(last + 1)])


def nested(depth):
    return [nested(depth - 1)] if depth > 1 else []


NONE = "no request of this version"
AUTH = "auth is the scheme, the principal and the credentials"
VERSIONS = "versions is NEWEST, V4_4, V5_0 or V5_1"
COUNT = "so many rows are pulled as are at least 1, or all by -1"
TIMEOUT = "a time-out is a number of seconds, or None"
# Values that no request can hold, and the rule that each breaks.
ECHOED = (
    (bolt.Node(1, "A", {}, "n"), "S3 at 0"), (bolt.Node("1", ["A"], {}, "n"), "S3 at 0"),
    (bolt.Date(None), "S3 at 0"), (bolt.Time(86_400_000_000_000, 0), "S4 at 0"),
    (bolt.Point2D(7203, 1, 2), "S3 at 0"), (bolt.ZonedLocal(7, 8, "UTC"), "S6 at 0"),
    ([bolt.Date(1), bolt.Path([], [], [])], "S5 at 1"), (nested(31), "P6 at 40"),
)
# Bytes that are no value of PackStream.
UNPACKED = (b"", b"\xC9\x01", b"\xC4", b"\xEC\x00", b"\xB1\x7F\x01", b"\xB2\x44\x01\x02", b"\xA1\x90\x01",
            b"\xA1\x01\x02", b"\xA2\x81a\x01\x81a\x02", b"\x91" * 100_000)


def made(connection, **words):
    """Opens another session at the same server, with these words in place of the usual ones."""
    there = {"host": "127.0.0.1", "port": connection.port, "auth": support.USER, **words}
    return bolt.Session(there.pop("host"), there.pop("port"), there.pop("auth"), **there)


# A name, the version, the call, and the text of the exception.
MISTAKES = (
    *((f"echo {at}", 51, lambda c, it=it: c.ask_run("ECHO", {"x": it}), f"{NONE}: {rule}")
      for at, (it, rule) in enumerate(ECHOED)),
    ("echo of a zone", 44, lambda c: c.ask_run("ECHO", {"x": bolt.ZonedUtc(7, 8, "UTC")}), f"{NONE}: S6 at 0"),
    *((f"run {it}", 51, lambda c, it=it: c.ask_run(*it), f"{NONE}: M4")
      for it in ((None,), (5,), ("ONE", [1]), ("ONE", "x"), ("ONE", []))),
    *((f"token {it!r}", 51, lambda c, it=it: c.ask_begin(token=it), f"{NONE}: M5") for it in (5, "", "x" * 65)),
    *((f"count {it}", 51, lambda c, it=it: c.ask_run("ONE", count=it), COUNT) for it in (0, -2, True, 1.0, None)),
    ("unknown request", 51, lambda c: c.ask("NONE", 0x7E), f"{NONE}: M3"),
    ("goodbye", 51, lambda c: c.ask("GOODBYE", 0x02), "close says goodbye"),
    ("write of begin", 51, lambda c: c.ask_begin(write="r"), "write is True or False"),
    ("write of run", 51, lambda c: c.ask_run("ONE", write=0), "write is True or False"),
    ("versions 5.1", 51, lambda c: made(c, versions=5.1), VERSIONS),
    ("versions 52", 51, lambda c: made(c, versions=52), VERSIONS),
    ("two words of auth", 51, lambda c: made(c, auth=support.USER[:2]), AUTH),
    *((f"port of {kind.__name__}", 51, lambda c, kind=kind: made(c, port=kind(c.port + 65536)), "a port is 0 to 65535")
      for kind in (int, str, lambda it: b"%d" % it)),
    ("auth of a text", 51, lambda c: made(c, auth="abc"), AUTH),
    ("auth of connect", 51, lambda c: bolt.connect("127.0.0.1", c.port, auth="ab"), "auth is a name and a password"),
    ("host", 51, lambda c: made(c, host=None), "a host is a text"),
    ("half a port", 51, lambda c: made(c, port=c.port + 0.5), "'float' object cannot be interpreted as an integer"),
    ("timeout", 51, lambda c: made(c, timeout=float("nan")), TIMEOUT),
    ("tls", 51, lambda c: made(c, tls="yes"), "tls is True or False, or a context of ssl"),
    ("later timeout", 51, lambda c: setattr(c, "timeout", float("nan")), TIMEOUT),
    *((f"unpack {bytes(it)}", 51, lambda c, it=it: bolt.unpack(it), "not one value of PackStream")
      for it in (b"\x85text"[:-1], memoryview(b"\x84text")[:-1], b"\x01\x02")),
    *((f"unpack {it[:9]}", 51, lambda c, it=it: bolt.unpack(it), "no value of PackStream") for it in UNPACKED),
    *((call.__name__, 51, call, "a session can't be copied or pickled")
      for call in (copy.copy, copy.deepcopy, pickle.dumps)),
)


class Mistakes(support.ServerCase):
    """Calls with wrong arguments."""

    def test_each_mistake_has_its_text_and_changes_nothing(self):
        for version in (44, 51):
            with support.opened(self.port, versions=version) as connection:
                connection.port = self.port
                self.assertEqual([[1]], connection.run("ONE"))
                asked = connection.requests
                for name, _, call, text in (it for it in MISTAKES if it[1] == version):
                    with self.subTest(name):
                        why = support.raised(lambda: call(connection))
                        self.assertEqual(text, str(why))
                        self.assertIsInstance(why, (bolt.NotSent, TypeError, ValueError))
                        self.assertIs(asked, connection.requests)
                        self.assertEqual([], connection.settle())
                self.assertEqual([[1]], connection.run("ONE"))


if __name__ == "__main__":
    unittest.main()
