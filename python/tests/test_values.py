"""Values come back from a server as they were sent, at each version, and cross to another process."""
import paths  # noqa: F401

import datetime
import os
import pickle
import subprocess
import sys
import unittest

import bolt
import support

# Integers at each limit of their markers; texts, byte strings, lists and dictionaries at each limit of their lengths.
LIMITS = [n for bits in (4, 7, 15, 31, 63) for n in (-(1 << bits) - 1, -(1 << bits), (1 << bits) - 1, 1 << bits)
          if -(1 << 63) <= n < 1 << 63]
LENGTHS = [*["x" * n for n in (0, 15, 16, 255, 256)], *[b"x" * n for n in (255, 256)],
           [0] * 15, [0] * 16, [0] * 256, {str(n): n for n in range(16)}]
VALUES = [None, True, False, 1 << 40, 2.5, "zürich", b"\0\1", "x" * 300, list(range(40)), {"a": [1, {"b": None}]},
          *LIMITS, *LENGTHS]
NODE = bolt.Node(1, ["A"], {"p": 1}, "n1")
THERE = bolt.UnboundRelationship(2, "TO", {}, "r2")
# Structures that come back as they are at 5.0 and 5.1.
STRUCTURES = [
    NODE, bolt.Relationship(2, 1, 1, "TO", {}, "r2", "n1", "n1"), THERE, bolt.Path([NODE], [], []),
    bolt.Path([NODE], [THERE], [1, 0]), bolt.Date(-1), bolt.Time(1, -3600), bolt.LocalTime(2),
    bolt.LocalDateTime(3, 4), bolt.DateTime(5, 6, 3600), bolt.Duration(1, 2, 3, 4), bolt.Point2D(7203, 1.5, 2.5),
    bolt.Point3D(9157, 1.0, 2.0, 3.0)]


def without_ids(value):
    """Returns the value as 4.4 has it: without the ids that are texts."""
    if isinstance(value, list):
        return [without_ids(it) for it in value]
    if type(value) not in bolt.values.STRUCTURES:
        return value
    names = bolt.values.names_of(value)
    return type(value)(*[without_ids(getattr(value, it)) for it in names[:len(names) - value.later]])


class Values(support.ServerCase):
    """Values of a session."""

    def check(self, version, zoned, wanted):
        values = VALUES + STRUCTURES + [zoned]
        with support.opened(self.port, versions=version) as connection:
            for value in values:
                with self.subTest(value=value):
                    # The text is compared, because True is equal to 1.
                    self.assertEqual(repr([[wanted(value)]]), repr(connection.run("ECHO", {"x": value})))

    def test_values_come_back_at_4_4(self):
        # At 4.4 a time in a named zone is another structure.
        self.check(bolt.V4_4, bolt.ZonedLocal(7, 8, "UTC"), without_ids)

    def test_values_come_back_at_5_0(self):
        self.check(bolt.V5_0, bolt.ZonedUtc(7, 8, "UTC"), lambda value: value)

    def test_values_come_back_at_5_1(self):
        self.check(bolt.V5_1, bolt.ZonedUtc(7, 8, "UTC"), lambda value: value)

    def test_moment_that_was_put_at_4_4_is_the_same_at_5_1(self):
        # 4.4 sends local seconds.
        moment = bolt.DateTime(5, 6, 3600)
        with support.opened(self.port, versions=bolt.V4_4) as connection:
            connection.run("PUT", {"key": "moment", "value": moment})
        with support.opened(self.port, versions=bolt.V5_1) as connection:
            self.assertEqual([[moment]], connection.run("GET", {"key": "moment"}, write=False))


ZONE = datetime.timezone(datetime.timedelta(hours=1))
# Python's own values. Each comes back as it is.
OWN = (datetime.date(2021, 2, 3), datetime.date(1, 1, 1), datetime.datetime(2021, 2, 3, 4, 5, 6, 7),
       datetime.datetime(1900, 1, 1, 23, 59, 59, 999999, ZONE), datetime.time(1, 2, 3, 4),
       datetime.time(1, 2, 3, 4, ZONE), datetime.timedelta(1, 2, 3), datetime.timedelta(-1),
       {"a": [datetime.date(2000, 1, 1)]})
# Structures for which Python has no value, or one that would lose something.
OURS = (bolt.Date(10 ** 9), bolt.LocalTime(1), bolt.Time(1, 0), bolt.LocalDateTime(0, 1),
        bolt.DateTime(10 ** 15, 0, 0), bolt.Duration(1, 0, 0, 0), bolt.Duration(0, 0, 86_400, 0),
        bolt.Point2D(7203, 1.0, 2.0), bolt.Node(1, ["A"], {"p": 1}, "1"))


class Zone(datetime.tzinfo):
    """A named zone in which each hour comes twice."""

    key = "UTC"

    def utcoffset(self, moment):
        return datetime.timedelta(hours=1 - moment.fold)


class Stamp(datetime.datetime):
    """A moment with nanoseconds, as pandas has it."""

    nanosecond = 7


class Span(datetime.timedelta):
    """A duration with nanoseconds."""

    nanoseconds = 8


# The versions, the value, and what comes back: the second of two equal hours, and nanoseconds.
WHOLE = (
    ((44,), datetime.datetime(2021, 2, 3, 4, tzinfo=Zone(), fold=1),
     datetime.datetime(2021, 2, 3, 4, tzinfo=datetime.timezone.utc)),
    ((44,), datetime.datetime(1970, 1, 1, tzinfo=Zone()), bolt.ZonedLocal(0, 0, "UTC")),
    ((50, 51), datetime.datetime(1970, 1, 1, tzinfo=Zone(), fold=1), bolt.ZonedUtc(0, 0, "UTC")),
    ((44, 50, 51), Stamp(1970, 1, 1, 0, 0, 0, 1), bolt.LocalDateTime(0, 1007)),
    ((44, 50, 51), Span(0, 1, 1), bolt.Duration(0, 0, 1, 1008)))
DATED = bolt.Node(1, ["A"], {"d": datetime.date(2000, 1, 1)}, "1")
TIMED = bolt.UnboundRelationship(2, "TO", {"d": [datetime.timedelta(1)]}, "2")
GRAPH = (DATED, TIMED, bolt.Relationship(2, 1, 1, "TO", {"d": datetime.date(2000, 1, 1)}, "2", "1", "1"),
         bolt.Path([DATED], [TIMED], [1, 0]))


class Moments(support.ServerCase):
    """Moments and durations of Python, through a connection of the driver."""

    def check(self, version):
        with support.connected(self.port, versions=version) as connection:
            def said(value):
                return connection.run("ECHO", x=value).single()["x"]

            for value in OWN + OURS + (GRAPH if version > 44 else ()):
                is_older = version == 44 and isinstance(value, bolt.Node)
                with self.subTest(value=value):
                    self.assertEqual(bolt.Node(1, ["A"], {"p": 1}) if is_older else value, said(value))
            for versions, value, wanted in WHOLE:
                if version in versions:
                    with self.subTest(value=value, wanted=wanted):
                        held = said(value)
                        self.assertEqual((type(wanted), wanted), (type(held), held))

    def test_moments_come_back_at_4_4(self):
        self.check(44)

    def test_moments_come_back_at_5_0(self):
        self.check(50)

    def test_moments_come_back_at_5_1(self):
        self.check(51)


POOL = """
import bolt, concurrent.futures
def breaks(_): raise bolt.Broken([bolt.Request("COMMIT", bolt.UNKNOWN, kind="COMMIT", ordinal=4)], bolt.GONE)
def goes_on(_): return bolt.Date(1)
with concurrent.futures.ProcessPoolExecutor(1) as pool:
    for work in (breaks, goes_on):
        told = pool.submit(work, 0)
        print(repr(told.exception() or told.result()))
"""


class Pickles(unittest.TestCase):
    """Structures and errors that are pickled."""

    maxDiff = None

    def test_structures_are_equal_after_pickling(self):
        for value in STRUCTURES:
            with self.subTest(value=value):
                self.assertEqual(value, pickle.loads(pickle.dumps(value)))

    def test_errors_are_the_same_after_pickling(self):
        asked = [bolt.Request("COMMIT", bolt.UNKNOWN, {"a": 1}, [[1]], "COMMIT", 4)]
        for error in (bolt.NotSent(8, "S3", 2), bolt.NotSent(4, hint=bolt.GONE), bolt.Refused("a.B", "c", asked),
                      bolt.Broken(asked, bolt.TIMED_OUT)):
            with self.subTest(error=error):
                there = pickle.loads(pickle.dumps(error))
                self.assertIsInstance(error, bolt.BoltError)
                self.assertEqual((type(error), str(error), vars(error)), (type(there), str(there), vars(there)))

    def test_pool_of_processes_goes_on_after_an_error(self):
        environment = {**os.environ, "PYTHONPATH": os.path.dirname(support.PACKAGE)}
        pool = subprocess.run([sys.executable, "-B", "-c", POOL], env=environment, stdout=subprocess.PIPE,
                              stderr=subprocess.DEVNULL, text=True, timeout=60)
        wanted = ("Broken([Request(text='COMMIT', outcome='UNKNOWN', metadata={}, rows=[], kind='COMMIT', ordinal=4)],"
                  " 'the server closed the connection')\nDate(days=1)\n")
        self.assertEqual(wanted, pool.stdout)


if __name__ == "__main__":
    unittest.main()
