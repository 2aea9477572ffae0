"""The reports of `bolt.Session` are true if it is interrupted or closed at any line of the package."""
import paths  # noqa: F401

import socket
import unittest
import warnings

import bolt
import support
from bolt import library


# What comes before an interrupt.

def refused(connection, key):
    """Asks a request that the server refuses. A RESET follows."""
    support.ask_all(connection, key, "NOPE")


class Deaf(socket.socket):
    """A socket that reads nothing. (A socket that is shut down for reading still returns what arrived.)"""

    def recv(self, _):
        return b""


def deaf(connection, key):
    """Asks a transaction that is sent whole, and no answer arrives."""
    support.ask_all(connection, key)
    connection._socket = Deaf(fileno=connection._socket.detach())


def mute(connection, key):
    """Asks a transaction, and nothing of it is sent."""
    support.ask_all(connection, key)
    connection._socket.shutdown(socket.SHUT_WR)


def late(connection, key):
    """Asks a transaction whose time is over before it is sent."""
    support.ask_all(connection, key)
    connection.timeout = 0


def settle(connection, _):
    """Settles what was asked."""
    connection.settle()


def commit(connection, _):
    """Commits."""
    connection.commit()


class Interrupts(support.InterruptCase):
    """Interrupts at each line of a call."""

    def interrupted(self, before, work, key, number):
        """Interrupts a work at a line, and returns what was reported; None if the work has fewer lines."""
        interrupt, came = support.AtLine(number), None
        with support.opened(self.port) as connection:
            before(connection, key)
            try:
                with interrupt:
                    work(connection, key)
            except (*support.INTERRUPTS, bolt.BoltError) as why:
                came = why
            requests, told = list(connection.requests), [it.outcome for it in connection.requests]
            connection.timeout = 10
            code = support.code_of(lambda: connection.run("ONE"))
        if not interrupt.raised:
            return None
        later = [it.outcome for it in requests]
        return support.of_commit(work, requests), interrupt.what_came(came), code, told, later

    def check(self, before, work):
        """Interrupts the work at each line, and compares what was reported with the table."""
        told = support.at_each_line(lambda number: self.interrupted(before, work, f"line{number}", number))
        self.assertGreater(len(told), 49, "lines that were interrupted")
        with support.opened(self.port) as connection:
            for number, (outcome, came, code, first, later) in told.items():
                with self.subTest(line=number):
                    exists = support.is_there(connection, f"line{number}")
                    self.assertIn(came, ("raised", "dropped"))
                    # The session goes on, or something is to be settled first, or it has ended.
                    self.assertIn(code, (0, library.NOT_ALLOWED, bolt.Broken))
                    self.assertEqual([], [it for it in later if it not in bolt.OUTCOMES])
                    self.assertEqual([it or now for it, now in zip(first, later)], later, "an outcome changed")
                    if before is refused:
                        self.assertFalse(exists)
                    else:
                        self.assertIn((outcome, exists), support.TRUE_REPORTS)

    def test_pipeline(self):
        self.check(support.nothing, support.in_one)

    def test_query_alone(self):
        self.check(support.nothing, support.alone)

    def test_commit(self):
        self.check(support.in_steps, commit)

    def test_settling_of_a_refused_request(self):
        self.check(refused, settle)

    def test_settling_if_no_answer_arrives(self):
        self.check(deaf, settle)

    def test_settling_if_nothing_can_be_sent(self):
        self.check(mute, settle)

    def test_settling_if_the_time_is_over(self):
        self.check(late, settle)


class Closings(support.InterruptCase):
    """Closings of a session at each line of a call, as a signal handler may close it."""

    def closed(self, number):
        """Closes a session at a line of `settle`. Returns the outcome of the COMMIT and what was raised."""
        with support.opened(self.port) as connection:
            support.ask_all(connection, f"closed{number}")
            with support.CallsAtLine(number, connection.close) as closing:
                why = support.raised(connection.settle)
            return (connection.requests[-1].outcome, why) if closing.has_come else None

    def test_sent_requests_are_not_reported_as_unsent(self):
        told = support.at_each_line(self.closed)
        self.assertGreater(len(told), 99)
        self.assert_reports_are_true({f"closed{number}": outcome for number, (outcome, _) in told.items()})
        for number, (outcome, why) in told.items():
            with self.subTest(line=number):
                if isinstance(why, bolt.NotSent):
                    self.assertEqual(bolt.LOST, outcome, repr(why))

    def asked(self, number):
        """Closes a session at a line of the look at an outcome. Returns that outcome and the later one."""
        with support.opened(self.port) as connection:
            asked = connection.ask_begin()
            with support.CallsAtLine(number, connection.close) as closing:
                outcome = asked.outcome
            if not closing.has_come:
                self.assertIsNone(outcome)
                return None
            return outcome, asked.outcome

    def test_outcome_can_be_asked_for_while_its_session_is_closed(self):
        told = support.at_each_line(self.asked)
        self.assertGreater(len(told), 4)
        for number, (outcome, later) in told.items():
            with self.subTest(line=number):
                self.assertIn(outcome, (None, bolt.LOST))
                self.assertEqual(bolt.LOST, later)


class OutOfMemory(support.InterruptCase):
    """A call that runs out of memory at each line, and again when it ends its client."""

    def broken_twice(self, number):
        """Breaks a call at a line, and its end too. Returns the outcome of the COMMIT after another call."""
        interrupt = support.AtLine(number, (MemoryError,))
        with support.opened(self.port) as connection:
            support.ask_all(connection, f"twice{number}")
            connection._end = lambda _: interrupt.come()
            with interrupt:
                support.raised(connection.settle)
            del connection._end
            support.raised(connection.settle)
        return (connection.requests[-1].outcome,) if interrupt.raised else None

    def entry(self, connection):
        """Adds an entry to the ledger, and returns its number."""
        asked = connection.ask_run("ONE")
        connection.settle()
        return int(asked.metadata["bookmark"].split(":")[1])

    def test_next_call_sends_nothing_twice(self):
        with support.opened(self.port) as connection:
            before = self.entry(connection)
        told = support.at_each_line(self.broken_twice)
        self.assertGreater(len(told), 99)
        with support.opened(self.port) as connection:
            there = {number: support.is_there(connection, f"twice{number}") for number in told}
            # Each look added an entry too, and so does this one.
            made = self.entry(connection) - before - len(told) - 1
        for number, (outcome,) in told.items():
            with self.subTest(line=number):
                self.assertIn((outcome, there[number]), support.TRUE_REPORTS)
        # The last transaction had fewer lines, and was committed.
        self.assertEqual(sum(there.values()) + 1, made, "entries of the transactions")


class Drops(support.InterruptCase):
    """Sessions that are dropped without `close`, with an interrupt at each line of the finalizer."""

    def dropped(self, number):
        """Drops a session with a transaction that was asked, and sent if the number is even; returns the outcomes."""
        connection, interrupt = support.opened(self.port), support.AtLine(number // 2, skipped=None)
        asked = [connection.ask_begin(), connection.ask_run("PUT", {"key": f"dropped{number}", "value": 1}),
                 connection.ask_commit()]
        if number % 2 == 0:
            connection._send()
        with warnings.catch_warnings():
            warnings.simplefilter("ignore")
            with interrupt:
                del connection
            if not interrupt.raised:
                return None
            # The interrupt's frames hold the session.
            interrupt.raised.__traceback__ = None
        return [it.outcome for it in asked]

    def test_requests_of_a_dropped_session_have_outcomes(self):
        told = support.at_each_line(lambda number: self.dropped(number + 1))
        self.assertGreater(len(told), 20)
        for number, outcomes in told.items():
            with self.subTest(number=number + 1):
                sent = (number + 1) % 2 == 0
                self.assertEqual([bolt.LOST, bolt.LOST, bolt.UNKNOWN if sent else bolt.LOST], outcomes)


if __name__ == "__main__":
    unittest.main()
