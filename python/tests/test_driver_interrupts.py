"""Interrupts, closings and resets at each line of a call of the driver: no record is lost, and every report is true."""
import paths  # noqa: F401

import contextlib
import datetime
import sys
import threading
import unittest

import bolt
import support
from bolt import library
from tests.lib import proxy


# Functions that read results.
READING = ("values", "data", "single", "_rest", "_ahead", "_more", "_unread", "_record", "_next", "__next__",
           "by_place", "by_name", "only")
PULLING = ("_more", "_refill", "_settling", "_awaiting")


class AtStep(support.Inside):
    """Interrupts before one step of the interpreter. (Python 3.12 traces lines only.)"""

    def __call__(self, frame, event, word):
        frame.f_trace_opcodes = True
        step = "line" if sys.version_info[:2] == (3, 12) else "opcode"
        return super().__call__(frame, "line" if event == step else None, word)


class Records(support.InterruptCase):
    """Interrupts while records are read."""

    def test_record_that_was_not_returned_is_read_next(self):
        def read(number):
            records, came = connection.run("ECHO", x=[datetime.date(2000, 1, 1)]), None
            interrupt = support.AtLine(number)
            try:
                with interrupt:
                    next(records)
            except support.INTERRUPTS as why:
                came = why
            if not interrupt.raised:
                return None
            return interrupt.what_came(came), came is not None, records.values()

        with support.connected(self.port) as connection:
            told = support.at_each_line(read)
        self.assertGreater(len(told), 9)
        record = [[[datetime.date(2000, 1, 1)]]]
        # At the last line the record was taken, and it isn't read again.
        self.assertEqual(("raised", True, []), told.pop(len(told)), "the last line")
        for number, (how, was_raised, rest) in told.items():
            with self.subTest(line=number):
                if was_raised or how != "dropped":
                    self.assertEqual(("raised", record), (how, rest))

    def reads_on(self, n, read, number):
        """Interrupts the reading of a rest of n - 1 rows. Returns if it raised, what is read then, and an error."""
        interrupt, is_raised, rest = support.Inside(number, READING), False, []
        with support.connected(self.port, fetch=2) as connection:
            records = connection.run("ROWS", n=n)
            next(records)
            try:
                with interrupt:
                    read(records)
            except support.INTERRUPTS:
                is_raised = True
            why = support.raised(lambda: rest.extend(it[0] for it in records))
        return (is_raised, rest, why) if interrupt.raised else None

    def check_rest(self, n, read):
        told = support.at_each_line(lambda number: self.reads_on(n, read, number))
        self.assertGreater(len(told), 9)
        # At the last line the rest was taken.
        self.assertEqual((True, [], None), told.pop(len(told)), "the last line")
        for number, (is_raised, rest, why) in told.items():
            with self.subTest(line=number):
                if is_raised and not isinstance(why, bolt.BoltError):
                    self.assertEqual(list(range(2, n + 1)), rest, repr(why))

    def test_rest_is_read_after_an_interrupt_of_values(self):
        self.check_rest(5, lambda records: records.values())

    def test_rest_is_read_after_an_interrupt_of_data(self):
        self.check_rest(5, lambda records: records.data())

    def test_rest_is_read_after_an_interrupt_of_single(self):
        self.check_rest(2, lambda records: records.single())

    def pulled(self, number):
        """Interrupts a PULL at a step. Returns the records that were read, and the error at the end."""
        interrupt, rest = AtStep(number, PULLING), []
        with support.connected(self.port, fetch=2) as connection:
            records = connection.run("ROWS", n=3)
            read = [next(records)[0] for _ in range(2)]
            with contextlib.suppress(*support.INTERRUPTS, bolt.BoltError), interrupt:
                rest.append(next(records)[0])
            why = support.raised(lambda: rest.extend(it[0] for it in records))
        return (read + rest, why) if interrupt.raised else None

    def test_interrupted_pull_skips_no_record(self):
        told = support.at_each_line(self.pulled)
        self.assertGreater(len(told), 9)
        for number, (read, why) in told.items():
            with self.subTest(step=number):
                if not isinstance(why, bolt.BoltError):
                    self.assertEqual([1, 2, 3], read, repr(why))


class Accounts(support.InterruptCase):
    """Interrupts of a transaction."""

    def interrupted(self, work, number):
        """Interrupts a transaction. Returns the outcome of its COMMIT, what came, and what the connection does."""
        interrupt, came = support.AtLine(number), None
        with support.connected(self.port) as connection:
            try:
                with interrupt:
                    work(connection, f"line{number}")
            except (*support.INTERRUPTS, bolt.BoltError) as why:
                came = why
            requests = list(connection.session.requests)
            after = support.code_of_next(connection)
        if not interrupt.raised:
            return None
        is_told = came is None or came is interrupt.raised
        return support.of_commit(work, requests), interrupt.what_came(came) if is_told else repr(came), after

    def check(self, work):
        told = support.at_each_line(lambda number: self.interrupted(work, number))
        self.assertGreater(len(told), 100)
        for number, (_, came, after) in told.items():
            with self.subTest(line=number):
                self.assertIn(came, ("raised", "dropped"))
                self.assertIn(after, support.NOTHING_OPEN)
        self.assert_reports_are_true({f"line{number}": outcome for number, (outcome, *_) in told.items()})

    def test_interrupted_transaction_is_reported_truly(self):
        self.check(support.transaction)

    def test_interrupted_pipeline_is_reported_truly(self):
        self.check(support.pipeline)

    def left(self, number):
        """Interrupts the end of a block that an exception leaves. Returns if the interrupt came, and what is open."""
        interrupt, came = support.Inside(number, ("transaction", "_drop"), False), None
        with support.connected(self.port) as connection:
            try:
                with interrupt, connection.transaction() as tx:
                    tx.run("PUT", key=f"left{number}", value=1)
                    interrupt.is_armed = True
                    raise KeyError
            except (KeyError, *support.INTERRUPTS) as why:
                came = why
            # The interrupt's frames hold the block.
            is_raised = came.with_traceback(None) is interrupt.raised
            return (is_raised, support.code_of_next(connection)) if interrupt.raised else None

    def test_interrupt_of_a_rollback_leaves_nothing_open(self):
        told = support.at_each_line(self.left)
        self.assertGreater(len(told), 4)
        for number, (is_raised, after) in told.items():
            with self.subTest(line=number):
                self.assertTrue(is_raised, "the interrupt is raised")
                self.assertIn(after, support.NOTHING_OPEN)
                self.assertEqual([], support.value_of(self.port, f"left{number}"))

    def test_exception_of_a_signal_handler_is_raised_while_connecting_and_closing(self):
        def attempt(number):
            interrupt, came = support.AtLine(number, (TimeoutError,)), None
            try:
                with interrupt:
                    support.connected(self.port).close()
            except (OSError, bolt.BoltError) as why:
                came = why
            return interrupt.what_came(came) if interrupt.raised else None

        told = support.at_each_line(attempt)
        self.assertGreater(len(told), 99)
        for number, how in told.items():
            with self.subTest(line=number):
                self.assertIn(how, ("raised", "dropped"))


class Meanwhile(support.InterruptCase):
    """Connections that are reset or closed at a line of a call."""

    def reset(self, number, call):
        """Resets the connection at a line of a transaction's call. Returns the transaction, None without that line."""
        with support.connected(self.port) as connection:
            def reset():
                with contextlib.suppress(bolt.NotSent):
                    connection.reset()

            at_line = support.CallsAtLine(number, reset)
            with contextlib.suppress(bolt.BoltError), connection.transaction() as tx:
                call(tx, f"{call.__name__}{number}", at_line)
        # A call that has no such line has to commit its key as well.
        self.told[f"{call.__name__}{number}"] = tx.outcome
        return tx.outcome or "none" if at_line.has_come else None

    def check_reset(self, call):
        self.told = {}
        support.at_each_line(lambda number: self.reset(number, call))
        self.assertGreater(len(self.told), 49)
        for key, outcome in self.told.items():
            with self.subTest(key):
                self.assertEqual(outcome == bolt.COMMITTED, support.value_of(self.port, key) == [1], outcome)

    def test_query_of_a_reset_transaction_is_not_committed_by_itself(self):
        def run(tx, key, at_line):
            with at_line:
                tx.run("PUT", key=key, value=1)

        self.check_reset(run)

    def test_commit_of_a_reset_transaction_is_reported_truly(self):
        def commit(tx, key, at_line):
            tx.run("PUT", key=key, value=1)
            with at_line:
                tx.commit()

        self.check_reset(commit)

    def closed(self, number, call):
        """Closes the connection at a line of a call. Returns a list with what the call raised."""
        with support.connected(self.port, fetch=2) as connection:
            left = connection.run("ROWS", n=5)
            with support.CallsInFiles(number, connection.close) as closing:
                why = support.raised(lambda: call(connection, left))
            return [why] if closing.has_come else None

    def test_call_of_a_connection_that_is_closed_meanwhile_raises_an_error_of_the_package(self):
        # Each call has an open result.
        calls = {
            "run": lambda connection, left: connection.run("ONE"),
            "values": lambda connection, left: left.values(),
            "transaction": lambda connection, left: support.transaction(connection, "meanwhile"),
            "pipeline": lambda connection, left: support.pipeline(connection, "meanwhile")}
        counts = {}
        for name, call in calls.items():
            told = support.at_each_line(lambda number: self.closed(number, call))
            counts[name] = len(told)
            for number, (why,) in told.items():
                with self.subTest(name, line=number):
                    if why is not None:
                        self.assertIsInstance(why, bolt.BoltError)
        self.assertGreater(max(counts.values()), 49, counts)


class StartsCall(support.Inside):
    """Lets another thread run a query at a line of `close`. What it sends stays queued until `close` returns."""

    def __init__(self, number, connection):
        super().__init__(number, ("close", "_part", "_says_goodbye"))
        self.goes, self.closed = threading.Event(), threading.Event()
        self.connection, self.client = connection, connection._client
        self.thread = threading.Thread(target=self.put, daemon=True)
        self.client.sent = self.sent

    def come(self):
        sys.settrace(None)
        self.raised = True
        self.thread.start()
        self.goes.wait(support.PATIENCE)

    def put(self):
        support.raised(lambda: self.connection.run("PUT", {"key": "twice", "value": 1}))
        self.goes.set()

    def sent(self, count):
        if threading.current_thread() is self.thread:
            self.goes.set()
            self.closed.wait(support.PATIENCE)
        return library.Client.sent(self.client, count)


class SendsOnce(support.InterruptCase):
    """A call that begins while another thread closes the session."""

    def asked(self, number):
        """Starts a call at a line of `close`. Returns how many bytes were sent; None without that line."""
        way = proxy.Proxy(self.port)
        connection = support.opened(way.port)
        way.arm()
        starting = StartsCall(number, connection)
        try:
            with starting:
                connection.close()
        finally:
            starting.closed.set()
        way.over.join(support.PATIENCE)
        return way.passed["asked"] if starting.raised else None

    def test_close_sends_nothing_of_another_call_again(self):
        # RUN, PULL and GOODBYE.
        once = bytes.fromhex("0019B31083505554A2836B65798574776963658576616C756501A00000" "0006B13FA1816EFF0000"
                             "0002B0020000")
        told = support.at_each_line(self.asked)
        self.assertGreater(len(told), 9)
        for number, count in told.items():
            with self.subTest(line=number):
                self.assertLessEqual(count, len(once))


if __name__ == "__main__":
    unittest.main()
