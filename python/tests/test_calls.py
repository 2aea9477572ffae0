"""Each public call reports what is true if its connection ends at any byte, or its socket fails or is interrupted."""
import paths  # noqa: F401

import unittest

import bolt
import calls
import memory
import support


def begun(it):
    it.block = it.connection.transaction()
    it.tx = it.block.__enter__()


def unread(it):
    it.result = it.connection.run("PUT")


def unread_in_transaction(it):
    begun(it)
    it.result = it.tx.run("PUT")


def read(count):
    def begins(it):
        unread(it)
        for _ in range(count):
            next(it.result)
    return begins


def block(it):
    with it.connection.transaction() as it.tx:
        it.tx.run("PUT")


def left_block(it):
    with it.connection.transaction() as it.tx:
        it.tx.run("PUT")
        raise calls.Own


def pipeline(it):
    with it.connection.pipeline() as asked:
        asked.begin()
        it.asked = asked.run("PUT")
        asked.commit()


def pipeline_of_two(it):
    with it.connection.pipeline() as asked:
        asked.run("PUT")
        asked.begin()
        asked.run("PUT")
        asked.rollback()


def leave_connection(it):
    with it.connection:
        pass


class Stage(calls.Stage):
    """A blocking connection."""

    ways = {"begun": begun, "unread": unread, "unread_in_transaction": unread_in_transaction, "two_read": read(2),
            "four_read": read(4), "block": block, "left_block": left_block, "pipeline": pipeline,
            "pipeline_of_two": pipeline_of_two, "leave_connection": leave_connection,
            "enter_transaction": lambda it: it.connection.transaction().__enter__(),
            "enter_pipeline": lambda it: it.connection.pipeline().__enter__(),
            "next": lambda it: next(iter(it.result)), "rest": lambda it: list(it.result),
            "summary": lambda it: it.result.summary}

    @classmethod
    def opening(cls, line):
        return support.raised(lambda: memory.connected(line))

    def connect(self):
        return memory.connected(self.line, fetch=calls.FETCH)


class Calls(calls.Calls):
    """The calls of `bolt.Connection`, `bolt.Session` and what they return."""

    stage = Stage

    def test_each_end(self):
        self.check_ends((True, False))

    def test_each_end_of_an_opening(self):
        self.check_openings((True, False))

    def test_interrupt_in_each_call_of_the_socket(self):
        self.check_failures(KeyboardInterrupt, bolt.INTERRUPTED)

    def test_error_in_each_call_of_a_wrapped_socket(self):
        self.check_failures(ConnectionResetError, bolt.GONE)

    def test_each_public_call_has_a_row(self):
        self.check_names("", bolt.Connection, bolt.Transaction, bolt.Pipeline, bolt.Deferred, bolt.Result, bolt.Session)


if __name__ == "__main__":
    unittest.main()
