"""Each public call of `bolt.aio` reports what is true if its connection ends at any byte, fails or is cancelled."""
import paths  # noqa: F401

import asyncio
import inspect
import unittest

import bolt
import calls
import loops
import memory
from bolt import aio


async def begun(it):
    it.block = it.connection.transaction()
    it.tx = await it.block.__aenter__()


async def unread(it):
    it.result = await it.connection.run("PUT")


async def unread_in_transaction(it):
    await begun(it)
    it.result = await it.tx.run("PUT")


def read(count):
    async def begins(it):
        await unread(it)
        for _ in range(count):
            await it.result.__anext__()
    return begins


async def block(it):
    async with it.connection.transaction() as it.tx:
        await it.tx.run("PUT")


async def left_block(it):
    async with it.connection.transaction() as it.tx:
        await it.tx.run("PUT")
        raise calls.Own


async def pipeline(it):
    async with it.connection.pipeline() as asked:
        asked.begin()
        it.asked = asked.run("PUT")
        asked.commit()


async def pipeline_of_two(it):
    async with it.connection.pipeline() as asked:
        asked.run("PUT")
        asked.begin()
        asked.run("PUT")
        asked.rollback()


async def leave_connection(it):
    async with it.connection:
        pass


async def rest(it):
    return [record async for record in it.result]


class Stage(calls.Stage):
    """A connection of asyncio, in the loop of the test."""

    loop = None
    ways = {"begun": begun, "unread": unread, "unread_in_transaction": unread_in_transaction, "two_read": read(2),
            "four_read": read(4), "block": block, "left_block": left_block, "pipeline": pipeline,
            "pipeline_of_two": pipeline_of_two, "leave_connection": leave_connection,
            "enter_transaction": lambda it: it.connection.transaction().__aenter__(),
            "enter_pipeline": lambda it: it.connection.pipeline().__aenter__(),
            "next": lambda it: it.result.__anext__(), "rest": rest, "summary": lambda it: it.result.summary()}

    @classmethod
    def opening(cls, line):
        return cls.loop.run_until_complete(loops.raised(memory.connected_by_aio(line)))

    def connect(self):
        return self.loop.run_until_complete(memory.connected_by_aio(self.line, fetch=calls.FETCH))

    async def _raised(self, call):
        try:
            found = call(self)
            if inspect.isawaitable(found):
                await found
        except BaseException as why:
            return why
        return None

    def raised(self, call):
        return self.loop.run_until_complete(self._raised(call))


class AsyncioCalls(calls.Calls):
    """The calls of `bolt.aio`. Its session has no single requests that are sent at once."""

    stage = Stage
    rows = [it for it in calls.CALLS if all(
        hasattr(aio.AsyncSession, name.partition(".")[2]) for name in it.calls if name.startswith("Session."))]

    def setUp(self):
        super().setUp()
        Stage.loop = asyncio.new_event_loop()
        self.addCleanup(Stage.loop.close)

    def test_each_end(self):
        # A transport takes all at once, so a send doesn't fail.
        self.check_ends((False,))

    def test_each_end_of_an_opening(self):
        self.check_openings((False,))

    def test_cancellation_in_each_call_of_the_stream(self):
        self.check_failures(asyncio.CancelledError, bolt.INTERRUPTED)

    def test_error_in_each_call_of_a_wrapped_stream(self):
        self.check_failures(ConnectionResetError, bolt.GONE)

    def test_each_public_call_has_a_row(self):
        self.check_names("Async", aio.AsyncConnection, aio.AsyncTransaction, aio.AsyncResult, aio.AsyncSession)


if __name__ == "__main__":
    unittest.main()
