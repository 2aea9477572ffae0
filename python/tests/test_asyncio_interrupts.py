"""The reports of `bolt.aio` are true if a task is cancelled, or an interrupt comes, anywhere in a call."""
import paths  # noqa: F401

import asyncio
import unittest

import bolt
import loops
import support
from bolt import library


class CancelledAt:
    """A work whose task is cancelled when it waits for the time with this number, from 1.

    If `at_once` is false, it is cancelled when what it waits for has come. `passed` counts how often it waited.
    """

    def __init__(self, steps, number, at_once):
        self.steps, self.number, self.at_once, self.passed = steps, number, at_once, 0

    def __await__(self):
        step, word = self.steps.send, None
        while True:
            try:
                waited = step(word)
            except StopIteration as done:
                return done.value
            self.passed += 1
            if self.passed == self.number:
                task = asyncio.current_task()
                if self.at_once or waited is None:
                    task.cancel()
                else:
                    waited.add_done_callback(lambda _: task.cancel())
            try:
                step, word = self.steps.send, (yield waited)
            except BaseException as why:
                step, word = self.steps.throw, why


def cancelling(at_once):
    """Returns a way to cancel a work at a place. It returns "cancelled", or None if the work has no such place."""
    async def way(steps, number):
        work = CancelledAt(steps, number, at_once)
        try:
            await work
        except asyncio.CancelledError:
            return "cancelled"
        return None if work.passed < number else "not cancelled"
    return way


KINDS = asyncio.CancelledError, *support.INTERRUPTS


async def interrupting(steps, number):
    """Interrupts a work at a line. Returns "raised" or "dropped", or None if the work has fewer lines."""
    interrupt, came = support.AtLine(number, KINDS), None
    try:
        with interrupt:
            await steps
    except (*KINDS, bolt.BoltError) as why:
        came = why
    return interrupt.what_came(came) if interrupt.raised else None


class BrokenOff(support.InterruptCase):
    """Works that are broken off at each place."""

    def broken_off(self, way, version, work, key, number):
        """Breaks a work off. Returns what was reported of it then and later, or None if it has no such place."""
        async def main():
            async with await loops.connected(self.port, versions=version) as connection:
                came = await way(work(connection, key), number)
                outcome = support.of_commit(work, connection.session.requests)
                code = await loops.code_of(connection.run("ONE"))
            requests = connection.session.requests
            later = outcome if code == 0 else support.of_commit(work, requests)
            return came and (outcome, came, code, later, [it.outcome for it in requests])

        return asyncio.run(main())

    def check(self, way, versions, least, step=1):
        """Breaks each work off at each place, or at one of so many, and compares what was reported with the table.

        There have to be at least so many places.
        """
        told = {}
        for version in versions:
            for work in loops.WORKS:
                name = f"{version} {work.__name__}"
                found = support.at_each_line(lambda at: self.broken_off(
                    way, version, work, f"{name} {1 + (at - 1) * step}", 1 + (at - 1) * step))
                told.update((f"{name} {1 + (at - 1) * step}", held) for at, held in found.items())
        self.assertGreaterEqual(len(told), least)
        for key, (outcome, came, code, later, outcomes) in told.items():
            with self.subTest(key):
                self.assertIn(came, ("cancelled", "raised", "dropped"))
                # The connection goes on, or something is to be settled first, or it has ended.
                self.assertIn(code, (0, library.NOT_ALLOWED, library.NO_CLIENT, bolt.Broken))
                self.assertNotIn(None, outcomes, "outcomes after the connection was closed")
                self.assertIn(outcome, (None, later), "an outcome that was reported changes")
        self.assert_reports_are_true({key: outcome for key, (outcome, *_) in told.items()})

    def test_cancellation_at_each_place_is_reported_truly(self):
        self.check(cancelling(True), (44, 50, 51), 11)

    def test_cancellation_as_each_answer_arrives_is_reported_truly(self):
        self.check(cancelling(False), (44, 50, 51), 11)

    def test_interrupt_at_each_third_line_is_reported_truly(self):
        self.check(interrupting, (51,), 21, 3)


class Rollbacks(support.InterruptCase):
    """Blocks that an exception leaves, with an interrupt or a cancellation of the RESET."""

    def left(self, number):
        """Interrupts the end of a block. Returns if the interrupt came, and the code of the next query."""
        async def main():
            interrupt, came = support.Inside(number, ("transaction", "_drop"), False), None
            async with await loops.connected(self.port) as connection:
                try:
                    with interrupt:
                        async with connection.transaction() as tx:
                            await tx.run("PUT", key=f"left{number}", value=1)
                            interrupt.is_armed = True
                            raise KeyError
                except (KeyError, *support.INTERRUPTS) as why:
                    came = why
                # The interrupt's frames hold the block.
                is_raised = came.with_traceback(None) is interrupt.raised
                code = await loops.code_of(connection.run("ONE"))
            return (is_raised, code) if interrupt.raised else None

        return asyncio.run(main())

    def test_interrupt_of_a_rollback_leaves_nothing_open(self):
        told = support.at_each_line(self.left)
        self.assertGreater(len(told), 4)
        for number, (is_raised, code) in told.items():
            with self.subTest(line=number):
                self.assertTrue(is_raised, "the interrupt is raised")
                self.assertIn(code, (0, bolt.Broken))

    @loops.in_loop
    async def test_cancellation_of_a_rollback_ends_the_connection(self):
        async def fails():
            async with connection.transaction() as tx:
                await tx.run("PUT", key="left", value=1)
                raise KeyError

        async with await loops.connected(self.port) as connection:
            leaving = asyncio.ensure_future(fails())
            while not leaving.done() and [it.kind for it in connection.session.requests] != ["RESET"]:
                await asyncio.sleep(0)
            leaving.cancel()
            await asyncio.wait({leaving})
            code = await loops.code_of(connection.run("ONE"))
        self.assertEqual((True, bolt.Broken), (leaving.cancelled(), code))


if __name__ == "__main__":
    unittest.main()
