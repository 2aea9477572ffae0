"""The pool of `bolt.driver`: its bounds, and that it has all connections back after each bad
case."""
import paths  # noqa: F401

import asyncio
import gc
import random
import socket
import sys
import threading
import time
import unittest
import unittest.mock
import weakref

import bolt
import driving
import support
from bolt import exceptions, seam
from bolt.flows import play
from fakes import Fake


def ends(fake):
    """Ends all connections of a fake server, as a restart does."""
    for client in fake.clients:
        try:
            client.shutdown(socket.SHUT_RDWR)
        except OSError:
            pass


class Bounds(driving.PoolCase):
    """Number, age, idle time and signs of life."""

    def test_default_fits_the_sessions_of_the_server(self):
        with Fake() as fake:
            self.assertEqual(8, self.driver(fake.port).pool.size)

    def test_connection_is_used_again(self):
        with Fake() as fake, self.driver(fake.port) as driver:
            for _ in range(5):
                driver.execute_query("PUT")
            with driver.session() as session:
                session.run("PUT").consume()
                session.run("PUT").consume()
            self.assertEqual((1, 1, 0), (fake.connections, driver.pool.idle, driver.pool.in_use))

    def test_waiting_for_a_connection_has_an_end(self):
        with Fake() as fake, self.driver(
            fake.port, max_connection_pool_size=1, connection_acquisition_timeout=0.2
        ) as driver:
            with driver.session() as holder:
                with holder.begin_transaction():
                    began = time.monotonic()
                    why = driving.raised(driver.verify_connectivity)
                    took = time.monotonic() - began
            self.assertIsInstance(why, exceptions.ConnectionAcquisitionTimeoutError)
            self.assertIn("all 1 connections of the pool were in use for 0.2 seconds", str(why))
            self.assertGreaterEqual(took, 0.2)
            driver.verify_connectivity()

    def test_waiting_calls_get_the_connection_in_turn(self):
        with Fake() as fake, self.driver(fake.port, max_connection_pool_size=1) as driver:
            done = []

            def ask(number):
                driver.execute_query("PUT")
                done.append(number)

            with driver.session() as holder:
                tx = holder.begin_transaction()
                threads = []
                for number in range(4):
                    threads.append(support.in_thread(ask, number))
                    # The next one comes when this one waits.
                    while len(driver.pool._waiting) <= number:
                        time.sleep(0.001)
                self.assertEqual([], done)
                tx.close()
            for thread in threads:
                thread.join(support.PATIENCE)
            self.assertEqual(([0, 1, 2, 3], 1), (done, fake.connections))

    def test_bound_holds_among_many_threads(self):
        """No connection is given out twice, none beyond the bound, and no call waits in vain."""

        def take(pool, seed):
            chance = random.Random(seed)
            for _ in range(40):
                slot = play(pool.acquire())
                if slot in out or len(out) >= pool.size:
                    wrong.append(len(out))
                out.add(slot)
                if chance.random() < 0.3:
                    time.sleep(0.0005)
                out.discard(slot)
                if chance.random() < 0.05:
                    seam.drop(slot.connection)
                pool.release(slot)
                done.append(seed)

        before = sys.getswitchinterval()
        self.addCleanup(sys.setswitchinterval, before)
        sys.setswitchinterval(1e-5)
        # A call that nobody wakes would time out.
        patch = unittest.mock.patch.object(bolt.pool, "LOOK_AGAIN", 60)
        for size in (1, 2, 5):
            how = {"max_connection_pool_size": size, "max_connection_lifetime": 0.05}
            how["connection_acquisition_timeout"] = 20
            with self.subTest(size=size), Fake() as fake, self.driver(
                fake.port, **how
            ) as driver, patch:
                out, wrong, done = set(), [], []
                threads = [support.in_thread(take, driver.pool, seed) for seed in range(16)]
                for thread in threads:
                    thread.join(support.PATIENCE)
                self.assertEqual(([], 16 * 40), (wrong, len(done)))

    def test_call_that_leaves_the_queue_removes_no_other(self):
        class Queue(list):
            """While this is read for the first time, another call comes."""

            def __iter__(self):
                before = list(super().__iter__())
                if not came:
                    came.append(True)
                    self.append(weakref.ref(other))
                return iter(before)

        leaving, other, came = threading.Event(), threading.Event(), []
        with Fake() as fake, self.driver(fake.port) as driver:
            driver.pool._waiting = Queue([weakref.ref(leaving)])
            driver.pool._leave(leaving)
            self.assertEqual([other], [it() for it in driver.pool._waiting])

    def test_old_connection_is_replaced(self):
        for option in ("max_connection_lifetime", "max_connection_idle_time"):
            with self.subTest(option), Fake() as fake, self.driver(
                fake.port, **{option: 0}
            ) as driver:
                for _ in range(3):
                    driver.execute_query("PUT")
                self.assertEqual((3, 1), (fake.connections, driver.pool.idle))
                self.assertEqual(["GOODBYE"] * 2, [it[-1] for it in fake.asked[:2]])

    def test_dead_connection_is_replaced_after_a_check(self):
        with Fake() as fake, self.driver(fake.port, liveness_check_timeout=0) as driver:
            driver.verify_connectivity()
            ends(fake)
            with driver.session() as session:
                self.assertEqual([1], session.run("PUT").value())
            self.assertEqual(2, fake.connections)

    def test_after_a_broken_connection_the_others_are_checked(self):
        with Fake() as fake, self.driver(fake.port, liveness_check_timeout=None) as driver:
            with driver.session() as one, driver.session() as other:
                one.begin_transaction(), other.begin_transaction()
            self.assertEqual(2, driver.pool.idle)
            ends(fake)
            with driver.session() as session:
                why = driving.raised(session.run, "PUT")
                self.assertIsInstance(why, exceptions.ServiceUnavailable)
                self.assertEqual([1], session.run("PUT").value())
            self.assertEqual(3, fake.connections)

    def test_managed_work_survives_a_restart(self):
        with Fake() as fake, self.driver(fake.port, liveness_check_timeout=None) as driver:
            sessions = [driver.session() for _ in range(4)]
            for session in sessions:
                session.begin_transaction()
            for session in sessions:
                session.close()
            ends(fake)
            self.assertEqual([1], driver.execute_query("PUT").records[0].values())

    def test_closing_ends_idle_connections_and_those_that_come_back(self):
        with Fake() as fake:
            driver = self.driver(fake.port)
            driver.verify_connectivity()
            session = driver.session()
            session.begin_transaction()
            driver.close()
            driver.close()
            session.close()
            self.assertEqual((0, 0), (driver.pool.idle, driver.pool.in_use))
            for call in (
                driver.session,
                driver.verify_connectivity,
                lambda: driver.execute_query("PUT"),
            ):
                why = driving.raised(call)
                self.assertEqual(
                    (bolt.exceptions.DriverError, False), (type(why), why.is_retryable())
                )
                self.assertIn("the driver is closed", str(why))


class Interrupted(support.InFiles):
    """An interrupt at a line of the driver."""

    files = ("pool.py", "flows.py", "working.py", "drivers.py", "reading.py")


class Interrupts(driving.PoolCase):
    """Interrupts at each line of the driver's own code, while a connection is taken, used and given
    back."""

    def check(self, work):
        """Checks that the only connection of a pool is free after an interrupt at each line of a
        work."""
        with Fake(names=("BoltTable/1",), keeps=True) as fake:
            driver = self.driver(
                fake.port, max_connection_pool_size=1, connection_acquisition_timeout=5
            )

            def attempt(number):
                with Interrupted(number, (KeyboardInterrupt,)) as at:
                    try:
                        work(driver)
                    except KeyboardInterrupt:
                        pass
                if not at.raised:
                    return None
                # A traceback that is kept has the frames in which the connection is.
                at.raised.__traceback__ = None
                # If the connection is in a cycle, the pool has it back after a second.
                self.assertEqual([1], driver.execute_query("PUT").records[0].values())
                return number

            told = support.at_each_line(attempt)
            gc.collect()
            self.assertEqual(0, driver.pool.in_use)
            driver.close()
        self.warned.clear()
        return len(told)

    def test_connection_is_not_lost(self):
        self.assertGreater(self.check(lambda driver: driver.verify_connectivity()), 20)

    def test_session_gives_its_connection_back(self):
        def work(driver):
            with driver.session() as session:
                session.run("PUT").consume()

        self.assertGreater(self.check(work), 60)

    def test_managed_transaction_gives_its_connection_back(self):
        self.assertGreater(self.check(lambda driver: driver.execute_query("PUT")), 80)


class Asyncio(driving.PoolCase):
    """The pool of asyncio."""

    @driving.in_loop
    async def test_waiting_tasks_get_the_connection(self):
        with Fake() as fake:
            async with self.async_driver(fake.port, max_connection_pool_size=2) as driver:
                await asyncio.gather(*(driver.execute_query("PUT") for _ in range(20)))
                self.assertEqual((20, True), (len(fake.commits), fake.connections <= 2))

    @driving.in_loop
    async def test_cancelled_tasks_lose_nothing(self):
        with driving.Holding() as fake:
            async with self.async_driver(fake.port, max_connection_pool_size=1) as driver:
                for text in ("PUT", "WAIT"):
                    tasks = [asyncio.ensure_future(driver.execute_query(text)) for _ in range(5)]
                    await asyncio.sleep(0.05)
                    for task in tasks:
                        task.cancel()
                    await asyncio.gather(*tasks, return_exceptions=True)
                fake.may_go_on.set()
                self.assertEqual(0, driver.pool.in_use)
                await driver.execute_query("PUT")

    @driving.in_loop
    async def test_cancellation_at_each_step_of_the_loop_loses_nothing(self):
        with Fake(names=("BoltTable/1",), keeps=True) as fake:
            how = {"max_connection_pool_size": 1, "connection_acquisition_timeout": 5}
            async with self.async_driver(fake.port, **how) as driver:
                cancelled = 0
                for steps in range(100):
                    task = asyncio.ensure_future(driver.execute_query("PUT"))
                    for _ in range(steps):
                        await asyncio.sleep(0)
                    task.cancel()
                    (why,) = await asyncio.gather(task, return_exceptions=True)
                    cancelled += isinstance(why, asyncio.CancelledError)
                    self.assertEqual(0, driver.pool.in_use, f"lost after {steps} steps")
                    self.assertEqual([1], (await driver.execute_query("PUT")).records[0].values())
                self.assertGreater(cancelled, 4)

    @driving.in_loop
    async def test_waiting_has_an_end(self):
        with Fake() as fake:
            how = {"max_connection_pool_size": 1, "connection_acquisition_timeout": 0.2}
            async with self.async_driver(fake.port, **how) as driver, driver.session() as session:
                await session.begin_transaction()
                why = await driving.awaited(driver.verify_connectivity())
                self.assertIsInstance(why, exceptions.ConnectionAcquisitionTimeoutError)

    @driving.in_loop
    async def test_closed_driver_and_session(self):
        with Fake() as fake:
            async with self.async_driver(fake.port) as driver:
                session = driver.session()
                await session.close()
                why = await driving.awaited(session.run("PUT"))
                self.assertEqual(exceptions.SessionError, type(why))
            why = await driving.awaited(driver.execute_query("PUT"))
            self.assertEqual(exceptions.DriverError, type(why))

    @driving.in_loop
    async def test_session_in_two_tasks(self):
        with driving.Holding() as fake:
            async with self.async_driver(fake.port) as driver, driver.session() as session:
                first = asyncio.ensure_future(session.run("WAIT"))
                await asyncio.get_running_loop().run_in_executor(None, fake.is_there.wait)
                why = await driving.awaited(session.run("PUT"))
                fake.may_go_on.set()
                await first
                self.assertEqual(exceptions.SessionError, type(why))

    def test_driver_of_a_loop_that_has_ended(self):
        async def ask():
            await driver.execute_query("PUT")

        with Fake() as fake:
            driver = bolt.async_driver(driving.uri(fake.port))
            asyncio.run(ask())
            asyncio.run(ask())
            self.assertEqual((2, 0), (fake.connections, driver.pool.in_use))
            driver.pool.drop()
        # Sockets of a loop that has ended are closed by the collector, with a warning.
        del driver, ask
        gc.collect()
        self.warned.clear()


if __name__ == "__main__":
    unittest.main()
