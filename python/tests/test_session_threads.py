"""`bolt.Session` used by several threads, and by the child of a fork."""
import paths  # noqa: F401

import os
import subprocess
import sys
import threading
import time
import unittest

import bolt
import ends
import support
from bolt import library


class StartsCall(support.AtLine):
    """Lets another thread run a query at the line, and waits for its answer."""

    def __init__(self, number, session):
        super().__init__(number)
        self.session, self.waiting = session, None

    def come(self):
        sys.settrace(None)
        self.waiting = support.WaitingCall(self.session, lambda: self.session.run("ONE"))


class Threads(support.InterruptCase):
    """Calls of two threads at once."""

    def test_second_call_is_refused_and_not_sent(self):
        with support.opened(self.port) as connection:
            first = support.WaitingCall(connection, lambda: connection.run("ONE"))
            codes = {call.__name__: support.code_of(lambda: call("PUT", {"key": "second", "value": 1}))
                     for call in (connection.ask_run, connection.run)}
            codes.update((call.__name__, support.code_of(call)) for call in (connection.ask_begin, connection.settle))
            wanted = dict.fromkeys(("ask_run", "run", "ask_begin", "settle"), library.NOT_ALLOWED)
            self.assertEqual([None], first.end(), "what the first call raised")
            self.assertEqual(wanted, codes)
            self.assertEqual([], connection.run("GET", {"key": "second"}, write=False))

    def settled(self, number):
        """Starts another thread's call at a line of `settle`. Returns what both raised."""
        with support.opened(self.port, timeout=support.PATIENCE) as connection:
            with StartsCall(number, connection) as starting:
                first = support.raised(connection.settle)
            told = [first, *starting.waiting.end()] if starting.waiting else None
        if told and len(told) < 2:
            # The rest would hang as long.
            self.fail(f"line {number}: the other thread's call doesn't end, and this one raised {first!r}")
        return told

    def test_one_of_two_threads_has_the_session(self):
        told = support.at_each_line(self.settled)
        self.assertGreater(len(told), 9)
        for number, whys in told.items():
            with self.subTest(line=number):
                kinds = [type(it) for it in whys]
                self.assertIn(kinds, ([type(None)] * 2, [bolt.NotSent, type(None)], [type(None), bolt.NotSent]))

    def test_waiting_call_ends_when_another_thread_closes_the_session(self):
        with support.listening() as listener:
            support.in_thread(ends.ending, listener, (ends.TOOK, ends.SUCCESS * 2), b"", "waits")
            with support.opened(support.port_of(listener), timeout=None) as connection:
                waiting = support.WaitingCall(connection, lambda: connection.run("ONE"))
                waiting.may_go_on.set()
                # Most times the call is in the socket's `recv` after this pause. It passes without the pause, too.
                time.sleep(0.2)
                connection.close()
                told = [str(it) for it in waiting.end()]
        self.assertEqual(["RUN ONE: LOST, PULL of ONE: UNKNOWN (closed)"], told)


class PausesEnd(support.Inside):
    """Stops the thread that closes a session at one line, until it may go on."""

    def __init__(self, number):
        super().__init__(number, ("_end", "_shut"))
        self.is_there, self.may_go_on = threading.Event(), threading.Event()

    def come(self):
        sys.settrace(None)
        self.raised = True
        self.is_there.set()
        self.may_go_on.wait(support.PATIENCE)

    def close(self, connection):
        """Closes the session under this tracer."""
        with self:
            connection.close()
        self.is_there.set()


class ClosedWhileSending(support.InterruptCase):
    """A session that one thread closes while another sends a COMMIT."""

    def asked(self, number):
        """Closes at a line while a COMMIT is sent. Returns its outcome then and at the end; None without that line."""
        with support.opened(self.port) as connection:
            support.ask_all(connection, f"goes{number}")
            pausing, client, told = PausesEnd(number), connection._client, []
            closing = threading.Thread(target=pausing.close, args=(connection,), daemon=True)

            def goes(count):
                if not told:
                    closing.start()
                    pausing.is_there.wait(support.PATIENCE)
                    told.append(connection.requests[-1].outcome)
                library.Client.goes(client, count)

            client.goes = goes
            support.raised(connection.settle)
            pausing.may_go_on.set()
            closing.join(support.PATIENCE)
            self.last = [*told, connection.requests[-1].outcome]
        return self.last if pausing.raised else None

    def test_commit_that_is_sent_is_not_reported_as_lost(self):
        told = support.at_each_line(self.asked)
        # The last try had fewer lines.
        told[len(told) + 1] = self.last
        self.assertGreater(len(told), 4)
        self.assert_reports_are_true({f"goes{number}": last for number, (_, last) in told.items()})
        for number, (first, last) in told.items():
            with self.subTest(line=number):
                self.assertIn(first, (None, last), "an outcome that was reported changes")


FORKS = """
import asyncio, bolt, os, sys
from bolt import aio

def forked(call):
    child = os.fork()
    if child == 0:
        try:
            call()
        except bolt.NotSent as unsent:
            print(unsent, flush=True)
        finally:
            os._exit(0)
    os.waitpid(child, 0)

with bolt.connect("127.0.0.1", int(sys.argv[1]), auth=("user", "pass")) as connection:
    forked(connection.close)
    with connection.transaction() as tx:
        tx.run("PUT", key="forked", value=1)
        forked(tx.commit)
        forked(tx.rollback)
        forked(lambda: connection.session.ask_reset())
    print(tx.outcome)
    connection.session.ask_begin()
    asked = connection.session.ask_commit()
    forked(lambda: (connection.close(), print(asked.outcome, flush=True)))
    connection.session.settle()
    print(asked.outcome)

async def main():
    async with await aio.connect("127.0.0.1", int(sys.argv[1]), auth=("user", "pass")) as connection:
        connection.session.ask_begin()
        asked, child = connection.session.ask_commit(), os.fork()
        if child == 0:
            try:
                await connection.close()
                print(asked.outcome, flush=True)
            finally:
                os._exit(0)
        os.waitpid(child, 0)
        await connection.session.settle()
        print(asked.outcome)

asyncio.run(main())
"""


class Forks(support.ServerCase):
    """The child of a fork, in a process of its own that has one thread."""

    def test_child_changes_nothing_of_its_parents_connection(self):
        environment = {**os.environ, "PYTHONPATH": os.path.dirname(support.PACKAGE)}
        told = subprocess.run([sys.executable, "-B", "-c", FORKS, str(self.port)], env=environment,
                              stdout=subprocess.PIPE, text=True, timeout=60)
        refused = "the request isn't allowed here: another process has the connection"
        # The child can't know what its parent still sends.
        wanted = [*[refused] * 3, bolt.COMMITTED, *[bolt.UNKNOWN, bolt.COMMITTED] * 2]
        self.assertEqual(wanted, told.stdout.splitlines())


if __name__ == "__main__":
    unittest.main()
