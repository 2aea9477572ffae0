"""Helpers of the tests of the Python package: servers, works, interrupts at a line, and checks of outcomes."""
import paths  # noqa: F401

import asyncio
import contextlib
import gc
import inspect
import itertools
import os
import signal
import socket
import sys
import threading
import traceback
import unittest
import warnings

import bolt
from tests.lib import programs, servers

# The login of `bolt.Session`, and that of `bolt.connect`.
USER, AUTH = ("basic", "user", "pass"), ("user", "pass")
# Each outcome that a client may report of the request that commits, and if the key is then in the table.
# None is the outcome of a request that was never asked.
TRUE_REPORTS = ((bolt.COMMITTED, True), (bolt.UNKNOWN, True), (bolt.UNKNOWN, False), (bolt.LOST, False), (None, False))
# How long a test waits for a thread that should end or get to a place.
PATIENCE = programs.PATIENCE


def connected(port, **words):
    """Returns a connection of the driver."""
    return bolt.connect("127.0.0.1", port, auth=AUTH, **words)


def opened(port, **words):
    """Returns a session."""
    return bolt.Session("127.0.0.1", port, USER, **words)


def raised(call):
    """Returns what a call raises, or None if it returns."""
    try:
        call()
    except Exception as why:
        return why
    return None


def code_of(call):
    """Returns the code of the NotSent that a call raises, 0 if it raises nothing, else the type of the exception."""
    why = raised(call)
    return 0 if why is None else why.code if isinstance(why, bolt.NotSent) else type(why)


def seen(why, *names):
    """Returns the type of an exception and these attributes, each None if it has none. It shows what was raised."""
    return type(why), *(getattr(why, name, None) for name in names)


def value_of(port, key):
    """Returns the values under a key, as another connection reads them."""
    with connected(port) as connection:
        return [it["value"] for it in connection.read("GET", key=key)]


def is_there(connection, key):
    """Returns true if the key has the value 1, as this session reads it."""
    return connection.run("GET", {"key": key}, write=False) == [[1]]


def table(port):
    """Returns the table of keys and rows, as another connection reads it. It lacks a key that was put twice."""
    with opened(port) as connection:
        keys = [row[0] for row in connection.run("KEYS", write=False)]
        values = {key: connection.run("GET", {"key": key}, write=False) for key in keys}
    return {key: rows for key, rows in values.items() if keys.count(key) == 1}


def entries(port):
    """Returns the number of entries of the ledger, after the entry that this look adds."""
    with connected(port) as connection:
        return int(connection.run("ONE").summary.bookmark.split(":")[1])


class ServerCase(unittest.TestCase):
    """Gives each test a server at `self.port`, with an empty table."""

    maxDiff = None

    def setUp(self):
        self.port = self.enter(servers.OneServer()).port

    def enter(self, manager):
        """Enters a context that ends with the test."""
        entered = manager.__enter__()
        self.addCleanup(manager.__exit__, None, None, None)
        return entered

    def assert_reports_are_true(self, told):
        """Compares the outcome that was reported of each key's commit with the table."""
        with opened(self.port) as connection:
            for key, outcome in told.items():
                with self.subTest(key):
                    self.assertIn((outcome, is_there(connection, key)), TRUE_REPORTS)


class CutCase(ServerCase):
    """Checks what a client reports if its connection is cut after each number of bytes, in each direction."""

    def check_cuts(self, name, says):
        """Checks each cut. `says` takes a key and a cut, and returns the reported outcome and the passed bytes."""
        whole, passed = says(f"{name}w0000")
        told = {f"{name}w0000": whole}
        for way in ("told", "asked"):
            # A bookmark may have more digits later, and a cut after the last byte cuts nothing.
            for count in range(passed[way] + 3):
                key = f"{name}{way[0]}{count:04}"
                told[key] = says(key, **{way: count})[0]
        there = table(self.port)
        for key, outcome in told.items():
            with self.subTest(key):
                self.assertIn((outcome, there.get(key) == [[1]]), TRUE_REPORTS)
        unknown = {key in there for key, outcome in told.items() if outcome == bolt.UNKNOWN}
        self.assertEqual((bolt.COMMITTED, {True, False}), (whole, unknown), "without a cut; if unknown keys exist")
        self.assertGreater(len(told), 100)


# Works of a session. Each puts a key.

def nothing(connection, key):
    """Asks nothing."""


def in_steps(connection, key):
    """Runs a transaction up to its COMMIT."""
    connection.begin()
    connection.run("PUT", {"key": key, "value": 1})


def by_steps(connection, key):
    """Runs a transaction, one request after another."""
    in_steps(connection, key)
    return [bolt.Request("COMMIT", connection.commit())]


def ask_all(connection, key, text="PUT"):
    """Asks a transaction, and sends nothing yet."""
    connection.ask_begin()
    connection.ask_run(text, {"key": key, "value": 1})
    connection.ask_commit()


def in_one(connection, key):
    """Runs a transaction as one pipeline."""
    ask_all(connection, key)
    return connection.settle()


def alone(connection, key):
    """Runs a query outside a transaction."""
    connection.ask_run("PUT", {"key": key, "value": 1})
    return connection.settle()


def of_commit(work, requests):
    """Returns the outcome of the request that commits, or None if it wasn't asked."""
    commits = "PULL of PUT" if work.__name__ == "alone" else "COMMIT"
    return {it.text: it.outcome for it in requests}.get(commits)


# Works of a connection of the driver.

def put(key, value):
    """Returns a work of `until_known` that puts a key."""
    def work(tx):
        tx.run("PUT", key=key, value=value)
        return value
    return work


def transaction(connection, key):
    """Runs a transaction in a block."""
    with connection.transaction() as tx:
        tx.run("PUT", key=key, value=1)


def pipeline(connection, key):
    """Runs a transaction as one pipeline."""
    with connection.pipeline() as asked:
        asked.begin()
        asked.run("PUT", key=key, value=1)
        asked.commit()


def code_of_next(connection):
    """Runs a query by itself. Returns its outcome, or the code of the NotSent that it raises, or Broken."""
    try:
        return connection.run("ONE").summary.outcome
    except bolt.NotSent as why:
        return why.code
    except bolt.Broken:
        return bolt.Broken


# What `code_of_next` returns if no transaction was left open: the connection goes on, or it has ended.
NOTHING_OPEN = (bolt.COMMITTED, bolt.Broken, bolt.library.NO_CLIENT)


# Interrupts. A trace function raises them at one line of the package, as a signal handler may.

class Interrupt(Exception):
    """An interrupt that is an Exception."""


class Handled(bolt.NotSent):
    """The exception of a signal handler that calls the session during a call."""

    def __init__(self):
        super().__init__(bolt.library.NOT_ALLOWED)


INTERRUPTS = KeyboardInterrupt, Interrupt, TimeoutError, Handled
DROPPED = (*INTERRUPTS, MemoryError, asyncio.CancelledError)
PACKAGE = os.path.dirname(bolt.__file__)
# Functions that encode and decode values: a tracer stops at each of their lines once, however often it is run.
VALUES = ("pack", "pack_int", "sized", "fields_of", "names_of", "number", "bytes", "of_length", "fields", "value")
MADE = itertools.count(1)


def is_dropped(why):
    """Returns true if Python drops this exception: a finalizer or the closing of a lost generator raised it."""
    frames = [frame for frame, _ in traceback.walk_tb(why.__traceback__)]
    in_finalizer = any(it.f_code.co_name == "__del__" for it in frames)
    return in_finalizer or bool(frames[0].f_code.co_flags & inspect.CO_GENERATOR)


class AtLine:
    """Raises an interrupt at one line that the package runs in a `with` block: the line with this number, from 1.

    `kinds` are the interrupts, taken in turn. `skipped` names functions whose lines don't count. `raised` is the
    interrupt, or None if the block ran fewer lines.
    """

    def __init__(self, number, kinds=INTERRUPTS, skipped="__del__"):
        self.number, self.kinds, self.skipped = number, kinds, skipped
        self.passed, self.seen, self.raised = 0, set(), None
        if next(MADE) % 50 == 0:
            gc.collect()

    def __enter__(self):
        sys.settrace(self)
        return self

    def __exit__(self, *_):
        sys.settrace(None)

    def __call__(self, frame, event, _):
        code = frame.f_code
        if os.path.dirname(code.co_filename) != PACKAGE or code.co_name == self.skipped:
            return None
        line = frame.f_lineno
        if event == "line" and not (code.co_name in VALUES and line in self.seen):
            self.seen.add(line)
            self.passed += 1
            if self.passed == self.number:
                self.come()
        return self

    def come(self):
        """Runs at the line."""
        self.raised = self.kinds[self.number % len(self.kinds)]()
        raise self.raised

    def what_came(self, came):
        """Returns what became of the interrupt: "raised" if it is `came`, "dropped" if Python dropped it."""
        if came is self.raised:
            return "raised"
        return "dropped" if is_dropped(self.raised) else f"lost, and {came!r} came"


class Inside(AtLine):
    """Counts only lines of the functions with these names, and only while `is_armed` is true."""

    def __init__(self, number, names, is_armed=True):
        super().__init__(number)
        self.names, self.is_armed = names, is_armed

    def __call__(self, frame, event, word):
        if frame.f_code.co_name not in self.names:
            return None
        return super().__call__(frame, event, word) if self.is_armed else self


class InFiles(AtLine):
    """Counts only lines of these files of the package. Their number doesn't depend on how answers arrive."""

    files = ()

    def __call__(self, frame, event, word):
        named = os.path.basename(frame.f_code.co_filename) in self.files
        return super().__call__(frame, event, word) if named else None


class CallsAtLine(AtLine):
    """Calls a function at the line, as a signal handler does, and raises nothing. `has_come` says if it did."""

    def __init__(self, number, call):
        super().__init__(number)
        self.call, self.has_come = call, False

    def come(self):
        sys.settrace(None)
        self.has_come = True
        self.call()


class CallsInFiles(CallsAtLine, InFiles):
    """Calls a function at a line of the files that run queries."""

    files = ("connection.py", "queries.py", "results.py")


def at_each_line(attempt):
    """Calls `attempt` with 1, 2, .. until it returns None. Returns what it returned, by number."""
    told, number = {}, 1
    while (held := attempt(number)) is not None:
        told[number] = held
        number += 1
    return told


class InterruptCase(ServerCase):
    """A test with interrupts.

    The garbage collector is off: any thread runs the finalizers of garbage, and Python drops an interrupt that comes
    during one. `AtLine` collects between two interrupts. Python prints dropped interrupts, and warnings of connections
    that were never closed because of them; nothing is printed here.
    """

    def setUp(self):
        super().setUp()
        self.addCleanup(gc.enable)
        gc.disable()
        hook = sys.unraisablehook
        self.addCleanup(setattr, sys, "unraisablehook", hook)
        sys.unraisablehook = lambda it: None if isinstance(it.exc_value, DROPPED) else hook(it)
        self.enter(warnings.catch_warnings())
        warnings.simplefilter("ignore", ResourceWarning)
        # The package looks for handlers that are set: an OSError of theirs isn't a socket's.
        self.addCleanup(signal.signal, signal.SIGUSR1, signal.signal(signal.SIGUSR1, AtLine.come))


class WaitingCall:
    """A thread that calls a session, and waits until it may read the server's answer."""

    def __init__(self, session, call):
        self.is_there, self.may_go_on = threading.Event(), threading.Event()
        self.hear, self.call, self.told = session._receive, call, []
        session._receive = self.receive
        self.thread = threading.Thread(target=self.work, daemon=True)
        self.thread.start()
        # The thread waits for its answer, or its call was refused.
        self.is_there.wait(2 * PATIENCE)

    def work(self):
        self.told.append(raised(self.call))
        self.is_there.set()

    def receive(self):
        if threading.current_thread() is self.thread:
            self.is_there.set()
            self.may_go_on.wait(2 * PATIENCE)
        return self.hear()

    def end(self):
        """Lets the call go on. Returns a list with what it raised, None if it returned; an empty list if it hangs."""
        self.may_go_on.set()
        self.thread.join(PATIENCE)
        return self.told


@contextlib.contextmanager
def listening(buffer=None):
    """A listening socket, whose connections have a receive and a send buffer of so many bytes."""
    with socket.create_server(("127.0.0.1", 0)) as listener:
        if buffer:
            shrink(listener, buffer)
        yield listener


def shrink(a_socket, buffer):
    """Sets both buffers of a socket."""
    for option in (socket.SO_SNDBUF, socket.SO_RCVBUF):
        a_socket.setsockopt(socket.SOL_SOCKET, option, buffer)


def port_of(listener):
    """Returns the port of a listening socket."""
    return listener.getsockname()[1]


def in_thread(target, *words):
    """Starts a thread that doesn't keep the process alive."""
    thread = threading.Thread(target=target, args=words, daemon=True)
    thread.start()
    return thread
