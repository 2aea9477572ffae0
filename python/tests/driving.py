"""Helpers of the tests of `bolt.driver`: a server of many connections, drivers, and checks of their
pools."""
import paths  # noqa: F401

import asyncio
import contextlib
import threading
import unittest
import warnings

import bolt
import support
from fakes import Fake, Serving
from tests.lib import servers

USER = ("user", "pass")


def uri(port):
    """Returns the URI of a port of this machine."""
    return f"bolt://127.0.0.1:{port}"


def raised(call, *words, **more):
    """Returns what a call raises, or None if it returns."""
    try:
        call(*words, **more)
    except Exception as why:
        return why
    return None


async def awaited(call):
    """Returns what an awaited call raises, or None if it returns."""
    try:
        await call
    except Exception as why:
        return why
    return None


def in_loop(test):
    """Makes a test of a coroutine function, which runs in its own loop."""
    return lambda self: asyncio.run(test(self))


class Held(Serving):
    """A connection that answers a RUN of `WAIT` only after the test lets it go on."""

    def _run(self, text, parameters, extra):
        if text == "WAIT":
            self.fake.is_there.set()
            self.fake.may_go_on.wait(support.PATIENCE)
        super()._run(text, parameters, extra)


class Holding(Fake):
    """A server with such connections."""

    serving = Held

    def __init__(self, **how):
        self.is_there, self.may_go_on = threading.Event(), threading.Event()
        super().__init__(**how)


class PoolCase(unittest.TestCase):
    """Checks at the end of each test that its pools have all connections back."""

    maxDiff = None

    def setUp(self):
        self.pools = []
        warned = warnings.catch_warnings(record=True)
        self.warned = warned.__enter__()
        warnings.simplefilter("always")
        self.addCleanup(warned.__exit__, None, None, None)

    def tearDown(self):
        for pool in self.pools:
            self.assertEqual(0, pool.in_use, "connections are out of a pool")
        lost = [str(it.message) for it in self.warned if it.category is ResourceWarning]
        self.assertEqual([], lost)

    def driver(self, port, auth=USER, **config):
        """Returns a driver for a port. It is closed at the end of the test."""
        made = bolt.driver(uri(port), auth=auth, **config)
        self.pools.append(made.pool)
        self.addCleanup(made.close)
        return made

    @contextlib.asynccontextmanager
    async def async_driver(self, port, auth=USER, **config):
        """Returns a driver of asyncio for a port."""
        async with bolt.async_driver(uri(port), auth=auth, **config) as made:
            self.pools.append(made.pool)
            yield made


class ServerCase(PoolCase):
    """Gives each class a server of up to 16 connections at `self.port`."""

    @classmethod
    def setUpClass(cls):
        server = servers.ManyServer()
        cls.addClassCleanup(server.__exit__, None, None, None)
        cls.port = server.port
