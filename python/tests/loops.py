"""Helpers of the tests of `bolt.aio`: connections, and works that put a key."""
import paths  # noqa: F401

import asyncio
import functools

import support
import bolt
from bolt import aio


def in_loop(test):
    """Makes a test of a coroutine function, which runs in a loop of its own."""
    @functools.wraps(test)
    def run(self):
        asyncio.run(test(self))
    return run


def connected(port, **words):
    """Returns a connection, once it is awaited."""
    return aio.connect("127.0.0.1", port, auth=support.AUTH, **words)


async def raised(call):
    """Returns what an awaited call raises, or None if it returns."""
    try:
        await call
    except Exception as why:
        return why
    return None


async def code_of(call):
    """Returns the code of the NotSent that an awaited call raises, 0 if it raises nothing, Broken if it raises that."""
    try:
        await call
    except bolt.NotSent as why:
        return why.code
    except bolt.Broken:
        return bolt.Broken
    return 0


async def by_steps(connection, key):
    """Runs a transaction, one request after another."""
    async with connection.transaction() as tx:
        await tx.run("PUT", key=key, value=1)


async def in_one(connection, key):
    """Runs a transaction as one pipeline."""
    async with connection.pipeline() as asked:
        asked.begin()
        asked.run("PUT", key=key, value=1)
        asked.commit()


async def alone(connection, key):
    """Runs a query outside a transaction."""
    await connection.run("PUT", key=key, value=1)


WORKS = by_steps, in_one, alone


def put(key, value):
    """Returns a work of `until_known` that puts a key."""
    async def work(tx):
        await tx.run("PUT", key=key, value=value)
        return value
    return work
