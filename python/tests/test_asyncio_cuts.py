"""The reports of `bolt.aio` are true if its connection is cut after any number of bytes, in either direction."""
import paths  # noqa: F401

import asyncio
import contextlib
import unittest

import bolt
import loops
import support
from tests.lib import proxy


def says(port, version, work, key, **cut):
    """Returns the outcome of the request that commits, and how many bytes passed in each direction."""
    async def main():
        async with await loops.connected(way.port, versions=version) as connection:
            way.arm()
            with contextlib.suppress(bolt.Broken):
                await work(connection, key)
            return support.of_commit(work, connection.session.requests), dict(way.passed)

    way = proxy.Proxy(port, **cut)
    told = asyncio.run(main())
    way.over.join()
    return told


class CutsAt51(support.CutCase):
    """At version 5.1."""

    version = bolt.V5_1

    def check(self, work):
        self.check_cuts(f"a{work.__name__}{self.version}",
                        lambda key, **cut: says(self.port, self.version, work, key, **cut))

    def test_transaction_by_steps_is_reported_truly_at_each_cut(self):
        self.check(loops.by_steps)

    def test_transaction_in_one_pipeline_is_reported_truly_at_each_cut(self):
        self.check(loops.in_one)

    def test_query_alone_is_reported_truly_at_each_cut(self):
        self.check(loops.alone)


class CutsAt50(CutsAt51):
    """At version 5.0."""

    version = bolt.V5_0


class CutsAt44(CutsAt51):
    """At version 4.4."""

    version = bolt.V4_4


if __name__ == "__main__":
    unittest.main()
