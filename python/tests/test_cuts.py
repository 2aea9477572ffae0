"""The reports of `bolt.Session` are true if its connection is cut after any number of bytes, in either direction."""
import paths  # noqa: F401

import unittest

import bolt
import support
from tests.lib import proxy


def says(port, version, work, key, **cut):
    """Returns the outcome of the request that commits, and how many bytes passed in each direction."""
    way = proxy.Proxy(port, **cut)
    with support.opened(way.port, versions=version) as connection:
        way.arm()
        try:
            requests = work(connection, key)
        except bolt.Broken as broken:
            requests = broken.requests
        passed = dict(way.passed)
    way.over.join()
    return support.of_commit(work, requests), passed


class CutsAt51(support.CutCase):
    """At version 5.1."""

    version = bolt.V5_1

    def check(self, work):
        self.check_cuts(f"{work.__name__}{self.version}",
                        lambda key, **cut: says(self.port, self.version, work, key, **cut))

    def test_transaction_by_steps_is_reported_truly_at_each_cut(self):
        self.check(support.by_steps)

    def test_transaction_in_one_pipeline_is_reported_truly_at_each_cut(self):
        self.check(support.in_one)

    def test_query_alone_is_reported_truly_at_each_cut(self):
        self.check(support.alone)


class CutsAt50(CutsAt51):
    """At version 5.0."""

    version = bolt.V5_0


class CutsAt44(CutsAt51):
    """At version 4.4."""

    version = bolt.V4_4


if __name__ == "__main__":
    unittest.main()
