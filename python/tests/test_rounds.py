"""Fates through random cuts, ends, refusals and interrupts: none is false, and nothing is committed twice."""
import collections
import os
import pathlib
import random
import shutil
import tempfile
import unittest

import paths  # noqa: F401
import bolt
import rounds
import support
from fakes import NEO4J, OURS
from tests.lib import crates, programs, servers

ROUNDS = int(os.environ.get("BOLT_ROUNDS") or programs.count(200, 50))
SEED = int(os.environ.get("BOLT_SEED", "1"))


class Rounds:
    """Rounds of one sender. Each name of a server is that of some connections."""

    # Fates that some rounds have. Few rounds may miss one.
    fates = {bolt.STANDS, bolt.OPEN, bolt.REFUSED} if ROUNDS >= 200 else {bolt.STANDS}

    def check(self, round_of):
        seen, false = collections.Counter(), []
        for number in range(ROUNDS):
            wrong, *told = round_of(number)
            seen.update(told)
            false += [(number, it) for it in wrong]
        self.assertEqual([], false, seen)
        self.assertLessEqual(self.fates, set(seen), seen)

    def test_no_fate_is_false_at_server_without_tokens(self):
        self.check(lambda number: rounds.at_fake(self.sender, SEED * 100_000 + number, (NEO4J,)))

    def test_no_fate_is_false_at_servers_of_several_kinds(self):
        self.check(lambda number: rounds.at_fake(self.sender, SEED * 100_000 + number, (NEO4J, OURS, OURS)))

    def test_no_fate_is_false_through_cuts(self):
        chance = random.Random(SEED)
        self.check(lambda number: rounds.at_server(self.sender, chance, self.port, number))


class ByPython(Rounds, support.InterruptCase):
    def setUp(self):
        super().setUp()
        self.port = self.enter(servers.ManyServer()).port
        self.sender = rounds.ByPython(random.Random(SEED))


class ByAsyncio(Rounds, support.ServerCase):
    def setUp(self):
        self.port = self.enter(servers.ManyServer()).port
        self.sender = rounds.ByAsyncio(random.Random(SEED))


class ByRust(Rounds, support.ServerCase):
    @classmethod
    def setUpClass(cls):
        folder = tempfile.TemporaryDirectory(prefix="bolt-test-")
        cls.addClassCleanup(folder.cleanup)
        library, crate = programs.built("libbolt.a").parent, crates.Crate(pathlib.Path(folder.name))
        shutil.copy(programs.ROOT / "tests" / "data" / "rounds.rs", crate.path / "examples")
        cls.program = crate.build_example("rounds", library)

    def setUp(self):
        self.port = self.enter(servers.ManyServer()).port
        self.sender = self.enter(rounds.ByRust(self.program))


if __name__ == "__main__":
    unittest.main()
