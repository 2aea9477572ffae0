"""A short part of fuzz/fuzz.py with fixed seeds."""
import unittest
from unittest import mock

from fuzz import fuzz
from tests.lib import programs


def setUpModule():
    for name in ("test_player", "bolt"):
        programs.built(name)
    programs.needs("cc")


class Seeds(unittest.TestCase):
    def test_each_seed_is_played_half_of_them_with_refused_allocations(self):
        seeds = programs.count(24, 4)
        with fuzz.Fuzz() as runs:
            for seed in range(1, seeds + 1):
                with self.subTest(seed=seed):
                    try:
                        runs.run(seed)
                    except fuzz.Fault as fault:
                        self.fail(str(fault))
            self.assertEqual((seeds, seeds // 2), (runs.plays, runs.refusing))
            self.assertEqual(seeds * fuzz.EVENTS, runs.events)
            self.assertGreater(runs.refused, 0)

    def test_play_that_does_not_begin_is_a_fault_and_not_counted(self):
        with fuzz.Fuzz() as runs:
            with mock.patch.object(runs, "begins", return_value=0), \
                    mock.patch.object(runs, "counted", return_value=("not begun\n", 0, 0)):
                with self.assertRaisesRegex(fuzz.Fault, "^seed 3: the play doesn't begin$"):
                    runs.run(3)
            self.assertEqual((0, 0, 0), (runs.plays, runs.refusing, runs.events))

    def test_world_takes_the_dearest_requests(self):
        self.assertGreater(fuzz.hoarded(programs.count(32, 4)), 0)


if __name__ == "__main__":
    unittest.main()
