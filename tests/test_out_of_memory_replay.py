"""Refused allocations of `bolt replay`: it prints the whole report, or a beginning of it and ends with status 3."""
import pathlib
import tempfile
import unittest

from tests.lib import plays, preloads, programs


def setUpModule():
    global ALLOCATIONS
    programs.built("bolt")
    ALLOCATIONS = preloads.Allocations()
    unittest.addModuleCleanup(ALLOCATIONS.close)


class Replays(unittest.TestCase):
    maxDiff = None

    def check(self, name):
        """Refuses each allocation of a named script's replay in turn."""
        with tempfile.TemporaryDirectory(prefix="bolt-replay-") as folder:
            file = pathlib.Path(folder) / "script"
            file.write_text(plays.NAMED[name][1], encoding="utf-8")
            whole, (count, _, _) = ALLOCATIONS.run("bolt", ["replay", file])
            self.assertEqual(0, whole.returncode, whole.stderr)
            self.assertNotEqual("", whole.stdout)
            ended = 0
            for number in range(1, count + 1, programs.count(1, max(1, count // 30))):
                with self.subTest(refused=number):
                    done, _ = ALLOCATIONS.run("bolt", ["replay", file], REFUSED=number)
                    if done.returncode == 3:
                        self.assertEqual(whole.stdout[:len(done.stdout)], done.stdout)
                        self.assertIn("fault I3", done.stderr.split("\n"))
                        ended += 1
                    else:
                        self.assertEqual((0, whole.stdout), (done.returncode, done.stdout), done.stderr)
        self.assertGreater(ended, 0, "replays that a refused allocation ended")

    def test_resets(self):
        self.check("resets")

    def test_transaction(self):
        self.check("transaction")

    def test_commit_whose_client_is_lost(self):
        self.check("lost commit")

    def test_transaction_that_is_repeated(self):
        self.check("repeated")

    def test_transaction_that_is_overtaken(self):
        self.check("overtaken")

    def test_transaction_that_clashes(self):
        self.check("clashing")


if __name__ == "__main__":
    unittest.main()
