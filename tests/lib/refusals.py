"""Plays of `test_player` with each of their allocations refused in turn."""
import unittest

from tests.lib import plays, preloads, programs

# The digest of a play that doesn't begin.
NOT_BEGUN = "8\n"


class PlayTest(unittest.TestCase):
    """A test of plays with refused allocations."""

    maxDiff = None

    @classmethod
    def setUpClass(cls):
        programs.built("test_player")
        cls.allocations = preloads.Allocations()
        cls.addClassCleanup(cls.allocations.close)

    def check(self, asked, last, prefix=""):
        """Refuses each allocation of a play in turn, and compares its output with that of ample memory.

        The last line of that is `last`. A play may also not begin, because an allocation at its start was refused.
        It says so then, and prints nothing else.
        """
        whole, counts = self.allocations.run("test_player", asked=asked)
        self.assertEqual((0, last), (whole.returncode, whole.stdout.rstrip("\n").rpartition("\n")[2]), whole.stderr)
        step = programs.count(1, max(1, counts[0] // 30))
        tried = range(1, counts[0] + 1, step)
        unplayed = 0
        for number in tried:
            with self.subTest(refused=number):
                unplayed += self.is_unplayed(asked, number, prefix, whole)
        self.assertGreater(unplayed, 0, "plays that felt a refusal at their start")
        # A sample may hold more of them than all allocations do.
        most = len(tried) // (4 if step == 1 else 2)
        self.assertLessEqual(unplayed, most, f"plays that didn't begin, of {len(tried)}")

    def is_unplayed(self, asked, number, prefix, whole):
        """Refuses the allocation of this number. Returns whether the play didn't begin, and fails if it went wrong."""
        done, _ = self.allocations.run("test_player", asked=asked, REFUSED=number)
        if done.returncode in (1, 3):
            # The program didn't come to read its input, and says why.
            self.assertEqual("", done.stdout)
            self.assertRegex(done.stderr, r"\A[^\n]*(OutOfMemory|fault I3)[^\n]*\n\Z")
            return True
        if done.returncode == 0 and done.stdout == f"{prefix}not begun\n":
            self.assertEqual(NOT_BEGUN if prefix else "", done.stderr)
            return True
        said = done.returncode, done.stdout, done.stderr
        self.assertEqual((0, whole.stdout, whole.stderr), said)
        return False

    def check_script(self, name):
        """Refuses each allocation of a named script."""
        how, script = plays.NAMED[name]
        self.check(f"{how} 1\n{script}", ".")
