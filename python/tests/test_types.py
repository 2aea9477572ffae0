"""`mypy --strict` finds nothing in the package and in examples/commit.py."""
import paths

import os
import subprocess
import tempfile
import unittest

from tests.lib import programs


class Types(unittest.TestCase):
    """Types of the package."""

    maxDiff = None

    def test_mypy_finds_nothing(self):
        programs.needs("mypy")
        with tempfile.TemporaryDirectory() as cache:
            words = ["mypy", "--strict", "--cache-dir", cache, "python/bolt", "examples/commit.py"]
            done = subprocess.run(words, cwd=paths.ROOT, env={**os.environ, "MYPYPATH": str(paths.ROOT / "python")},
                                  stdout=subprocess.PIPE, stderr=subprocess.STDOUT, text=True)
        errors = [line for line in done.stdout.splitlines() if ": error:" in line]
        self.assertEqual(([], 0), (errors, done.returncode), done.stdout)


if __name__ == "__main__":
    unittest.main()
