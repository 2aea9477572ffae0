"""Transfers between accounts are committed once each, through random cuts and interrupts by signals."""
import paths

import subprocess
import sys
import unittest

import support

ROUNDS, SEED = 200, 1


class Transfers(support.ServerCase):
    """A process that sends transfers. Its main thread takes the signals."""

    def test_each_transfer_is_committed_once_and_reported_truly(self):
        words = [sys.executable, "-B", str(paths.ROOT / "python" / "tests" / "transfers.py")]
        done = subprocess.run([*words, str(self.port), str(ROUNDS), str(SEED)], stdout=subprocess.PIPE,
                              stderr=subprocess.STDOUT, text=True, timeout=600)
        last = done.stdout.splitlines()[-1]
        self.assertEqual((f"ok: {ROUNDS} transfers, each once", 0), (last.partition(", in ")[0], done.returncode),
                         done.stdout)


if __name__ == "__main__":
    unittest.main()
