"""A disk that fails for good under `lasting_server`, which keeps what it reported committed."""
import unittest

from tests.lib import ledgers


class FailedDisk(ledgers.DiskTest):
    def test_transactions_survive_a_disk_that_fails_from_each_call_on(self):
        self.check_each_call(FOREVER=1)


if __name__ == "__main__":
    unittest.main()
