"""A disk that fails once under `lasting_server`, which keeps what it reported committed."""
import unittest

from tests.lib import ledgers


class FailingDisk(ledgers.DiskTest):
    def test_transactions_survive_each_disk_call_that_fails_once(self):
        self.check_each_call()


if __name__ == "__main__":
    unittest.main()
