"""Refused allocations of `test_player` in transactions that are sent again under their token."""
import unittest

from tests.lib import refusals


class Repeats(refusals.PlayTest):
    def test_transaction_that_is_repeated(self):
        self.check_script("repeated")

    def test_transaction_that_is_overtaken(self):
        self.check_script("overtaken")

    def test_transaction_that_clashes(self):
        self.check_script("clashing")

    def test_transaction_whose_token_is_taken(self):
        self.check_script("taken")


if __name__ == "__main__":
    unittest.main()
