"""Refused allocations of `test_player`: a call that is made again has the same result as with ample memory."""
import unittest

from tests.lib import refusals


class Plays(refusals.PlayTest):
    def test_resets(self):
        self.check_script("resets")

    def test_transaction(self):
        self.check_script("transaction")

    def test_commit_whose_client_is_lost(self):
        self.check_script("lost commit")

    def test_transaction_that_the_engine_brought(self):
        self.check_script("brought")

    def test_conversation_of_both_ends(self):
        self.check("ends\n", "ends: held", "ends: ")

    def test_value_that_is_decoded_cloned_and_encoded(self):
        self.check("values\n", "values: held", "values: ")


class NoMemory(refusals.PlayTest):
    def test_calls_that_take_no_memory_ask_for_none(self):
        for name in ("sessions", "clients", "chunks", "tokens", "values", "puts", "worlds"):
            with self.subTest(name):
                done, (_, starved, hungry) = self.allocations.run("test_player", asked=f"{name} without\n")
                self.assertEqual((0, f"{name} without: held\n"), (done.returncode, done.stdout), done.stderr)
                self.assertGreater(starved, 0, "spans in which every allocation was refused")
                self.assertEqual(0, hungry, "allocations that were asked for in these spans")


if __name__ == "__main__":
    unittest.main()
