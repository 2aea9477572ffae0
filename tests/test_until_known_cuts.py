"""Tests that the fate that `examples query` prints is true of the ledger when connections are cut at any byte."""
import unittest

from tests.lib import programs, servers, untils

# How many entries a transaction of this fate may have added.
ENTRIES = {"Stands": (1,), "Absent": (0,), "Open": (0, 1)}
# The program's word that lets it send again after a doubt.
TOKENS = ["tokens"]


def setUpModule():
    programs.built("examples")


class Cuts(unittest.TestCase):
    def setUp(self):
        self.server = servers.OneServer()
        self.addCleanup(self.server.__exit__)

    def assert_true_of_ledger(self, sends, tries, cuts):
        """Runs the program with these cuts. Compares the fate with what the ledger got, and with the status."""
        lines, status, added, _ = sends.through(tries, cuts)
        fate = lines[0] if lines else None
        self.assertIn(added, ENTRIES.get(fate, ()), f"entries that {fate} may add; the program printed {lines}")
        self.assertEqual(fate == "Stands", status == 0, f"the fate {fate} has status {status}")
        if tries > len(cuts):
            fates = ("Stands",) if sends.options == TOKENS else ("Stands", "Open")
            self.assertIn(fate, fates, f"{tries} tries, of which {len(cuts)} are cut")
        if added:
            self.assertEqual(["row [Int(1)]"], lines[1:2])

    def assert_each_cut(self, sends, positions, least):
        """Cuts an attempt at each position.

        It is the only try, the first of three, and the second of three after a try whose answer was lost. Without the
        word `tokens` there is no second try after that one.
        """
        lines, status, added, passed = sends.through(1, [])
        self.assertEqual((["Stands", "row [Int(1)]"], 0, 1), (lines, status, added), "an attempt that isn't cut")
        whole = passed[0]
        # The server commits, and the client doesn't learn it.
        lost = {"told": whole["told"] - 1}
        cuts = [{way: count} for way in ("asked", "told") for count in positions(whole[way])]
        self.assertGreater(len(cuts), least)
        ways = [(1, []), (3, []), *([(3, [lost])] if sends.options == TOKENS else [])]
        for cut in cuts:
            for tries, before in ways:
                with self.subTest(f"{sends.puts} queries, {tries} tries, cut at {[*before, cut]}"):
                    self.assert_true_of_ledger(sends, tries, [*before, cut])

    def assert_each_byte(self, options, step):
        """Cuts an attempt of one query at each `step`th byte and at the last."""
        sends = untils.Sends(self.server.port, 1, options)
        self.assert_each_cut(sends, lambda length: [*range(0, length, step), length], 300 // step)

    def test_fate_of_one_query_cut_at_each_byte(self):
        self.assert_each_byte(TOKENS, programs.count(1, 3))

    def test_fate_without_the_word_tokens(self):
        self.assert_each_byte([], programs.count(3, 9))

    def test_fate_of_20_queries_cut_at_each_seventh_byte(self):
        # Their requests are sent in two parts.
        sends = untils.Sends(self.server.port, 20, TOKENS)
        self.assert_each_cut(sends, lambda length: [*range(0, length, 7), length], 100)
