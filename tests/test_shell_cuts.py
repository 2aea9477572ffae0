"""Runs `bolt shell` through a proxy that closes or resets its connection after each number of bytes."""
import re
import unittest

from tests.lib import modules, programs, proxy, servers, tables

PUT = "run PUT A2836B6579{key}8576616C756501"


def setUpModule():
    global server
    programs.built("bolt")
    server = modules.enter(servers.OneServer())


class TestCuts(unittest.TestCase):
    def outcome(self, lines, ordinal, key, **cut):
        """Runs the shell through a cut. Returns the outcome of a request, and the bytes that passed each way.

        `ordinal` is the request's number. The outcome is None if the shell says nothing of the request.
        """
        one = proxy.Proxy(server.port, **cut)
        one.arm()
        lines = lines.format(key=tables.text(key).hex())
        done = programs.run("bolt", ["shell", "127.0.0.1", one.port], input=lines)
        one.over.join()
        said = re.findall(rf"^heard {ordinal} (\w+) ", done.stdout, re.M)
        said += re.findall(rf"^lost {ordinal} (\w+)$", done.stderr, re.M)
        with self.subTest(key=key, stdout=done.stdout, stderr=done.stderr):
            self.assertLessEqual(len(said), 1, said)
            # The status is 1 if the stream fails, as by a reset. It is 0 if the stream ends.
            self.assertEqual(1 if "fault I" in done.stderr else 0, done.returncode)
            if not cut.get("resets"):
                self.assertEqual(0, done.returncode)
        return said[0].upper() if said else None, one.passed

    def outcomes(self, name, lines, ordinal, wanted):
        """Runs the shell uncut, and with a close and a reset after each number of bytes.

        Returns the outcome of each run by its key.
        """
        whole, passed = self.outcome(lines, ordinal, f"{name}whole")
        self.assertEqual(wanted, whole)
        outcomes = {f"{name}whole": whole}
        for way in ("told", "asked"):
            # A bookmark may have more digits in a later run. A cut after the last byte cuts nothing.
            for count in range(passed[way] + 3):
                for resets in (False, True):
                    key = f"{name}{way[0]}{'r' if resets else 'c'}{count:03}"
                    outcomes[key], _ = self.outcome(lines, ordinal, key, resets=resets, **{way: count})
        return outcomes

    def check_commits(self, name, lines, ordinal):
        outcomes = self.outcomes(name, lines, ordinal, "COMMITTED")
        tables.compare(self, outcomes, server.port)

    def test_outcome_of_transaction_agrees_with_table_after_each_cut(self):
        self.check_commits("t", f"hello\nlogon\nbegin\n{PUT}\npull -1\ncommit\n", 5)

    def test_outcome_of_run_agrees_with_table_after_each_cut(self):
        self.check_commits("r", f"hello\nlogon\n{PUT}\npull -1\n", 3)

    def test_rolled_back_transaction_is_never_in_table_or_unknown(self):
        outcomes = self.outcomes("b", f"hello\nlogon\nbegin\n{PUT}\npull -1\nrollback\n", 5, "DONE")
        shown = tables.table(server.port)
        for key, outcome in outcomes.items():
            with self.subTest(key=key):
                self.assertNotIn(key, shown)
                self.assertIn(outcome, (None, "DONE", "LOST"))
        self.assertLessEqual({"DONE", "LOST"}, {*outcomes.values()})


if __name__ == "__main__":
    unittest.main()
