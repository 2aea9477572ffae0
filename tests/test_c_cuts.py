"""Runs the C example through a proxy that cuts its connection after each number of bytes, at each version."""
import subprocess
import unittest

from tests.lib import compiling, modules, programs, proxy, servers, tables

EXAMPLE = programs.ROOT / "examples" / "commit.c"


def setUpModule():
    global program, server
    program = compiling.compile_c(EXAMPLE, programs.built("libbolt.a"), modules.folder() / "commit")
    server = modules.enter(servers.OneServer())


class TestCuts(unittest.TestCase):
    def outcome(self, version, key, **cut):
        """Runs the example through a cut. Returns the outcome of its COMMIT, and the bytes that passed each way.

        The outcome is None if the example asked for nothing.
        """
        one = proxy.Proxy(server.port, **cut)
        one.arm()
        words = [program, "127.0.0.1", str(one.port), str(version), key]
        done = subprocess.run(words, capture_output=True, text=True, timeout=120)
        one.over.join()
        said = dict(line.split(": ") for line in done.stdout.splitlines())
        outcome = said.get("7" if version == 51 else "6")
        with self.subTest(key=key, stdout=done.stdout, stderr=done.stderr):
            self.assertEqual(0 if said else 3, done.returncode)
            if outcome == "Committed":
                self.assertEqual("1", said.get("value"))
        return outcome and outcome.upper(), one.passed

    def check_each_cut(self, version):
        whole, passed = self.outcome(version, f"c{version}w0000")
        self.assertEqual("COMMITTED", whole)
        outcomes = {f"c{version}w0000": whole}
        for way in ("told", "asked"):
            # A bookmark may have more digits in a later run. A cut after the last byte cuts nothing.
            for count in range(passed[way] + 3):
                key = f"c{version}{way[0]}{count:04}"
                outcomes[key], _ = self.outcome(version, key, **{way: count})
        tables.compare(self, outcomes, server.port)

    def test_outcome_agrees_with_table_after_each_cut_at_4_4(self):
        self.check_each_cut(44)

    def test_outcome_agrees_with_table_after_each_cut_at_5_0(self):
        self.check_each_cut(50)

    def test_outcome_agrees_with_table_after_each_cut_at_5_1(self):
        self.check_each_cut(51)


if __name__ == "__main__":
    unittest.main()
