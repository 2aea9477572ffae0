"""The Python example reports its COMMIT truly if one allocation of the library is refused."""
import paths

import re
import sys
import tempfile
import unittest

import support
from tests.lib import starves

# At most so many allocations are refused, each in a run of its own.
MOST = 40


class Allocations(support.ServerCase):
    """examples/commit.py with a library whose allocations can be refused."""

    def test_commit_is_reported_truly_with_an_allocation_refused(self):
        folder = self.enter(tempfile.TemporaryDirectory())
        library = starves.refusing_library(f"{folder}/refusing")
        example = [sys.executable, "-B", paths.ROOT / "examples" / "commit.py", "127.0.0.1", self.port]

        def run(number):
            return starves.run([*example, f"refused{number}"], folder, number, BOLT_SO=str(library / "libbolt.so"))

        count = run(0).asked
        self.assertGreater(count, 0, "allocations")
        ran = {number: run(number) for number in range(1, count + 1, count // MOST + 1)}
        for number, it in ran.items():
            with self.subTest(allocation=number):
                outcome = (re.findall(r"^COMMIT: (\w+)$", it.output, re.M) or [None])[0]
                there = support.value_of(self.port, f"refused{number}") == [1]
                self.assertEqual(0, it.status, it.output + it.error)
                self.assertIn((outcome, there), support.TRUE_REPORTS, it.output)
        said = "".join(it.output for it in ran.values())
        self.assertIn("out of memory", said)


if __name__ == "__main__":
    unittest.main()
