"""Refuses each allocation of the library to the C example, which has to end well and say so."""
import unittest

from tests.lib import compiling, modules, programs, servers, starves

OUT_OF_MEMORY = "out of memory\n"


def setUpModule():
    global folder, program, server, count
    folder = modules.folder()
    library = starves.refusing_library(folder / "refusing")
    program = compiling.compile_c(programs.ROOT / "examples" / "commit.c", library / "libbolt.a", folder / "commit")
    server = modules.enter(servers.OneServer())
    count = starves.run(words("all"), folder, 0).asked


def words(key):
    """Returns the words that start the example at 5.1."""
    return [program, "127.0.0.1", server.port, "51", key]


class TestEachAllocation(unittest.TestCase):
    def test_nothing_fails_if_none_is_refused(self):
        ran = starves.run(words("none"), folder, 0)
        self.assertEqual((0, ""), (ran.status, ran.error))
        self.assertGreater(ran.asked, 0)

    def test_example_ends_with_0_or_3_whichever_is_refused(self):
        statuses = set()
        for number in range(1, count + 1):
            with self.subTest(number=number):
                ran = starves.run(words(f"refused{number}"), folder, number)
                statuses.add(ran.status)
                self.assertIn(ran.status, (0, 3), ran)
                self.assertTrue(ran.status == 0 or ran.error, f"status 3 without a reason: {ran}")
        self.assertIn(3, statuses)

    def test_valgrind_finds_no_fault_whichever_is_refused(self):
        programs.needs("valgrind")
        # A block that is still reachable at the end is a fault too: the example closes its client on every path.
        valgrind = ["valgrind", "-q", "--error-exitcode=9", "--leak-check=full", "--show-leak-kinds=all",
                    "--errors-for-leak-kinds=all"]
        for number in range(0, count + 1, count // programs.count(40, 10) + 1):
            with self.subTest(number=number):
                ran = starves.run([*valgrind, *words(f"watched{number}")], folder, number)
                self.assertIn(ran.status, (0, 3), ran)


class TestAllAfter(unittest.TestCase):
    def test_row_of_a_committed_transaction_is_printed_or_memory_ran_out(self):
        ends = set()
        for number in range(100):
            ran = starves.run_after(words(f"after{number}"), number)
            if "7: Committed" in ran.output:
                end = ("value: 1\n" in ran.output, ran.error)
                ends.add(end)
                with self.subTest(number=number):
                    self.assertIn(end, [(True, ""), (False, OUT_OF_MEMORY)], ran)
        self.assertEqual({(True, ""), (False, OUT_OF_MEMORY)}, ends)


if __name__ == "__main__":
    unittest.main()
