"""Refuses allocations of the library to rust/examples/commit.rs and to tests/data/answers.rs."""
import shutil
import unittest

from tests.lib import crates, fake_servers, modules, programs, servers, starves


def setUpModule():
    global folder, commit, answers, server
    crates.needs_cargo()
    folder = modules.folder()
    library = starves.refusing_library(folder / "refusing")
    crate = crates.Crate(folder)
    shutil.copy(programs.ROOT / "tests" / "data" / "answers.rs", crate.path / "examples")
    commit, answers = [crate.build_example(name, library) for name in ("commit", "answers")]
    server = modules.enter(servers.OneServer())


def words(key):
    return [commit, "127.0.0.1", server.port, key]


class TestCommit(unittest.TestCase):
    @classmethod
    def setUpClass(cls):
        cls.count = starves.run(words("all"), folder, 0).asked

    def test_nothing_fails_if_none_is_refused(self):
        ran = starves.run(words("none"), folder, 0)
        self.assertEqual((0, ""), (ran.status, ran.error))
        self.assertGreater(ran.asked, 0)

    def test_example_ends_with_0_or_3_whichever_is_refused(self):
        statuses = set()
        for number in range(1, self.count + 1):
            with self.subTest(number=number):
                ran = starves.run(words(f"refused{number}"), folder, number)
                statuses.add(ran.status)
                self.assertIn(ran.status, (0, 3), ran)
        self.assertIn(3, statuses)

    def test_valgrind_finds_no_fault_whichever_is_refused(self):
        programs.needs("valgrind")
        valgrind = ["valgrind", "-q", "--error-exitcode=9", "--leak-check=full"]
        for number in range(0, self.count + 1, self.count // programs.count(20, 5) + 1):
            with self.subTest(number=number):
                ran = starves.run([*valgrind, *words(f"watched{number}")], folder, number)
                self.assertIn(ran.status, (0, 3), ran)

    def test_refused_login_or_lack_of_memory_is_said(self):
        code = fake_servers.REFUSED
        wanted = {"not sent (5)", "out of memory", f"refused: {code}: no"}
        refusal = fake_servers.told(fake_servers.failure(code), fake_servers.IGNORED)
        said = set()
        with fake_servers.Server([(fake_servers.V51, refusal)]) as fake:
            for number in range(self.count):
                with self.subTest(number=number):
                    ran = starves.run_after([commit, "127.0.0.1", fake.port, "why"], number)
                    first = ran.output.partition("\n")[0]
                    said.add(first)
                    self.assertIn(first, wanted, ran)
        self.assertEqual(wanted, said)


class TestAnswers(unittest.TestCase):
    def test_each_answer_is_whole_or_missing(self):
        # answers.rs says what its statuses mean.
        statuses = set()
        for number in range(100):
            with self.subTest(number=number):
                ran = starves.run_after([answers, "127.0.0.1", server.port], number)
                statuses.add(ran.status)
                self.assertIn(ran.status, (0, 3), ran)
        self.assertEqual({0, 3}, statuses)


if __name__ == "__main__":
    unittest.main()
