"""Builds the crate in rust/ with libbolt.a in several places, missing, and built again."""
import shutil
import subprocess
import unittest

from tests.lib import crates, modules, programs


def setUpModule():
    global folder, library, crate
    crates.needs_cargo()
    folder = modules.folder()
    library = folder / "library"
    library.mkdir()
    shutil.copy(programs.built("libbolt.a"), library)
    crate = crates.Crate(folder)


class TestLibrary(unittest.TestCase):
    def test_library_that_was_built_again_is_linked_again(self):
        for _ in range(2):
            status, said = crate.cargo("build", BOLT_LIB=library)
            self.assertEqual(0, status, said)
        self.assertNotIn("Compiling", said)
        (library / "libbolt.a").touch()
        status, said = crate.cargo("build", BOLT_LIB=library)
        self.assertEqual(0, status, said)
        self.assertIn("Compiling bolt", said)

    def test_missing_library_is_reported_with_the_command_that_builds_it(self):
        status, said = crate.cargo("check", BOLT_LIB="")
        self.assertEqual(0, status, said)
        self.assertIn("there is no libbolt.a: run `scripts/build_unproved bolt_c` in the repository", said)
        self.assertIn("build_unproved", [it.name for it in (programs.ROOT / "scripts").iterdir()])

    def test_folder_without_a_library_is_named(self):
        # A relative folder starts at the crate's folder.
        status, said = crate.cargo("check", BOLT_LIB="none")
        self.assertEqual(0, status, said)
        self.assertIn("there is no none/libbolt.a", said)

    def test_library_that_is_built_in_the_repository_is_found(self):
        for name in ("unproved", "proved"):
            with self.subTest(name):
                # As in the repository, out/ lies beside the crate's folder.
                copy = crates.Crate(folder / name)
                into = folder / name / "out" / name
                into.mkdir(parents=True)
                shutil.copy(library / "libbolt.a", into)
                status, said = copy.cargo("build", "-q", "--example", "commit")
                self.assertEqual((0, ""), (status, said))
                words = [str(copy.path / "target" / "debug" / "examples" / "commit")]
                done = subprocess.run(words, stderr=subprocess.PIPE, text=True, timeout=120)
                self.assertEqual((2, "commit ADDRESS PORT KEY\n"), (done.returncode, done.stderr))


if __name__ == "__main__":
    unittest.main()
