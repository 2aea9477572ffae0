"""Runs `cargo test` of rust/, and the programs of docs/RUST.md."""
import re
import unittest

from tests.lib import crates, modules, pages, programs, servers, tables


def setUpModule():
    global library, crate
    library = programs.built("libbolt.a").parent
    crate = crates.Crate(modules.folder())


class TestCrate(unittest.TestCase):
    def test_all_tests_pass_and_none_is_skipped(self):
        server = programs.built("bolt_server")
        status, said = crate.cargo("test", BOLT_LIB=library, BOLT_BUILT=server.parent, BOLT_PORT=None)
        self.assertEqual(0, status, said)
        self.assertNotIn("skipped", said)
        # Each file of tests/ has as many results as it has tests. So cargo has run all of them.
        result = r"Running tests/(\w+\.rs).*?test result: ok\. (\d+) passed; 0 failed; 0 ignored"
        ran = {name: int(passed) for name, passed in re.findall(result, said, re.S)}
        files = {it.name: it.read_text().count("#[test]") for it in (programs.ROOT / "rust" / "tests").glob("*.rs")}
        self.assertEqual(files, ran, said)
        self.assertLessEqual({"commits.rs", "streams.rs"}, set(files))

    def test_server_at_bolt_port_is_taken(self):
        with servers.OneServer() as server:
            how = {"BOLT_LIB": library, "BOLT_BUILT": "none", "BOLT_PORT": server.port}
            status, said = crate.cargo("test", "--test", "commits", **how)
            keys = [it for it in tables.table(server.port) if it.startswith("rust ")]
        self.assertEqual(0, status, said)
        self.assertNotIn("skipped", said)
        self.assertGreater(len(keys), 100, "keys that the tests put")

    def test_tests_without_a_server_say_how_to_build_one(self):
        how = {"BOLT_LIB": library, "BOLT_BUILT": "none", "BOLT_PORT": None}
        status, said = crate.cargo("test", "--test", "commits", **how)
        self.assertEqual(0, status, said)
        skipped = re.findall(r"skipped (\w+): run `scripts/build_unproved bolt_server`, or set BOLT_PORT\n", said)
        written = re.findall(r"#\[test\]\nfn (\w+)", (programs.ROOT / "rust" / "tests" / "commits.rs").read_text())
        self.assertEqual(sorted(written), sorted(skipped), said)

    def test_programs_of_page_print_what_it_says(self):
        found = pages.programs_of(pages.read("docs/RUST.md"), "rust")
        self.assertGreater(len(found), 1)
        for at, (block, wanted) in enumerate(found, 1):
            with self.subTest(f"program {at}"), servers.ManyServer() as server:
                self.assertIn("7687", block)
                (crate.path / "examples" / "page.rs").write_text(pages.at_port(block, server.port))
                status, said = crate.cargo("run", "-q", "--example", "page", BOLT_LIB=library)
                self.assertEqual((0, wanted), (status, said.splitlines()))


if __name__ == "__main__":
    unittest.main()
