"""Compares the pages with the sources and the programs: blocks of code, the table of crates, links, and length."""
import os
import pathlib
import subprocess
import sys
import tempfile
import unittest

from tests.lib import pages, programs, servers

# The most words of each page, as a guide that fails nothing: a third more than it has, but README stays short. If a
# page grows for a reason, raise its number.
MOST_WORDS = {
    "README.md": 750,
    "CONTRIBUTING.md": 800,
    "docs/BENCHMARKS.md": 2000,
    "docs/C.md": 1250,
    "docs/CALLING.md": 1550,
    "docs/CHANGING.md": 1150,
    "docs/CLIENT.md": 3350,
    "docs/DECISIONS.md": 3750,
    "docs/DRIVER.md": 1700,
    "docs/ENGINE.md": 2600,
    "docs/EXAMPLES.md": 2650,
    "docs/MAP.md": 2200,
    "docs/PROFILE.md": 8650,
    "docs/PROGRAM.md": 700,
    "docs/PROVED.md": 4800,
    "docs/PYTHON.md": 1600,
    "docs/RUST.md": 2200,
    "docs/SAFETY.md": 2100,
    "docs/SERVER.md": 2550,
    "docs/TROUBLE.md": 1650,
    "docs/WORDS.md": 1150,
}
# The most words of a page that isn't in the table.
OTHERWISE = 2000
# A sentence is long if it has more than LONG words. All pages together may have MOST_LONG of them.
LONG, MOST_LONG = 40, 20
MOST_LINES_OF_README = 160
# How many blocks of Rust, and of definitions and proofs, a page has; None: one or more. Each has lines of
# crates/examples.
BLOCKS = {"docs/ENGINE.md": (None, None), "docs/SERVER.md": (3, 2), "docs/CLIENT.md": (4, 0), "docs/CALLING.md": (2, 2)}


class Blocks(unittest.TestCase):
    def assert_lines_of(self, block, sources):
        """Fails if no source has the lines of the block together, and names the first line that none has."""
        if not any(pages.is_lines_of(block, source) for source in sources.values()):
            stripped = {line.strip() for source in sources.values() for line in source.split("\n")}
            missing = [line for line in block.split("\n") if line.strip() not in stripped]
            why = f"this line is in none of them: {missing[0]}" if missing else "they aren't together in one of them"
            self.fail(f"wanted: lines of one of {len(sources)} sources; {why}\n{block}")

    @staticmethod
    def sources(*patterns):
        """Returns the texts of the files of these patterns by their names."""
        return {str(it.relative_to(pages.ROOT)): it.read_text(encoding="utf-8")
                for pattern in patterns for it in sorted(pages.ROOT.glob(pattern))}

    def test_rust_blocks_of_readme_are_lines_of_a_crate(self):
        sources = self.sources("crates/*/src/**/*.rt", "rust/src/**/*.rs", "rust/examples/*.rs")
        for at, block in enumerate(pages.blocks(pages.read("README.md"), "rust"), 1):
            with self.subTest(f"block {at}"):
                self.assert_lines_of(block, sources)

    def test_readme_shows_code_and_is_short(self):
        text = pages.read("README.md")
        blocks = pages.blocks(text, "rust") + pages.python_blocks(text)
        self.assertGreater(len(blocks), 0, "README.md has no block of Rust or Python")
        self.assertLessEqual(text.count("\n"), MOST_LINES_OF_README)

    def test_blocks_of_pages_are_lines_of_the_examples(self):
        sources = self.sources("crates/examples/src/*.rt", "crates/examples/specs/*.antt",
                               "crates/examples/proofs/*/*/*.antt")
        for name, counts in BLOCKS.items():
            text = pages.read(name)
            for language, count in zip(("rust", "antt"), counts):
                blocks = pages.blocks(text, language)
                with self.subTest(f"{name}, blocks of {language}"):
                    if count is None:
                        self.assertGreater(len(blocks), 0)
                    else:
                        self.assertEqual(count, len(blocks))
                for at, block in enumerate(blocks, 1):
                    with self.subTest(f"{name}, block {at} of {language}"):
                        self.assert_lines_of(block, sources)

    def test_examples_in_comments_are_lines_of_a_file(self):
        sources = self.sources("crates/*/src/**/*.rt")
        found = 0
        for name, text in sources.items():
            for at, block in enumerate(pages.examples(text), 1):
                found += 1
                with self.subTest(f"{name}, example {at}"):
                    self.assert_lines_of(block, sources)
        self.assertGreater(found, 0, "no doc comment of the crates has an example")

    def test_shell_lines_name_files_that_exist(self):
        for name in pages.names():
            for line in pages.commands(pages.read(name)):
                if files := pages.files(line):
                    with self.subTest(f"{name}: {line.strip()}"):
                        self.assertEqual(files, [it for it in files if (pages.ROOT / it).exists()])


class Python(unittest.TestCase):
    def printed(self, block, server):
        """Returns the lines that a block prints when it runs unchanged, but for the port, against the server."""
        block = pages.at_port(block, server.port)
        with tempfile.TemporaryDirectory() as folder:
            file = pathlib.Path(folder) / "block.py"
            file.write_text(block, encoding="utf-8")
            environment = {**os.environ, "PYTHONPATH": str(pages.ROOT / "python"), "PYTHONDONTWRITEBYTECODE": "1"}
            environment.setdefault("BOLT_SO", str(programs.built("libbolt.so")))
            done = subprocess.run([sys.executable, str(file)], capture_output=True, text=True, env=environment,
                                  timeout=4 * programs.PATIENCE)
        self.assertEqual((0, ""), (done.returncode, done.stderr))
        return done.stdout.splitlines()

    def assert_blocks_run(self, text):
        """Runs each block against a server of its own, and compares what it prints with what the text says."""
        for at, (block, wanted) in enumerate(pages.python_blocks(text), 1):
            with self.subTest(f"block {at}"), servers.ManyServer() as server:
                self.assertEqual(wanted, self.printed(block, server))

    def test_python_blocks_of_readme_print_what_it_says(self):
        self.assert_blocks_run(pages.read("README.md"))

    def test_python_blocks_of_the_driver_print_what_its_page_says(self):
        self.assert_blocks_run(pages.read("docs/DRIVER.md"))

    def test_what_comments_say_is_compared(self):
        text = """
    import bolt
    connect = lambda: bolt.connect("127.0.0.1", 7687, auth=("user", "pass"))
    known = bolt.until_known(connect, lambda tx: tx.run("PUT", key="a", value=1))
    print(known.fate)          # STANDS: committed, exactly once
"""
        self.assertEqual([["STANDS"]], [wanted for _, wanted in pages.python_blocks(text)])
        self.assert_blocks_run(text)


class Pages(unittest.TestCase):
    maxDiff = None

    def test_map_has_the_crates_in_the_order_of_crates_txt(self):
        self.assertEqual([*pages.crates()], pages.crate_rows(pages.read("docs/MAP.md")))

    def test_each_crate_comes_after_those_below_it(self):
        crates = pages.crates()
        order = [*crates]
        for name, below in crates.items():
            with self.subTest(name):
                self.assertEqual([], [it for it in below if it in crates and order.index(it) >= order.index(name)])

    def test_each_link_leads_somewhere(self):
        for name in pages.names():
            with self.subTest(name):
                self.assertEqual([], [it for it in pages.links(pages.read(name)) if pages.is_dead(name, it)])

    def test_pages_with_more_words_than_their_guide_are_named(self):
        for name in pages.names():
            count, most = len(pages.read(name).split()), MOST_WORDS.get(name, OTHERWISE)
            if count > most:
                # ./test prints this line. A page may grow for a reason, so it fails nothing.
                print(f"guide: {name} has {count} words, and {most} are its guide in tests/test_pages.py", flush=True)

    def test_table_of_words_names_pages(self):
        self.assertEqual([], [name for name in MOST_WORDS if name not in pages.names()])

    def test_few_sentences_are_long(self):
        long = [f"{name}: {len(it.split())} words: {it[:100]}" for name in pages.names()
                for it in pages.sentences(pages.read(name)) if len(it.split()) > LONG]
        self.assertLessEqual(len(long), MOST_LONG, "\n" + "\n".join(long))
