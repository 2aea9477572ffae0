"""Holds the pictures of docs/pictures to what `scripts/draw_pictures` draws."""
import pathlib
import shutil
import subprocess
import sys
import tempfile
import unittest

from tests.lib import programs

NAMES = ["states", "crates", "fates", "sessions"]
# What the script reads. A crate is a program if it has `src/main.rt`.
READ = ["scripts/draw_pictures", "crates.txt", "crates/machine/specs/Rows.antt", "docs/BENCHMARKS.md"]


class Pictures(unittest.TestCase):
    def setUp(self):
        """Copies what the script reads, and the pictures, to a folder of the test."""
        folder = tempfile.TemporaryDirectory()
        self.addCleanup(folder.cleanup)
        self.root = pathlib.Path(folder.name)
        mains = [str(it.relative_to(programs.ROOT)) for it in programs.ROOT.glob("crates/*/src/main.rt")]
        pictures = [f"docs/pictures/{name}.svg" for name in NAMES]
        for name in [*READ, *mains, *pictures]:
            (self.root / name).parent.mkdir(parents=True, exist_ok=True)
            shutil.copy(programs.ROOT / name, self.root / name)

    def run_script(self, *words):
        """Returns both outputs and the status of the copied script."""
        done = subprocess.run([sys.executable, str(self.root / "scripts" / "draw_pictures"), *words],
                              capture_output=True, text=True, timeout=4 * programs.PATIENCE)
        return done.stdout, done.stderr, done.returncode

    def picture(self, name):
        """Returns the file of a picture in the folder of the test."""
        return self.root / "docs" / "pictures" / f"{name}.svg"

    def test_each_picture_is_as_it_is_drawn(self):
        kept = {name: self.picture(name).read_text() for name in NAMES}
        self.assertEqual(("".join(f"drew docs/pictures/{name}.svg\n" for name in NAMES), "", 0), self.run_script())
        for name in NAMES:
            with self.subTest(name):
                self.assertEqual(self.picture(name).read_text().split("\n"), kept[name].split("\n"),
                                 f"docs/pictures/{name}.svg is out of date: run scripts/draw_pictures")

    def test_check_names_a_picture_that_is_out_of_date(self):
        self.run_script()
        ok = "".join(f"ok: docs/pictures/{name}.svg\n" for name in NAMES)
        self.assertEqual((ok, "", 0), self.run_script("--check"))
        self.picture("fates").write_text("another picture")
        out, err, status = self.run_script("--check")
        self.assertEqual(["FAILED: docs/pictures/fates.svg is out of date: run scripts/draw_pictures"],
                         [line for line in out.split("\n") if line.startswith("FAILED")])
        self.assertEqual(("", 1), (err, status))

    def test_unknown_word_is_refused(self):
        self.assertEqual(("", "usage: scripts/draw_pictures [--check]\n", 2), self.run_script("--chekc"))
