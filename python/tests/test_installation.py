"""The wheel is built and installed, and the first programs of docs/PYTHON.md print what the page says."""
import paths

import importlib.util
import os
import pathlib
import re
import shutil
import subprocess
import sys
import tempfile
import unittest
import zipfile

import bolt
import support

UNREACHED = """
import bolt, os, socket
with socket.socket() as taken:
    taken.bind(("127.0.0.1", 0))
    try:
        bolt.connect("127.0.0.1", taken.getsockname()[1])
    except bolt.Broken as why:
        print(f"{os.path.dirname(bolt.__file__)}: {why.why}")
"""


def first_programs():
    """Returns the page's first two programs, and the lines that each prints, by the text between them."""
    page = (paths.ROOT / "docs" / "PYTHON.md").read_text()
    program, between, awaiting = re.search(r"```python\n(.*?)```\n(.*?)```python\n(.*?)```\n", page, re.S).groups()
    lines = between.partition("prints\n\n")[2].partition("\n\n")[0].split("\n")
    line = between.rpartition("This prints `")[2].partition("`")[0]
    return (program, [it.strip() for it in lines]), (awaiting, [line])


class Installation(support.ServerCase):
    """A copy of the package beside a built library."""

    def setUp(self):
        super().setUp()
        self.folder = pathlib.Path(self.enter(tempfile.TemporaryDirectory()))
        self.source = self.folder / "python"
        left_out = shutil.ignore_patterns("libbolt.*", "__pycache__", "tests")
        shutil.copytree(paths.ROOT / "python", self.source, ignore=left_out)
        shutil.copy(os.environ["BOLT_SO"], self.source / "bolt" / "libbolt.so")
        self.environment = {key: it for key, it in os.environ.items() if key not in ("BOLT_SO", "PYTHONPATH")}

    def said(self, *words):
        """Runs a program in the folder, and returns what it prints."""
        done = subprocess.run([*map(str, words)], stdout=subprocess.PIPE, stderr=subprocess.PIPE, text=True,
                              env=self.environment, cwd=self.folder, timeout=300)
        self.assertEqual(0, done.returncode, f"{words}: {done.stderr}")
        return done.stdout

    def install(self, wheel, python):
        """Installs the wheel into an environment, by pip if there is one."""
        if importlib.util.find_spec("pip"):
            pip = [sys.executable, "-m", "pip", "--python", python, "--disable-pip-version-check", "install", "-q"]
            self.said(*pip, "--no-index", self.folder / wheel)
            return
        # pip unpacks a wheel into the folder of packages, too.
        packages = self.said(python, "-c", "import site; print(site.getsitepackages()[0])").strip()
        with zipfile.ZipFile(self.folder / wheel) as packed:
            packed.extractall(packages)

    def test_installed_wheel_runs_the_first_programs_of_the_page(self):
        build = (f"import sys; sys.path.insert(0, {str(self.source)!r}); "
                 f"import backend; print(backend.build_wheel({str(self.folder)!r}))")
        wheel = self.said(sys.executable, "-c", build).strip()
        self.said(sys.executable, "-m", "venv", "--without-pip", self.folder / "fresh")
        python = self.folder / "fresh" / "bin" / "python"
        self.install(wheel, python)
        names = "import bolt.compat.time as time, bolt.compat as neo4j; print(neo4j.GraphDatabase.driver, time.Date)"
        self.assertIn("driver", self.said(python, "-B", "-c", names))
        for program, wanted in first_programs():
            with self.subTest(wanted=wanted):
                self.assertNotEqual([""], wanted, "the page says what its program prints")
                said = self.said(python, "-B", "-c", program.replace("7687", str(self.port)))
                self.assertEqual(wanted, said.splitlines())

    def test_package_without_its_text_reports_a_socket_that_failed(self):
        # It is compiled with other file names, and its text is removed.
        package = self.source / "bolt"
        self.said(sys.executable, "-m", "compileall", "-q", "-b", "-d", "elsewhere", package)
        for text in package.glob("*.py"):
            text.unlink()
        self.environment["PYTHONPATH"] = str(self.source)
        self.assertEqual(f"{package}: {bolt.UNREACHED}\n", self.said(sys.executable, "-c", UNREACHED))


if __name__ == "__main__":
    unittest.main()
