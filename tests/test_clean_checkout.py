"""Runs the commands of README and CONTRIBUTING as they are written, on a clean copy of this checkout."""
import os
import pathlib
import re
import shutil
import subprocess
import tempfile
import unittest

from tests.lib import programs

# Each command of the two pages, and how it is run here. None: another test runs it, or it proves for hours.
COMMANDS = {
    "./demo": "./demo",
    "./demo --serve": None,  # tests.test_front_door
    "./test": "./test --no-rattle -k test_pictures",
    "./test -k WORD": "./test --no-rattle -k test_vectors",
    "./test -k cut": "./test --no-rattle --list -k cut",
    "./test -k outcomes": "./test --no-rattle --list -k outcomes",
    "./test --list": "./test --list --no-rattle",
    "./test --proved": None,
    "./test --proved --costs": "./test --proved --costs --only files",
    "./test --proved --only tests": "./test --proved --only needs",
    "./test --proved --all": None,
    "python3 -m unittest tests.test_program": "python3 -m unittest tests.test_program",
    "cd rust && cargo test": None,  # tests.test_rust
    "pytest python": None,  # pytest is no part of what the tests need
    "cd crates/test_codec && rt try --test -- reads_byte_by_byte": None,  # ./test runs Rattle's tests
    "scripts/needs": "scripts/needs --for test",
    "scripts/quick": "scripts/quick --list",
    "scripts/wrong_bodies NAME/what_is_wrong": None,  # scripts/wrong_bodies_control
    "rt check": None,
    "rt version": "rt version",
    "rt try --test": None,
}


def commands(page):
    """Returns the commands of a page: of its indented lines and of the code in its sentences."""
    text = (programs.ROOT / page).read_text()
    lines = [line.split("#")[0].strip() for line in re.findall(r"(?m)^    (\S.*)$", text)]
    words = re.findall(r"`([^`\n]+)`", text)
    return sorted({it for it in lines + words if re.match(r"(\./|scripts/|rt |cd |pytest |python3 )", it)} - FOLDERS)


# Code in sentences that names a file or a folder.
FOLDERS = {"python/tests/", "rust/tests/", "tests/", "scripts/"}


class Commands(unittest.TestCase):
    @classmethod
    def setUpClass(cls):
        programs.needs("git")
        folder = tempfile.TemporaryDirectory(prefix="bolt-clean-")
        cls.addClassCleanup(folder.cleanup)
        cls.folder = pathlib.Path(folder.name) / "clean"
        listed = ["git", "ls-files", "-co", "--exclude-standard"]
        names = subprocess.run(listed, cwd=programs.ROOT, capture_output=True, text=True, check=True)
        for name in filter(None, names.stdout.split("\n")):
            if (programs.ROOT / name).is_file():
                (cls.folder / name).parent.mkdir(parents=True, exist_ok=True)
                shutil.copy2(programs.ROOT / name, cls.folder / name)
        subprocess.run(["git", "init", "-q"], cwd=cls.folder, check=True)
        subprocess.run(["git", "add", "-A"], cwd=cls.folder, check=True)
        who = ["-c", "user.name=clean", "-c", "user.email=clean@example.org"]
        subprocess.run(["git", *who, "commit", "-qm", "clean"], cwd=cls.folder, check=True)

    def test_each_command_of_the_pages_is_listed(self):
        found = {*commands("README.md"), *commands("CONTRIBUTING.md")}
        self.assertEqual([], sorted(found - set(COMMANDS)), "commands that this test doesn't know")

    def test_commands_end_well(self):
        built = programs.built("lasting_server").parent
        for command, runs in COMMANDS.items():
            with self.subTest(command):
                if runs:
                    environment = {**os.environ, "BOLT_BUILT": str(built)}
                    how = {"cwd": self.folder, "env": environment, "stdin": subprocess.DEVNULL, "text": True}
                    ran = subprocess.run(runs, shell=True, timeout=300, capture_output=True, **how)
                    self.assertEqual(0, ran.returncode, ran.stdout[-2000:] + ran.stderr[-2000:])

    def test_nothing_is_left_in_the_checkout(self):
        left = subprocess.run(["git", "status", "--short"], cwd=self.folder, capture_output=True, text=True, check=True)
        self.assertEqual("", left.stdout)


if __name__ == "__main__":
    unittest.main()
