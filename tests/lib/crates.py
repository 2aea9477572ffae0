"""Builds and tests copies of the Rust crate in rust/, so that nothing is left in the tree."""
import os
import shutil
import subprocess
import unittest

from tests.lib import programs

LIMIT = 600


def needs_cargo():
    """Skips the test if there is no cargo, or one that doesn't run, as that of a rustup without a toolchain."""
    programs.needs("cargo")
    if subprocess.run(["cargo", "--version"], capture_output=True).returncode:
        raise unittest.SkipTest("cargo doesn't run: run scripts/needs")


class Crate:
    """A copy of rust/ in a folder."""

    def __init__(self, folder, name="rust"):
        needs_cargo()
        self.path = folder / name
        shutil.copytree(programs.ROOT / "rust", self.path, ignore=shutil.ignore_patterns("target", "Cargo.lock"))

    def cargo(self, *words, **environment):
        """Runs cargo; its status and all that it printed. `environment` changes variables; None removes one."""
        quick = {"CARGO_PROFILE_DEV_DEBUG": "0", "CARGO_PROFILE_TEST_DEBUG": "0"}
        environment = {**quick, "CARGO_TARGET_DIR": None, "BOLT_LIB": None, **environment}
        kept = {name: it for name, it in os.environ.items() if name not in environment}
        changed = {name: str(it) for name, it in environment.items() if it is not None}
        done = subprocess.run(["cargo", words[0], "--offline", *words[1:]], cwd=self.path, env={**kept, **changed},
                              stdout=subprocess.PIPE, stderr=subprocess.STDOUT, text=True, timeout=LIMIT)
        return done.returncode, done.stdout

    def build_example(self, name, library):
        """Builds an example over the libbolt.a of a folder, and returns the program's path as a text."""
        status, said = self.cargo("build", "-q", "--example", name, BOLT_LIB=library)
        if status:
            raise RuntimeError(f"cargo build --example {name}: status {status}\n{said}")
        return str(self.path / "target" / "debug" / "examples" / name)
