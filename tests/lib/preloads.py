"""Compiles the C files of tests/lib/preload into libraries that LD_PRELOAD loads before a program."""
import os
import pathlib
import subprocess
import tempfile

from tests.lib import programs

SOURCES = programs.ROOT / "tests" / "lib" / "preload"


def compiled(name, folder):
    """Compiles `name`.c into the folder, and returns the library's path. Without a C compiler the test is skipped."""
    compiler = os.environ.get("CC", "cc")
    programs.needs(compiler)
    library = folder / f"{name}.so"
    words = [compiler, "-O2", "-Wall", "-shared", "-fPIC", "-o", str(library), str(SOURCES / f"{name}.c"), "-ldl"]
    done = subprocess.run(words, capture_output=True, text=True)
    if done.returncode:
        raise RuntimeError(f"{' '.join(words)}: status {done.returncode}\n{done.stderr}")
    return library


def env(library, **settings):
    """Returns this process's environment with the library and its settings."""
    return {**os.environ, "LD_PRELOAD": str(library), **{name: str(value) for name, value in settings.items()}}


class Allocations:
    """The library that refuses allocations, in a folder of its own, which `close` removes."""

    def __init__(self):
        self.folder = tempfile.TemporaryDirectory(prefix="bolt-allocations-")
        self.library = compiled("allocations", pathlib.Path(self.folder.name))
        self.count = pathlib.Path(self.folder.name) / "count"

    def run(self, program, words=(), asked="", timeout=2 * programs.PATIENCE, **settings):
        """Runs a built program by these settings of the library, such as REFUSED.

        Returns its status and output, and the three counts of its allocations, or None if there are none.
        """
        self.count.unlink(missing_ok=True)
        done = programs.run(program, words, timeout=timeout, input=asked,
                            env=env(self.library, COUNT=self.count, **settings))
        counts = [int(it) for it in self.count.read_text().split()] if self.count.exists() else None
        return done, counts

    def close(self):
        """Removes the folder."""
        self.folder.cleanup()
