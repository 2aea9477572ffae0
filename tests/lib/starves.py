"""Runs programs over a libbolt whose allocations can be refused.

    library = starves.refusing_library(folder)        # FOLDER/libbolt.a and FOLDER/libbolt.so
    ran = starves.run([program, ..], folder, number)  # with allocation `number` refused
    ran = starves.run_after([program, ..], number)    # with every allocation after `number` refused

tests/lib/preload/allocations.c decides what is refused.
"""
import os
import pathlib
import subprocess
import tempfile
import typing

from tests.lib import compiling, programs

SHIM = programs.ROOT / "tests" / "lib" / "preload" / "allocations.c"
CALLS = ("malloc", "realloc", "calloc")


class Run(typing.NamedTuple):
    """How a program ended.

    `asked` is the number of allocations that the library asked for. It is 0 if the program didn't come to its end.
    """

    status: int
    output: str
    error: str
    asked: int = 0


def refusing_library(folder):
    """Makes FOLDER/libbolt.a and FOLDER/libbolt.so from the built libbolt.a, and returns the folder.

    Only the library's own allocations can be refused: its calls are renamed, those of the program aren't.
    """
    for program in (compiling.CC, "objcopy", "ar"):
        programs.needs(program)
    folder = pathlib.Path(folder)
    folder.mkdir(exist_ok=True)
    library, shim = folder / "libbolt.a", folder / "allocations.o"
    # The shim defines `__wrap_malloc`, which the library calls, and calls the system's `malloc`. No macro can rename
    # both, so objcopy renames the latter.
    defines = [f"-D{name}=__wrap_{name}" for name in CALLS] + [f"-D__libc_{name}=__real_{name}" for name in CALLS]
    compiling.call(compiling.CC, *defines, "-fPIC", "-c", SHIM, "-o", shim)
    compiling.call("objcopy", *_renames("__real_{0}={0}"), shim)
    compiling.call("objcopy", *_renames("{0}=__wrap_{0}"), programs.built("libbolt.a"), library)
    compiling.call("ar", "rs", library, shim)
    whole = ["-Wl,--whole-archive", library, "-Wl,--no-whole-archive"]
    compiling.call(compiling.CC, "-shared", "-o", folder / "libbolt.so", *whole)
    return folder


def run(words, folder, number, **environment):
    """Runs a program whose library has its allocation `number` refused, counted from 1; with 0 none is refused."""
    with tempfile.NamedTemporaryFile(dir=folder, mode="r") as count:
        done = _done(words, {"REFUSED": str(number), "COUNT": count.name, **environment})
        asked = (count.read().split() or ["0"])[0]
    return Run(done.returncode, done.stdout, done.stderr, int(asked))


def run_after(words, number, **environment):
    """Runs a program whose library has each allocation after the first `number` refused."""
    done = _done(words, {"ODDS": "1", "AFTER": str(number), **environment})
    return Run(done.returncode, done.stdout, done.stderr)


def _renames(form):
    return [word for name in CALLS for word in ("--redefine-sym", form.format(name))]


def _done(words, environment):
    words = [*map(str, words)]
    return subprocess.run(words, env={**os.environ, **environment}, capture_output=True, text=True, timeout=120)
