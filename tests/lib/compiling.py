"""Compiles C programs against libbolt, with all warnings as errors."""
import os
import subprocess

from tests.lib import programs

CC = os.environ.get("CC", "cc")
INCLUDE = f"-I{programs.ROOT / 'include'}"
FLAGS = ["-std=c99", "-D_POSIX_C_SOURCE=200809L", "-Wall", "-Wextra", "-Werror", "-g", "-O1", INCLUDE]


def call(*words):
    """Runs a program that builds something. If it fails, the error has what it printed."""
    done = subprocess.run([*map(str, words)], stdout=subprocess.PIPE, stderr=subprocess.STDOUT, text=True)
    if done.returncode:
        raise RuntimeError(f"{' '.join(map(str, words))}: status {done.returncode}\n{done.stdout}")


def compile_c(source, library, program):
    """Compiles a C file into a program over this libbolt.a, and returns the program's path as a text."""
    programs.needs(CC)
    call(CC, *FLAGS, source, library, "-o", program)
    return str(program)
