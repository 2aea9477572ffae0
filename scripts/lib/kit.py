"""Loads the kit's command `rt` as a module, and runs its programs."""

import hashlib
import importlib.machinery
import importlib.util
import os
import shutil
import subprocess
import sys
import threading

sys.dont_write_bytecode = True


def load(name, file):
    """Loads a script as a module."""
    loader = importlib.machinery.SourceFileLoader(name, file)
    module = importlib.util.module_from_spec(importlib.util.spec_from_loader(name, loader))
    sys.modules[name] = module
    loader.exec_module(module)
    return module


if not shutil.which("rt"):
    print(f"{sys.argv[0]}: there is no rt on PATH: install the Rattle kit (see scripts/needs)", file=sys.stderr)
    sys.exit(2)
rt = load("rt", os.path.realpath(shutil.which("rt")))
stamp_of = rt.rtlib.Crate.stamp
walking = threading.local()


def stamp(crate):
    """Returns the kit's sum of a crate's text and of all crates below it. It reads each crate once."""
    if hasattr(walking, "sums"):
        if crate not in walking.sums:
            walking.sums[crate] = stamp_of(crate)
        return walking.sums[crate]
    walking.sums = {}
    try:
        return stamp(crate)
    finally:
        del walking.sums


rt.rtlib.Crate.stamp = stamp


def sum_of(file):
    """Returns the SHA-256 sum of a file, in hexadecimal digits."""
    with open(file, "rb") as it:
        return hashlib.sha256(it.read()).hexdigest()


def sums_of_kit():
    """Returns sums of the files that tell one kit from another."""
    kit = os.path.dirname(os.path.dirname(rt.rtlib.RATTLE))
    whats = sorted(it for it in os.listdir(kit) if it.startswith("WHAT"))
    files = [f"{kit}/KIT-ID", *(f"{kit}/{it}" for it in whats), rt.rtlib.RATTLE, rt.__file__, rt.rtlib.__file__]
    return [sum_of(it) for it in files]


def run(words, folder):
    """Runs a program of the kit in a folder. Returns what it printed and how many processor seconds it took."""
    how = {"stdin": subprocess.DEVNULL, "stdout": subprocess.PIPE, "stderr": subprocess.STDOUT, "errors": "replace"}
    with subprocess.Popen([*rt.rtlib.guarded(), *words], cwd=folder, **how) as process:
        said = process.stdout.read()
        _, status, usage = os.wait4(process.pid, 0)
        process.returncode = os.waitstatus_to_exitcode(status)
    return said, usage.ru_utime + usage.ru_stime
