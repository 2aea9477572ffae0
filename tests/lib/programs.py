"""Finds the built programs and libraries, and runs them.

A test takes what it needs by `built`. If it is missing, the test is skipped, and the reason names the command that
builds it.
"""
import contextlib
import os
import pathlib
import shutil
import signal
import subprocess
import unittest

ROOT = pathlib.Path(__file__).resolve().parents[2]
# How many seconds a busy machine may take for an answer that comes at once on an idle one.
PATIENCE = 30


def folders():
    """Returns where a built file may be: BOLT_BUILT alone if it is set, else what was built unproved, then proved."""
    if "BOLT_BUILT" in os.environ:
        return [pathlib.Path(os.environ["BOLT_BUILT"]).resolve()]
    return [ROOT / "out" / "unproved", ROOT / "out" / "proved"]


def built(name):
    """Returns the path of a built file: a program such as `bolt_server`, `libbolt.a` or `libbolt.so`."""
    for folder in folders():
        if (folder / name).is_file():
            return folder / name
    crate = "bolt_c" if name.startswith("libbolt.") else name
    raise unittest.SkipTest(f"{name} isn't built: run scripts/build_unproved {crate}")


def needs(program):
    """Skips the test if a program of the system is missing. `scripts/needs` names its package."""
    if not shutil.which(program):
        raise unittest.SkipTest(f"{program} isn't installed: run scripts/needs")


def start(name, words=(), **how):
    """Starts a built program in a process group of its own, with pipes for its output."""
    how = {"stdout": subprocess.PIPE, "stderr": subprocess.PIPE, "text": True, "start_new_session": True, **how}
    return subprocess.Popen([str(built(name)), *map(str, words)], **how)


def end(process):
    """Kills a process with its group, and waits for it."""
    with contextlib.suppress(ProcessLookupError):
        os.killpg(process.pid, signal.SIGKILL)
    process.wait()
    for pipe in (process.stdin, process.stdout, process.stderr):
        if pipe:
            pipe.close()


@contextlib.contextmanager
def running(name, words=(), **how):
    """The started program, which is killed at the end of the block."""
    process = start(name, words, **how)
    try:
        yield process
    finally:
        end(process)


def run(name, words=(), timeout=120, **how):
    """Runs a built program to its end; its output, what it wrote to standard error, and its status."""
    how = {"capture_output": True, "text": True, "stdin": subprocess.DEVNULL, **how}
    if "input" in how:
        del how["stdin"]
    return subprocess.run([str(built(name)), *map(str, words)], timeout=timeout, **how)


def count(full, quick):
    """Returns how often a random test is repeated: `full` in the gate, which sets BOLT_FULL=1, else `quick`."""
    return full if os.environ.get("BOLT_FULL") == "1" else quick
