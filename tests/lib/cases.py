"""A base class of tests that run programs. Its assertions show what was wanted and what the program printed."""
import os
import re
import subprocess
import time
import unittest

from tests.lib import programs

# How many seconds a program may run. One that waits for a silent server takes 60.
LONGEST = 4 * programs.PATIENCE


def shown(out, err, status):
    """Returns both outputs and the status of a run as one text, so that a failure shows their difference by lines."""
    return f"status {status}\n--- standard output\n{out}\n--- standard error\n{err}"


def decoded(data):
    """Returns printed bytes as a text. Bytes that aren't UTF-8 are escaped."""
    return data.decode("utf-8", "backslashreplace")


class ProgramTest(unittest.TestCase):
    """Tests that run `program`, which is `bolt` unless a subclass names another."""

    program = "bolt"
    maxDiff = None

    def ran(self, words, **how):
        """Returns both outputs and the status of a run, without input unless `how` says otherwise."""
        try:
            done = programs.run(self.program, words, **{"text": False, "timeout": LONGEST, **how})
        except subprocess.TimeoutExpired as late:
            self.fail(f"{self.program} {words} still runs after {LONGEST} s; printed: {late.stdout!r}, {late.stderr!r}")
        return decoded(done.stdout or b""), decoded(done.stderr or b""), done.returncode

    def assert_run(self, wanted, came):
        """Compares the outputs and the status of two runs."""
        self.assertEqual(shown(*wanted), shown(*came))

    def assert_prints(self, words, out, err="", status=0, **how):
        """Runs the program, and compares both outputs and the status."""
        self.assert_run((out, err, status), self.ran(words, **how))

    def assert_pattern(self, out, err, status, came):
        """Compares the standard output and the status of a run, and matches the whole standard error with a pattern."""
        self.assertEqual(shown(out, came[1], status), shown(*came))
        if not re.fullmatch(err, came[1]):
            self.fail(f"standard error; wanted is the pattern\n{err}\n--- came\n{came[1]}")

    def assert_prints_pattern(self, words, out, err, status, **how):
        """Runs the program, and compares its outputs and status as `assert_pattern` does."""
        self.assert_pattern(out, err, status, self.ran(words, **how))

    def until(self, is_so, what):
        """Waits until a condition holds, for LONGEST at most."""
        end = time.monotonic() + LONGEST
        while not is_so():
            self.assertLess(time.monotonic(), end, f"waited {LONGEST} s until {what}")
            time.sleep(0.01)

    def started(self, words, **how):
        """Starts the program, and kills it when the test ends. Its outputs are bytes."""
        process = programs.start(self.program, words, **{"text": False, "stdin": subprocess.DEVNULL, **how})
        self.addCleanup(programs.end, process)
        return process

    def ended(self, process, data=None):
        """Returns both outputs and the status of a started program after its end."""
        try:
            out, err = process.communicate(data, timeout=LONGEST)
        except subprocess.TimeoutExpired as late:
            self.fail(f"{self.program} still runs after {LONGEST} s; printed: {late.stdout!r}, {late.stderr!r}")
        return decoded(out or b""), decoded(err or b""), process.returncode

    def assert_server_ends(self, server, out, err="", status=0):
        """Waits for the end of a server, and compares what it printed after `listening PORT`, and its status.

        The server was started with `stderr=subprocess.PIPE`.
        """
        try:
            ended = server.process.wait(programs.PATIENCE)
        except subprocess.TimeoutExpired:
            self.fail(f"the server still runs after {programs.PATIENCE} s; wanted: {out!r}; printed: {server.lines}")
        server.reader.join()
        self.assert_run((out, err, status), ("".join(server.lines), server.process.stderr.read(), ended))


def closing(number):
    """Returns the keyword that starts a program with this standard stream closed."""
    return {"preexec_fn": lambda: os.close(number)}

