"""Runs one test module in a process of its own, and writes a JSON line for each test to a pipe. ./test starts it.

usage: python3 runner.py run FOLDER MODULE PREFIX PIPE WORDS
       python3 runner.py list - MODULES - PIPE WORDS

FOLDER goes to sys.path. Names are reported with PREFIX. PIPE is a file descriptor. WORDS is a JSON list: only tests
whose full name contains one of them are run. MODULES is a JSON list of [FOLDER, MODULE, PREFIX].
"""
import ast
import contextlib
import faulthandler
import importlib
import json
import os
import pathlib
import re
import select
import signal
import sys
import time
import traceback
import unittest

ROOT = pathlib.Path(__file__).resolve().parents[2]
sys.dont_write_bytecode = True
sys.path.insert(0, str(ROOT))

from tests.lib import runner_processes as processes  # noqa: E402

PASSED, FAILED, SKIPPED = "ok", "FAILED", "skipped"


def names_in(text):
    """Returns the names `Class.test` in the text of a module that can't be imported, in the order of unittest."""
    try:
        classes = {it.name: it for it in ast.parse(text).body if isinstance(it, ast.ClassDef)}
    except (SyntaxError, ValueError):
        return []

    def tests(it):
        found = {member.name for member in it.body if isinstance(member, (ast.FunctionDef, ast.AsyncFunctionDef))}
        for base in it.bases:
            if isinstance(base, ast.Name) and base.id in classes:
                found |= tests(classes[base.id])
        return found

    def is_test_case(it):
        # A class without a base, or with bases in this module that have none, is no test case.
        return any(is_test_case(classes[base.id]) if isinstance(base, ast.Name) and base.id in classes else True
                   for base in it.bases)

    return [f"{name}.{test}" for name, it in sorted(classes.items()) if is_test_case(it)
            for test in sorted(tests(it)) if test.startswith("test")]


def tests_in(suite):
    """Returns the single tests of a suite."""
    if isinstance(suite, unittest.TestSuite):
        return [test for part in suite for test in tests_in(part)]
    return [suite]


def is_chosen(name, words):
    return not words or any(word in name for word in words)


class Result(unittest.TestResult):
    """Reports each test as it ends. `report` gets a dictionary: see `Module.report`."""

    def __init__(self, module):
        super().__init__()
        self.module = module
        # A subTest that is skipped or fails is a row of the test that runs.
        self.running, self.rows, self.skips, self.faults, self.how = None, [], [], [], None

    def startTest(self, test):
        super().startTest(test)
        self.running, self.rows, self.skips, self.faults, self.how = test, [], [], [], None
        self.began = time.monotonic()
        self.module.report(event="begin", name=self.module.name(test))

    def stopTest(self, test):
        super().stopTest(test)
        rows = {how: sum(it == how for it in self.rows) for how in (PASSED, FAILED)}
        rows[SKIPPED] = len([it for it in self.skips if it[0]])
        how, text = self.how or PASSED, ""
        if self.faults:
            how, text = FAILED, "\n".join(self.faults)
        elif self.skips:
            how, text = SKIPPED, "; ".join(dict.fromkeys(f"{row} {why}".strip() for row, why in self.skips))
        self.module.ended(test, how, time.monotonic() - self.began, text, rows)
        self.running = None

    def text(self, test, error):
        """Returns the traceback without the frames of unittest, and what unittest says of the values."""
        return self._exc_info_to_string(error, test).rstrip()

    def addSubTest(self, test, subtest, error):
        self.rows.append(FAILED if error else PASSED)
        if error:
            self.faults.append(f"row {subtest._subDescription()}\n{self.text(test, error)}")

    def addError(self, test, error):
        if self.running is None:
            # setUpModule or setUpClass failed, or what ends them: the description is `setUpClass (tests.test_x.Class)`.
            self.module.failed_around(str(test), self.text(test, error))
        else:
            self.faults.append(self.text(test, error))

    addFailure = addError

    def addSkip(self, test, why):
        if self.running is None and isinstance(test, unittest.TestCase):
            self.module.ended(test, SKIPPED, 0, why)
        elif self.running is None:
            self.module.skipped_around(str(test), why)
        elif isinstance(test, unittest.case._SubTest):
            self.skips.append((f"row {test._subDescription()}:", why))
        else:
            self.skips.append(("", why))

    def addUnexpectedSuccess(self, test):
        self.faults.append("the test passed, but it is marked as an expected failure")

    def addExpectedFailure(self, test, error):
        self.how = PASSED


class Module:
    """One test module, and the pipe to which its results go."""

    def __init__(self, folder, name, prefix, pipe, words):
        self.folder, self.module, self.prefix, self.words = pathlib.Path(folder), name, prefix, words
        self.pipe = os.fdopen(pipe, "w", buffering=1, encoding="utf-8")
        os.set_inheritable(pipe, False)
        # The tests without a result yet.
        self.left = {}

    def report(self, **what):
        """Writes a JSON line: an event, which is test, begin, names or around, with what belongs to it."""
        self.pipe.write(json.dumps(what) + "\n")

    def name(self, test):
        """Returns the full name of a test: module, class and function."""
        name = test if isinstance(test, str) else test.id()
        return self.prefix + name.removeprefix(self.prefix)

    def ended(self, test, how, seconds, text="", rows=None):
        self.left.pop(test.id(), None)
        self.report(event="test", name=self.name(test), how=how, seconds=seconds, text=text, rows=rows or {})

    def around(self, where, how, text):
        """Reports the tests that a fixture kept from running. `where` is for instance `setUpClass (test_x.Class)`."""
        place = where.partition("(")[2].rstrip(")")
        kept = [it for it in self.left if where.startswith("setUp") and (it + ".").startswith(place + ".")]
        for it in kept:
            self.report(event="test", name=self.name(self.left.pop(it)), how=how, seconds=0, text=text, rows={})
            text = text if how == SKIPPED else f"not run, because {where} failed"
        return kept

    def failed_around(self, where, text):
        if not self.around(where, FAILED, f"{where} failed:\n{text}"):
            self.failed(where, text)

    def failed(self, what, text):
        """Reports a failure that belongs to the module and to no test of it."""
        name = f"{self.name(self.module)}: {what}"
        self.report(event="test", name=name, how=FAILED, seconds=0, text=text, rows={})

    def skipped_around(self, where, why):
        self.around(where, SKIPPED, why)

    def load(self):
        """Imports the module. Returns its chosen tests, or None if it can't be imported; then all is reported."""
        sys.path.insert(0, str(self.folder))
        file = self.folder.joinpath(*self.module.split(".")).with_suffix(".py")
        try:
            module = importlib.import_module(self.module)
            suite = unittest.TestLoader().loadTestsFromModule(module)
        except unittest.SkipTest as why:
            names = [self.name(f"{self.module}.{it}") for it in names_in(file.read_text(encoding="utf-8"))]
            names = [it for it in names or [self.name(self.module)] if is_chosen(it, self.words)]
            self.report(event="unread", names=names, how=SKIPPED, text=str(why))
        except BaseException as why:
            if isinstance(why, KeyboardInterrupt):
                raise
            text = file.read_text(encoding="utf-8", errors="replace")
            chosen = is_chosen(self.name(self.module), self.words) or any(word in text for word in self.words)
            names = [f"{self.name(self.module)}: import"] if chosen else []
            # The frames of the runner and of the import system come first.
            frames = why.__traceback__
            while frames and re.search(r"importlib|lib/runner\.py$", frames.tb_frame.f_code.co_filename):
                frames = frames.tb_next
            text = "".join(traceback.format_exception(type(why), why, frames)).rstrip()
            self.report(event="unread", names=names, how=FAILED, text=text)
        else:
            return [it for it in tests_in(suite) if is_chosen(self.name(it), self.words)]
        return None

    def list(self):
        """Reports the names of the chosen tests."""
        tests = self.load()
        if tests is not None:
            self.report(event="names", names=[self.name(it) for it in tests])

    def run(self):
        """Runs the chosen tests."""
        processes.adopt_orphans()
        processes.end_with_parent()
        tests = self.load()
        if tests is None:
            return
        self.left = {it.id(): it for it in tests}
        self.report(event="names", names=[self.name(it) for it in tests])
        unittest.TestSuite(tests).run(Result(self))
        self.look_for_processes()
        self.report(event="end")

    def look_for_processes(self):
        """Reports a failure if the tests left processes running."""
        until = time.monotonic() + 5
        while (left := processes.descendants()) and time.monotonic() < until:
            time.sleep(0.05)
        if left:
            text = "\n".join(["the module left processes running:", *(processes.command(it)[:200] for it in left)])
            self.failed("end", text)


def list_all(pipe, words, modules):
    """Writes for each module a JSON line with its chosen tests. Each module is imported in a fork of this process."""
    for name in ("asyncio", "concurrent.futures", "sqlite3", "ssl", "tests.lib.servers"):
        # These imports take long, and most modules need them.
        with contextlib.suppress(ImportError):
            importlib.import_module(name)
    for at, (folder, module, prefix) in enumerate(modules):
        read, write = os.pipe()
        child = os.fork()
        if child == 0:
            # What a module prints mustn't get into the list.
            os.dup2(os.open(os.devnull, os.O_WRONLY), 1)
            Module(folder, module, prefix, write, words).list()
            os._exit(0)
        os.close(write)
        with open(read, "rb", buffering=0) as lines:
            line, until = b"", time.monotonic() + 60
            while not line.endswith(b"\n") and select.select([lines], [], [], max(0, until - time.monotonic()))[0]:
                piece = lines.read(1 << 20)
                line += piece
                if not piece:
                    break
        os.kill(child, signal.SIGKILL)
        os.waitpid(child, 0)
        if not line.endswith(b"\n"):
            name = prefix + module
            text = "its import ended the process, or took more than 60 seconds"
            line = json.dumps({"names": [f"{name}: import"] * is_chosen(name, words), "how": FAILED, "text": text})
            line = line.encode() + b"\n"
        os.write(pipe, b"%d " % at + line)


def main(what, folder, module, prefix, pipe, words):
    faulthandler.enable()
    if what == "list":
        list_all(int(pipe), json.loads(words), json.loads(module))
        return
    worker = Module(folder, module, prefix, int(pipe), json.loads(words))
    worker.run()
    sys.stdout.flush()
    sys.stderr.flush()
    worker.pipe.flush()
    # A test's thread that still runs must not keep the process from ending.
    os._exit(0)


if __name__ == "__main__":
    main(*sys.argv[1:])
