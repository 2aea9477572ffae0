"""Opens what all tests of a module use."""
import atexit
import contextlib
import pathlib
import tempfile
import unittest


def enter(manager):
    """Enters a context in setUpModule, and leaves it after the module's last test.

    After Ctrl-C unittest runs no cleanup of a module, so the context is also left when Python ends.
    """
    stack = contextlib.ExitStack()
    entered = stack.enter_context(manager)
    unittest.addModuleCleanup(stack.close)
    atexit.register(stack.close)
    return entered


def folder():
    """Makes a folder in setUpModule, and removes it after the module's last test."""
    return pathlib.Path(enter(tempfile.TemporaryDirectory(prefix="bolt-test-")))
