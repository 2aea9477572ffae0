"""Makes the package `bolt` of this checkout and the helpers in tests/lib importable.

Each test file in this folder imports it first.

Without a built libbolt.so the importing file is skipped, and the reason names the command that builds it.
"""
import os
import pathlib
import sys

ROOT = pathlib.Path(__file__).resolve().parents[2]
sys.path[:0] = [str(ROOT), str(ROOT / "python")]
sys.dont_write_bytecode = True

from tests.lib import programs  # noqa: E402

if "BOLT_SO" not in os.environ:
    os.environ["BOLT_SO"] = str(programs.built("libbolt.so"))
