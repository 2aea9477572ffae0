"""Prints what the driver logs."""
from __future__ import annotations

import logging
import sys
from typing import Any

NAMES = {"neo4j": "bolt"}


class Watcher:
    """Handlers that print what loggers say. A `with` block removes them at its end."""

    def __init__(
        self, *names: str, default_level: int = logging.DEBUG, default_out: Any = None
    ) -> None:
        self._loggers = [logging.getLogger(NAMES.get(it, it)) for it in names]
        self._level, self._out = default_level, default_out
        self._handlers: list[logging.Handler] = []

    def watch(self, level: Any = None, out: Any = None) -> None:
        """Begins to print, to standard error if nothing else is given."""
        self.stop()
        for logger in self._loggers:
            handler = logging.StreamHandler(out or self._out or sys.stderr)
            handler.setFormatter(logging.Formatter("%(asctime)s  %(message)s"))
            logger.addHandler(handler)
            logger.setLevel(self._level if level is None else level)
            self._handlers.append(handler)

    def stop(self) -> None:
        """Ends to print."""
        for logger, handler in zip(self._loggers, self._handlers):
            logger.removeHandler(handler)
        self._handlers.clear()

    def __enter__(self) -> Watcher:
        self.watch()
        return self

    def __exit__(self, *_: object) -> None:
        self.stop()


def watch(*logger_names: str, level: int = logging.DEBUG, out: Any = None) -> Watcher:
    """Prints what these loggers say, `neo4j` for all of the driver, and returns what stops it."""
    made = Watcher(*logger_names, default_level=level, default_out=out)
    made.watch()
    return made
