"""Rows by name, how a result ended, and the held part of one that is pulled as it is read."""
from __future__ import annotations

import dataclasses
import warnings
from typing import Any, Callable, Iterator, Mapping, Optional, Sequence, Union

from .core import DISCARD, PHASES, Answer, Core, Steps
from .errors import COMMITTED, DONE, GONE, INTERRUPTED, LOST, REFUSED, UNKNOWN, Broken, Refused, Request
from .times import heard


class Record(Sequence[Any]):
    """A row: its cells by number and by name."""

    __slots__ = ("_names", "_cells")

    def __init__(self, names: Sequence[str], cells: Sequence[Any]) -> None:
        # If a row has fewer cells than there are names, the last names have none.
        self._names, self._cells = tuple(names)[:len(cells)], tuple(cells)

    def __getitem__(self, place: Union[int, str, slice]) -> Any:
        if not isinstance(place, str):
            return self._cells[place]
        if place not in self._names:
            raise KeyError(place)
        return self._cells[self._names.index(place)]

    def get(self, name: str, default: Any = None) -> Any:
        return self[name] if name in self._names else default

    def __len__(self) -> int:
        return len(self._cells)

    def __iter__(self) -> Iterator[Any]:
        return iter(self._cells)

    def keys(self) -> list[str]:
        return list(self._names)

    def values(self) -> list[Any]:
        return list(self._cells)

    def items(self) -> list[tuple[str, Any]]:
        return list(zip(self._names, self._cells))

    def data(self) -> dict[str, Any]:
        """The cells by name."""
        return dict(self.items())

    def __eq__(self, other: object) -> bool:
        if isinstance(other, Record):
            return (self._names, self._cells) == (other._names, other._cells)
        return isinstance(other, (list, tuple)) and list(self._cells) == list(other)

    def __hash__(self) -> int:
        # It may be equal to a tuple.
        return hash(self._cells)

    def __repr__(self) -> str:
        return f"<Record {' '.join(f'{name}={cell!r}' for name, cell in self.items())}>"


@dataclasses.dataclass(frozen=True)
class Summary:
    """How a result ended: the outcome of the request that ended it, and the server's metadata."""
    outcome: Optional[str]
    metadata: Mapping[str, Any]

    @property
    def bookmark(self) -> Optional[str]:
        """The bookmark of the entry that was committed, if one was."""
        return self.metadata.get("bookmark")


class Pulled:
    """The held records of a query. They are pulled as they are read, so many at once as `fetch` says."""

    def __init__(self, session: Core, run: Request, pull: Request, text: str, fetch: int) -> None:
        self._session, self._run, self._last, self._text, self._fetch = session, run, pull, text, fetch
        self._rows: list[list[Any]] = list(pull.rows)
        self._read, self._taken = 0, pull  # whose rows are taken up to

    @property
    def _has_more(self) -> bool:
        # Any other value ends the result, as in the library.
        return self._last.metadata.get("has_more") is True

    @property
    def _is_whole(self) -> bool:
        """True if all of it is held, and committed or in its transaction.

        This is known without the connection. Another call may have the connection, and would refuse this one."""
        return self._last is self._taken and self._last.outcome in (DONE, COMMITTED) and not self._has_more

    def _is_open(self) -> bool:
        """Returns true if nothing else was asked since: what is pulled then is its own."""
        return any(it is self._last for it in self._session.requests[-1:])

    def _more(self, count: int) -> Steps[None]:
        """Pulls so many more, all with -1."""
        if not self._is_open():
            raise self._session._unallowed("the result isn't open any more")
        self._last = self._session._submit(*self._session._pull(self._text, count))
        yield from self._session._settling()
        self._rows += self._last.rows
        self._taken = self._last

    def _finish(self) -> Steps[None]:
        """Pulls what is left, and keeps it."""
        while self._has_more:
            yield from self._more(-1)

    @property
    def _is_unread(self) -> bool:
        """True if the server holds the rest of it, and commits the query with the last record."""
        session = self._session
        is_free = not session._amid and not session._why
        return is_free and self._has_more and self._is_open() and PHASES[session._state().phase] == "STREAMING"

    def _discarding(self) -> Steps[None]:
        """Has the server pass over what is left, which commits the query. What isn't held can't be read after that."""
        session = self._session
        self._last = session._submit(*session._packed(f"DISCARD of {self._text}", DISCARD, {"n": -1}))
        yield from session._settling()

    def _lose(self) -> None:
        """Notes that the query isn't committed, if nothing else is known: its last record was never asked for."""
        if self._has_more:
            self._last = Request(f"DISCARD of {self._text}", LOST)
        if self._last.outcome != COMMITTED:
            told = f"{self._text!r} wasn't read to its end, and its commit is {self._last.outcome}"
            warnings.warn(told, ResourceWarning, stacklevel=4)

    def _check(self) -> None:
        """Raises what ended it too early, each time."""
        if self._last.outcome == REFUSED:
            raise Refused(self._last.metadata.get("code", ""), self._last.metadata.get("message", ""), [self._last])
        if self._last.outcome not in (DONE, COMMITTED):
            raise Broken([self._last], self._session._why or GONE)
        if self._last is not self._taken:
            # Its rows may not be there.
            raise Broken([self._last], self._session._why or INTERRUPTED)

    def _refill(self) -> Steps[None]:
        """Pulls more once all that is held was read. What was read isn't kept."""
        self._check()
        while self._is_read and self._has_more:
            self._rows, self._read = [], 0
            yield from self._more(self._fetch)

    def _ahead(self) -> Steps[bool]:
        """Pulls more, keeps it, and returns true if more is left."""
        self._check()
        if self._has_more:
            yield from self._more(self._fetch)
        return self._has_more

    @property
    def _is_read(self) -> bool:
        # A refill that was broken off may leave fewer than were read.
        return self._read >= len(self._rows)

    def _record(self, row: list[Any]) -> Record:
        return Record(self.keys(), [heard(it, self._session.version) for it in row])

    def _next(self) -> Record:
        """Returns the next held record."""
        found = self._record(self._rows[self._read])
        # This comes last, so that an interrupt loses no record.
        self._read += 1
        return found

    def _unread(self, of: Callable[[list[Record]], Answer]) -> Answer:
        """Returns what is made of the held records that weren't read yet.

        If this is broken off, they stay unread."""
        found = of([self._record(it) for it in self._rows[self._read:]])
        self._read = len(self._rows)
        return found

    def _held(self) -> Iterator[Record]:
        """Yields the held records that weren't read yet."""
        while not self._is_read:
            yield self._next()

    def _summary(self) -> Summary:
        return Summary(self._last.outcome or UNKNOWN, self._last.metadata)

    def keys(self) -> list[str]:
        """Returns the names of the columns, none if the server has none."""
        names = self._run.metadata.get("fields")
        return list(names) if isinstance(names, list) and all(isinstance(it, str) for it in names) else []


def by_name(records: list[Record]) -> list[dict[str, Any]]:
    return [it.data() for it in records]


def by_place(records: list[Record]) -> list[list[Any]]:
    return [it.values() for it in records]


def only(records: list[Record]) -> Record:
    """Returns the only record. It is a ValueError if there are none or several."""
    if len(records) != 1:
        raise ValueError(f"one record is wanted, and there are {len(records)}")
    return records[0]
