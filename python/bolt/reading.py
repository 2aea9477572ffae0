"""The records of a driver's query as flows, for `drivers` and `aiodrivers`."""
from __future__ import annotations

import collections
from typing import Any, Optional

from . import seam
from .exceptions import ConfigurationError, ResultConsumedError, ResultNotSingleError
from .flows import Flow, mapped, told
from .graph import Graph
from .hydration import Hydration
from .records import Record
from .summaries import EagerResult, ResultSummary, ServerInfo, summary_of

CONSUMED = "the result was consumed: its records are gone"
OUT_OF_SCOPE = "the transaction or session of the result has ended: read records before that"


class Owner:
    """A session or a transaction, to which a result belongs."""

    def settled(self) -> None:
        """Gives back what the result doesn't need any more."""


class Reading:
    """The records of a query. They are pulled as they are read, `fetch_size` at once."""

    def __init__(
        self,
        owner: Owner,
        raw: seam.AnyResult,
        query: str,
        parameters: dict[str, Any],
        server: ServerInfo,
    ) -> None:
        self._owner, self._raw, self._server = owner, raw, server
        self._query, self._parameters = query, parameters
        self._hydration = Hydration()
        self._ahead: collections.deque[Record] = collections.deque()
        self._over = ""

    def keys(self) -> list[str]:
        """Returns the names of the columns."""
        return self._raw.keys()

    def closed(self) -> bool:
        """Returns true if the records can't be read any more."""
        return bool(self._over)

    def end(self) -> None:
        """Notes that the transaction or the session has ended."""
        self._over = self._over or OUT_OF_SCOPE
        self._ahead.clear()

    def bookmark(self) -> Optional[str]:
        """Returns the bookmark of a query of its own, None if there is none yet."""
        return seam.summary(self._raw)[1].bookmark

    def _held(self) -> Optional[Record]:
        """Returns the next record that needs no answer of the server, None if there is none."""
        if self._over:
            raise ResultConsumedError(self._over)
        if self._ahead:
            return self._ahead.popleft()
        found = seam.held(self._raw)
        if found is None:
            return None
        return Record(found.keys(), [self._hydration.value(it) for it in found])

    def _exchanging(self, call: seam.Call) -> Flow[Any]:
        try:
            return (yield from told(call))
        finally:
            self._owner.settled()

    def _taking(self) -> Flow[Optional[Record]]:
        """The next record, None after the last one."""
        found = self._held()
        if found is None and not seam.is_whole(self._raw):
            yield from self._exchanging(seam.refill(self._raw))
            found = self._held()
        return found

    def _peeking(self) -> Flow[Optional[Record]]:
        found = yield from self._taking()
        if found is not None:
            self._ahead.appendleft(found)
        return found

    def _fetching(self, count: int) -> Flow[list[Record]]:
        if type(count) is not int or count < 0:
            raise ConfigurationError(f"{count!r} is no number of records")
        found: list[Record] = []
        while len(found) < count and (one := (yield from self._taking())) is not None:
            found.append(one)
        return found

    def _collecting(self) -> Flow[list[Record]]:
        """All records that weren't read yet. What comes before an interrupt stays unread."""
        kept: list[Record] = []
        try:
            while True:
                while (one := self._held()) is not None:
                    kept.append(one)
                if seam.is_whole(self._raw):
                    return kept
                yield from self._exchanging(seam.refill(self._raw))
        except BaseException:
            self._ahead.extendleft(reversed(kept))
            raise

    def _singling(self, strict: bool) -> Flow[tuple[Optional[Record], bool]]:
        """The first record, and whether there are more. All others are passed over."""
        found = yield from self._fetching(2)
        yield from self.consume_flow()
        if strict and len(found) != 1:
            what = "there are several" if found else "there is none"
            raise ResultNotSingleError(f"one record is wanted, and {what}")
        return (found[0] if found else None), len(found) > 1

    def consume_flow(self) -> Flow[ResultSummary]:
        """Passes over what is left, and returns how the query ended."""
        if not self._over:
            if mapped(lambda: seam.has_more(self._raw)):
                yield from self._exchanging(seam.discard(self._raw))
            self._over = CONSUMED
            self._ahead.clear()
        return self._summary()

    def _summary(self) -> ResultSummary:
        first, last = seam.summary(self._raw)
        return summary_of(
            self._server, self._query, self._parameters, first, last.metadata, last.outcome
        )

    def _eager(self) -> Flow[EagerResult]:
        records = yield from self._collecting()
        summary = yield from self.consume_flow()
        return EagerResult(records, summary, self.keys())

    def _framing(self, expand: bool, parse_dates: bool) -> Flow[Any]:
        if expand or parse_dates:
            raise ConfigurationError("to_df has no expand and no parse_dates: leave them out")
        import pandas  # type: ignore

        records = yield from self._collecting()
        return pandas.DataFrame([it.values() for it in records], columns=self.keys())

    def _graphing(self) -> Flow[Graph]:
        yield from self._collecting()
        return self._hydration.graph
