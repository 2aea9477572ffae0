"""How a query of the driver ended: its server, its counters and its times."""
from __future__ import annotations

import dataclasses
from collections.abc import Iterable
from typing import Any, Mapping, NamedTuple, Optional

# The counters of a query by the server's names, without those that are true or false.
COUNTERS = (
    "nodes-created",
    "nodes-deleted",
    "relationships-created",
    "relationships-deleted",
    "properties-set",
    "labels-added",
    "labels-removed",
    "indexes-added",
    "indexes-removed",
    "constraints-added",
    "constraints-removed",
)


class SummaryCounters:
    """The changes of a query. Each counter is 0 if the server names none."""

    nodes_created = nodes_deleted = relationships_created = relationships_deleted = 0
    properties_set = labels_added = labels_removed = indexes_added = indexes_removed = 0
    constraints_added = constraints_removed = system_updates = 0

    def __init__(self, stats: Mapping[str, Any]) -> None:
        self._stats = dict(stats)
        for name, value in self._stats.items():
            if name in COUNTERS or name == "system-updates":
                setattr(self, name.replace("-", "_"), value)

    @property
    def contains_updates(self) -> bool:
        """True if the query changed data."""
        said = self._stats.get("contains-updates")
        return bool(any(self._stats.get(it) for it in COUNTERS) if said is None else said)

    @property
    def contains_system_updates(self) -> bool:
        """True if the query changed the server's own database."""
        said = self._stats.get("contains-system-updates")
        return bool(self.system_updates if said is None else said)

    def __repr__(self) -> str:
        return repr(self._stats)


@dataclasses.dataclass(frozen=True)
class ServerInfo:
    """A server: its address, its name in `agent`, the version of Bolt, and the connection's id
    there."""

    address: tuple[str, int]
    protocol_version: tuple[int, int]
    agent: str
    connection_id: str = ""


@dataclasses.dataclass(frozen=True)
class ResultSummary:
    """How a query ended. `metadata` is all that the server said at its end.

    `outcome` is COMMITTED for a query of its own, DONE for one of a transaction. Times are in
    milliseconds, None if the server says none."""

    server: ServerInfo
    query: str
    parameters: Mapping[str, Any]
    database: Optional[str]
    query_type: Optional[str]
    counters: SummaryCounters
    notifications: Optional[list[Any]]
    plan: Optional[dict[str, Any]]
    profile: Optional[dict[str, Any]]
    result_available_after: Optional[int]
    result_consumed_after: Optional[int]
    metadata: Mapping[str, Any]
    outcome: Optional[str]


def summary_of(
    server: ServerInfo,
    query: str,
    parameters: Mapping[str, Any],
    first: Mapping[str, Any],
    last: Mapping[str, Any],
    outcome: Optional[str],
) -> ResultSummary:
    """Returns the summary from what the server said at a query's beginning and at its end."""
    stats = last.get("stats")
    return ResultSummary(
        server,
        query,
        parameters,
        last.get("db"),
        last.get("type"),
        SummaryCounters(stats if isinstance(stats, dict) else {}),
        last.get("notifications"),
        last.get("plan"),
        last.get("profile"),
        first.get("t_first"),
        last.get("t_last"),
        last,
        outcome,
    )


class Bookmarks:
    """The bookmarks of what a session has committed last."""

    def __init__(self, raw_values: Iterable[str] = ()) -> None:
        self._raw = frozenset(raw_values)

    @classmethod
    def from_raw_values(cls, values: Iterable[str]) -> Bookmarks:
        """Returns the bookmarks of these texts."""
        return cls(values)

    @property
    def raw_values(self) -> frozenset[str]:
        """The texts of the bookmarks."""
        return self._raw

    def __iter__(self) -> Any:
        return iter(self._raw)

    def __bool__(self) -> bool:
        return bool(self._raw)

    def __add__(self, other: Bookmarks) -> Bookmarks:
        return Bookmarks(self._raw | other.raw_values)

    def __eq__(self, other: object) -> bool:
        return isinstance(other, Bookmarks) and self._raw == other.raw_values

    def __hash__(self) -> int:
        return hash(self._raw)

    def __repr__(self) -> str:
        return f"<Bookmarks {sorted(self._raw)}>"


class EagerResult(NamedTuple):
    """All records of a query, how it ended, and the names of its columns."""

    records: list[Any]
    summary: ResultSummary
    keys: list[str]
