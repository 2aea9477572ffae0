"""Turns values of PackStream into those that the driver's user gets, and back."""
from __future__ import annotations

import datetime
from typing import Any, Callable, Optional
from zoneinfo import ZoneInfo

from . import graph, spatial, temporal, times, values
from .versions import V4_4

SECOND = 10**9
# Values that are themselves.
PLAIN = bool, int, float, str, bytes


def zoned(seconds: int, nanoseconds: int, zone: str, is_utc: bool) -> temporal.DateTime:
    """Returns a moment in a named zone. A zone that this machine doesn't know is a LookupError."""
    here = ZoneInfo(zone)
    moment = times.moment_of(seconds, nanoseconds)
    if is_utc:
        native = moment.replace(tzinfo=datetime.timezone.utc).astimezone(here)
    else:
        native = moment.replace(tzinfo=here)
    return temporal.DateTime.of_parts(native, nanoseconds)


def moment(it: Any) -> Any:
    """Returns the moment of a structure. A value out of Python's bounds is an error of several
    types."""
    if isinstance(it, values.Date):
        return temporal.Date.of_parts(times.own(it))
    if isinstance(it, (values.LocalTime, values.Time)):
        return temporal.Time.of_parts(times.own(it), it.nanoseconds % SECOND)
    if isinstance(it, (values.LocalDateTime, values.DateTime)):
        native = times.own(it)
        if isinstance(it, values.DateTime) and native.tzinfo is None:
            raise ValueError("an offset of a day or more")
        return temporal.DateTime.of_parts(native, it.nanoseconds)
    if isinstance(it, (values.ZonedUtc, values.ZonedLocal)):
        return zoned(it.seconds, it.nanoseconds, it.zone, isinstance(it, values.ZonedUtc))
    return it


def native(it: Any) -> Any:
    """Returns the moment or the duration for Python's own value."""
    if isinstance(it, datetime.datetime):
        return temporal.DateTime.of_parts(it)
    if isinstance(it, datetime.date):
        return temporal.Date.of_parts(it)
    if isinstance(it, datetime.time):
        return temporal.Time.of_parts(it)
    if isinstance(it, datetime.timedelta):
        nanos = it.microseconds * 1000
        return temporal.Duration(days=it.days, seconds=it.seconds, nanoseconds=nanos)
    return it


class Hydration:
    """Makes the values of one result. Its nodes and relationships are those of one graph."""

    def __init__(self) -> None:
        self.graph = graph.Graph()

    def value(self, it: Any) -> Any:
        """Returns the user's value. A moment that Python can't have stays a structure of `bolt`."""
        if it is None or isinstance(it, PLAIN):
            return it
        if isinstance(it, list):
            return [self.value(one) for one in it]
        if isinstance(it, dict):
            return {name: self.value(one) for name, one in it.items()}
        if isinstance(it, values.Structure):
            return self.structure(it)
        return native(it)

    def structure(self, it: values.Structure) -> Any:
        """Returns the user's value of a structure."""
        if isinstance(it, values.Node):
            return self.graph.filled(it, self.value(it.properties))
        if isinstance(it, values.Relationship):
            start = self.graph.node(it.start, it.start_element_id)
            end = self.graph.node(it.end, it.end_element_id)
            return self.graph.joined(it, self.value(it.properties), start, end)
        if isinstance(it, values.Path):
            return self.path(it)
        if isinstance(it, (values.Point2D, values.Point3D)):
            return spatial.of(it)
        if isinstance(it, values.Duration):
            span = dict(months=it.months, days=it.days)
            return temporal.Duration(**span, seconds=it.seconds, nanoseconds=it.nanoseconds)
        try:
            return moment(it)
        except (ValueError, OverflowError, LookupError):
            return it

    def path(self, it: values.Path) -> graph.Path:
        """Returns the path of a structure, whose relationships have their ends."""
        nodes = [self.value(one) for one in it.nodes]
        walk, ways = [nodes[0]], []
        for number, to in zip(it.indices[::2], it.indices[1::2]):
            one, ends = it.relationships[abs(number) - 1], (walk[-1], nodes[to])
            start, end = ends if number > 0 else ends[::-1]
            ways.append(self.graph.joined(one, self.value(one.properties), start, end))
            walk.append(nodes[to])
        return graph.Path(tuple(walk), tuple(ways))


def sent_moment(it: temporal.DateTime, version: int) -> Any:
    """Returns the structure for a moment."""
    native = it.to_native()
    stored: Any = times.stored_moment(native, version)
    fields = {name: getattr(stored, name) for name in values.names_of(stored)}
    return type(stored)(**{**fields, "nanoseconds": it.nanosecond})


def sent(it: Any, version: int) -> Any:
    """Returns a value of PackStream for a user's value. What isn't known stays as it is."""
    if isinstance(it, temporal.DateTime):
        return sent_moment(it, version)
    if isinstance(it, temporal.Date):
        return times.stored(it.to_native(), version)
    if isinstance(it, temporal.Time):
        native = it.to_native()
        nanos = times.nanoseconds_of(native.replace(microsecond=0)) + it.nanosecond
        if native.tzinfo is None:
            return values.LocalTime(nanos)
        return values.Time(nanos, times.offset_of(native))
    if isinstance(it, temporal.Duration):
        # The nanoseconds of PackStream are not negative.
        seconds, nanos = divmod(it.seconds * SECOND + it.nanoseconds, SECOND)
        return values.Duration(it.months, it.days, seconds, nanos)
    if isinstance(it, spatial.Point):
        return spatial.structure(it)
    if isinstance(it, (list, tuple)):
        return [sent(one, version) for one in it]
    if isinstance(it, dict):
        return {name: sent(one, version) for name, one in it.items()}
    return it


def plain(it: Any) -> Any:
    """Returns a value as `data()` has it: nodes as dicts, relationships and paths as tuples and
    lists."""
    if isinstance(it, graph.Path):
        nodes: list[Any] = [plain(one) for one in it.nodes]
        types = [one.type for one in it.relationships]
        return [nodes[0], *(cell for pair in zip(types, nodes[1:]) for cell in pair)]
    if isinstance(it, graph.Relationship):
        start, end = (dict(one) if one else {} for one in it.nodes)
        return start, it.type, end
    if isinstance(it, graph.Node):
        return plain(dict(it))
    if isinstance(it, list):
        return [plain(one) for one in it]
    if isinstance(it, dict):
        return {name: plain(one) for name, one in it.items()}
    return it
