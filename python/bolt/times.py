"""Moments and spans of time: Python's own from those of PackStream, and back, if nothing is lost."""
from __future__ import annotations

import dataclasses
import datetime
from typing import Any, Callable, Optional

from . import values
from .versions import V4_4

EPOCH = datetime.date(1970, 1, 1)
START = datetime.datetime(1970, 1, 1)
SECOND = datetime.timedelta(seconds=1)
DAY = 86_400


def offset_of(it: Any) -> int:
    """The offset of a moment with a zone, in seconds."""
    offset = it.utcoffset()
    if offset is None or offset % SECOND:
        raise ValueError("an offset of whole seconds is wanted")
    return int(offset / SECOND)


def seconds_of(it: datetime.datetime) -> int:
    """Seconds from the epoch to a moment, its zone passed over."""
    return (it.date() - EPOCH).days * DAY + it.hour * 3600 + it.minute * 60 + it.second


def nanoseconds_of(it: datetime.time) -> int:
    return ((it.hour * 60 + it.minute) * 60 + it.second) * 10 ** 9 + it.microsecond * 1000


def stored_moment(it: datetime.datetime, version: int) -> Any:
    # (a moment of pandas has nanoseconds beside, as has a span)
    nanoseconds = it.microsecond * 1000 + getattr(it, "nanosecond", 0)
    if it.tzinfo is None:
        return values.LocalDateTime(seconds_of(it), nanoseconds)
    zone = getattr(it.tzinfo, "key", None)
    utc = seconds_of(it) - offset_of(it)
    if isinstance(zone, str) and version != V4_4:
        return values.ZonedUtc(utc, nanoseconds, zone)
    # (local seconds that a zone has twice are those of the first time)
    if isinstance(zone, str) and it.utcoffset() == it.replace(fold=0).utcoffset():
        return values.ZonedLocal(seconds_of(it), nanoseconds, zone)
    return values.DateTime(utc, nanoseconds, offset_of(it))


def within(value: Any, turn: Callable[[Any], Any]) -> Any:
    """A structure whose lists and dictionaries are turned: properties, and what a path has."""
    parts = {name: getattr(value, name) for name in values.names_of(value)}
    turned = {name: turn(part) for name, part in parts.items() if isinstance(part, (list, tuple, dict))}
    return dataclasses.replace(value, **turned) if turned else value


def stored(value: Any, version: int) -> Any:
    """A value as PackStream has it: Python's moments and spans as structures."""
    if isinstance(value, datetime.datetime):
        return stored_moment(value, version)
    if isinstance(value, datetime.date):
        return values.Date((value - EPOCH).days)
    if isinstance(value, datetime.time):
        nanoseconds = nanoseconds_of(value)
        return values.LocalTime(nanoseconds) if value.tzinfo is None else values.Time(nanoseconds, offset_of(value))
    if isinstance(value, datetime.timedelta):
        nanoseconds = value.microseconds * 1000 + getattr(value, "nanoseconds", 0)
        return values.Duration(0, value.days, value.seconds, nanoseconds)
    if isinstance(value, (list, tuple)):
        return [stored(it, version) for it in value]
    if isinstance(value, dict):
        return {key: stored(it, version) for key, it in value.items()}
    if type(value) in values.STRUCTURES:
        return within(value, lambda it: stored(it, version))
    return value


def zone_of(offset: int) -> Optional[datetime.timezone]:
    return datetime.timezone(datetime.timedelta(seconds=offset)) if abs(offset) < DAY else None


def time_of(nanoseconds: int, zone: Optional[datetime.timezone] = None) -> datetime.time:
    seconds, micros = nanoseconds // 10 ** 9, nanoseconds % 10 ** 9 // 1000
    return datetime.time(seconds // 3600, seconds // 60 % 60, seconds % 60, micros, zone)


def moment_of(seconds: int, nanoseconds: int) -> datetime.datetime:
    return START + datetime.timedelta(days=seconds // DAY, seconds=seconds % DAY, microseconds=nanoseconds // 1000)


def own(value: Any) -> Any:
    """The value of Python that a structure stands for, whether or not something is lost."""
    if isinstance(value, values.Date):
        return EPOCH + datetime.timedelta(days=value.days)
    if isinstance(value, values.LocalTime):
        return time_of(value.nanoseconds)
    if isinstance(value, values.Time):
        return time_of(value.nanoseconds, zone_of(value.offset))
    if isinstance(value, values.LocalDateTime):
        return moment_of(value.seconds, value.nanoseconds)
    if isinstance(value, values.DateTime):
        return moment_of(value.seconds + value.offset, value.nanoseconds).replace(tzinfo=zone_of(value.offset))
    if isinstance(value, values.Duration) and value.months == 0:
        return datetime.timedelta(days=value.days, seconds=value.seconds, microseconds=value.nanoseconds // 1000)
    return value


def heard(value: Any, version: int) -> Any:
    """Returns a value as Python has it: moments and spans as its own if nothing is lost, all else as it is."""
    if isinstance(value, list):
        return [heard(it, version) for it in value]
    if isinstance(value, dict):
        return {key: heard(it, version) for key, it in value.items()}
    if not isinstance(value, values.Structure):
        return value
    value = within(value, lambda it: heard(it, version))
    try:
        found = own(value)
        return found if stored(found, version) == value else value
    except (ValueError, OverflowError):
        return value
