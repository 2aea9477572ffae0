"""Dates, times and durations by the names of the official driver, with nanoseconds.

Each of `Date`, `Time` and `DateTime` holds a value of Python's `datetime`, and compares with
one."""
from __future__ import annotations

import datetime
import functools
import re
from typing import Any, Optional, Type, TypeVar, Union

Kind = TypeVar("Kind", bound="Moment")
SECOND = 10**9
ISO = re.compile(
    r"P(?:(-?\d+)Y)?(?:(-?\d+)M)?(?:(-?\d+)W)?(?:(-?\d+)D)?"
    r"(?:T(?:(-?\d+)H)?(?:(-?\d+)M)?(?:(-?)(\d+)(?:\.(\d{1,9}))?S)?)?$"
)


def fraction(nanoseconds: int) -> str:
    """Returns the part of a second as ISO 8601 has it, nothing for 0."""
    return f".{nanoseconds:09}" if nanoseconds else ""


def offset_text(offset: Optional[datetime.timedelta]) -> str:
    """Returns an offset as ISO 8601 has it, nothing for None."""
    if offset is None:
        return ""
    seconds = int(offset.total_seconds())
    sign, seconds = ("-", -seconds) if seconds < 0 else ("+", seconds)
    rest = f":{seconds % 60:02}" if seconds % 60 else ""
    return f"{sign}{seconds // 3600:02}:{seconds // 60 % 60:02}{rest}"


@functools.total_ordering
class Moment:
    """A value of Python's `datetime`, and the nanoseconds of its second."""

    __slots__ = ("_native", "_nanosecond")
    native: Type[Any]

    @classmethod
    def of_parts(cls: Type[Kind], native: Any, nanosecond: Optional[int] = None) -> Kind:
        """Returns the value for Python's own, with the nanoseconds of its second if they are
        known."""
        made = object.__new__(cls)
        object.__setattr__(made, "_native", native)
        micros = getattr(native, "microsecond", 0)
        object.__setattr__(made, "_nanosecond", micros * 1000 if nanosecond is None else nanosecond)
        return made

    @classmethod
    def from_native(cls: Type[Kind], native: Any) -> Kind:
        """Returns the value for one of Python's `datetime`. Any other is a TypeError."""
        if not isinstance(native, cls.native):
            raise TypeError(f"a {cls.native.__name__} of datetime is wanted")
        return cls.of_parts(native)

    def to_native(self) -> Any:
        """Returns Python's own value. Nanoseconds below a microsecond are dropped."""
        return self._native

    def __setattr__(self, name: str, value: Any) -> None:
        raise AttributeError(f"{type(self).__name__} can't be changed")

    def __getattr__(self, name: str) -> Any:
        # Year, month, hour, tzinfo, weekday() and so on are those of Python's value.
        if name.startswith("_"):
            raise AttributeError(name)
        return getattr(self._native, name)

    @property
    def nanosecond(self) -> int:
        """The nanoseconds of the second, from 0 to 999,999,999."""
        return int(self._nanosecond)

    def _pair(self, other: Any) -> Optional[tuple[Any, int]]:
        if isinstance(other, Moment):
            return other.to_native(), other.nanosecond
        if isinstance(other, self.native):
            return other, getattr(other, "microsecond", 0) * 1000
        return None

    def __eq__(self, other: object) -> bool:
        pair = self._pair(other)
        return pair is not None and (self.to_native(), self.nanosecond) == pair

    def __lt__(self, other: Any) -> bool:
        pair = self._pair(other)
        if pair is None:
            return NotImplemented
        return bool((self.to_native(), self.nanosecond) < pair)

    def __hash__(self) -> int:
        return hash(self.to_native())

    def __reduce__(self) -> tuple[Any, ...]:
        return type(self).of_parts, (self.to_native(), self.nanosecond)

    def iso_format(self, sep: str = "T") -> str:
        """Returns the text of ISO 8601, with nine digits of a second's fraction if there is one."""
        whole = self.to_native()
        if isinstance(whole, datetime.datetime):
            text = whole.strftime("%H:%M:%S")
            text = f"{whole.date().isoformat()}{sep}{text}"
        elif isinstance(whole, datetime.time):
            text = whole.strftime("%H:%M:%S")
        else:
            return str(whole.isoformat())
        return f"{text}{fraction(self.nanosecond)}{offset_text(whole.utcoffset())}"

    def __str__(self) -> str:
        return self.iso_format()

    def __repr__(self) -> str:
        return f"<{type(self).__name__} {self.iso_format()}>"


def micros(nanosecond: int) -> int:
    """Returns the microseconds of nanoseconds of a second. Out of bounds is a ValueError."""
    if not 0 <= nanosecond < SECOND:
        raise ValueError("a nanosecond is 0 to 999,999,999")
    return int(nanosecond // 1000)


class Date(Moment):
    """A day, by year, month and day."""

    __slots__ = ()
    native = datetime.date

    def __new__(cls, year: int, month: int, day: int) -> Date:
        return cls.of_parts(datetime.date(year, month, day))

    @classmethod
    def today(cls) -> Date:
        """Returns the day of this machine."""
        return cls.of_parts(datetime.date.today())

    @classmethod
    def from_iso_format(cls, text: str) -> Date:
        """Returns the day of a text such as `2024-02-29`. Any other is a ValueError."""
        return cls.of_parts(datetime.date.fromisoformat(text))


class Time(Moment):
    """A time of day, with an offset or without."""

    __slots__ = ()
    native = datetime.time

    def __new__(
        cls,
        hour: int = 0,
        minute: int = 0,
        second: int = 0,
        nanosecond: int = 0,
        tzinfo: Optional[datetime.tzinfo] = None,
    ) -> Time:
        native = datetime.time(hour, minute, second, micros(nanosecond), tzinfo)
        return cls.of_parts(native, nanosecond)


class DateTime(Moment):
    """A day and a time of day, with a zone or without."""

    __slots__ = ()
    native = datetime.datetime

    def __new__(
        cls,
        year: int,
        month: int,
        day: int,
        hour: int = 0,
        minute: int = 0,
        second: int = 0,
        nanosecond: int = 0,
        tzinfo: Optional[datetime.tzinfo] = None,
    ) -> DateTime:
        native = datetime.datetime(
            year, month, day, hour, minute, second, micros(nanosecond), tzinfo
        )
        return cls.of_parts(native, nanosecond)

    @classmethod
    def now(cls, tz: Optional[datetime.tzinfo] = None) -> DateTime:
        """Returns the time of this machine, in a zone if one is given."""
        return cls.of_parts(datetime.datetime.now(tz))

    def date(self) -> Date:
        """Returns the day."""
        return Date.of_parts(self.to_native().date())

    def time(self) -> Time:
        """Returns the time of day, without its zone."""
        return Time.of_parts(self.to_native().time(), self.nanosecond)


class Duration(tuple[int, int, int, int]):
    """Months, days, seconds and nanoseconds. None is turned into another."""

    __slots__ = ()

    def __new__(
        cls,
        years: int = 0,
        months: int = 0,
        weeks: int = 0,
        days: int = 0,
        hours: int = 0,
        minutes: int = 0,
        seconds: Union[int, float] = 0,
        subseconds: Union[int, float] = 0,
        milliseconds: Union[int, float] = 0,
        microseconds: Union[int, float] = 0,
        nanoseconds: int = 0,
    ) -> Duration:
        whole = int(seconds // 1)
        part = (
            (seconds - whole + subseconds) * SECOND + milliseconds * 10**6 + microseconds * 1000
        )
        nanos = (3600 * hours + 60 * minutes + whole) * SECOND + round(part) + nanoseconds
        # Seconds and nanoseconds have one sign, as in the official driver.
        second, nano = divmod(abs(nanos), SECOND)
        sign = -1 if nanos < 0 else 1
        cells = (12 * years + months, 7 * weeks + days, sign * second, sign * nano)
        return tuple.__new__(cls, cells)

    months = property(lambda self: self[0])
    days = property(lambda self: self[1])
    seconds = property(lambda self: self[2])
    nanoseconds = property(lambda self: self[3])

    def __getnewargs__(self) -> tuple[Any, ...]:
        return 0, self[0], 0, self[1], 0, 0, self[2], 0, 0, 0, self[3]

    @property
    def years_months_days(self) -> tuple[int, int, int]:
        """The years, the months that are left, and the days."""
        years, months = divmod(abs(self[0]), 12)
        sign = -1 if self[0] < 0 else 1
        return sign * years, sign * months, self[1]

    @property
    def hours_minutes_seconds_nanoseconds(self) -> tuple[int, int, int, int]:
        """The hours, the minutes and seconds that are left, and the nanoseconds."""
        minutes, seconds = divmod(abs(self[2]), 60)
        hours, minutes = divmod(minutes, 60)
        sign = -1 if self[2] < 0 else 1
        return sign * hours, sign * minutes, sign * seconds, self[3]

    @classmethod
    def from_iso_format(cls, text: str) -> Duration:
        """Returns the duration of a text such as `P1M2DT3.5S`. Any other is a ValueError."""
        found = ISO.match(text)
        if not found or text.endswith(("P", "T")):
            raise ValueError(f"{text!r} is no duration of ISO 8601")
        *whole, sign, seconds, part = found.groups()
        years, months, weeks, days, hours, minutes = (int(it or 0) for it in whole)
        nanos = int(seconds or 0) * SECOND + int((part or "").ljust(9, "0"))
        nanos = -nanos if sign else nanos
        return cls(years, months, weeks, days, hours, minutes, nanoseconds=nanos)

    def iso_format(self) -> str:
        """Returns the text of ISO 8601, `PT0S` if all is 0."""
        years, months, days = self.years_months_days
        hours, minutes, seconds, nanos = self.hours_minutes_seconds_nanoseconds
        parts = ((years, "Y"), (months, "M"), (days, "D"))
        text = "".join(f"{it}{name}" for it, name in parts if it)
        time = "".join(f"{it}{name}" for it, name in ((hours, "H"), (minutes, "M")) if it)
        if seconds or nanos:
            sign = "-" if seconds < 0 or nanos < 0 else ""
            time += f"{sign}{abs(seconds)}{fraction(abs(nanos)).rstrip('0')}S"
        return f"P{text}T{time}" if time else f"P{text}" if text else "PT0S"

    def __add__(self, other: Any) -> Duration:
        if not isinstance(other, Duration):
            return NotImplemented
        months, days, seconds, nanos = (one + two for one, two in zip(self, other))
        return Duration(months=months, days=days, seconds=seconds, nanoseconds=nanos)

    def __neg__(self) -> Duration:
        months, days, seconds, nanos = (-it for it in self)
        return Duration(months=months, days=days, seconds=seconds, nanoseconds=nanos)

    def __sub__(self, other: Any) -> Duration:
        if not isinstance(other, Duration):
            return NotImplemented
        return self + -other

    def __bool__(self) -> bool:
        return any(self)

    def __str__(self) -> str:
        return self.iso_format()

    def __repr__(self) -> str:
        months, days, seconds, nanos = self
        return f"Duration(months={months}, days={days}, seconds={seconds}, nanoseconds={nanos})"
