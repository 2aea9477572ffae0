"""Values of PackStream: the classes below for structures, and Python's own for all others.

Those are None, bool, int, float, str, bytes, list and dict."""
from __future__ import annotations

import dataclasses
import struct
from typing import Any, Optional, Type, Union

from .versions import V4_4, V5_1

LEGACY_DATE_TIME = 0x46
INTS = ((0xC8, ">b"), (0xC9, ">h"), (0xCA, ">i"), (0xCB, ">q"))


class Structure:
    """A structure: its tag, and how many of its last fields came with 5.0 and are None before."""

    tag = 0
    later = 0


@dataclasses.dataclass(frozen=True)
class Node(Structure):
    id: int
    labels: list[str]
    properties: dict[str, Any]
    element_id: Optional[str] = None
    tag, later = 0x4E, 1


@dataclasses.dataclass(frozen=True)
class Relationship(Structure):
    id: int
    start: int
    end: int
    type: str
    properties: dict[str, Any]
    element_id: Optional[str] = None
    start_element_id: Optional[str] = None
    end_element_id: Optional[str] = None
    tag, later = 0x52, 3


@dataclasses.dataclass(frozen=True)
class UnboundRelationship(Structure):
    id: int
    type: str
    properties: dict[str, Any]
    element_id: Optional[str] = None
    tag, later = 0x72, 1


@dataclasses.dataclass(frozen=True)
class Path(Structure):
    """`indices` are a walk from node 0, in pairs: the number of a relationship and that of the node to which it leads.

    Relationships count from 1. A number is negative if the walk goes against the relationship's direction."""
    nodes: list[Node]
    relationships: list[UnboundRelationship]
    indices: list[int]
    tag = 0x50


@dataclasses.dataclass(frozen=True)
class Date(Structure):
    """Days since 1970-01-01."""
    days: int
    tag = 0x44


@dataclasses.dataclass(frozen=True)
class Time(Structure):
    """Nanoseconds since midnight, and the offset in seconds."""
    nanoseconds: int
    offset: int
    tag = 0x54


@dataclasses.dataclass(frozen=True)
class LocalTime(Structure):
    nanoseconds: int
    tag = 0x74


@dataclasses.dataclass(frozen=True)
class LocalDateTime(Structure):
    seconds: int
    nanoseconds: int
    tag = 0x64


@dataclasses.dataclass(frozen=True)
class DateTime(Structure):
    """UTC seconds, and the offset in seconds. At 4.4 they are sent as local seconds."""
    seconds: int
    nanoseconds: int
    offset: int
    tag = 0x49


@dataclasses.dataclass(frozen=True)
class ZonedLocal(Structure):
    """Local seconds in a named zone, at 4.4 alone."""
    seconds: int
    nanoseconds: int
    zone: str
    tag = 0x66


@dataclasses.dataclass(frozen=True)
class ZonedUtc(Structure):
    """UTC seconds in a named zone, at 5.0 and 5.1."""
    seconds: int
    nanoseconds: int
    zone: str
    tag = 0x69


@dataclasses.dataclass(frozen=True)
class Duration(Structure):
    months: int
    days: int
    seconds: int
    nanoseconds: int
    tag = 0x45


@dataclasses.dataclass(frozen=True)
class Point2D(Structure):
    srid: int
    x: float
    y: float
    tag = 0x58


@dataclasses.dataclass(frozen=True)
class Point3D(Structure):
    srid: int
    x: float
    y: float
    z: float
    tag = 0x59


STRUCTURES: tuple[Type[Structure], ...] = (
    Node, Relationship, UnboundRelationship, Path, Date, Time, LocalTime, LocalDateTime, DateTime, ZonedLocal, ZonedUtc,
    Duration, Point2D, Point3D)
TAGS: dict[int, Any] = {it.tag: it for it in STRUCTURES}


def names_of(value: Union[Structure, Type[Structure]]) -> list[str]:
    """The names of a structure's fields, in order."""
    return [it.name for it in dataclasses.fields(value)]


def sized(length: int, tiny: Optional[int], first: int) -> bytes:
    """Returns the marker of a text, byte string, list or dictionary of this length.

    `tiny` is None if a short length has no place in the marker."""
    if tiny is not None and length < 16:
        return bytes([tiny | length])
    for more, form in enumerate((">B", ">H", ">I")):
        if length < 1 << 8 * struct.calcsize(form):
            return bytes([first + more]) + struct.pack(form, length)
    raise ValueError("longer than PackStream can say")


def pack_int(value: int) -> bytes:
    if -16 <= value < 128:
        return struct.pack(">b", value)
    for marker, form in INTS:
        half = 1 << 8 * struct.calcsize(form) - 1
        if -half <= value < half:
            return bytes([marker]) + struct.pack(form, value)
    raise ValueError("an integer of more than 64 bits")


def pack_structure(tag: int, fields: Any, version: int) -> bytes:
    return bytes([0xB0 | len(fields), tag]) + b"".join(pack(it, version) for it in fields)


def fields_of(value: Any, version: int) -> tuple[int, list[Any]]:
    """The tag and the fields of a structure at a version."""
    fields = [getattr(value, it) for it in names_of(value)]
    known = len(fields) - value.later
    if isinstance(value, DateTime) and version == V4_4:
        return LEGACY_DATE_TIME, [value.seconds + value.offset, value.nanoseconds, value.offset]
    if version == V4_4:
        return value.tag, fields[:known]
    ids = [value.id, *([value.start, value.end] if isinstance(value, Relationship) else [])] if value.later else []
    return value.tag, fields[:known] + [str(n) if it is None else it for it, n in zip(fields[known:], ids)]


def pack(value: Any, version: int = V5_1) -> bytes:
    """The bytes of a value in PackStream."""
    if value is None:
        return b"\xc0"
    if isinstance(value, bool):
        return b"\xc3" if value else b"\xc2"
    if isinstance(value, int):
        return pack_int(value)
    if isinstance(value, float):
        return b"\xc1" + struct.pack(">d", value)
    if isinstance(value, str):
        return sized(len(text := value.encode()), 0x80, 0xD0) + text
    if isinstance(value, (bytes, bytearray)):
        return sized(len(value), None, 0xCC) + bytes(value)
    if isinstance(value, (list, tuple)):
        return sized(len(value), 0x90, 0xD4) + b"".join(pack(it, version) for it in value)
    if isinstance(value, dict):
        if not all(isinstance(key, str) for key in value):
            raise TypeError("a key of a dictionary of PackStream is a text")
        entries = (pack(key, version) + pack(it, version) for key, it in value.items())
        return sized(len(value), 0xA0, 0xD8) + b"".join(entries)
    if type(value) in STRUCTURES:
        return pack_structure(*fields_of(value, version), version)
    raise TypeError(f"{type(value).__name__} is no value of PackStream")


class Unpacked:
    """Reads values from bytes that are well formed, as those that the library wrote."""

    def __init__(self, data: bytes) -> None:
        self.data, self.at = data, 0

    def number(self, form: str) -> Any:
        value, = struct.unpack_from(form, self.data, self.at)
        self.at += struct.calcsize(form)
        return value

    def bytes(self, length: int) -> bytes:
        self.at += length
        return self.data[self.at - length:self.at]

    def of_length(self, kind: int, length: int) -> Any:
        if kind == 0xC:
            return self.bytes(length)
        if kind == 0x8:
            return self.bytes(length).decode()
        if kind == 0x9:
            return [self.value() for _ in range(length)]
        found = {self.value(): self.value() for _ in range(length)}
        if len(found) < length or not {str}.issuperset(map(type, found)):
            raise ValueError("no value of PackStream")
        return found

    def fields(self, count: int) -> tuple[int, list[Any]]:
        """The tag and the fields of a structure."""
        return self.number(">B"), [self.value() for _ in range(count)]

    def value(self) -> Any:
        marker = self.number(">B")
        if marker < 0x80 or marker >= 0xF0:
            return marker if marker < 0x80 else marker - 256
        if marker < 0xB0:
            return self.of_length(marker >> 4, marker & 15)
        if marker < 0xC0:
            tag, fields = self.fields(marker & 15)
            if tag == LEGACY_DATE_TIME:
                return DateTime(fields[0] - fields[2], *fields[1:])
            return TAGS[tag](*fields)
        if marker in (0xC0, 0xC2, 0xC3):
            return {0xC0: None, 0xC2: False, 0xC3: True}[marker]
        for one, form in ((0xC1, ">d"), *INTS):
            if marker == one:
                return self.number(form)
        kind = {0x33: 0xC, 0x34: 0x8, 0x35: 0x9, 0x36: 0xA}[marker >> 2]
        return self.of_length(kind, self.number((">B", ">H", ">I")[marker & 3]))


def unpack(data: bytes) -> Any:
    """Returns the value that these bytes encode. It is a ValueError if they encode none, or more than one."""
    try:
        whole = Unpacked(bytes(memoryview(data)))
        value = whole.value()
    except (struct.error, LookupError, TypeError, RecursionError) as why:
        raise ValueError("no value of PackStream") from why
    if whole.at != len(whole.data):
        raise ValueError("not one value of PackStream")
    return value


def unpack_message(data: bytes) -> tuple[int, list[Any]]:
    """The tag and the fields of a message."""
    whole = Unpacked(data)
    return whole.fields(whole.number(">B") & 15)
