"""Points by the names of the official driver."""
from __future__ import annotations

from typing import Any, Iterable, Optional, Type

from . import values


class Point(tuple[float, ...]):
    """Two or three coordinates, in the reference system `srid`. Any other number is a
    ValueError."""

    srid: Optional[int] = None

    def __new__(cls, iterable: Iterable[float]) -> Point:
        cells = tuple(float(it) for it in iterable)
        if len(cells) not in (2, 3):
            raise ValueError("a point has two or three coordinates")
        return tuple.__new__(cls, cells)

    x = property(lambda self: self[0])
    y = property(lambda self: self[1])

    @property
    def z(self) -> float:
        """The third coordinate. A point of two has none, which is an AttributeError."""
        if len(self) < 3:
            raise AttributeError("a point of two coordinates has no third one")
        return float(self[2])

    def __eq__(self, other: object) -> bool:
        return isinstance(other, Point) and self.srid == other.srid and tuple(self) == tuple(other)

    def __ne__(self, other: object) -> bool:
        return not self == other

    def __hash__(self) -> int:
        return hash((self.srid, tuple(self)))

    def __repr__(self) -> str:
        return f"{type(self).__name__}({tuple(self)})"


class CartesianPoint(Point):
    """A point of the plane (srid 7203) or of space (9157)."""

    @property
    def srid(self) -> int:  # type: ignore[override]
        """7203 for two coordinates, 9157 for three."""
        return 7203 if len(self) == 2 else 9157


class WGS84Point(Point):
    """A point of the earth: longitude and latitude (srid 4326), and height (4979)."""

    @property
    def srid(self) -> int:  # type: ignore[override]
        """4326 for two coordinates, 4979 for three."""
        return 4326 if len(self) == 2 else 4979

    longitude, latitude, height = Point.x, Point.y, Point.z


KINDS: dict[tuple[int, int], Type[Point]] = {
    (7203, 2): CartesianPoint,
    (9157, 3): CartesianPoint,
    (4326, 2): WGS84Point,
    (4979, 3): WGS84Point,
}


def of(it: Any) -> Point:
    """Returns the point for a structure `Point2D` or `Point3D`."""
    cells = (it.x, it.y, it.z) if isinstance(it, values.Point3D) else (it.x, it.y)
    made = KINDS.get((it.srid, len(cells)), Point)(cells)
    if type(made) is Point:
        made.srid = it.srid
    return made


def structure(it: Point) -> values.Structure:
    """Returns the structure for a point. One without a reference system is a ValueError."""
    if it.srid is None:
        raise ValueError("a point needs its srid: use CartesianPoint or WGS84Point")
    return values.Point2D(it.srid, *it) if len(it) == 2 else values.Point3D(it.srid, *it)
