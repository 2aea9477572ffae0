"""Points under their official names."""
from ..spatial import CartesianPoint, Point, WGS84Point

__all__ = ["CartesianPoint", "Point", "WGS84Point"]
