"""Records of the driver: tuples with names."""
from __future__ import annotations

from collections.abc import Mapping, Sequence
from typing import Any, Iterator, Optional, Union

from .hydration import plain

Key = Union[int, str]


class Record(tuple[Any, ...], Mapping[str, Any]):
    """A row: a tuple of its cells, and a mapping of their names. As a tuple it is iterated over its
    cells."""

    _names: tuple[str, ...]

    def __new__(cls, names: Sequence[str], cells: Sequence[Any]) -> Record:
        made = tuple.__new__(cls, cells)
        made._names = tuple(names)[: len(cells)]
        return made

    def __getnewargs__(self) -> tuple[Any, ...]:
        return self._names, tuple(self)

    def __getitem__(self, key: Any) -> Any:
        """Returns a cell by its name or number. KeyError or IndexError says that there is none."""
        if isinstance(key, slice):
            return Record(self._names[key], tuple(self)[key])
        return tuple.__getitem__(self, self.index(key) if isinstance(key, str) else key)

    def index(self, key: Any, *_: Any) -> int:
        """Returns the number of a cell by its name. KeyError or IndexError says that there is
        none."""
        if isinstance(key, str):
            if key not in self._names:
                raise KeyError(key)
            return self._names.index(key)
        if not 0 <= key < len(self):
            raise IndexError(key)
        return int(key)

    def get(self, key: str, default: Any = None) -> Any:
        """Returns a cell by its name, `default` if there is none."""
        return self[key] if key in self._names else default

    def value(self, key: Key = 0, default: Any = None) -> Any:
        """Returns a cell by its name or number, `default` if there is none."""
        try:
            return self[key]
        except (IndexError, KeyError):
            return default

    def keys(self) -> list[str]:  # type: ignore[override]
        """Returns the names."""
        return list(self._names)

    def _places(self, keys: tuple[Key, ...]) -> list[Optional[int]]:
        """Returns the numbers of cells, None for a name that isn't there. Without keys that is all
        of them."""
        if not keys:
            return list(range(len(self)))
        return [
            None if isinstance(it, str) and it not in self._names else self.index(it) for it in keys
        ]

    def values(self, *keys: Key) -> list[Any]:  # type: ignore[override]
        """Returns the cells of these names or numbers, None for a name that isn't there; else
        all."""
        return [None if it is None else tuple.__getitem__(self, it) for it in self._places(keys)]

    def items(self, *keys: Key) -> list[tuple[str, Any]]:  # type: ignore[override]
        """Returns the cells of these names or numbers with their names; else all."""
        names = [
            str(key) if place is None else self._names[place]
            for key, place in zip(keys or self._names, self._places(keys))
        ]
        return list(zip(names, self.values(*keys)))

    def data(self, *keys: Key) -> dict[str, Any]:
        """Returns the cells by name, with nodes as dicts, relationships as tuples and paths as
        lists."""
        return {name: plain(it) for name, it in self.items(*keys)}

    def __contains__(self, it: object) -> bool:
        return tuple.__contains__(self, it)

    def __iter__(self) -> Iterator[Any]:
        return tuple.__iter__(self)

    def __len__(self) -> int:
        return tuple.__len__(self)

    def __eq__(self, other: object) -> bool:
        if isinstance(other, Record):
            return self._names == other.keys_as_tuple() and tuple(self) == tuple(other)
        if isinstance(other, Mapping):
            return dict(self.items()) == dict(other)
        if isinstance(other, Sequence):
            return tuple(self) == tuple(other)
        return NotImplemented

    def __ne__(self, other: object) -> bool:
        return not self == other

    def __hash__(self) -> int:
        return hash(tuple(self))

    def keys_as_tuple(self) -> tuple[str, ...]:
        """Returns the names as a tuple."""
        return self._names

    def __repr__(self) -> str:
        return f"<Record {' '.join(f'{name}={cell!r}' for name, cell in self.items())}>"
