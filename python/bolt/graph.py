"""Nodes, relationships and paths by the names of the official driver."""
from __future__ import annotations

from collections.abc import Mapping, Set
from typing import Any, Generic, Iterator, Optional, TypeVar, Union

from . import values

Member = TypeVar("Member")


class EntitySet(Set[Member], Generic[Member]):
    """The nodes or the relationships of a graph."""

    def __init__(self, held: dict[str, Member]) -> None:
        self._held = held

    def __iter__(self) -> Iterator[Member]:
        return iter(self._held.values())

    def __len__(self) -> int:
        return len(self._held)

    def __contains__(self, it: object) -> bool:
        return any(it == held for held in self)

    def __getitem__(self, element_id: str) -> Member:
        return self._held[element_id]


class Graph:
    """The nodes and relationships that a result has sent so far."""

    def __init__(self) -> None:
        self._nodes: dict[str, Node] = {}
        self._relationships: dict[str, Relationship] = {}

    @property
    def nodes(self) -> EntitySet[Node]:
        """The nodes, also those that only a relationship names: these have no labels."""
        return EntitySet(self._nodes)

    @property
    def relationships(self) -> EntitySet[Relationship]:
        """The relationships."""
        return EntitySet(self._relationships)

    def node(self, id: int, element_id: Optional[str]) -> Node:
        """Returns the node of this id. If it wasn't sent yet, it has no labels and properties."""
        key = str(id) if element_id is None else element_id
        return self._nodes.setdefault(key, Node(self, id, key))

    def filled(self, it: values.Node, properties: dict[str, Any]) -> Node:
        """Returns the node of a structure."""
        found = self.node(it.id, it.element_id)
        found.labels = frozenset(it.labels)
        found.fill(properties)
        return found

    def joined(
        self,
        it: Union[values.Relationship, values.UnboundRelationship],
        properties: dict[str, Any],
        start: Node,
        end: Node,
    ) -> Relationship:
        """Returns the relationship of a structure, between two nodes."""
        key = str(it.id) if it.element_id is None else it.element_id
        found = self._relationships.setdefault(key, Relationship(self, it.id, key))
        found.type, found.nodes = it.type, (start, end)
        found.fill(properties)
        return found


class Entity(Mapping[str, Any]):
    """A node or a relationship: its properties by name. `element_id` is a text, `id` a number."""

    def __init__(self, graph: Graph, id: int, element_id: str) -> None:
        self.graph, self.id, self.element_id = graph, id, element_id
        self._properties: dict[str, Any] = {}

    def fill(self, properties: dict[str, Any]) -> None:
        """Takes the properties that the server has sent."""
        self._properties = properties

    def __getitem__(self, name: str) -> Any:
        # The official driver has None for a property that isn't there.
        return self._properties.get(name)

    def __contains__(self, name: object) -> bool:
        return name in self._properties

    def get(self, name: str, default: Any = None) -> Any:
        """Returns a property, `default` if there is none."""
        return self._properties.get(name, default)

    def __iter__(self) -> Iterator[str]:
        return iter(self._properties)

    def __len__(self) -> int:
        return len(self._properties)

    def __eq__(self, other: object) -> bool:
        return type(self) is type(other) and self.element_id == getattr(other, "element_id", None)

    def __hash__(self) -> int:
        return hash(self.element_id)


class Node(Entity):
    """A node, with its `labels`."""

    labels: frozenset[str] = frozenset()

    def __repr__(self) -> str:
        labels = sorted(self.labels)
        return f"<Node element_id={self.element_id!r} labels={labels} properties={dict(self)}>"


class Relationship(Entity):
    """A relationship of a `type`, from `start_node` to `end_node`."""

    type = ""
    nodes: tuple[Optional[Node], Optional[Node]] = (None, None)

    @property
    def start_node(self) -> Optional[Node]:
        """The node from which it goes."""
        return self.nodes[0]

    @property
    def end_node(self) -> Optional[Node]:
        """The node to which it goes."""
        return self.nodes[1]

    def __repr__(self) -> str:
        return (
            f"<Relationship element_id={self.element_id!r} nodes={self.nodes} "
            f"type={self.type!r} properties={dict(self)}>"
        )


class Path:
    """A walk over relationships. `nodes` has one more than `relationships`, which `len` counts."""

    def __init__(self, nodes: tuple[Node, ...], relationships: tuple[Relationship, ...]) -> None:
        self.nodes, self.relationships = nodes, relationships

    @property
    def start_node(self) -> Node:
        """The first node."""
        return self.nodes[0]

    @property
    def end_node(self) -> Node:
        """The last node."""
        return self.nodes[-1]

    @property
    def graph(self) -> Graph:
        """The graph to which its nodes belong."""
        return self.nodes[0].graph

    def __len__(self) -> int:
        return len(self.relationships)

    def __iter__(self) -> Iterator[Relationship]:
        return iter(self.relationships)

    def _ends(self) -> tuple[Any, Any]:
        return self.start_node, self.relationships

    def __eq__(self, other: object) -> bool:
        return isinstance(other, Path) and self._ends() == other._ends()

    def __hash__(self) -> int:
        return hash(self._ends())

    def __repr__(self) -> str:
        return f"<Path start={self.start_node!r} end={self.end_node!r} size={len(self)}>"
