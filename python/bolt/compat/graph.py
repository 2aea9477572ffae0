"""Nodes, relationships and paths under their official names."""
from ..graph import Entity, Graph, Node, Path, Relationship

__all__ = ["Entity", "Graph", "Node", "Path", "Relationship"]
