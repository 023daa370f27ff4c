"""Cells, boxes, topologies and balls.

A cell is a tuple (z, y, x, node), and an offset a tuple (z, y, x); coordinates past the dimension are 0. Written so, tuples compare
as cells do in cell order: by z, then y, then x, then node.
"""
import itertools
from typing import Dict, Iterable, List, NamedTuple, Optional, Sequence, Tuple

Offset = Tuple[int, int, int]
Cell = Tuple[int, int, int, int]
ORIGIN: Offset = (0, 0, 0)


class Edge(NamedTuple):
    """An edge of a topology: it leads from the node `source` of any position to the node `target` of that position moved by `by`."""

    label: str
    source: int
    by: Offset
    target: int


def offset(entries: Sequence[int]) -> Offset:
    """The offset with these entries, x first."""
    x, y, z = [*entries, 0, 0][:3]
    return (z, y, x)


def entries(position: Sequence[int], dim: int) -> List[int]:
    """The coordinates of a position or a cell, x first."""
    return [position[2], position[1], position[0]][:dim]


def moved(cell: Cell, by: Offset) -> Cell:
    """A cell moved by an offset."""
    return (cell[0] + by[0], cell[1] + by[1], cell[2] + by[2], cell[3])


def opposite(by: Offset) -> Offset:
    """The opposite of an offset."""
    return (-by[0], -by[1], -by[2])


def box(dim: int, radius: int) -> List[Offset]:
    """The positions of the box B(radius), in order."""
    ranges = [range(-radius, radius + 1) if axis < dim else range(1) for axis in (2, 1, 0)]
    return list(itertools.product(*ranges))


def cells_of(positions: Iterable[Offset], nodes: int) -> List[Cell]:
    """All cells of these positions, in cell order where the positions are in order."""
    return [(*position, node) for position in positions for node in range(nodes)]


def distance(cell: Cell) -> int:
    """The greatest distance of a cell from the origin along an axis."""
    return max(abs(cell[0]), abs(cell[1]), abs(cell[2]))


class Topology:
    """The edges of a lattice, and what follows from them: moves, adjacency and balls."""

    def __init__(self, dim: int, nodes: int, edges: Sequence[Edge]) -> None:
        self.dim = dim
        self.nodes = nodes
        self.edges = list(edges)
        self.labels = {edge.label for edge in edges}
        self._moves = {(edge.label, edge.source): edge for edge in edges}
        beside: List[set] = [set() for _ in range(nodes)]
        for edge in edges:
            beside[edge.source].add((edge.by, edge.target))
            beside[edge.target].add((opposite(edge.by), edge.source))
        self._beside = [sorted(cells) for cells in beside]
        self._balls: Dict[Tuple[int, int], List[Cell]] = {}

    def move(self, cell: Cell, label: str) -> Optional[Cell]:
        """Where the move leads from a cell, or None if it is missing there."""
        edge = self._moves.get((label, cell[3]))
        if edge is None:
            return None
        return (cell[0] + edge.by[0], cell[1] + edge.by[1], cell[2] + edge.by[2], edge.target)

    def neighbours(self, cell: Cell) -> List[Cell]:
        """The cells that are joined to this one by an edge, in either direction."""
        return [(cell[0] + by[0], cell[1] + by[1], cell[2] + by[2], node) for by, node in self._beside[cell[3]]]

    def are_adjacent(self, one: Cell, other: Cell) -> bool:
        """Whether some edge joins the two cells, in either direction."""
        by = (other[0] - one[0], other[1] - one[1], other[2] - one[2])
        return (by, other[3]) in self._beside[one[3]]

    def _ball_at(self, node: int, radius: int) -> List[Cell]:
        """The cells at a distance of at most the radius from a node of the origin."""
        if (node, radius) not in self._balls:
            found = front = {(0, 0, 0, node)}
            for _ in range(radius):
                front = {cell for reached in front for cell in self.neighbours(reached)} - found
                found = found | front
            self._balls[node, radius] = sorted(found)
        return self._balls[node, radius]

    def balls(self, centres: Iterable[Tuple[Cell, int]]) -> List[Cell]:
        """The union of balls round these cells with these radii, in cell order."""
        union = {moved(cell, (z, y, x)) for (z, y, x, node), radius in centres for cell in self._ball_at(node, radius)}
        return sorted(union)


def _both(label: str, back: str, by: Offset) -> List[Edge]:
    return [Edge(label, 0, by, 0), Edge(back, 0, opposite(by), 0)]


_SQUARE = _both("up", "dn", (0, 1, 0)) + _both("rt", "lt", (0, 0, 1))
_DIAGONAL = _both("ne", "sw", (0, 1, 1))
_HEX = [edge for label, by in (("a", (0, 0, 0)), ("b", (0, 0, -1)), ("c", (0, -1, 0)))
        for edge in (Edge(label, 0, by, 1), Edge(label, 1, opposite(by), 0))]

BUILT_IN: Dict[str, Tuple[int, int, List[Edge]]] = {
    "line": (1, 1, _both("rt", "lt", (0, 0, 1))),
    "square": (2, 1, _SQUARE),
    "king": (2, 1, _SQUARE + _DIAGONAL + _both("nw", "se", (0, 1, -1))),
    "triangle": (2, 1, _SQUARE + _DIAGONAL),
    "hex": (2, 2, _HEX),
    "cube": (3, 1, _SQUARE + _both("fw", "bk", (1, 0, 0))),
}
"""The built-in topologies: the dimension, the number of nodes and the edges (docs/guide.md, "Built-in topologies")."""

DEFAULT = {1: "line", 2: "square", 3: "cube"}
"""The topology of a script that names none, by its dimension."""
