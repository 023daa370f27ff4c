"""Formulas, and their expansions at a node, which have no variables.

A formula is a first-order formula over the cells of the lattice, as in Salo and Törmä (2023). Its expansion at a cell has no variables:
its leaves say that a cell has a symbol. docs/guide.md has the language, docs/certificate.md the expansions.
"""
from typing import Callable, Dict, Iterator, List, NamedTuple, Optional, Sequence, Set, Tuple, Union

from .lattice import Cell, Topology
from .tokens import Token


class Term(NamedTuple):
    """A variable and the labels of its moves."""

    variable: Token
    moves: Tuple[Token, ...]


class IsSymbol(NamedTuple):
    """`t=s`, or `t!=s`."""

    term: Term
    symbol: Token
    equal: bool


class SameSymbol(NamedTuple):
    """`t=u`, or `t!=u`."""

    left: Term
    right: Term
    equal: bool


class Adjacent(NamedTuple):
    """`t~u`."""

    left: Term
    right: Term


class SameCell(NamedTuple):
    """`t@u`."""

    left: Term
    right: Term


class OnNode(NamedTuple):
    """`t:a`."""

    term: Term
    node: Token


class Not(NamedTuple):
    """`!f`."""

    part: "Formula"


class And(NamedTuple):
    """`f & g & ..`."""

    parts: List["Formula"]


class Or(NamedTuple):
    """`f | g | ..`."""

    parts: List["Formula"]


class Implies(NamedTuple):
    """`f -> g`."""

    left: "Formula"
    right: "Formula"


class Iff(NamedTuple):
    """`f <-> g`."""

    left: "Formula"
    right: "Formula"


class Quantified(NamedTuple):
    """`Ap[o1 ..] f`, or with E. Each ball is a variable with a radius."""

    every: bool
    variable: Token
    balls: List[Tuple[Token, Token]]
    body: "Formula"


Formula = Union[IsSymbol, SameSymbol, Adjacent, SameCell, OnNode, Not, And, Or, Implies, Iff, Quantified]


class Leaf(NamedTuple):
    """The cell has the symbol with this number."""

    cell: Cell
    symbol: int


class Opposite(NamedTuple):
    """The part doesn't hold."""

    part: "Expanded"


class AllOf(NamedTuple):
    """All parts hold. Without parts it is always true."""

    parts: List["Expanded"]


class SomeOf(NamedTuple):
    """Some part holds. Without parts it is always false."""

    parts: List["Expanded"]


class Exactly(NamedTuple):
    """Both parts hold, or neither."""

    left: "Expanded"
    right: "Expanded"


Expanded = Union[Leaf, Opposite, AllOf, SomeOf, Exactly]


class TooLarge(Exception):
    """An expansion that passes its limit."""


class Expansion:
    """Writes formulas without variables over a topology and an alphabet, up to a number of parts."""

    def __init__(self, topology: Topology, symbols: Dict[str, int], nodes: Dict[str, int], most: int) -> None:
        self.topology = topology
        self.symbols = symbols
        self.nodes = nodes
        self.most = most
        self._written = 0

    def at(self, formula: Formula, cell: Cell) -> Expanded:
        """The expansion of a formula at a cell."""
        self._written = 0
        return self._of(formula, {"o": cell})

    def _count(self, more: int) -> None:
        self._written += more
        if self._written > self.most:
            raise TooLarge

    def _truth(self, holds: bool) -> Expanded:
        self._count(1)
        return AllOf([]) if holds else SomeOf([])

    def _cell(self, term: Term, scope: Dict[str, Cell]) -> Optional[Cell]:
        """The cell at the end of a term's moves, or None if a move is missing."""
        cell: Optional[Cell] = scope[term.variable.text]
        for label in term.moves:
            if cell is None:
                return None
            cell = self.topology.move(cell, label.text)
        return cell

    def _of(self, formula: Formula, scope: Dict[str, Cell]) -> Expanded:
        if isinstance(formula, Not):
            self._count(1)
            return Opposite(self._of(formula.part, scope))
        if isinstance(formula, (And, Or)):
            self._count(1)
            parts = [self._of(part, scope) for part in formula.parts]
            return AllOf(parts) if isinstance(formula, And) else SomeOf(parts)
        if isinstance(formula, Implies):
            self._count(2)
            return SomeOf([Opposite(self._of(formula.left, scope)), self._of(formula.right, scope)])
        if isinstance(formula, Iff):
            self._count(1)
            return Exactly(self._of(formula.left, scope), self._of(formula.right, scope))
        if isinstance(formula, Quantified):
            return self._quantified(formula, scope)
        return self._atom(formula, scope)

    def _quantified(self, formula: Quantified, scope: Dict[str, Cell]) -> Expanded:
        self._count(1)
        cells = self.topology.balls((scope[variable.text], radius.value()) for variable, radius in formula.balls)
        parts = [self._of(formula.body, {**scope, formula.variable.text: cell}) for cell in cells]
        return AllOf(parts) if formula.every else SomeOf(parts)

    def _atom(self, formula: Formula, scope: Dict[str, Cell]) -> Expanded:
        if isinstance(formula, (IsSymbol, OnNode)):
            cell = self._cell(formula.term, scope)
            if isinstance(formula, OnNode):
                return self._truth(cell is not None and cell[3] == self.nodes[formula.node.text])
            if cell is None:
                return self._truth(False)
            self._count(1 if formula.equal else 2)
            leaf = Leaf(cell, self.symbols[formula.symbol.text])
            return leaf if formula.equal else Opposite(leaf)
        left, right = self._cell(formula.left, scope), self._cell(formula.right, scope)
        if left is None or right is None:
            return self._truth(False)
        if isinstance(formula, Adjacent):
            return self._truth(self.topology.are_adjacent(left, right))
        if isinstance(formula, SameCell):
            return self._truth(left == right)
        self._count(1 + 3 * len(self.symbols) + (0 if formula.equal else 1))
        same = SomeOf([AllOf([Leaf(left, symbol), Leaf(right, symbol)]) for symbol in self.symbols.values()])
        return same if formula.equal else Opposite(same)


def parts_of(expanded: Expanded) -> Sequence[Expanded]:
    """The parts of an expansion, one step down."""
    if isinstance(expanded, Leaf):
        return ()
    if isinstance(expanded, Opposite):
        return (expanded.part,)
    if isinstance(expanded, Exactly):
        return (expanded.left, expanded.right)
    return expanded.parts


def all_parts(expanded: Expanded) -> Iterator[Expanded]:
    """The expansion and all its parts, however deep."""
    left = [expanded]
    while left:
        part = left.pop()
        yield part
        left.extend(parts_of(part))


def size(expanded: Expanded) -> int:
    """How many parts an expansion has, itself among them."""
    return sum(1 for _ in all_parts(expanded))


def cells_read(expanded: Expanded) -> Set[Cell]:
    """The cells of the leaves."""
    return {part.cell for part in all_parts(expanded) if isinstance(part, Leaf)}


def gate_clauses(expanded: Expanded) -> int:
    """How many clauses the gates of an expansion have."""
    count = 0
    for part in all_parts(expanded):
        if isinstance(part, (AllOf, SomeOf)):
            count += len(part.parts) + 1
        elif isinstance(part, Exactly):
            count += 4
    return count


def truth(expanded: Expanded, symbol_at: Callable[[Cell], int]) -> bool:
    """Whether an expansion holds, if each cell has the symbol that the call gives."""
    if isinstance(expanded, Leaf):
        return symbol_at(expanded.cell) == expanded.symbol
    if isinstance(expanded, Opposite):
        return not truth(expanded.part, symbol_at)
    if isinstance(expanded, Exactly):
        return truth(expanded.left, symbol_at) == truth(expanded.right, symbol_at)
    if isinstance(expanded, AllOf):
        return all(truth(part, symbol_at) for part in expanded.parts)
    return any(truth(part, symbol_at) for part in expanded.parts)
