"""An accepted script, or its commands so far: what its names stand for."""
import itertools
from typing import Callable, Dict, Iterator, List, NamedTuple, Optional, Sequence, Tuple, Union

from .formulas import Expanded, Formula, cells_read, gate_clauses, size, truth
from .lattice import BUILT_IN, DEFAULT, Cell, Offset, Topology, distance, moved

Node = int
Symbol = int


class Rule:
    """A rule: its formula, its expansions at the nodes of the origin, and the cells that it reads there, in cell order."""

    def __init__(self, name: str, formula: Formula, expansions: List[Expanded]) -> None:
        self.name = name
        self.formula = formula
        self.expansions = expansions
        self.reads: List[List[Cell]] = [sorted(cells_read(expanded)) for expanded in expansions]
        self._known: List[Dict[Tuple[Symbol, ...], bool]] = [{} for _ in expansions]

    def reach(self) -> int:
        """How far away along an axis the rule reads, at any node."""
        return max((distance(cell) for reads in self.reads for cell in reads), default=0)

    def sizes(self) -> List[int]:
        """How many parts the expansion has at each node."""
        return [size(expanded) for expanded in self.expansions]

    def clause_count(self) -> int:
        """The clauses of the gates at all nodes of one position."""
        return sum(gate_clauses(expanded) for expanded in self.expansions)

    def holds(self, node: Node, symbols: Tuple[Symbol, ...]) -> bool:
        """Whether the rule is true at a node, if the cells that it reads there have these symbols, in cell order."""
        known = self._known[node]
        if symbols not in known:
            at = dict(zip(self.reads[node], symbols))
            known[symbols] = truth(self.expansions[node], at.__getitem__)
        return known[symbols]

    def holds_at(self, cell: Cell, symbol_at: Callable[[Cell], Symbol]) -> bool:
        """Whether the rule is true at a cell of a configuration."""
        by = cell[:3]
        return self.holds(cell[3], tuple([symbol_at(moved(read, by)) for read in self.reads[cell[3]]]))


class Cases:
    """An automaton by cases: the symbol of the first case whose rule holds, otherwise the last symbol."""

    def __init__(self, name: str, cases: List[Tuple[Rule, Symbol]], otherwise: Symbol, nodes: int) -> None:
        self.name = name
        self.cases = cases
        self.otherwise = otherwise
        self.depth = 0
        self.reads = [sorted({cell for rule, _ in cases for cell in rule.reads[node]}) for node in range(nodes)]
        self.sizes = [1 + sum(1 + rule.sizes()[node] for rule, _ in cases) for node in range(nodes)]

    def value(self, cell: Cell, symbol_at: Callable[[Cell], Symbol]) -> Symbol:
        """The symbol that the automaton gives to a cell."""
        for rule, symbol in self.cases:
            if rule.holds_at(cell, symbol_at):
                return symbol
        return self.otherwise

    def clauses(self, node: Node, symbols: int) -> int:
        """The clauses of the gates of the value at a node."""
        formulas = sum(gate_clauses(rule.expansions[node]) for rule, _ in self.cases)
        firsts = sum(number + 2 for number in range(len(self.cases)))
        return formulas + firsts + (len(self.cases) + 1) + (len(self.cases) + 1 + symbols)


class Composition:
    """The automaton that first applies the inner one, then the outer one."""

    def __init__(self, name: str, outer: "Automaton", inner: "Automaton") -> None:
        self.name = name
        self.outer = outer
        self.inner = inner
        self.depth = 1 + max(outer.depth, inner.depth)
        self.sizes = [outer.sizes[node] + inner.sizes[node] + sum(inner.sizes[read[3]] for read in reads)
                      for node, reads in enumerate(outer.reads)]
        self._reads: Optional[List[List[Cell]]] = None

    @property
    def reads(self) -> List[List[Cell]]:
        """The cells that the composition reads at each node, in cell order. They are computed when first needed."""
        if self._reads is None:
            inner = self.inner.reads
            self._reads = [sorted({moved(cell, read[:3]) for read in reads for cell in inner[read[3]]}) for reads in self.outer.reads]
        return self._reads

    def value(self, cell: Cell, symbol_at: Callable[[Cell], Symbol]) -> Symbol:
        """The symbol that the automaton gives to a cell."""
        return self.outer.value(cell, lambda read: self.inner.value(read, symbol_at))

    def clauses(self, node: Node, symbols: int) -> int:
        """The clauses of the gates of the value at a node."""
        inner = sum(self.inner.clauses(read[3], symbols) for read in self.outer.reads[node])
        return self.outer.clauses(node, symbols) + inner


Automaton = Union[Cases, Composition]


def automaton_reach(automaton: Automaton) -> int:
    """How far away along an axis an automaton reads, at any node."""
    return max((distance(cell) for reads in automaton.reads for cell in reads), default=0)


class Configuration:
    """A periodic configuration: periods along x, y and z, a shear, and the symbols of a fundamental box in cell order."""

    def __init__(self, name: str, periods: Sequence[int], shear: int, symbols: List[Symbol], nodes: int) -> None:
        self.name = name
        x, y, z = [*periods, 1, 1][:3]
        self.periods = (x, y, z)
        self.shear = shear
        self.symbols = symbols
        self.nodes = nodes

    def symbol_at(self, cell: Cell) -> Symbol:
        """The symbol of any cell of Z^d."""
        p1, p2, p3 = self.periods
        z, y, x, node = cell
        rows, y = divmod(y, p2)
        x = (x - self.shear * rows) % p1
        return self.symbols[(((z % p3) * p2 + y) * p1 + x) * self.nodes + node]

    def cells(self) -> Iterator[Cell]:
        """The cells of the fundamental box, in cell order."""
        p1, p2, p3 = self.periods
        return itertools.product(range(p3), range(p2), range(p1), range(self.nodes))

    def first_false(self, rule: Rule) -> Optional[Cell]:
        """The first cell of the fundamental box at which a rule is false."""
        symbol_at = self.symbol_at
        for cell in self.cells():
            if not rule.holds_at(cell, symbol_at):
                return cell
        return None


class Limits(NamedTuple):
    """The script's limits: the greatest radius, period and number of pivots."""

    radius: int = 4
    period: int = 4
    pivots: int = 10000


Named = Union[Rule, Cases, Composition, Configuration]


class Script:
    """What the header says and what the names stand for. Each field begins with its default."""

    def __init__(self) -> None:
        self.dim = 2
        self.nodes: Dict[str, Node] = {"0": 0}
        self.symbols: Dict[str, Symbol] = {"0": 0, "1": 1}
        self.allowed: List[List[Symbol]] = []
        self.weights: List[int] = []
        self.limits = Limits()
        self.named: Dict[str, Named] = {}
        self.queries: List = []
        self._topology: Optional[Topology] = None

    @property
    def topology(self) -> Topology:
        """The topology; a built-in one if the script names none."""
        if self._topology is None:
            dim, nodes, edges = BUILT_IN[DEFAULT[self.dim]]
            self._topology = Topology(dim, nodes, edges)
        return self._topology

    @topology.setter
    def topology(self, given: Topology) -> None:
        self._topology = given

    def end_header(self) -> None:
        """Fills in what depends on earlier commands of the header."""
        if not self.allowed:
            self.allowed = [list(self.symbols.values()) for _ in self.nodes]
        if not self.weights:
            self.weights = list(self.symbols.values())

    def allows(self, node: Node, symbol: Symbol) -> bool:
        """Whether a node may have a symbol."""
        return symbol in self.allowed[node]

    def symbol_names(self) -> List[str]:
        """The names of the symbols, by their numbers."""
        return list(self.symbols)

    def node_names(self) -> List[str]:
        """The names of the nodes, by their numbers."""
        return list(self.nodes)

    def position_weight(self, symbols: Sequence[Symbol]) -> int:
        """What cells with these symbols weigh."""
        return sum(self.weights[symbol] for symbol in symbols)

    def places(self, rule: Rule, positions: Sequence[Offset]) -> Iterator[Tuple[Cell, List[Cell]]]:
        """The cells of these positions at which all that the rule reads lies in the positions, in order, with what it reads there."""
        inside = set(positions)
        for position in positions:
            for node, reads in enumerate(rule.reads):
                there = [moved(read, position) for read in reads]
                if all(cell[:3] in inside for cell in there):
                    yield (*position, node), there
