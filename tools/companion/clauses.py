"""Clauses, and the gates of formulas and automata.

The clauses and their order are those of docs/certificate.md, "The clauses of a box"; gates are written as in Tseitin (1968).
A literal is 2·v for the variable v and 2·v + 1 for its opposite, so that `literal ^ 1` is the opposite of a literal.
"""
from array import array
from typing import Callable, Dict, Iterable, List, Sequence, Tuple

from .formulas import AllOf, Exactly, Expanded, Leaf, Opposite
from .lattice import Cell, moved
from .script import Automaton, Cases

Literal = int
Value = List[Literal]
"""The value of an automaton at a cell: a literal for each symbol."""
Inputs = Callable[[Cell, int], Literal]
"""The literal that says that a cell has a symbol."""


class Clauses:
    """A list of clauses, numbered from 1, in flat arrays. The clause n has the literals from starts[n - 1] to starts[n]."""

    def __init__(self, variables: int) -> None:
        self.variables = variables
        self.literals = array("l")
        self.starts = array("l", [0])

    def __len__(self) -> int:
        return len(self.starts) - 1

    def add(self, clause: Iterable[Literal]) -> None:
        """Appends a clause."""
        self.literals.extend(clause)
        self.starts.append(len(self.literals))

    def clause(self, number: int) -> Sequence[Literal]:
        """The literals of a clause."""
        return self.literals[self.starts[number - 1]:self.starts[number]]

    def new(self) -> Literal:
        """A new variable, as a literal."""
        self.variables += 1
        return 2 * self.variables

    def symbols_of(self, number: int, symbols: int, allowed: Sequence[int]) -> None:
        """Adds the clauses that the cell with this number has exactly one symbol, and an allowed one. Its variables begin at
        1 + number · symbols."""
        inputs = [2 * (1 + number * symbols + symbol) for symbol in range(symbols)]
        self.add(inputs)
        for symbol, one in enumerate(inputs):
            for other in inputs[symbol + 1:]:
                self.add((one ^ 1, other ^ 1))
        for symbol, one in enumerate(inputs):
            if symbol not in allowed:
                self.add((one ^ 1,))

    def all_of(self, parts: Sequence[Literal]) -> Literal:
        """A new gate that is true exactly where all parts are."""
        gate = self.new()
        for part in parts:
            self.add((gate ^ 1, part))
        self.add([gate, *[part ^ 1 for part in parts]])
        return gate

    def some_of(self, parts: Sequence[Literal]) -> Literal:
        """A new gate that is true exactly where some part is."""
        gate = self.new()
        for part in parts:
            self.add((gate, part ^ 1))
        self.add([gate ^ 1, *parts])
        return gate

    def exactly(self, left: Literal, right: Literal) -> Literal:
        """A new gate that is true exactly where both parts are, or neither."""
        gate = self.new()
        self.add((gate ^ 1, left ^ 1, right))
        self.add((gate ^ 1, left, right ^ 1))
        self.add((gate, left, right))
        self.add((gate, left ^ 1, right ^ 1))
        return gate

    def formula(self, expanded: Expanded, inputs: Inputs) -> Literal:
        """Adds the gates of an expansion, those of its parts first, and gives its signal."""
        if isinstance(expanded, Leaf):
            return inputs(expanded.cell, expanded.symbol)
        if isinstance(expanded, Opposite):
            return self.formula(expanded.part, inputs) ^ 1
        if isinstance(expanded, Exactly):
            left = self.formula(expanded.left, inputs)
            return self.exactly(left, self.formula(expanded.right, inputs))
        parts = [self.formula(part, inputs) for part in expanded.parts]
        return self.all_of(parts) if isinstance(expanded, AllOf) else self.some_of(parts)

    def automaton(self, automaton: Automaton, node: int, symbols: int, inputs: Inputs) -> Value:
        """Adds the gates of an automaton's value at a node of the origin, and gives its literals."""
        if isinstance(automaton, Cases):
            return self._cases(automaton, node, symbols, inputs)
        inner: Dict[Cell, Value] = {}
        for cell in automaton.outer.reads[node]:
            inner[cell] = self.automaton(automaton.inner, cell[3], symbols, _moved_inputs(inputs, cell))
        return self.automaton(automaton.outer, node, symbols, lambda cell, symbol: inner[cell][symbol])

    def _cases(self, automaton: Cases, node: int, symbols: int, inputs: Inputs) -> Value:
        signals = [self.formula(rule.expansions[node], inputs) for rule, _ in automaton.cases]
        firsts = []
        for number, signal in enumerate(signals):
            firsts.append(self.all_of([signal, *[earlier ^ 1 for earlier in signals[:number]]]))
        none = self.all_of([signal ^ 1 for signal in signals])
        value = []
        for symbol in range(symbols):
            giving = [gate for gate, (_, given) in zip(firsts, automaton.cases) if given == symbol]
            value.append(self.some_of(giving + ([none] if automaton.otherwise == symbol else [])))
        return value


def _moved_inputs(inputs: Inputs, by: Cell) -> Inputs:
    """The inputs as seen from another position."""
    return lambda cell, symbol: inputs(moved(cell, by[:3]), symbol)


class Template:
    """The clauses of a rule's gates at one node, written once. From place to place, all variables of inputs are shifted by one number, and all
    variables of gates by another."""

    MIDDLE = 1 << 26
    """Inputs at the origin are numbered from this variable on, in both directions, since some would lie below 0. Gates are numbered from twice this
    variable on."""

    def __init__(self, expanded: Expanded, first_input: Callable[[Cell], int]) -> None:
        """`first_input` gives the variable that a cell has the symbol 0, for the rule at the origin; it may be negative."""
        written = Clauses(2 * self.MIDDLE)
        signal = written.formula(expanded, lambda cell, symbol: 2 * (self.MIDDLE + first_input(cell) + symbol))
        written.add((signal,))
        self.gates = written.variables - 2 * self.MIDDLE
        self.codes: List[Tuple[int, int]] = []
        for literal in written.literals:
            is_gate = literal >> 1 > 2 * self.MIDDLE
            self.codes.append((1, literal - 4 * self.MIDDLE) if is_gate else (0, literal - 2 * self.MIDDLE))
        self.starts = written.starts[1:]

    def write(self, clauses: Clauses, inputs: int) -> None:
        """Appends the clauses at a place whose input variables exceed those at the origin by `inputs`."""
        amounts = (2 * inputs, 2 * clauses.variables)
        begin = len(clauses.literals)
        clauses.literals.extend([amounts[kind] + code for kind, code in self.codes])
        clauses.starts.extend([begin + start for start in self.starts])
        clauses.variables += self.gates
