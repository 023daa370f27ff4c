"""Transfer graphs of rules over strips, and the check of least densities.

docs/strips.md defines the graph (a transfer matrix, as in Lind and Marcus 1995), docs/certificate.md the numbers of its states.
"""
import itertools
from fractions import Fraction
from typing import Dict, Iterator, List, Optional, Sequence, Tuple

from .lattice import Cell, moved
from .script import Configuration, Rule, Script
from .tables import any_of, digit_tables, digits, set_bits, table

MOST_STATES = 4096
MOST_WINDOWS = 131072


class Strip:
    """The transfer graph of a rule over the strip with these periods in the axes after the first."""

    def __init__(self, script: Script, rule: Rule, periods: Sequence[int]) -> None:
        self.script = script
        self.rule = rule
        self.across = (*periods, 1, 1)[:2]
        xs = [cell[2] for reads in rule.reads for cell in reads] + [0]
        self.lowest = min(xs)
        self.width = max(1, max(xs) - self.lowest)
        self.slice: List[Tuple[int, int, int]] = list(
            itertools.product(range(self.across[1]), range(self.across[0]), range(len(script.nodes))))
        self.positions = self.across[0] * self.across[1]
        self.symbols = len(script.symbols)

    def state_count(self) -> int:
        """How many states the graph has."""
        return self.symbols ** (len(self.slice) * self.width)

    def window_count(self) -> int:
        """How many windows there are: states with one slice more."""
        return self.symbols ** (len(self.slice) * (self.width + 1))

    def slice_count(self) -> int:
        """How many slices there are."""
        return self.symbols ** len(self.slice)

    def slice_weights(self) -> List[int]:
        """What each slice weighs."""
        fillings = itertools.product(range(self.symbols), repeat=len(self.slice))
        return [self.script.position_weight(filling) for filling in fillings]

    def _edge_bits(self) -> int:
        """A bit for each window that is an edge."""
        cells, total = len(self.slice), self.window_count()
        full = (1 << total) - 1
        tables = digit_tables(self.symbols, cells * (self.width + 1))
        place_of = {cell: place for place, cell in enumerate(self.slice)}

        def leaf(cell: Cell, symbol: int) -> int:
            """The windows that have a symbol at a cell."""
            z, y, x, node = cell
            place = place_of[z % self.across[1], y % self.across[0], node]
            return tables[x * cells + place][symbol]

        found = full
        for digit, values in enumerate(tables):
            allowed = self.script.allowed[self.slice[digit % cells][2]]
            if len(allowed) < self.symbols:
                found &= any_of([values[symbol] for symbol in allowed])
        for z, y, node in self.slice:
            by = (z, y, -self.lowest)
            found &= table(self.rule.expansions[node], lambda cell, symbol: leaf(moved(cell, by), symbol), full)
        return found

    def edges(self) -> Iterator[Tuple[int, int, int]]:
        """The edges, each as its first state, its last state and its slice."""
        slices, states = self.slice_count(), self.state_count()
        for window in set_bits(self._edge_bits(), self.window_count()):
            yield window // slices, window % states, window % slices

    def configuration(self, cycle: Sequence[int]) -> Configuration:
        """The configuration of a closed walk: at each x the last slice of the state there."""
        slices, nodes = self.slice_count(), len(self.script.nodes)
        columns = [digits(state % slices, self.symbols, len(self.slice)) for state in cycle]
        rows = len(self.slice) // nodes
        symbols = [column[row * nodes + node] for row in range(rows) for column in columns for node in range(nodes)]
        return Configuration("cycle", [len(cycle), *self.across], 0, symbols, nodes)


def cycle_fault(strip: Strip, edges: Dict[Tuple[int, int], int], density: Fraction,
                cycle: Sequence[int]) -> Tuple[Optional[str], Fraction]:
    """Why a list of states is no closed walk of this density, or None if it is one; and its weight over its length."""
    total = 0
    for place, state in enumerate(cycle):
        following = cycle[(place + 1) % len(cycle)]
        if (state, following) not in edges:
            return f"the cycle goes from {state} to {following}, but no edge does", Fraction(0)
        total += edges[state, following]
    mean = Fraction(total, len(cycle))
    if mean / strip.positions != density:
        return f"the cycle has the density {mean / strip.positions}, not {density}", mean
    return None, mean


def density_fault(strip: Strip, over: int, under: int, cycle: Sequence[int], potentials: Sequence[int]) -> Optional[str]:
    """Why an answer DENSITY is wrong for this strip, or None if it is right."""
    density = Fraction(over, under)
    if (density.numerator, density.denominator) != (over, under):
        return f"{over}/{under} is not in lowest terms"
    if len(potentials) != strip.state_count():
        return f"there are {len(potentials)} potentials for {strip.state_count()} states"
    weights = strip.slice_weights()
    edges = {(source, target): weights[slice_] for source, target, slice_ in strip.edges()}
    why, mean = cycle_fault(strip, edges, density, cycle)
    if why:
        return why
    for (source, target), weight in edges.items():
        rise = potentials[target] - potentials[source]
        most = mean.denominator * weight - mean.numerator
        if rise > most:
            return f"potential {target} breaks the edge {source} -> {target} by {rise - most}"
    return None


def ranks_fault(strip: Strip, ranks: Sequence[int]) -> Optional[str]:
    """Why an answer EMPTY is wrong for this strip, or None if it is right."""
    if len(ranks) != strip.state_count():
        return f"there are {len(ranks)} ranks for {strip.state_count()} states"
    for source, target, _ in strip.edges():
        if ranks[target] >= ranks[source]:
            return f"the rank doesn't fall along the edge {source} -> {target}: {ranks[source]} to {ranks[target]}"
    return None
