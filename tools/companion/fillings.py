"""Fillings in lexicographic order: those that break a rule, and those of a region that are admissible."""
from typing import Iterator, List, Optional, Sequence, Tuple

from .lattice import Cell, Offset, cells_of
from .script import Rule, Script
from .tables import any_of, digit_tables, digits, set_bits, table

Filling = Tuple[int, ...]


def breaking(script: Script, rule: Rule, node: int) -> Iterator[Filling]:
    """The fillings of what a rule reads at a node for which the rule is false, in lexicographic order."""
    reads, symbols = rule.reads[node], len(script.symbols)
    tables = digit_tables(symbols, len(reads))
    place = {cell: number for number, cell in enumerate(reads)}
    full = (1 << symbols ** len(reads)) - 1
    found = full ^ table(rule.expansions[node], lambda cell, symbol: tables[place[cell]][symbol], full)
    for cell, values in zip(reads, tables):
        found &= any_of([values[symbol] for symbol in script.allowed[cell[3]]])
    for number in set_bits(found, symbols ** len(reads)):
        yield tuple(digits(number, symbols, len(reads)))


class Region:
    """Positions in order, and the cells at which all that a rule reads lies in them."""

    def __init__(self, script: Script, rule: Rule, positions: Sequence[Offset]) -> None:
        self.script = script
        self.rule = rule
        self.cells: List[Cell] = cells_of(positions, len(script.nodes))
        self.number = {cell: number for number, cell in enumerate(self.cells)}
        self.settled: List[List[Tuple[int, List[int]]]] = [[] for _ in self.cells]
        self.constant = True
        for cell, reads in script.places(rule, positions):
            numbers = [self.number[read] for read in reads]
            if numbers:
                self.settled[max(self.number[cell], *numbers)].append((cell[3], numbers))
            else:
                self.constant = self.constant and rule.holds(cell[3], ())

    def fits(self, filling: Filling) -> bool:
        """Whether the rule is true at the places that fit only now: the last of a place's cell and of its reads is the last cell filled."""
        holds = self.rule.holds
        return all(holds(node, tuple([filling[number] for number in numbers])) for node, numbers in self.settled[len(filling) - 1])

    def admissible(self, most: int) -> Optional[List[Filling]]:
        """The admissible fillings in lexicographic order, or None if the first k cells have more than `most`, for some k."""
        found: List[Filling] = [()] if self.constant else []
        for cell in self.cells:
            allowed = self.script.allowed[cell[3]]
            found = [longer for filling in found for symbol in allowed for longer in [(*filling, symbol)] if self.fits(longer)]
            if len(found) > most:
                return None
        return found
