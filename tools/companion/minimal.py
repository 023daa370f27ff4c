"""Minimal forbidden patterns: no cell of them can be left out, and together they forbid what a rule forbids."""
from typing import List, Optional

from .fillings import Filling, breaking
from .script import Rule, Script
from .tables import any_of, digit_tables

Partial = List[Optional[int]]
"""For each cell that is read, a symbol, or None if the cell is left out."""


class Patterns:
    """The fillings of what a rule reads at a node, as bits of tables."""

    def __init__(self, script: Script, rule: Rule, node: int) -> None:
        reads, symbols = rule.reads[node], len(script.symbols)
        self.breaking: List[Filling] = list(breaking(script, rule, node))
        self.tables = digit_tables(symbols, len(reads))
        allowed = (1 << symbols ** len(reads)) - 1
        for cell, values in zip(reads, self.tables):
            allowed &= any_of([values[symbol] for symbol in script.allowed[cell[3]]])
        self.allowed = allowed
        numbers = [self.number(filling, symbols) for filling in self.breaking]
        self.holding = allowed & ~any_of([1 << number for number in numbers])

    @staticmethod
    def number(filling: Filling, symbols: int) -> int:
        """The number of a filling in lexicographic order."""
        number = 0
        for symbol in filling:
            number = number * symbols + symbol
        return number

    def agreeing(self, partial: Partial) -> int:
        """The fillings that agree with a pattern."""
        cases = self.allowed
        for values, symbol in zip(self.tables, partial):
            if symbol is not None:
                cases &= values[symbol]
        return cases

    def shortened(self, filling: Filling) -> Partial:
        """A breaking filling from which cells are left out in order, as long as all fillings that agree with the rest break the rule."""
        partial: Partial = list(filling)
        for place in range(len(partial)):
            kept, partial[place] = partial[place], None
            if self.agreeing(partial) & self.holding:
                partial[place] = kept
        return partial


def minimal(script: Script, rule: Rule, node: int) -> List[Partial]:
    """The minimal patterns that a rule forbids at a node.

    Breaking fillings are taken in lexicographic order; each that agrees with no earlier pattern gives a pattern.
    """
    patterns = Patterns(script, rule, node)
    found: List[Partial] = []
    for filling in patterns.breaking:
        if not any(agrees(filling, partial) for partial in found):
            found.append(patterns.shortened(filling))
    return found


def agrees(filling: Filling, partial: Partial) -> bool:
    """Whether a filling has each symbol that a pattern keeps."""
    return all(symbol is None or symbol == here for here, symbol in zip(filling, partial))
