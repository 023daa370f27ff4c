"""Least weights on a torus, over the configurations with given periods and no shear that obey a rule."""
import itertools
from typing import List, Optional, Sequence, Tuple

from .clauses import Clauses
from .lattice import Cell, moved
from .script import Configuration, Rule, Script
from .searching import product

MOST_FILLINGS = 65536


class Torus:
    """The cells of a fundamental box, read modulo the periods."""

    def __init__(self, script: Script, rule: Rule, periods: Sequence[int]) -> None:
        self.script = script
        self.rule = rule
        self.periods = list(periods)
        self.volume = product(periods) * len(script.nodes)
        self.numbered = Configuration("", periods, 0, list(range(self.volume)), len(script.nodes))
        self.cells: List[Cell] = list(self.numbered.cells())

    def least(self) -> Optional[Tuple[int, List[int]]]:
        """The least weight and the first filling that has it, by trying all fillings; None if none obeys the rule."""
        best: Optional[Tuple[int, List[int]]] = None
        for filling in itertools.product(*[self.script.allowed[cell[3]] for cell in self.cells]):
            weight = self.script.position_weight(filling)
            if best is None or weight < best[0]:
                configuration = Configuration("", self.periods, 0, list(filling), len(self.script.nodes))
                if configuration.first_false(self.rule) is None:
                    best = (weight, list(filling))
        return best

    def is_small(self) -> bool:
        """Whether all fillings can be tried."""
        return len(self.script.symbols) ** self.volume <= MOST_FILLINGS

    def clauses(self, below: int) -> Clauses:
        """The clauses that a configuration obeys the rule and, if `below` is at least 1, weighs less than this."""
        script, symbols = self.script, len(self.script.symbols)
        clauses = Clauses(self.volume * symbols)
        for number, cell in enumerate(self.cells):
            clauses.symbols_of(number, symbols, script.allowed[cell[3]])
        for cell in self.cells:
            signal = clauses.formula(self.rule.expansions[cell[3]], lambda read, symbol: self._input(
                self.numbered.symbol_at(moved(read, cell[:3])), symbol))
            clauses.add((signal,))
        if below:
            clauses.add((self._heavy(clauses, below) ^ 1,))
        return clauses

    def _input(self, number: int, symbol: int) -> int:
        """The literal that a cell has a symbol."""
        return 2 * (1 + number * len(self.script.symbols) + symbol)

    def _heavy(self, clauses: Clauses, below: int) -> int:
        """Adds, cell by cell, the gates that the first cells weigh at least 1, 2 and on; gives the last gate."""
        before: List[int] = []
        for number in range(self.volume):
            gates = []
            for least in range(1, below + 1):
                members = []
                for symbol, weight in enumerate(self.script.weights):
                    if weight >= least:
                        members.append(self._input(number, symbol))
                    elif number:
                        members.append(clauses.all_of((self._input(number, symbol), before[least - weight - 1])))
                gates.append(clauses.some_of(members))
            before = gates
        return before[-1]
