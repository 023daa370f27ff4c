"""`%least X [p1 p2 p3]`: the least weight on a torus."""
from typing import Iterator, List, Optional

from ..answers import Answer, Least, Nothing
from ..boxes import MOST_CLAUSES, Question
from ..boxes import Nothing as NoGoal
from ..faults import Fault
from ..meaning import over, shape
from ..refutations import Refutation, Step
from ..script import Configuration
from ..searching import product
from ..torus import Torus
from .base import WRONG_ANSWER, Picture, Query, share

MOST_CELLS = 65536


class LeastWeight(Query):
    """`%least X [p1 p2 p3]`."""

    word = "least"
    arguments = ("rule", "list")

    def torus(self) -> Torus:
        """The torus of the query."""
        return Torus(self.script, self.argument(0), self.argument(1))

    def volume(self) -> int:
        """The number of positions of a fundamental box."""
        return product(self.argument(1))

    def most_clauses(self) -> int:
        """How many clauses each of the lists has at most."""
        script = self.script
        cells = self.volume() * len(script.nodes)
        heaviest = cells * max(script.weights)
        a_position = Question(script, self.argument(0), NoGoal()).clauses_a_position()
        return self.volume() * a_position + cells * heaviest * (4 * len(script.symbols) + 1) + 1

    def shapes(self) -> Iterator[Fault]:
        given = self.body.arguments[1]
        if len(given.entries) != self.script.dim:
            yield shape(given.bracket, f"a torus has {self.script.dim} periods, one for each axis")

    def sizes(self) -> Iterator[Fault]:
        given = self.body.arguments[1]
        if not 1 <= self.volume() * len(self.script.nodes) <= MOST_CELLS:
            yield over("periods", given.bracket, f"a torus has at least one cell, and at most {MOST_CELLS:,}")
        elif self.most_clauses() > MOST_CLAUSES:
            yield self.passed("clauses", f"the weights take {self.most_clauses():,} clauses, and {MOST_CLAUSES:,} are the most")

    def configuration(self, symbols: List[int]) -> Configuration:
        """The configuration of an answer."""
        return Configuration("conf", self.argument(1), 0, symbols, len(self.script.nodes))

    def rejection(self, answer: Answer) -> Optional[str]:
        if isinstance(answer, Nothing):
            return self._refuted(0, answer.steps)
        if not isinstance(answer, Least):
            return WRONG_ANSWER
        why = self._configuration_fault(answer)
        return why or (self._refuted(answer.weight, answer.steps) if answer.weight else None)

    def _refuted(self, below: int, steps: List[Step]) -> Optional[str]:
        return Refutation(self.torus().clauses(below)).fault(steps)

    def _configuration_fault(self, answer: Least) -> Optional[str]:
        """Why the configuration doesn't live or has another weight, or None if it is right."""
        script, nodes = self.script, len(self.script.nodes)
        wanted = self.volume() * nodes
        if len(answer.symbols) != wanted:
            return f"there are {len(answer.symbols)} symbols, and the torus has {wanted} cells"
        for place, symbol in enumerate(answer.symbols):
            if not script.allows(place % nodes, symbol):
                return f"the symbol {symbol} at place {place} is none that its node allows"
        if self.configuration(answer.symbols).first_false(self.argument(0)) is not None:
            return f"the configuration breaks the rule {self.argument(0).name}"
        weight = script.position_weight(answer.symbols)
        return None if weight == answer.weight else f"the configuration weighs {weight}, not {answer.weight}"

    def claim(self, answer: Answer) -> str:
        rule, periods = self.argument(0).name, self.argument(1)
        if isinstance(answer, Least):
            return f"{answer.weight} is the least weight of a torus with the periods {periods} over the configurations of {rule}"
        return f"no configuration of {rule} has the periods {periods}"

    def costs(self) -> List[str]:
        return [f"{share(self.most_clauses(), MOST_CLAUSES)} clauses"]

    def picture(self, answer: Answer) -> Optional[Picture]:
        return (self.configuration(answer.symbols), None) if isinstance(answer, Least) else None

    def found(self) -> Optional[str]:
        if not self.torus().is_small():
            return None
        least = self.torus().least()
        return "NONE" if least is None else f"LEAST {least[0]}"
