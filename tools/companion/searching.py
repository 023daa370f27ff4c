"""Plain searches for answer lines, from the definitions. They are slow, and give up if they take too long."""
import itertools
from fractions import Fraction
from typing import Callable, Dict, Iterator, List, Optional, Sequence, Tuple

from .boxes import Question
from .lattice import Cell, box, cells_of, distance, moved
from .script import Configuration, Script
from .strips import Strip

MOST_TRIED = 20000
"""The number of symbols that a search tries before it gives up."""

Test = Callable[[List[int]], bool]


class TooLong(Exception):
    """A search that takes too long."""


class Search:
    """Looks for a filling of numbered cells that passes tests, symbol by symbol. A test is made once its last cell has a symbol."""

    def __init__(self, budget: int = MOST_TRIED) -> None:
        self.budget = budget

    def find(self, allowed: Sequence[Sequence[int]], tests: Sequence[Sequence[Test]]) -> Optional[List[int]]:
        """The first filling, or None."""
        filling: List[int] = []
        waiting = [iter(allowed[0])]
        while waiting:
            self.budget -= 1
            if self.budget < 0:
                raise TooLong
            del filling[len(waiting) - 1:]
            symbol = next(waiting[-1], None)
            if symbol is None:
                waiting.pop()
                continue
            filling.append(symbol)
            if all(test(filling) for test in tests[len(filling) - 1]):
                if len(filling) == len(allowed):
                    return filling
                waiting.append(iter(allowed[len(filling)]))
        return None


def _tests(question: Question, cells: Sequence[Cell], places: Sequence[Cell], number: Callable[[Cell], int]) -> List[List[Test]]:
    """The tests that the premise holds at the places and the goal at the origin. `number` numbers the cells of Z^d."""
    tests: List[List[Test]] = [[] for _ in cells]
    premise = question.premise
    for cell in places:
        reads = [number(moved(read, cell[:3])) for read in premise.reads[cell[3]]]
        tests[max(reads, default=0)].append(
            lambda filling, node=cell[3], reads=reads: premise.holds(node, tuple([filling[read] for read in reads])))
    last = max([number(cell) for cell in question.goal.reads()], default=0)
    tests[last].append(lambda filling: question.goal.holds(question.script, lambda cell: filling[number(cell)]))
    return tests


def box_has(question: Question, radius: int, search: Search) -> bool:
    """Whether some admissible filling of the box has the goal at the origin."""
    script = question.script
    positions = box(script.dim, radius)
    cells = sorted(cells_of(positions, len(script.nodes)), key=distance)
    numbers = {cell: number for number, cell in enumerate(cells)}
    places = [cell for cell, _ in script.places(question.premise, positions)]
    tests = _tests(question, cells, places, numbers.__getitem__)
    return search.find([script.allowed[cell[3]] for cell in cells], tests) is not None


def tori(script: Script) -> Iterator[Tuple[Tuple[int, ...], int]]:
    """The periods and shears within the limits: by their product, then by the periods, then by the shear."""
    most, dim = script.limits.period, script.dim
    periods = sorted(itertools.product(range(1, most + 1), repeat=dim), key=lambda given: (product(given), given))
    for given in periods:
        for shear in range(given[0] if dim > 1 else 1):
            yield given, shear


def product(numbers: Sequence[int]) -> int:
    """The product of numbers."""
    total = 1
    for number in numbers:
        total *= number
    return total


def torus_count(script: Script) -> int:
    """How many periods and shears there are within the limits."""
    most, dim = script.limits.period, script.dim
    return most if dim == 1 else most ** (dim - 1) * most * (most + 1) // 2


def torus_has(question: Question, periods: Sequence[int], shear: int, search: Search) -> bool:
    """Whether some configuration of these periods obeys the premise and has the goal at the origin."""
    script = question.script
    volume = product(periods) * len(script.nodes)
    numbered = Configuration("", periods, shear, list(range(volume)), len(script.nodes))
    cells = list(numbered.cells())
    tests = _tests(question, cells, cells, numbered.symbol_at)
    return search.find([script.allowed[cell[3]] for cell in cells], tests) is not None


def verdict(question: Question) -> str:
    """The line that answers a single box question; raises TooLong if the search gives up."""
    search = Search()
    for radius in range(question.least_radius(), question.greatest_radius() + 1):
        if not box_has(question, radius, search):
            return f"YES {radius}"
    for periods, shear in tori(question.script):
        if torus_has(question, periods, shear, search):
            words = ["NO", *map(str, periods)] + ([f"shear {shear}"] if shear else [])
            return " ".join(words)
    return "UNKNOWN limits"


def least_mean(strip: Strip) -> Optional[Fraction]:
    """The least mean weight of a closed walk, by a table of walks of all lengths (Karp 1978); None if there is none."""
    weights = strip.slice_weights()
    edges = [(source, target, weights[slice_]) for source, target, slice_ in strip.edges()]
    count = strip.state_count()
    walks: List[Dict[int, int]] = [{state: 0 for state in range(count)}]
    for _ in range(count):
        longer: Dict[int, int] = {}
        for source, target, weight in edges:
            before = walks[-1].get(source)
            if before is not None and before + weight < longer.get(target, before + weight + 1):
                longer[target] = before + weight
        walks.append(longer)
    means = []
    for state, weight in walks[count].items():
        means.append(max(Fraction(weight - walks[length][state], count - length) for length in range(count) if state in walks[length]))
    return min(means, default=None)
