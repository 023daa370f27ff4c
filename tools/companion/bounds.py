"""The linear program of a discharge, and the check of its bounds.

docs/certificate.md defines the program, docs/discharging.md explains it.
"""
from fractions import Fraction
from typing import Dict, List, NamedTuple, Optional, Sequence, Tuple

from .fillings import Filling, Region
from .lattice import Offset, box, opposite
from .script import Rule, Script

MOST_FILLINGS = 65536
MOST_ROWS, MOST_COLUMNS = 2048, 256


class Row(NamedTuple):
    """A row: pairs of a column and its coefficient, where that isn't 0, and the greatest value of their sum."""

    coefficients: Tuple[Tuple[int, int], ...]
    most: int


class Program(NamedTuple):
    """The program of a discharge. Column 0 is c; then come the amounts, by vector and then by pattern."""

    patterns: List[Filling]
    columns: int
    rows: List[Row]


def region_positions(dim: int, radius: int, margin: int, vectors: Sequence[Offset]) -> List[Offset]:
    """The positions of the region: B(radius) and its translates by the vectors' opposites, grown by the margin, in order."""
    grown = box(dim, radius + margin)
    middles = [(0, 0, 0), *[opposite(vector) for vector in vectors]]
    return sorted({(z + dz, y + dy, x + dx) for dz, dy, dx in middles for z, y, x in grown})


class Discharge:
    """A discharge of a rule with a radius and a margin along vectors."""

    def __init__(self, script: Script, rule: Rule, radius: int, margin: int, vectors: Sequence[Offset]) -> None:
        self.script = script
        self.vectors = list(vectors)
        self.radius = radius
        self.region = Region(script, rule, region_positions(script.dim, radius, margin, vectors))

    def _window(self, by: Offset) -> List[int]:
        """The numbers, in the region, of the cells of B(radius) around a position."""
        positions = [(z + by[0], y + by[1], x + by[2]) for z, y, x in box(self.script.dim, self.radius)]
        return [self.region.number[(*position, node)] for position in positions for node in range(len(self.script.nodes))]

    def program(self) -> Optional[Program]:
        """The program, or None if it has too many fillings, rows or columns."""
        fillings = self.region.admissible(MOST_FILLINGS)
        if fillings is None:
            return None
        windows = [self._window(by) for by in [(0, 0, 0), *[opposite(vector) for vector in self.vectors]]]
        seen = {tuple([filling[number] for number in window]) for filling in fillings for window in windows}
        patterns = sorted(seen)
        columns = 1 + len(self.vectors) * len(patterns)
        rows = self._rows(fillings, windows, {pattern: number for number, pattern in enumerate(patterns)})
        if columns > MOST_COLUMNS or len(rows) > MOST_ROWS:
            return None
        return Program(patterns, columns, rows)

    def _rows(self, fillings: List[Filling], windows: List[List[int]], numbers: Dict[Filling, int]) -> List[Row]:
        """The rows, each once, in first-seen order."""
        nodes = len(self.script.nodes)
        origin = [self.region.number[0, 0, 0, node] for node in range(nodes)]
        rows = {Row(((0, 1),), nodes * max(self.script.weights)): None}
        for filling in fillings:
            here, *there = [numbers[tuple([filling[number] for number in window])] for window in windows]
            coefficients = [(0, 1)]
            for place, other in enumerate(there):
                if other != here:
                    first = 1 + place * len(numbers)
                    coefficients += sorted([(first + here, 1), (first + other, -1)])
            row = Row(tuple(coefficients), self.script.position_weight([filling[number] for number in origin]))
            rows[row] = None
            if len(rows) > MOST_ROWS:
                break
        return list(rows)


def bound_fault(program: Program, over: int, under: int, denominator: int, amounts: Sequence[int], duals: Sequence[int]) -> Optional[str]:
    """Why an answer BOUND is wrong for this program, or None if it is right."""
    bound = Fraction(over, under)
    if (bound.numerator, bound.denominator) != (over, under):
        return f"{over}/{under} is not in lowest terms"
    if denominator % under:
        return f"{under} doesn't divide the denominator {denominator}"
    if len(amounts) != program.columns - 1:
        return f"there are {len(amounts)} amounts, and the program has {program.columns - 1}"
    if len(duals) != len(program.rows):
        return f"there are {len(duals)} duals, and the program has {len(program.rows)} rows"
    held = over * (denominator // under)
    values = [held, *amounts]
    for number, row in enumerate(program.rows):
        left = sum(coefficient * values[column] for column, coefficient in row.coefficients)
        if left > denominator * row.most:
            return f"row {number} comes to {left}, and is at most {denominator * row.most}"
    return _duals_fault(program, denominator, held, duals)


def _duals_fault(program: Program, denominator: int, held: int, duals: Sequence[int]) -> Optional[str]:
    """Why the duals don't show that no amounts do better, or None if they do."""
    sums = [0] * program.columns
    for row, dual in zip(program.rows, duals):
        for column, coefficient in row.coefficients:
            sums[column] += coefficient * dual
    if sums[0] < denominator:
        return f"the duals sum to {sums[0]} in the column of c, less than {denominator}"
    for column, total in enumerate(sums):
        if total < 0:
            return f"the duals sum to {total} in the column {column}"
    right = sum(row.most * dual for row, dual in zip(program.rows, duals))
    if right != held:
        return f"the duals sum to {right} on the right sides, and c is {held}"
    return None
