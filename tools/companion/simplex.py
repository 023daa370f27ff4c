"""The simplex method over exact fractions, with Bland's rule (1977), for the programs of discharges."""
from fractions import Fraction
from typing import List, Optional

from .bounds import Program


class Tableau:
    """A tableau with a row for each basic variable: its coefficients, and its right side last. The objective's row stands apart."""

    def __init__(self, program: Program) -> None:
        rows, columns = len(program.rows), program.columns
        self.basis = list(range(columns, columns + rows))
        self.table: List[List[Fraction]] = []
        for number, row in enumerate(program.rows):
            line = [Fraction(0)] * (columns + rows + 1)
            for column, coefficient in row.coefficients:
                line[column] += coefficient
            line[columns + number] = Fraction(1)
            line[-1] = Fraction(row.most)
            self.table.append(line)
        self.objective = [Fraction(-1)] + [Fraction(0)] * (columns + rows)

    def entering(self) -> Optional[int]:
        """The first variable that improves the objective, or None at the end."""
        return next((column for column, value in enumerate(self.objective[:-1]) if value < 0), None)

    def leaving(self, column: int) -> int:
        """The row whose variable leaves: the least ratio, and of these the least variable."""
        ratios = [(line[-1] / line[column], self.basis[row], row) for row, line in enumerate(self.table) if line[column] > 0]
        return min(ratios)[2]

    def pivot(self, row: int, column: int) -> None:
        """Brings a variable into the basis."""
        line = self.table[row]
        scale = line[column]
        self.table[row] = line = [value / scale for value in line]
        for other in [*(each for number, each in enumerate(self.table) if number != row), self.objective]:
            factor = other[column]
            if factor:
                other[:] = [value - factor * pivot for value, pivot in zip(other, line)]
        self.basis[row] = column


def greatest(program: Program) -> Fraction:
    """The greatest c that amounts hold."""
    tableau = Tableau(program)
    column = tableau.entering()
    while column is not None:
        tableau.pivot(tableau.leaving(column), column)
        column = tableau.entering()
    return tableau.objective[-1]
