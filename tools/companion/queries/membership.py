"""`%member c X`: whether a configuration belongs to the shift of a rule."""
from typing import List, Optional

from ..answers import Answer, In, Out
from ..boxes import shown_cell
from ..lattice import Cell, entries, offset
from .base import WRONG_ANSWER, Picture, Query


class Member(Query):
    """`%member c X`."""

    word = "member"
    arguments = ("conf", "rule")

    def first_false(self) -> Optional[Cell]:
        """The first cell of the configuration's fundamental box at which the rule is false."""
        return self.argument(0).first_false(self.argument(1))

    def rejection(self, answer: Answer) -> Optional[str]:
        if not isinstance(answer, (In, Out)):
            return WRONG_ANSWER
        cell = self.first_false()
        if cell is None:
            return None if isinstance(answer, In) else "the rule is true everywhere"
        first = f"the first cell at which the rule is false is {shown_cell(self.script, cell)}"
        if isinstance(answer, In):
            return first
        return None if answer.numbers == [*entries(cell, self.script.dim), cell[3]] else first

    def claim(self, answer: Answer) -> str:
        name, rule = self.argument(0).name, self.argument(1).name
        if isinstance(answer, In):
            return f"{name} obeys the rule {rule} at every cell of Z^{self.script.dim}"
        cell = self.first_false()
        where = shown_cell(self.script, cell or (0, 0, 0, 0))
        return f"the rule {rule} is false in {name} at {where}, and at no cell of its box before that"

    def costs(self) -> List[str]:
        return [f"{len(self.argument(0).symbols):,} cells are looked at"]

    def picture(self, answer: Answer) -> Optional[Picture]:
        if not isinstance(answer, Out) or len(answer.numbers) != self.script.dim + 1:
            return None
        *coordinates, node = answer.numbers
        return self.argument(0), (*offset(coordinates), node)

    def found(self) -> Optional[str]:
        cell = self.first_false()
        if cell is None:
            return "IN"
        return "OUT " + " ".join(map(str, [*entries(cell, self.script.dim), cell[3]]))
