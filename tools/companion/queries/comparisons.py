"""Box questions: `%contains Y X`, `%equal X Y`, `%empty X` and `%same f g X`."""
from typing import Iterator, List, Optional, Sequence, Tuple

from ..answers import Answer, No, Yes
from ..boxes import MOST_CLAUSES, Breaks, Differ, Nothing, Question, why_not
from ..faults import Fault
from ..refutations import Refutation, Step
from ..script import Configuration
from ..searching import TooLong, torus_count, verdict
from .base import Picture, Query, rejects_unknown, share

SIDES = ("left", "right")


def configuration_of(question: Question, answer: No) -> "Tuple[Optional[Configuration], str]":
    """The configuration of an answer NO, or None and the reason."""
    script = question.script
    periods, shear, symbols = answer.periods, answer.shear, answer.symbols
    if len(periods) != script.dim:
        return None, f"there are {len(periods)} periods, and {script.dim} axes"
    for period in periods:
        if not 1 <= period <= script.limits.period:
            return None, f"the period {period} is over the limit {script.limits.period}" if period else "the period 0 is none"
    if shear >= periods[0]:
        return None, f"the shear {shear} is not less than the first period {periods[0]}"
    wanted, nodes = len(script.nodes), len(script.nodes)
    for period in periods:
        wanted *= period
    if len(symbols) != wanted:
        return None, f"there are {len(symbols)} symbols, and the box has {wanted} cells"
    for place, symbol in enumerate(symbols):
        if not script.allows(place % nodes, symbol):
            return None, f"the symbol {symbol} at place {place} is none that its node allows"
    return Configuration("conf", periods, shear, symbols, nodes), ""


def no_fault(question: Question, answer: No) -> Optional[str]:
    """Why the configuration of an answer NO is no witness for a question, or None if it is one."""
    configuration, why = configuration_of(question, answer)
    return why if configuration is None else why_not(question, configuration)


def yes_fault(question: Question, radius: int, steps: Sequence[Step]) -> Optional[str]:
    """Why steps don't show that a question has the answer YES at a radius, or None if they do."""
    least, most = question.least_radius(), question.greatest_radius()
    if radius < least:
        return f"the radius {radius} is under {least}, the least one whose box holds all that the goal reads"
    if radius > most:
        return f"the radius {radius} is over the limit {most}"
    why = Refutation(question.clauses(radius)).fault(steps)
    if why is None:
        return None
    others = [other for other in range(least, most + 1) if other != radius]
    if len(steps) < 2000 and any(Refutation(question.clauses(other)).fault(steps) is None for other in others):
        return "the steps refute the clauses of another radius"
    return why


class BoxQuery(Query):
    """A query of one or two box questions."""

    def questions(self) -> List[Question]:
        """The box questions, in order."""
        raise NotImplementedError

    def sizes(self) -> Iterator[Fault]:
        for question in self.questions():
            yield from self.too_long(question)

    def too_long(self, question: Question) -> Iterator[Fault]:
        """The fault that a question takes too many clauses."""
        largest = question.largest()
        if largest > MOST_CLAUSES:
            yield self.passed("clauses", f"the largest box or torus takes {largest:,} clauses, and {MOST_CLAUSES:,} are the most")

    def rejection(self, answer: Answer) -> Optional[str]:
        questions = self.questions()
        if isinstance(answer, Yes) and len(answer.radii) == len(questions):
            for question, radius, steps in zip(questions, answer.radii, answer.refutations):
                why = yes_fault(question, radius, steps)
                if why:
                    return why
            return None
        if isinstance(answer, No) and bool(answer.side) == (len(questions) == 2):
            return no_fault(self._asked(answer), answer)
        return rejects_unknown(answer, ["limits"])

    def _asked(self, answer: No) -> Question:
        return self.questions()[SIDES.index(answer.side) if answer.side else 0]

    def picture(self, answer: Answer) -> Optional[Picture]:
        if not isinstance(answer, No):
            return None
        configuration, _ = configuration_of(self._asked(answer), answer)
        return (configuration, None) if configuration else None

    def costs(self) -> List[str]:
        said = []
        for question in self.questions():
            radii = range(question.least_radius(), question.greatest_radius() + 1)
            boxes = ", ".join(f"{radius}: {question.most_clauses(radius):,}" for radius in radii)
            said.append(f"clauses of the box of each radius, at most: {boxes}")
            said.append(f"{torus_count(self.script):,} tori, with {question.torus_clauses():,} clauses at most")
            said.append(f"the largest takes {share(question.largest(), MOST_CLAUSES)} clauses")
        return said

    def claim(self, answer: Answer) -> str:
        if isinstance(answer, Yes):
            return "; ".join(self.yes_claims(answer))
        if isinstance(answer, No):
            shear = f" and the shear {answer.shear}" if answer.shear else ""
            periods = ", ".join(map(str, answer.periods))
            return f"the configuration with the periods {periods}{shear} {self.no_claim(answer)}"
        return "nothing is claimed"

    def yes_claims(self, answer: Yes) -> List[str]:
        """What each radius of a YES claims."""
        raise NotImplementedError

    def no_claim(self, answer: No) -> str:
        """What a NO claims of its configuration."""
        raise NotImplementedError

    def found(self) -> Optional[str]:
        try:
            return self.combined([verdict(question) for question in self.questions()])
        except TooLong:
            return None

    def combined(self, verdicts: List[str]) -> str:
        """The answer's line, from the verdicts on the questions."""
        return verdicts[0]


class Contains(BoxQuery):
    """`%contains Y X`."""

    word = "contains"
    arguments = ("rule", "rule")

    def questions(self) -> List[Question]:
        return [Question(self.script, self.argument(1), Breaks(self.argument(0)))]

    def yes_claims(self, answer: Yes) -> List[str]:
        y, x = self.argument(0).name, self.argument(1).name
        none = f"no admissible filling of the box of radius {answer.radii[0]} breaks it in the middle"
        return [f"each configuration of {x} obeys {y}, as {none}"]

    def no_claim(self, answer: No) -> str:
        return f"obeys {self.argument(1).name} and breaks {self.argument(0).name} at the origin"


class Equal(BoxQuery):
    """`%equal X Y`: first whether Y contains X, then whether X contains Y."""

    word = "equal"
    arguments = ("rule", "rule")

    def questions(self) -> List[Question]:
        x, y = self.argument(0), self.argument(1)
        return [Question(self.script, x, Breaks(y)), Question(self.script, y, Breaks(x))]

    def yes_claims(self, answer: Yes) -> List[str]:
        x, y = self.argument(0).name, self.argument(1).name
        return [f"each configuration of {one} obeys {other}, by the box of radius {radius}"
                for one, other, radius in ((x, y, answer.radii[0]), (y, x, answer.radii[1]))]

    def no_claim(self, answer: No) -> str:
        x, y = self.argument(0).name, self.argument(1).name
        one, other = (x, y) if answer.side == "left" else (y, x)
        return f"obeys {one} and breaks {other} at the origin"

    def combined(self, verdicts: List[str]) -> str:
        for side, verdict_ in zip(SIDES, verdicts):
            if verdict_.startswith("NO"):
                return f"NO {side}{verdict_[2:]}"
        if all(verdict_.startswith("YES") for verdict_ in verdicts):
            return " ".join(["YES", *[verdict_.split()[1] for verdict_ in verdicts]])
        return "UNKNOWN limits"


class Emptiness(BoxQuery):
    """`%empty X`."""

    word = "empty"
    arguments = ("rule",)

    def questions(self) -> List[Question]:
        return [Question(self.script, self.argument(0), Nothing())]

    def yes_claims(self, answer: Yes) -> List[str]:
        return [f"no configuration obeys {self.argument(0).name}, as the box of radius {answer.radii[0]} has no admissible filling"]

    def no_claim(self, answer: No) -> str:
        return f"obeys {self.argument(0).name}, so that its shift is not empty"


class Same(BoxQuery):
    """`%same f g X`."""

    word = "same"
    arguments = ("auto", "auto", "rule")

    def questions(self) -> List[Question]:
        return [Question(self.script, self.argument(2), Differ(self.argument(0), self.argument(1)))]

    def yes_claims(self, answer: Yes) -> List[str]:
        f, g, x = (self.argument(place).name for place in range(3))
        return [f"{f} and {g} give the same symbols on each configuration of {x}, by the box of radius {answer.radii[0]}"]

    def no_claim(self, answer: No) -> str:
        f, g, x = (self.argument(place).name for place in range(3))
        return f"obeys {x}, and {f} and {g} give different symbols to some node of the origin"
