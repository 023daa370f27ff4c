"""Images and conjugacies: `%maps f X Y` and `%conjugate f g X Y`."""
from typing import Callable, Iterator, List, Optional

from ..answers import Answer, Broken, Conjugate, No, Yes
from ..boxes import Question
from ..definitions import automaton_sizes, too_many_parts
from ..faults import Fault
from ..formulas import TooLarge
from ..maps import depth, guarded, identity_question, image_question
from ..meaning import shape
from ..script import Automaton, Rule
from .base import Picture, rejects_unknown
from .comparisons import BoxQuery, configuration_of, no_fault, yes_fault

MOST_NESTED = 64


class PairQuery(BoxQuery):
    """A query of box questions on pairs of automata, made from its automata and rules."""

    def shapes(self) -> Iterator[Fault]:
        if len(self.script.symbols) < 2:
            yield shape(self.keyword, "with only one symbol every automaton gives it everywhere")

    def image(self, automaton: Automaton, source: Rule, target: Rule) -> Iterator[Fault]:
        """The limits that the question passes whether an image obeys a rule."""
        nested = depth(guarded(self.script, target))
        if nested > MOST_NESTED:
            why = f"with the symbols that nodes allow, the rule {target.name} is nested {nested} deep, and {MOST_NESTED} is the most"
            yield self.passed("depth", why)
        yield from self.made(lambda: image_question(self.script, automaton, source, target))

    def both(self, outer: Automaton, inner: Automaton, rule: Rule) -> Iterator[Fault]:
        """The limits that the question passes whether two automata, the inner one first, give the identity."""
        yield from self.made(lambda: identity_question(self.script, outer, inner, rule))

    def made(self, question_of: Callable[[], Question]) -> Iterator[Fault]:
        """The limits that the automata of a question pass, and then the question."""
        try:
            question = question_of()
        except TooLarge:
            yield too_many_parts(self.keyword)
            return
        yield from automaton_sizes(self.keyword, question.goal.left)
        yield from self.too_long(question)


class Maps(PairQuery):
    """`%maps f X Y`."""

    word = "maps"
    arguments = ("auto", "rule", "rule")

    def sizes(self) -> Iterator[Fault]:
        yield from self.image(self.argument(0), self.argument(1), self.argument(2))

    def questions(self) -> List[Question]:
        return [image_question(self.script, self.argument(0), self.argument(1), self.argument(2))]

    def yes_claims(self, answer: Yes) -> List[str]:
        f, x, y = (self.argument(place).name for place in range(3))
        return [f"the image under {f} of each configuration of {x} obeys {y}, by the box of radius {answer.radii[0]}"]

    def no_claim(self, answer: No) -> str:
        f, x, y = (self.argument(place).name for place in range(3))
        return f"obeys {x}, and its image under {f} breaks {y} at the origin"


class Conjugacy(PairQuery):
    """`%conjugate f g X Y`: whether f maps X into Y, g maps Y into X, and each undoes the other."""

    word = "conjugate"
    arguments = ("auto", "auto", "rule", "rule")

    def sizes(self) -> Iterator[Fault]:
        f, g, x, y = (self.argument(place) for place in range(4))
        yield from self.image(f, x, y)
        yield from self.image(g, y, x)
        yield from self.both(g, f, x)
        yield from self.both(f, g, y)

    def questions(self) -> List[Question]:
        f, g, x, y = (self.argument(place) for place in range(4))
        script = self.script
        return [image_question(script, f, x, y), image_question(script, g, y, x), identity_question(script, g, f, x), identity_question(script, f, g, y)]

    def rejection(self, answer: Answer) -> Optional[str]:
        if isinstance(answer, Conjugate):
            for number, (question, radius, steps) in enumerate(zip(self.questions(), answer.radii, answer.refutations), 1):
                why = yes_fault(question, radius, steps)
                if why:
                    return f"question {number}: {why}"
            return None
        if isinstance(answer, Broken):
            why = no_fault(self.questions()[answer.part - 1], witness(answer))
            return f"question {answer.part}: {why}" if why else None
        return rejects_unknown(answer, ["limits"])

    def claim(self, answer: Answer) -> str:
        f, g, x, y = (self.argument(place).name for place in range(4))
        if isinstance(answer, Conjugate):
            return f"{f} maps the configurations of {x} one to one onto those of {y}, and {g} maps them back"
        if isinstance(answer, Broken):
            one, other, from_, into = (f, g, x, y) if answer.part % 2 else (g, f, y, x)
            breaks = f"its image under {one} breaks {into} at the origin"
            changes = f"{one} and then {other} change it at the origin"
            return f"the configuration obeys {from_}, and {breaks if answer.part <= 2 else changes}"
        return "nothing is claimed"

    def picture(self, answer: Answer) -> Optional[Picture]:
        if not isinstance(answer, Broken):
            return None
        configuration, _ = configuration_of(self.questions()[answer.part - 1], witness(answer))
        return (configuration, None) if configuration else None

    def combined(self, verdicts: List[str]) -> str:
        for part, verdict in enumerate(verdicts, 1):
            if verdict.startswith("NO"):
                return f"BROKEN {part}{verdict[2:]}"
        if all(verdict.startswith("YES") for verdict in verdicts):
            return " ".join(["CONJUGATE", *[verdict.split()[1] for verdict in verdicts]])
        return "UNKNOWN limits"


def witness(answer: Broken) -> No:
    """The configuration of a BROKEN, as the answer NO to its question."""
    return No("", answer.periods, answer.shear, answer.symbols)
