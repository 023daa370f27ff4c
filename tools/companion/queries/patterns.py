"""`%forbidden X`: the patterns that a rule forbids; and `%minimal X`: patterns without a needless cell that forbid the same."""
from typing import Iterator, List, Optional, Sequence, Union

from ..answers import Answer, Listed, Minimal, Pattern, Starred
from ..faults import Fault
from ..fillings import breaking
from ..minimal import minimal
from .base import WRONG_ANSWER, Query, share

MOST_PATTERNS = 65536


class Forbidden(Query):
    """`%forbidden X`."""

    word = "forbidden"
    arguments = ("rule",)

    def fillings(self) -> List[int]:
        """How many fillings the cells that the rule reads have, at each node."""
        return [len(self.script.symbols) ** len(reads) for reads in self.argument(0).reads]

    def sizes(self) -> Iterator[Fault]:
        if max(self.fillings()) > MOST_PATTERNS:
            yield self.passed("patterns", f"the cells that the rule reads at some node have {max(self.fillings()):,} fillings, "
                                          f"and {MOST_PATTERNS:,} are the most")

    def patterns(self) -> List[Pattern]:
        """All patterns that the rule forbids, in order."""
        rule = self.argument(0)
        return [Pattern(node, list(filling)) for node in range(len(self.script.nodes)) for filling in breaking(self.script, rule, node)]

    def rejection(self, answer: Answer) -> Optional[str]:
        if not isinstance(answer, Listed):
            return WRONG_ANSWER
        return difference(answer.patterns, self.patterns())

    def claim(self, answer: Answer) -> str:
        return f"{self.argument(0).name} is false exactly where what it reads is one of these patterns"

    def costs(self) -> List[str]:
        return [f"at the node {name}: {share(count, MOST_PATTERNS)} fillings" for name, count in zip(self.script.nodes, self.fillings())]

    def found(self) -> Optional[str]:
        return f"LIST {len(self.patterns())}"


class MinimalPatterns(Forbidden):
    """`%minimal X`."""

    word = "minimal"

    def starred(self) -> List[Starred]:
        """All patterns, in order."""
        rule = self.argument(0)
        return [Starred(node, partial) for node in range(len(self.script.nodes)) for partial in minimal(self.script, rule, node)]

    def rejection(self, answer: Answer) -> Optional[str]:
        return difference(answer.patterns, self.starred()) if isinstance(answer, Minimal) else WRONG_ANSWER

    def claim(self, answer: Answer) -> str:
        return (f"{self.argument(0).name} is false exactly where what it reads agrees with one of these patterns, "
                f"and no cell of them can be left out")

    def found(self) -> Optional[str]:
        return f"MINIMAL {len(self.starred())}"


Listable = Union[Pattern, Starred]


def difference(given: Sequence[Listable], wanted: Sequence[Listable]) -> Optional[str]:
    """Why a list of patterns isn't the wanted one, or None if it is."""
    for number, (one, right) in enumerate(zip(given, wanted), 1):
        if one != right:
            return f"pattern {number} is {shown(one)}, and has to be {shown(right)}"
    return None if len(given) == len(wanted) else f"there are {len(given)} patterns, and there have to be {len(wanted)}"


def shown(pattern: Listable) -> str:
    """A pattern as it is written."""
    return " ".join([str(pattern.node), *["*" if symbol is None else str(symbol) for symbol in pattern.symbols]])
