"""What each kind of query has: arguments, faults, the check of its answers, their claims, and its costs."""
from typing import Any, Iterator, List, Optional, Sequence, Tuple

from ..answers import Answer, Unknown
from ..cursor import NumberList
from ..definitions import wrong_kind
from ..faults import Fault
from ..lattice import Cell
from ..meaning import Meaning, over
from ..script import Cases, Composition, Configuration, Rule

OF_KIND = {"rule": (Rule,), "conf": (Configuration,), "auto": (Cases, Composition)}
WRONG_ANSWER = "this is no answer to such a query"

Picture = Tuple[Configuration, Optional[Cell]]
"""The picture of an answer: a configuration, and a cell of it to be marked."""


class Query(Meaning):
    """A query of a script. `arguments` has the kinds of its arguments: rule, conf, auto, number, list, vectors."""

    word = ""
    arguments: Sequence[str] = ()

    def argument(self, place: int) -> Any:
        """An argument: the thing that a name stands for, a number, a list of numbers or a list of such lists."""
        given = self.body.arguments[place]
        if isinstance(given, NumberList):
            return given.values()
        if isinstance(given, list):
            return [vector.values() for vector in given]
        if self.arguments[place] == "number":
            return given.value()
        return self.script.named[given.text]

    def names(self) -> Iterator[Fault]:
        for kind, given in zip(self.arguments, self.body.arguments):
            if kind in OF_KIND:
                yield from wrong_kind(self.script, given, OF_KIND[kind])

    def apply(self) -> None:
        self.script.end_header()
        self.script.queries.append(self)

    def text(self) -> str:
        """The query as it is asked."""
        written = []
        for kind, given in zip(self.arguments, self.body.arguments):
            lists = given if isinstance(given, list) else [given] if isinstance(given, NumberList) else None
            if lists is None:
                written.append(given.text)
            else:
                written += ["[" + " ".join(map(str, each.values())) + "]" for each in lists]
        return " ".join([f"%{self.word}", *written])

    def passed(self, limit: str, rule: str) -> Fault:
        """The fault that the query passes a limit."""
        return over(limit, self.keyword, rule)

    def rejection(self, answer: Answer) -> Optional[str]:
        """Why an answer is rejected, or None if it is accepted."""
        raise NotImplementedError

    def claim(self, answer: Answer) -> str:
        """What an accepted answer claims, in a sentence."""
        raise NotImplementedError

    def costs(self) -> List[str]:
        """What the query will cost, beside the limits."""
        return []

    def picture(self, answer: Answer) -> Optional[Picture]:
        """The picture of an answer, if it has one."""
        return None

    def found(self) -> Optional[str]:
        """The answer's line, by a plain search; None if that takes too long."""
        return None


def rejects_unknown(answer: Answer, reasons: Sequence[str]) -> Optional[str]:
    """Why an answer without a certificate is rejected, or None if it is UNKNOWN with one of these reasons."""
    if isinstance(answer, Unknown) and answer.reason in reasons:
        return None
    return WRONG_ANSWER


def share(count: int, most: int) -> str:
    """A count beside its limit."""
    return f"{count:,} of at most {most:,}"
