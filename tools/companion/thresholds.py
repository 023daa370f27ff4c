"""Formulas that say how many of a list of formulas hold.

The list is halved: at least k of it hold if, for some i, at least i of the first half hold and at least k - i of the rest. So the formula grows
with n·log(n)^(k-1), and not with the number of subsets. If k is over half of the list, it may be shorter to say that fewer than n - k + 1 of the
opposites hold.
"""
from typing import Dict, List, Tuple

from .definitions import MOST_PARTS
from .formulas import Formula, TooLarge
from .printing import FALSE, TRUE, joined, opposite, weight

Weighed = Tuple[Formula, int]
"""A formula with its length."""


class Threshold:
    """Counts among the formulas of a list, and among their opposites."""

    def __init__(self, formulas: List[Formula]) -> None:
        self.lists = {True: formulas, False: [opposite(formula) for formula in formulas]}
        self.weights = {sign: [weight(formula) for formula in formulas] for sign, formulas in self.lists.items()}
        self.known: Dict[Tuple[bool, int, int, int], Weighed] = {}

    def at_least(self, sign: bool, count: int, begin: int, end: int) -> Weighed:
        """At least `count` of the formulas from `begin` to `end` hold; with the sign False, of their opposites."""
        length = end - begin
        if count <= 0 or count > length:
            return (TRUE if count <= 0 else FALSE), 1
        if count in (1, length):
            return joined(self.lists[sign][begin:end], every=count > 1), sum(self.weights[sign][begin:end])
        key = (sign, count, begin, end)
        if key not in self.known:
            found = self._halved(sign, count, begin, end)
            if 2 * count > length + 1:
                few, size = self._halved(not sign, length - count + 1, begin, end)
                found = min(found, (opposite(few), size + 1), key=lambda weighed: weighed[1])
            self.known[key] = found
        return self.known[key]

    def _halved(self, sign: bool, count: int, begin: int, end: int) -> Weighed:
        middle, ways, total = (begin + end) // 2, [], 0
        for here in range(max(0, count - (end - middle)), min(count, middle - begin) + 1):
            left, first = self.at_least(sign, here, begin, middle)
            right, second = self.at_least(sign, count - here, middle, end)
            ways.append(joined([left, right], every=True))
            total += first + second
        return joined(ways, every=False), total


def at_least(count: int, formulas: List[Formula]) -> Formula:
    """At least `count` of the formulas hold; raises TooLarge if that has more parts than a rule may have."""
    found, size = Threshold(formulas).at_least(True, count, 0, len(formulas))
    if size > MOST_PARTS:
        raise TooLarge
    return found


def at_most(count: int, formulas: List[Formula]) -> Formula:
    """At most `count` of the formulas hold."""
    return opposite(at_least(count + 1, formulas))


def exactly(count: int, formulas: List[Formula]) -> Formula:
    """Exactly `count` of the formulas hold."""
    return joined([at_least(count, formulas), at_most(count, formulas)], every=True)


COMPARISONS = {">=": at_least, "<=": at_most, "=": exactly}
"""The formula of each comparison."""
