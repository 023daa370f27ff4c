"""The check of refutations by unit propagation with hints (docs/certificate.md, "A step").

It is the check of the proof formats of Cruz-Filipe, Heule, Hunt, Kaufmann and Schneider-Kamp (2017).
"""
from typing import List, NamedTuple, Optional, Sequence

from .clauses import Clauses


class Step(NamedTuple):
    """A step as it stands in an output: signed literals, the numbers of hinted clauses, the numbers of clauses to delete."""

    literals: Sequence[int]
    hints: Sequence[int]
    deletes: Sequence[int]


class Refutation:
    """Clauses, to which steps add more. `false` has a 1 at each literal that is false."""

    def __init__(self, clauses: Clauses) -> None:
        self.clauses = clauses
        self.variables = clauses.variables
        self.false = bytearray(2 * clauses.variables + 2)
        self.deleted = bytearray(1)

    def fault(self, steps: Sequence[Step]) -> Optional[str]:
        """Why the steps don't refute the clauses, or None if they do."""
        for number, step in enumerate(steps, 1):
            why = self._step(step)
            if why:
                return f"step {number}: {why}"
        if not steps or steps[-1].literals:
            return "the last step's clause isn't empty"
        return None

    def _step(self, step: Step) -> Optional[str]:
        """Checks a step and adds its clause; gives the fault, if any."""
        if not step.hints:
            return "there is no hint"
        clause = [2 * literal if literal > 0 else 1 - 2 * literal for literal in step.literals]
        if len({literal >> 1 for literal in clause}) != len(clause):
            return "a variable stands twice in the clause"
        if clause and max(clause) >> 1 > self.variables:
            return f"the variable {max(clause) >> 1} is over the number of variables, {self.variables}"
        trail = list(clause)
        for literal in clause:
            self.false[literal] = 1
        why = self._propagate(step.hints, trail)
        for literal in trail:
            self.false[literal] = 0
        return why or self._delete(step.deletes, clause)

    def _propagate(self, hints: Sequence[int], trail: List[int]) -> Optional[str]:
        """Follows the hints. Literals that become false go to the trail."""
        false, literals, starts, last = self.false, self.clauses.literals, self.clauses.starts, len(hints) - 1
        for place, hint in enumerate(hints):
            if not self._stands(hint):
                return f"hint {hint} is not the number of a clause at hand"
            left = [literal for literal in literals[starts[hint - 1]:starts[hint]] if not false[literal]]
            if len(left) > 1:
                left = list(set(left))
            if place == last:
                return None if not left else f"the last hint {hint} has a literal that is not false"
            if len(left) != 1:
                many = {0: "no literal", 2: "two literals"}.get(len(left), f"{len(left)} literals")
                return f"hint {hint} has {many} that {'is' if not left else 'are'} not false"
            if false[left[0] ^ 1]:
                return f"hint {hint} has a literal that is true already"
            false[left[0] ^ 1] = 1
            trail.append(left[0] ^ 1)
        return None

    def _stands(self, number: int) -> bool:
        """Whether a clause with this number exists and isn't deleted."""
        return 1 <= number <= len(self.clauses) and not (number < len(self.deleted) and self.deleted[number])

    def _delete(self, deletes: Sequence[int], clause: List[int]) -> Optional[str]:
        """Deletes clauses, and then adds the step's clause."""
        for number in deletes:
            if not self._stands(number):
                return f"the deleted clause {number} is not at hand"
            if number >= len(self.deleted):
                self.deleted.extend(bytes(number + 1 - len(self.deleted)))
            self.deleted[number] = 1
        self.clauses.add(clause)
        return None
