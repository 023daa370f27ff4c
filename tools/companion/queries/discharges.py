"""`%discharge X R M v1 v2 ..`: the best bound by discharging."""
from typing import Iterator, List, Optional

from ..answers import Answer, Bound
from ..bounds import MOST_COLUMNS, MOST_FILLINGS, MOST_ROWS, Discharge, bound_fault
from ..faults import Fault
from ..lattice import offset
from ..meaning import over, shape, twice
from ..simplex import greatest
from .base import Query, rejects_unknown, share

MOST_RADIUS = 3
MOST_VECTORS, MOST_ENTRY = 16, 4


class BestBound(Query):
    """`%discharge X R M v1 v2 ..`."""

    word = "discharge"
    arguments = ("rule", "number", "number", "vectors")

    def discharge(self) -> Discharge:
        """The discharge with its region."""
        rule, radius, margin, vectors = (self.argument(place) for place in range(4))
        return Discharge(self.script, rule, radius, margin, [offset(vector) for vector in vectors])

    def names(self) -> Iterator[Fault]:
        yield from super().names()
        seen = set()
        for vector in self.body.arguments[3]:
            written = tuple(entry.text for entry in vector.entries)
            if written in seen:
                yield twice(vector.bracket, "a vector is given twice", "vector")
            seen.add(written)

    def shapes(self) -> Iterator[Fault]:
        for vector in self.body.arguments[3]:
            if len(vector.entries) != self.script.dim:
                yield shape(vector.bracket, f"a vector has {self.script.dim} entries, one for each axis")

    def sizes(self) -> Iterator[Fault]:
        _, radius, margin, vectors = self.body.arguments
        for number in (radius, margin):
            if number.value() > MOST_RADIUS:
                yield over("radius", number, f"the radius and the margin of a discharge are at most {MOST_RADIUS}")
        if len(vectors) > MOST_VECTORS:
            yield over("vectors", vectors[MOST_VECTORS].bracket, f"there are at most {MOST_VECTORS} vectors")
        for entry in (entry for vector in vectors for entry in vector.entries):
            if abs(entry.value()) > MOST_ENTRY:
                yield over("vectors", entry, f"a vector's entries are at most {MOST_ENTRY} in absolute value")

    def rejection(self, answer: Answer) -> Optional[str]:
        if not isinstance(answer, Bound):
            return rejects_unknown(answer, ["large", "overflow", "pivots"])
        program = self.discharge().program()
        if program is None:
            return "the program is too large for a bound"
        return bound_fault(program, answer.over, answer.under, answer.denominator, answer.amounts, answer.duals)

    def claim(self, answer: Answer) -> str:
        if not isinstance(answer, Bound):
            return "nothing is claimed"
        return (f"with the best amounts along these vectors each position holds at least {answer.over}/{answer.under}; so boxes in configurations of "
                f"{self.argument(0).name} weigh as much per position, less what comes in at their border")

    def costs(self) -> List[str]:
        discharge = self.discharge()
        said = [f"a region of {len(discharge.region.cells)} cells; the rule counts at {sum(map(len, discharge.region.settled))} of them"]
        fillings = discharge.region.admissible(MOST_FILLINGS)
        if fillings is None:
            return said + [f"the region's first cells have more than {MOST_FILLINGS:,} admissible fillings, so the answer is UNKNOWN large"]
        said.append(f"{share(len(fillings), MOST_FILLINGS)} admissible fillings")
        program = discharge.program()
        if program is None:
            return said + [f"more than {MOST_ROWS:,} rows or {MOST_COLUMNS} columns, so the answer is UNKNOWN large"]
        return said + [f"{share(len(program.rows), MOST_ROWS)} rows, {share(program.columns, MOST_COLUMNS)} columns",
                       f"at most {self.script.limits.pivots:,} pivots"]

    def found(self) -> Optional[str]:
        program = self.discharge().program()
        if program is None:
            return "UNKNOWN large"
        if len(program.rows) * program.columns > 2000:
            return None
        bound = greatest(program)
        return f"BOUND {bound.numerator}/{bound.denominator}"
