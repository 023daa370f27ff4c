"""`%density X [p2 p3]`: the least density of a strip."""
from typing import Iterator, List, Optional

from ..answers import Answer, Density, Empty
from ..faults import Fault
from ..meaning import over, shape
from ..searching import least_mean
from ..strips import MOST_STATES, MOST_WINDOWS, Strip, density_fault, ranks_fault
from .base import WRONG_ANSWER, Picture, Query, share

MOST_PERIOD = 64


class LeastDensity(Query):
    """`%density X [p2 p3]`."""

    word = "density"
    arguments = ("rule", "list")

    def strip(self) -> Strip:
        """The strip with its transfer graph."""
        return Strip(self.script, self.argument(0), self.argument(1))

    def shapes(self) -> Iterator[Fault]:
        given = self.body.arguments[1]
        if len(given.entries) != self.script.dim - 1:
            yield shape(given.bracket, f"a strip has {self.script.dim - 1} periods, one for each axis after the first")

    def sizes(self) -> Iterator[Fault]:
        for entry in self.body.arguments[1].entries:
            if not 1 <= entry.value() <= MOST_PERIOD:
                yield over("periods", entry, f"a strip's period is in 1..{MOST_PERIOD}")
                return
        strip = self.strip()
        if strip.state_count() > MOST_STATES:
            yield self.passed("states", f"the strip has {strip.state_count():,} states, and {MOST_STATES:,} are the most")
        elif strip.window_count() > MOST_WINDOWS:
            yield self.passed("states", f"the strip has {strip.window_count():,} windows, and {MOST_WINDOWS:,} are the most")

    def rejection(self, answer: Answer) -> Optional[str]:
        if isinstance(answer, Density):
            return density_fault(self.strip(), answer.over, answer.under, answer.cycle, answer.potentials)
        if isinstance(answer, Empty):
            return ranks_fault(self.strip(), answer.ranks)
        return WRONG_ANSWER

    def claim(self, answer: Answer) -> str:
        rule, periods = self.argument(0).name, self.argument(1)
        strip = f"the strip with the periods {periods}" if periods else "the line"
        if isinstance(answer, Density):
            return f"{answer.over}/{answer.under} is the least weight per position of configurations of {rule} on {strip}"
        return f"no configuration of {rule} lives on {strip}"

    def costs(self) -> List[str]:
        strip = self.strip()
        return [f"{share(strip.state_count(), MOST_STATES)} states", f"{share(strip.window_count(), MOST_WINDOWS)} windows"]

    def picture(self, answer: Answer) -> Optional[Picture]:
        return (self.strip().configuration(answer.cycle), None) if isinstance(answer, Density) else None

    def found(self) -> Optional[str]:
        strip = self.strip()
        if strip.state_count() > 256:
            return None
        mean = least_mean(strip)
        if mean is None:
            return "EMPTY"
        density = mean / strip.positions
        return f"DENSITY {density.numerator}/{density.denominator}"
