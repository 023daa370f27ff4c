"""Answers with their certificates, as they stand in an output."""
from typing import List, NamedTuple, Optional, Union

from .refutations import Step


class In(NamedTuple):
    """`IN`."""

    def line(self) -> str:
        """The answer's line, without its number."""
        return "IN"


class Out(NamedTuple):
    """`OUT x y z a`: the coordinates and the node."""

    numbers: List[int]

    def line(self) -> str:
        """The answer's line, without its number."""
        return "OUT " + numbers(self.numbers)


class Yes(NamedTuple):
    """`YES n` or `YES n m`, with a refutation for each radius."""

    radii: List[int]
    refutations: List[List[Step]]

    def line(self) -> str:
        """The answer's line, without its number."""
        return "YES " + numbers(self.radii)


class No(NamedTuple):
    """`NO p q shear r`, with `left` or `right` before the periods of an equality, and the configuration."""

    side: str
    periods: List[int]
    shear: int
    symbols: List[int]

    def line(self) -> str:
        """The answer's line, without its number."""
        return f"NO {self.side + ' ' if self.side else ''}{torus(self.periods, self.shear)}"


class Pattern(NamedTuple):
    """`pattern a s ..`: a node and the symbols of the cells that the rule reads there."""

    node: int
    symbols: List[int]


class Listed(NamedTuple):
    """`LIST n` with its patterns."""

    patterns: List[Pattern]

    def line(self) -> str:
        """The answer's line, without its number."""
        return f"LIST {len(self.patterns)}"


class Starred(NamedTuple):
    """`pattern a s * ..`: a node, and for each cell that the rule reads there a symbol, or None where the cell is left out."""

    node: int
    symbols: List[Optional[int]]


class Minimal(NamedTuple):
    """`MINIMAL n` with its patterns."""

    patterns: List[Starred]

    def line(self) -> str:
        """The answer's line, without its number."""
        return f"MINIMAL {len(self.patterns)}"


class Conjugate(NamedTuple):
    """`CONJUGATE n n n n`, with a refutation for each of the four radii."""

    radii: List[int]
    refutations: List[List[Step]]

    def line(self) -> str:
        """The answer's line, without its number."""
        return "CONJUGATE " + numbers(self.radii)


class Broken(NamedTuple):
    """`BROKEN k p q shear r`: which of the four questions of a conjugacy has the answer NO, and the configuration."""

    part: int
    periods: List[int]
    shear: int
    symbols: List[int]

    def line(self) -> str:
        """The answer's line, without its number."""
        return f"BROKEN {self.part} {torus(self.periods, self.shear)}"


class Least(NamedTuple):
    """`LEAST n` with a configuration, and with a refutation of every smaller weight where n isn't 0."""

    weight: int
    symbols: List[int]
    steps: List[Step]

    def line(self) -> str:
        """The answer's line, without its number."""
        return f"LEAST {self.weight}"


class Nothing(NamedTuple):
    """`NONE` with a refutation."""

    steps: List[Step]

    def line(self) -> str:
        """The answer's line, without its number."""
        return "NONE"


class Density(NamedTuple):
    """`DENSITY p/q` with a cycle of states and a potential for each state."""

    over: int
    under: int
    cycle: List[int]
    potentials: List[int]

    def line(self) -> str:
        """The answer's line, without its number."""
        return f"DENSITY {self.over}/{self.under}"


class Empty(NamedTuple):
    """`EMPTY` with a rank for each state."""

    ranks: List[int]

    def line(self) -> str:
        """The answer's line, without its number."""
        return "EMPTY"


class Bound(NamedTuple):
    """`BOUND p/q` with the amounts and the duals over a common denominator."""

    over: int
    under: int
    denominator: int
    amounts: List[int]
    duals: List[int]

    def line(self) -> str:
        """The answer's line, without its number."""
        return f"BOUND {self.over}/{self.under}"


class Unknown(NamedTuple):
    """`UNKNOWN` and a word."""

    reason: str

    def line(self) -> str:
        """The answer's line, without its number."""
        return f"UNKNOWN {self.reason}"


Answer = Union[In, Out, Yes, No, Listed, Minimal, Conjugate, Broken, Least, Nothing, Density, Empty, Bound, Unknown]


def numbers(given: List[int]) -> str:
    """Numbers with blanks between them."""
    return " ".join(map(str, given))


def torus(periods: List[int], shear: int) -> str:
    """Periods, and the shear if it isn't 0."""
    return numbers(periods) + (f" shear {shear}" if shear else "")
