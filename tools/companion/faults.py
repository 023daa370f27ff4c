"""Faults of a script: which command, what kind, where in the text, and the rule that is broken.

The kinds and their order are those of docs/guide.md, "How a script is refused".
"""
from typing import List, NamedTuple, Optional

KINDS = ("syntax", "unknown", "twice", "dimension", "size")
LIMITS = ("commands", "word", "number", "nodes", "alphabet", "edges", "offset", "weight", "limits", "moves", "radius", "balls",
          "instances", "reach", "depth", "periods", "vectors", "patterns", "states", "clauses")


class Fault(Exception):
    """Why a script is refused. `at` is an offset in its bytes; `name` is what follows the kind in the refusal's line."""

    def __init__(self, kind: str, name: str, at: int, rule: str, token: str = "", command: int = 0) -> None:
        super().__init__(kind, name, at, rule)
        self.kind = kind
        self.name = name
        self.at = at
        self.rule = rule
        self.token = token
        self.command = command

    def line(self) -> str:
        """The line that answers a refused script."""
        return " ".join(word for word in ("refused", str(self.command), self.kind, self.name) if word)

    def rank(self) -> "tuple[int, int, int]":
        """Orders the faults of one command by kind, then by limit, then by place. The least one counts."""
        limit = LIMITS.index(self.name) if self.kind == "size" else 0
        return KINDS.index(self.kind), limit, self.at


class Place(NamedTuple):
    """A place in a text, both numbers from 1."""

    line: int
    column: int


def place(script: bytes, at: int) -> Place:
    """The line and the column of an offset."""
    before = script[:at]
    return Place(before.count(b"\n") + 1, at - (before.rfind(b"\n") + 1) + 1)


def first(faults: List[Fault]) -> Optional[Fault]:
    """Of the faults of one command, the one that counts."""
    return min(faults, key=Fault.rank, default=None)
