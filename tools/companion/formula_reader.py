"""Reads formulas.

`!` and the quantifiers bind tightest, then `&`, `|`, `->` (grouped to the right) and `<->` (grouped to the left).
"""
from typing import Callable, FrozenSet, List, Tuple

from . import tokens
from .cursor import Cursor
from .formulas import Adjacent, And, Formula, Iff, Implies, IsSymbol, Not, OnNode, Or, Quantified, SameCell, SameSymbol, Term
from .tokens import Token

MOST_DEPTH = 64
Scope = FrozenSet[str]
Read = Tuple[Formula, int]
"""A formula with its height."""
CELL: Scope = frozenset("o")


class FormulaReader:
    """Reads formulas from a cursor, each with its height. Atoms have height 0. Each sign, bracket and quantifier is one higher than its highest part;
    a list with `&` or `|` counts once."""

    def __init__(self, cursor: Cursor) -> None:
        self.cursor = cursor
        self.open = 0

    def formula(self, scope: Scope = CELL) -> Formula:
        """A whole formula."""
        return self.equivalence(scope)[0]

    def above(self, *heights: int) -> int:
        """One more than the greatest of these heights, within the limit."""
        if max(heights) >= MOST_DEPTH:
            raise self.cursor.fault(f"a formula that is at most {MOST_DEPTH} deep")
        return max(heights) + 1

    def inside(self, read: Callable[[], Read]) -> Read:
        """Reads a part after a sign, a bracket or a quantifier. No more of these may be open than a formula may be high."""
        self.open = self.above(self.open)
        part = read()
        self.open -= 1
        return part

    def equivalence(self, scope: Scope) -> Read:
        """Parts with `<->` between them."""
        left, height = self.implication(scope)
        while self.cursor.takes_sign("<->"):
            right, other = self.implication(scope)
            left, height = Iff(left, right), self.above(height, other)
        return left, height

    def implication(self, scope: Scope) -> Read:
        """A formula without `<->` outside brackets."""
        left, height = self.disjunction(scope)
        if not self.cursor.takes_sign("->"):
            return left, height
        right, other = self.inside(lambda: self.implication(scope))
        return Implies(left, right), self.above(height, other)

    def disjunction(self, scope: Scope) -> Read:
        """Parts with `|` between them."""
        parts = [self.conjunction(scope)]
        while self.cursor.takes_sign("|"):
            parts.append(self.conjunction(scope))
        return parts[0] if len(parts) == 1 else (Or([part for part, _ in parts]), self.above(*[height for _, height in parts]))

    def conjunction(self, scope: Scope) -> Read:
        """Parts with `&` between them."""
        parts = [self.tight(scope)]
        while self.cursor.takes_sign("&"):
            parts.append(self.tight(scope))
        return parts[0] if len(parts) == 1 else (And([part for part, _ in parts]), self.above(*[height for _, height in parts]))

    def tight(self, scope: Scope) -> Read:
        """What binds tightest: an atom, or one with `!`, a quantifier or brackets."""
        token = self.cursor.next()
        if self.cursor.takes_sign("!"):
            part, height = self.inside(lambda: self.tight(scope))
            return Not(part), self.above(height)
        if self.cursor.takes_sign("("):
            part, height = self.inside(lambda: self.equivalence(scope))
            self.cursor.sign(")", "to close the bracket")
            return part, self.above(height)
        if token.is_sign("A") or token.is_sign("E"):
            return self.quantified(scope)
        if token.kind == tokens.WORD:
            return self.atom(scope), 0
        raise self.cursor.fault("a formula: a cell's variable, `!`, `(`, `A` or `E`")

    def quantified(self, scope: Scope) -> Read:
        """`Ap[o1q2] f`, or with E."""
        kind = self.cursor.take()
        variable = self.cursor.word("the quantifier's variable")
        self.cursor.sign("[", "before the quantifier's balls")
        balls = [self.ball()]
        while not self.cursor.takes_sign("]"):
            balls.append(self.ball())
        body, height = self.inside(lambda: self.tight(scope | {variable.text}))
        return Quantified(kind.text == "A", variable, balls, body), self.above(height)

    def ball(self) -> "tuple[Token, Token]":
        """A variable with a radius."""
        return self.cursor.word("a ball's variable"), self.cursor.natural("a ball's radius")

    def term(self) -> Term:
        """A variable with its moves."""
        variable = self.cursor.word("a cell's variable")
        moves: List[Token] = []
        while self.cursor.takes_sign("."):
            moves.append(self.cursor.word("the label of a move"))
        return Term(variable, tuple(moves))

    def atom(self, scope: Scope) -> Formula:
        """`t=s`, `t!=s`, `t=u`, `t!=u`, `t~u`, `t@u` or `t:a`."""
        left = self.term()
        sign = self.cursor.next()
        if sign.is_sign("=") or sign.is_sign("!="):
            self.cursor.take()
            return self.equality(left, sign.text == "=", scope)
        if self.cursor.takes_sign("~"):
            return Adjacent(left, self.term())
        if self.cursor.takes_sign("@"):
            return SameCell(left, self.term())
        if self.cursor.takes_sign(":"):
            return OnNode(left, self.cursor.name("a node"))
        raise self.cursor.fault("`=`, `!=`, `~`, `@`, `:` or `.` after a cell")

    def equality(self, left: Term, equal: bool, scope: Scope) -> Formula:
        """What follows `=`: a variable in scope is a term; any other word, and a number, is a symbol."""
        token = self.cursor.next()
        if token.is_natural():
            return IsSymbol(left, self.cursor.take(), equal)
        if token.kind != tokens.WORD:
            raise self.cursor.fault("a symbol or a cell's variable")
        right = self.term()
        if right.moves or right.variable.text in scope:
            return SameSymbol(left, right, equal)
        return IsSymbol(left, right.variable, equal)
