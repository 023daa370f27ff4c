"""Writes formulas as text, with no more brackets than are needed."""
from typing import List, Union

from .formulas import (Adjacent, And, Formula, Iff, Implies, IsSymbol, Not, OnNode, Or, Quantified, SameCell, SameSymbol, Term)

IFF, IMPLIES, OR, AND, TIGHT = range(5)
"""How tightly a formula binds. A formula that binds less tightly than its place demands stands in brackets."""

TRUE = And([])
FALSE = Or([])


def is_true(formula: Formula) -> bool:
    """Whether this is the formula that always holds."""
    return isinstance(formula, And) and not formula.parts


def is_false(formula: Formula) -> bool:
    """Whether this is the formula that never holds."""
    return isinstance(formula, Or) and not formula.parts


def is_constant(formula: Formula) -> bool:
    """Whether this is one of these two."""
    return is_true(formula) or is_false(formula)


def written(formula: Formula) -> str:
    """A formula as text."""
    if is_true(formula):
        return "o@o"
    if is_false(formula):
        return "!o@o"
    return _at(formula, IFF)


def _at(formula: Formula, least: int) -> str:
    """A formula at a place that demands a binding of at least this level."""
    level, text = _text(formula)
    return text if level >= least else f"({text})"


def _text(formula: Formula) -> "tuple[int, str]":
    if isinstance(formula, (And, Or)):
        level, sign = (AND, " & ") if isinstance(formula, And) else (OR, " | ")
        return level, sign.join(_at(part, level + 1) for part in formula.parts)
    if isinstance(formula, Implies):
        return IMPLIES, f"{_at(formula.left, OR)} -> {_at(formula.right, IMPLIES)}"
    if isinstance(formula, Iff):
        return IFF, f"{_at(formula.left, IFF)} <-> {_at(formula.right, IMPLIES)}"
    if isinstance(formula, Not):
        return TIGHT, f"!{_at(formula.part, TIGHT)}"
    if isinstance(formula, Quantified):
        balls = "".join(f"{variable.text}{radius.text}" for variable, radius in formula.balls)
        return TIGHT, f"{'A' if formula.every else 'E'}{formula.variable.text}[{balls}] {_at(formula.body, TIGHT)}"
    return TIGHT, _atom(formula)


def _atom(formula: Union[IsSymbol, SameSymbol, Adjacent, SameCell, OnNode]) -> str:
    if isinstance(formula, IsSymbol):
        return f"{term(formula.term)}{'=' if formula.equal else '!='}{formula.symbol.text}"
    if isinstance(formula, SameSymbol):
        return f"{term(formula.left)}{'=' if formula.equal else '!='}{term(formula.right)}"
    if isinstance(formula, OnNode):
        return f"{term(formula.term)}:{formula.node.text}"
    return f"{term(formula.left)}{'~' if isinstance(formula, Adjacent) else '@'}{term(formula.right)}"


def term(given: Term) -> str:
    """A term as text."""
    return ".".join([given.variable.text, *[move.text for move in given.moves]])


def joined(parts: List[Formula], every: bool) -> Formula:
    """All of the parts or some of them, with constant parts left out where they don't matter."""
    kind, settles = (And, is_false) if every else (Or, is_true)
    found: List[Formula] = []
    for part in parts:
        if settles(part):
            return part
        found += part.parts if isinstance(part, kind) else [part]
    return found[0] if len(found) == 1 else kind(found)


def opposite(formula: Formula) -> Formula:
    """The opposite of a formula."""
    if is_constant(formula):
        return FALSE if is_true(formula) else TRUE
    return formula.part if isinstance(formula, Not) else Not(formula)


def weight(formula: Formula) -> int:
    """Roughly how long a formula is as text: its atoms and signs."""
    if isinstance(formula, (And, Or)):
        return 1 + sum(weight(part) for part in formula.parts)
    if isinstance(formula, (Implies, Iff)):
        return 1 + weight(formula.left) + weight(formula.right)
    if isinstance(formula, Not):
        return 1 + weight(formula.part)
    return 1 + weight(formula.body) if isinstance(formula, Quantified) else 1
