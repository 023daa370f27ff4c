"""Images and conjugacies, as box questions on pairs of automata.

An automaton maps a shift into another if the following two agree: its composition with an automaton that marks the cells at which the second rule
fails, and an automaton that marks nothing. Two automata are inverse if both compositions are the identity.
"""
from typing import List

from .boxes import Differ, Question
from .definitions import rule_of
from .formulas import And, Formula, Iff, Implies, IsSymbol, Not, OnNode, Or, Quantified, Term
from .lattice import Cell
from .script import Automaton, Cases, Composition, Rule, Script
from .tokens import WORD, Token

HERE = Term(Token(WORD, "o", 0), ())


def guarded(script: Script, rule: Rule) -> Formula:
    """The formula that a rule holds and the node has a symbol that it allows."""
    members: List[Formula] = [rule.formula]
    for name, node in script.nodes.items():
        allowed = script.allowed[node]
        if len(allowed) < len(script.symbols):
            symbols = [IsSymbol(HERE, Token(WORD, script.symbol_names()[symbol], 0), True) for symbol in allowed]
            members.append(Or([Not(OnNode(HERE, Token(WORD, name, 0))), *symbols]))
    return members[0] if len(members) == 1 else And(members)


def depth(formula: Formula) -> int:
    """How deeply a formula is nested. Atoms have depth 0, and a list of one part has the depth of the part."""
    if isinstance(formula, (And, Or)):
        parts = [depth(part) for part in formula.parts]
        return max(parts, default=0) + (len(parts) > 1)
    if isinstance(formula, (Implies, Iff)):
        return 1 + max(depth(formula.left), depth(formula.right))
    if isinstance(formula, Not):
        return 1 + depth(formula.part)
    return 1 + depth(formula.body) if isinstance(formula, Quantified) else 0


def constant(script: Script, symbol: int) -> Cases:
    """The automaton that gives one symbol everywhere."""
    return Cases("constant", [], symbol, len(script.nodes))


def marked(script: Script, rule: Rule) -> Cases:
    """The automaton that gives the symbol 0 where a rule holds and the symbol is allowed, and the symbol 1 elsewhere."""
    return Cases(f"marked {rule.name}", [(rule_of(script, rule.name, guarded(script, rule)), 0)], 1, len(script.nodes))


def identity(script: Script) -> Cases:
    """The automaton that changes nothing."""
    cases = []
    for name, symbol in list(script.symbols.items())[1:]:
        cases.append((rule_of(script, name, IsSymbol(HERE, Token(WORD, name, 0), True)), symbol))
    return Cases("identity", cases, 0, len(script.nodes))


def image_question(script: Script, automaton: Automaton, source: Rule, target: Rule) -> Question:
    """Whether an automaton maps the shift of one rule into that of another."""
    composed = Composition("image", marked(script, target), automaton)
    return Question(script, source, Differ(composed, constant(script, 0)))


def identity_question(script: Script, outer: Automaton, inner: Automaton, rule: Rule) -> Question:
    """Whether two automata, the inner one first, change nothing on the shift of a rule."""
    return Question(script, rule, Differ(Composition("both", outer, inner), identity(script)))


def conjugacy_questions(script: Script, there: Automaton, back: Automaton, source: Rule, target: Rule) -> List[Question]:
    """The four questions of a conjugacy: both images, and both compositions."""
    return [image_question(script, there, source, target), image_question(script, back, target, source),
            identity_question(script, back, there, source), identity_question(script, there, back, target)]


def image_breaks(script: Script, automaton: Automaton, rule: Rule, cell: Cell, symbol_at) -> bool:
    """Whether an image has a symbol at a cell that isn't allowed, or breaks a rule there. This is the definition, for comparison."""
    image = lambda read: automaton.value(read, symbol_at)  # noqa: E731
    return not script.allows(cell[3], image(cell)) or not rule.holds_at(cell, image)
