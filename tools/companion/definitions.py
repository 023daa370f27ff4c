"""The meaning of rules, configurations, automata and compositions, and their faults."""
from typing import FrozenSet, Iterator, Sequence, Tuple

from .faults import Fault
from .formulas import (Adjacent, And, Expansion, Formula, Iff, Implies, IsSymbol, Not, OnNode, Or, Quantified, SameCell, SameSymbol, Term,
                       TooLarge)
from .meaning import Meaning, over, shape, twice, unknown
from .script import Automaton, Cases, Composition, Configuration, Rule, Script, automaton_reach
from .tokens import Token

MOST_MOVES, MOST_BALL, MOST_BALLS = 16, 3, 4
MOST_PARTS, MOST_REACH, MOST_COMPOSED = 20000, 16, 64
MOST_CELLS = 65536


def subformulas(formula: Formula) -> Iterator[Formula]:
    """A formula and all its parts, in the order of the text."""
    yield formula
    if isinstance(formula, Not):
        yield from subformulas(formula.part)
    elif isinstance(formula, (And, Or)):
        for part in formula.parts:
            yield from subformulas(part)
    elif isinstance(formula, (Implies, Iff)):
        yield from subformulas(formula.left)
        yield from subformulas(formula.right)
    elif isinstance(formula, Quantified):
        yield from subformulas(formula.body)


def terms_of(formula: Formula) -> Iterator[Term]:
    """The terms of a formula, in the order of the text."""
    for part in subformulas(formula):
        if isinstance(part, (SameSymbol, Adjacent, SameCell)):
            yield part.left
            yield part.right
        elif isinstance(part, (IsSymbol, OnNode)):
            yield part.term


class FormulaNames:
    """The faults of a formula's names: variables, labels, symbols and nodes."""

    def __init__(self, script: Script, meaning: Meaning) -> None:
        self.script = script
        self.meaning = meaning

    def faults(self, formula: Formula, scope: FrozenSet[str] = frozenset("o")) -> Iterator[Fault]:
        """The faults of a formula, with these variables in scope."""
        if isinstance(formula, Not):
            yield from self.faults(formula.part, scope)
        elif isinstance(formula, (And, Or)):
            for part in formula.parts:
                yield from self.faults(part, scope)
        elif isinstance(formula, (Implies, Iff)):
            yield from self.faults(formula.left, scope)
            yield from self.faults(formula.right, scope)
        elif isinstance(formula, Quantified):
            yield from self._quantified(formula, scope)
        else:
            yield from self._atom(formula, scope)

    def _quantified(self, formula: Quantified, scope: FrozenSet[str]) -> Iterator[Fault]:
        name = formula.variable
        if name.text in scope:
            yield twice(name, f"the variable {name.text} is already in scope here")
        for variable, _ in formula.balls:
            yield from self._variable(variable, scope)
        yield from self.faults(formula.body, scope | {name.text})

    def _variable(self, token: Token, scope: FrozenSet[str]) -> Iterator[Fault]:
        if token.text not in scope:
            yield unknown(token, f"no variable with this name is in scope; in scope here: {', '.join(sorted(scope))}")

    def _term(self, term: Term, scope: FrozenSet[str]) -> Iterator[Fault]:
        yield from self._variable(term.variable, scope)
        labels = self.script.topology.labels
        for label in term.moves:
            if label.text not in labels:
                yield unknown(label, f"no edge has this label; the labels are {' '.join(sorted(labels))}")

    def _atom(self, formula: Formula, scope: FrozenSet[str]) -> Iterator[Fault]:
        for term in terms_of(formula):
            yield from self._term(term, scope)
        if isinstance(formula, IsSymbol):
            yield from self.meaning.known_symbols([formula.symbol])
        elif isinstance(formula, OnNode) and formula.node.text not in self.script.nodes:
            yield unknown(formula.node, f"no node has this name; the nodes are {' '.join(self.script.nodes)}")


def written_sizes(formulas: Sequence[Formula]) -> Iterator[Fault]:
    """The limits on moves, radii and numbers of balls that formulas pass."""
    for term in (term for formula in formulas for term in terms_of(formula)):
        if len(term.moves) > MOST_MOVES:
            yield over("moves", term.moves[MOST_MOVES], f"a term has at most {MOST_MOVES} moves, this one has {len(term.moves)}")
    quantified = [part for formula in formulas for part in subformulas(formula) if isinstance(part, Quantified)]
    for radius in (radius for part in quantified for _, radius in part.balls):
        if radius.value() > MOST_BALL:
            yield over("radius", radius, f"a ball's radius is at most {MOST_BALL}")
    for part in quantified:
        if len(part.balls) > MOST_BALLS:
            yield over("balls", part.balls[MOST_BALLS][0], f"a quantifier has at most {MOST_BALLS} balls")


def rule_of(script: Script, name: str, formula: Formula) -> Rule:
    """The rule of a formula; raises TooLarge if its expansion at some node passes the limit."""
    script.end_header()
    expansion = Expansion(script.topology, script.symbols, script.nodes, MOST_PARTS)
    return Rule(name, formula, [expansion.at(formula, (0, 0, 0, node)) for node in range(len(script.nodes))])


def too_many_parts(token: Token) -> Fault:
    """The fault of an expansion over the limit."""
    return over("instances", token, f"the formula's expansion has more than {MOST_PARTS:,} parts at some node")


def too_far(token: Token, reach: int) -> Fault:
    """The fault that a cell is read too far away."""
    return over("reach", token, f"a cell {reach} away along an axis is read, and {MOST_REACH} is the most")


class RuleMeaning(Meaning):
    """`%rule`."""

    def names(self) -> Iterator[Fault]:
        yield from self.taken(self.body.name)
        yield from FormulaNames(self.script, self).faults(self.body.formula)

    def sizes(self) -> Iterator[Fault]:
        yield from written_sizes([self.body.formula])
        try:
            rule = rule_of(self.script, self.body.name.text, self.body.formula)
        except TooLarge:
            yield too_many_parts(self.body.name)
            return
        if rule.reach() > MOST_REACH:
            yield too_far(self.body.name, rule.reach())
        self.rule = rule

    def apply(self) -> None:
        self.script.named[self.body.name.text] = self.rule


class ConfMeaning(Meaning):
    """`%conf`."""

    def names(self) -> Iterator[Fault]:
        self.script.end_header()
        yield from self.taken(self.body.name)
        script = self.script
        nodes = script.node_names()
        for place, token in enumerate(self.body.symbols):
            node = place % len(nodes)
            if token.text not in script.symbols:
                yield unknown(token, f"no symbol has this name; the alphabet is {' '.join(script.symbols)}")
            elif not script.allows(node, script.symbols[token.text]):
                yield unknown(token, f"the node {nodes[node]} doesn't allow this symbol")

    def shapes(self) -> Iterator[Fault]:
        body, dim = self.body, self.script.dim
        if len(body.periods.entries) != dim:
            yield shape(body.periods.bracket, f"a configuration has {dim} periods, one for each axis")
        if body.shear is not None and dim == 1:
            yield shape(body.shear.bracket, "there is no shear in dimension 1")
        elif body.shear is not None and len(body.shear.entries) != 1:
            yield shape(body.shear.bracket, "the shear is one number")
        wanted = len(self.script.nodes)
        for period in body.periods.values():
            wanted *= period
        if len(body.symbols) != wanted:
            yield shape(body.periods.bracket, f"a box of these periods has {wanted} cells, and there are {len(body.symbols)} symbols")

    def sizes(self) -> Iterator[Fault]:
        body = self.body
        if len(body.symbols) > MOST_CELLS:
            yield over("periods", body.periods.bracket, f"a configuration has at most {MOST_CELLS:,} symbols")
        elif body.shear is not None and body.shear.values()[0] >= body.periods.values()[0]:
            yield over("periods", body.shear.entries[0], "a shear is less than the first period")

    def apply(self) -> None:
        body, script = self.body, self.script
        symbols = [script.symbols[token.text] for token in body.symbols]
        shear = body.shear.values()[0] if body.shear is not None else 0
        made = Configuration(body.name.text, body.periods.values(), shear, symbols, len(script.nodes))
        script.named[body.name.text] = made


def automaton_sizes(token: Token, automaton: Automaton) -> Iterator[Fault]:
    """The limits that an automaton passes."""
    if max(automaton.sizes) > MOST_PARTS:
        comes = f"at some node the automaton has {max(automaton.sizes):,} parts"
        yield over("instances", token, f"{comes}, and {MOST_PARTS:,} are the most")
    if automaton_reach(automaton) > MOST_REACH:
        yield too_far(token, automaton_reach(automaton))
    if automaton.depth > MOST_COMPOSED:
        yield over("depth", token, f"compositions are nested {automaton.depth} deep, and {MOST_COMPOSED} is the most")


class AutoMeaning(Meaning):
    """`%auto`."""

    def names(self) -> Iterator[Fault]:
        yield from self.taken(self.body.name)
        names = FormulaNames(self.script, self)
        for formula, symbol in self.body.cases:
            yield from names.faults(formula)
            yield from self.known_symbols([symbol])
        yield from self.known_symbols([self.body.otherwise])

    def sizes(self) -> Iterator[Fault]:
        body, script = self.body, self.script
        yield from written_sizes([formula for formula, _ in body.cases])
        try:
            cases = [(rule_of(script, body.name.text, formula), script.symbols[symbol.text]) for formula, symbol in body.cases]
        except TooLarge:
            yield too_many_parts(body.name)
            return
        self.automaton = Cases(body.name.text, cases, script.symbols[body.otherwise.text], len(script.nodes))
        yield from automaton_sizes(body.name, self.automaton)

    def apply(self) -> None:
        self.script.named[self.body.name.text] = self.automaton


class ComposeMeaning(Meaning):
    """`%compose`."""

    def names(self) -> Iterator[Fault]:
        yield from self.taken(self.body.name)
        yield from wrong_kind(self.script, self.body.outer, (Cases, Composition))
        yield from wrong_kind(self.script, self.body.inner, (Cases, Composition))

    def sizes(self) -> Iterator[Fault]:
        named, body = self.script.named, self.body
        self.automaton = Composition(body.name.text, named[body.outer.text], named[body.inner.text])
        yield from automaton_sizes(body.name, self.automaton)

    def apply(self) -> None:
        self.script.named[self.body.name.text] = self.automaton


KINDS = {Rule: "a rule", Cases: "an automaton", Composition: "an automaton", Configuration: "a configuration"}
"""The kinds of named things in words."""


def wrong_kind(script: Script, token: Token, wanted: Tuple[type, ...]) -> Iterator[Fault]:
    """The fault that a name doesn't stand for a thing of these kinds."""
    named = script.named.get(token.text)
    what = KINDS[wanted[0]]
    if named is None:
        of_kind = [name for name, value in script.named.items() if isinstance(value, wanted)]
        known = f"; named so far: {', '.join(of_kind)}" if of_kind else "; none is named so far"
        yield unknown(token, f"expected {what} here, but nothing is named {token.text} before{known}")
    elif not isinstance(named, wanted):
        yield unknown(token, f"expected {what} here, but {token.text} is {KINDS[type(named)]}")
