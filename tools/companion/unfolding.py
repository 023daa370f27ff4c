"""Translates formulas of the longer language into the plain one."""
import itertools
import string
from typing import Dict, FrozenSet, List, NamedTuple, Optional, Sequence, Tuple, Union

from .commands import AutoText, ComposeText, RuleText
from .definitions import MOST_PARTS
from .faults import Fault
from .formulas import Adjacent, And, Formula, Iff, Implies, IsSymbol, Not, OnNode, Or, Quantified, SameCell, SameSymbol, Term, TooLarge
from .lattice import Cell, Topology
from .longer import Call, Count, LetText, Loop, Value
from .printing import FALSE, TRUE, is_constant, is_true, joined, opposite, weight
from .script import Script
from .thresholds import COMPARISONS
from .tokens import NUMBER, WORD, Token

MOST_WRITTEN = 200000
MOST_STEP = 3
Definition = Union[LetText, RuleText, AutoText, ComposeText]


class Scope(NamedTuple):
    """What the variables of a formula stand for, terms of the plain formula or symbols; and the plain formula's own variables."""

    cells: Dict[str, Term]
    symbols: Dict[str, str]
    taken: FrozenSet[str]

    def term(self, given: Term) -> Term:
        """A term of the plain formula."""
        name = given.variable.text
        if name not in self.cells:
            known = ", ".join(sorted(self.cells))
            raise Fault("unknown", name, given.variable.at, f"no variable with this name is in scope; in scope here: {known}", name)
        begin = self.cells[name]
        return Term(begin.variable, begin.moves + given.moves)

    def bound(self, name: str, plain: str) -> "Scope":
        """The scope with one more variable, under a name of the plain formula."""
        return Scope({**self.cells, name: Term(word(plain), ())}, self.symbols, self.taken | {plain})

    def fresh(self, wanted: str) -> str:
        """A name for a variable: the wanted one if it is free, otherwise the first that is free."""
        if wanted not in self.taken:
            return wanted
        letters = string.ascii_lowercase[15:] + string.ascii_lowercase[:15]
        names = ("".join(name) for length in itertools.count(1) for name in itertools.product(letters, repeat=length))
        return next(name for name in names if name not in self.taken)


def word(text: str) -> Token:
    """A word that stands in no script."""
    return Token(WORD, text, 0)


def number(value: int) -> Token:
    """A number that stands in no script."""
    return Token(NUMBER, str(value), 0)


ORIGIN = Scope({"o": Term(word("o"), ())}, {}, frozenset("o"))


class Unfolding:
    """Writes formulas over a script's header and the definitions of the longer script."""

    def __init__(self, script: Script, definitions: Dict[str, Definition]) -> None:
        self.script = script
        self.definitions = definitions
        self.open: List[str] = []
        self.written = 0

    def rule(self, name: Token, formula: Formula, scope: Scope = ORIGIN) -> Formula:
        """A formula of a command in the plain language; raises a fault if it grows too large."""
        self.open = [name.text]
        self.written = 0
        try:
            found = self.of(formula, scope)
            if weight(found) <= MOST_PARTS:
                return found
        except (TooLarge, RecursionError):
            pass
        raise Fault("size", "instances", name.at, f"written out, this has more than {MOST_PARTS:,} parts", name.text)

    def _step(self) -> None:
        """Counts a formula that is visited."""
        self.written += 1
        if self.written > MOST_WRITTEN:
            raise TooLarge

    def of(self, formula: Formula, scope: Scope) -> Formula:
        """The formula in the plain language."""
        self._step()
        if isinstance(formula, (And, Or)):
            return joined([self.of(part, scope) for part in formula.parts], isinstance(formula, And))
        if isinstance(formula, Not):
            return opposite(self.of(formula.part, scope))
        if isinstance(formula, (Implies, Iff)):
            return self._arrow(formula, scope)
        if isinstance(formula, Quantified):
            return self._quantified(formula, scope)
        if isinstance(formula, Loop):
            symbols = [token.text for token in formula.symbols] or self.script.symbol_names()
            parts = [self.of(formula.body, scope._replace(symbols={**scope.symbols, formula.variable.text: symbol})) for symbol in symbols]
            return joined(parts, formula.every)
        if isinstance(formula, Call):
            return self._call(formula, scope)
        if isinstance(formula, Value):
            symbol = scope.symbols.get(formula.symbol.text, formula.symbol.text)
            cell = scope.term(formula.cell)
            found = self._value(formula.name, cell, symbol, scope.taken)
            return self._where([cell], found if formula.equal else opposite(found))
        return self._count(formula, scope) if isinstance(formula, Count) else self._atom(formula, scope)

    def _arrow(self, formula: Union[Implies, Iff], scope: Scope) -> Formula:
        left, right = self.of(formula.left, scope), self.of(formula.right, scope)
        if isinstance(formula, Implies):
            if is_constant(left) or is_constant(right):
                return joined([opposite(left), right], every=False)
            return Implies(left, right)
        for one, other in ((left, right), (right, left)):
            if is_constant(one):
                return other if is_true(one) else opposite(other)
        return Iff(left, right)

    def _atom(self, formula: Formula, scope: Scope) -> Formula:
        if isinstance(formula, IsSymbol):
            name = scope.symbols.get(formula.symbol.text, formula.symbol.text)
            return IsSymbol(scope.term(formula.term), formula.symbol._replace(text=name), formula.equal)
        if isinstance(formula, OnNode):
            return OnNode(scope.term(formula.term), formula.node)
        if isinstance(formula, SameSymbol):
            return SameSymbol(scope.term(formula.left), scope.term(formula.right), formula.equal)
        return type(formula)(scope.term(formula.left), scope.term(formula.right))

    def _quantified(self, formula: Quantified, scope: Scope) -> Formula:
        for variable, _ in formula.balls:
            cell = scope.term(Term(variable, ()))
            if cell.moves:
                return self._bound(variable.text, cell, scope, lambda inner: self._quantified(formula, inner))
        plain = scope.fresh(formula.variable.text)
        balls = [(scope.term(Term(variable, ())).variable, radius) for variable, radius in formula.balls]
        body = self.of(formula.body, scope.bound(formula.variable.text, plain))
        return Quantified(formula.every, word(plain), balls, body)

    def _bound(self, name: str, cell: Term, scope: Scope, inside) -> Formula:
        """Binds a new variable to the cell at the end of moves, three moves at a time, and gives the formula inside."""
        step = Term(cell.variable, cell.moves[:MOST_STEP])
        plain = scope.fresh(name)
        inner = scope.bound(name, plain)
        if len(cell.moves) > MOST_STEP:
            body = self._bound(name, Term(word(plain), cell.moves[MOST_STEP:]), inner, inside)
        else:
            body = inside(inner)
        here = SameCell(Term(word(plain), ()), step)
        return Quantified(False, word(plain), [(cell.variable, number(len(step.moves)))], joined([here, body], every=True))

    def _definition(self, name: Token, kinds: Tuple[type, ...], what: str) -> Definition:
        found = self.definitions.get(name.text)
        if not isinstance(found, kinds):
            raise Fault("unknown", name.text, name.at, f"expected {what} here, and {name.text} is none", name.text)
        if name.text in self.open:
            raise Fault("syntax", "", name.at, f"a circle: {' -> '.join([*self.open, name.text])}", name.text)
        return found

    def _call(self, formula: Call, scope: Scope) -> Formula:
        found = self._definition(formula.name, (LetText, RuleText), "a named formula or a rule")
        variables = [variable.text for variable in found.variables] if isinstance(found, LetText) else ["o"]
        if len(variables) != len(formula.cells):
            rule = f"{formula.name.text} has {len(variables)} variables, and {len(formula.cells)} are given"
            raise Fault("dimension", "", formula.name.at, rule, formula.name.text)
        cells = {variable: scope.term(cell) for variable, cell in zip(variables, formula.cells)}
        self.open.append(formula.name.text)
        unfolded = self.of(found.formula, Scope(cells, {}, scope.taken))
        self.open.pop()
        return unfolded

    def _value(self, name: Token, cell: Term, symbol: str, taken: FrozenSet[str]) -> Formula:
        """The formula that an automaton has a value at a cell."""
        found = self._definition(name, (AutoText, ComposeText), "an automaton")
        self.open.append(name.text)
        if isinstance(found, AutoText):
            value = self._by_cases(found, symbol, lambda formula: self.of(formula, Scope({"o": cell}, {}, taken)))
        else:
            value = self._composed(found, cell, symbol, taken)
        self.open.pop()
        return value

    def _by_cases(self, automaton: AutoText, symbol: str, unfold) -> Formula:
        """The formula that the first case that holds gives a symbol, built from the last case to the first."""
        value = TRUE if automaton.otherwise.text == symbol else FALSE
        for formula, given in reversed(automaton.cases):
            case = unfold(formula)
            value = joined([case, value], every=False) if given.text == symbol else joined([opposite(case), value], every=True)
        return value

    def _composed(self, found: ComposeText, cell: Term, symbol: str, taken: FrozenSet[str]) -> Formula:
        """The value of a composition: that of the outer automaton, with the inner one's value for each symbol."""
        outer = self._value(found.outer, cell, symbol, taken)
        return self._inside(outer, found.inner, taken)

    def _inside(self, formula: Formula, inner: Token, taken: FrozenSet[str]) -> Formula:
        """A plain formula with an automaton's values for the symbols of its cells."""
        self._step()
        if isinstance(formula, (And, Or)):
            return joined([self._inside(part, inner, taken) for part in formula.parts], isinstance(formula, And))
        if isinstance(formula, Not):
            return opposite(self._inside(formula.part, inner, taken))
        if isinstance(formula, (Implies, Iff)):
            return type(formula)(self._inside(formula.left, inner, taken), self._inside(formula.right, inner, taken))
        if isinstance(formula, Quantified):
            return formula._replace(body=self._inside(formula.body, inner, taken | {formula.variable.text}))
        if isinstance(formula, IsSymbol):
            value = self._value(inner, formula.term, formula.symbol.text, taken)
            return self._where([formula.term], value if formula.equal else opposite(value))
        if isinstance(formula, SameSymbol):
            same = joined([joined([self._value(inner, cell, symbol, taken) for cell in (formula.left, formula.right)], every=True)
                           for symbol in self.script.symbols], every=False)
            return self._where([formula.left, formula.right], same if formula.equal else opposite(same))
        return formula

    def _where(self, cells: Sequence[Term], formula: Formula) -> Formula:
        """The formula, and that no move to these cells is missing. This is said only of moves that some node lacks."""
        lacking = {tuple(token.text for token in (cell.variable, *cell.moves)): cell for cell in cells if self._may_lack(cell.moves)}
        there = [SameSymbol(cell, cell, True) for cell in lacking.values()]
        return joined([*there, formula], every=True)

    def _may_lack(self, moves: Sequence[Token]) -> bool:
        """Whether these moves, from some node, lead nowhere."""
        for node in range(self.script.topology.nodes):
            cell: Optional[Cell] = (0, 0, 0, node)
            for move in moves:
                cell = self.script.topology.move(cell, move.text) if cell is not None else None
            if cell is None:
                return True
        return False

    def _count(self, formula: Count, scope: Scope) -> Formula:
        """A count: over the cells that moves lead to, if they lead to all of them, otherwise by nested quantifiers."""
        comparison, wanted = formula.comparison, formula.number.value()
        middle = formula.beside
        if middle is None and len(formula.balls) == 1:
            middle = Term(formula.balls[0][0], ())
        paths = self._paths(formula) if middle is not None else None
        if paths is None:
            return self._nested_count(formula, scope)
        cell, ways = scope.term(middle), []
        for nodes, moves in paths:
            inner = [Scope({**scope.cells, formula.variable.text: Term(cell.variable, cell.moves + path)}, scope.symbols, scope.taken)
                     for path in moves]
            counted = COMPARISONS[comparison](wanted, [self.of(formula.body, each) for each in inner])
            if len(paths) > 1:
                there = joined([OnNode(cell, word(node)) for node in nodes], every=False)
                counted = joined([there, counted], every=True)
            ways.append(counted)
        return joined(ways, every=False)

    def _paths(self, formula: Count) -> Optional[List[Tuple[List[str], Sequence[Tuple[Token, ...]]]]]:
        """The nodes, grouped by the moves that lead to the counted cells; None if moves don't reach some cell."""
        groups: Dict[Tuple[Tuple[Token, ...], ...], List[str]] = {}
        for name, node in self.script.nodes.items():
            cell = (0, 0, 0, node)
            if formula.beside is not None:
                cells = self.script.topology.neighbours(cell)
            else:
                cells = self.script.topology.balls([(cell, formula.balls[0][1].value())])
            moves = moves_to(self.script.topology, cell, cells)
            if moves is None:
                return None
            groups.setdefault(tuple(moves), []).append(name)
        return [(nodes, moves) for moves, nodes in groups.items()]

    def _nested_count(self, formula: Count, scope: Scope) -> Formula:
        """A count by quantifiers: at least k cells are such if one is, and at least k - 1 others."""
        wanted, comparison = formula.number.value(), formula.comparison
        if comparison == ">=":
            return self._at_least(wanted, formula, scope, [])
        fewer = opposite(self._at_least(wanted + 1, formula, scope, []))
        return fewer if comparison == "<=" else joined([self._at_least(wanted, formula, scope, []), fewer], every=True)

    def _at_least(self, wanted: int, formula: Count, scope: Scope, found: List[str]) -> Formula:
        if wanted <= 0:
            return TRUE
        balls = [(formula.beside.variable, number(1))] if formula.beside is not None and not formula.beside.moves else formula.balls
        if formula.beside is not None and formula.beside.moves:
            rule = "the neighbours of a cell behind moves can't be counted here: moves don't reach all of them"
            raise Fault("syntax", "", formula.sign.at, rule)
        for variable, _ in balls:
            cell = scope.term(Term(variable, ()))
            if cell.moves:
                return self._bound(variable.text, cell, scope, lambda inner: self._at_least(wanted, formula, inner, found))
        plain = scope.fresh(formula.variable.text)
        inner = scope.bound(formula.variable.text, plain)
        here = Term(word(plain), ())
        others: List[Formula] = [Not(SameCell(here, Term(word(other), ()))) for other in found]
        if formula.beside is not None:
            others.append(Adjacent(here, scope.term(formula.beside)))
        rest = self._at_least(wanted - 1, formula, Scope(scope.cells, scope.symbols, inner.taken), [*found, plain])
        body = joined([*others, self.of(formula.body, inner), rest], every=True)
        return Quantified(False, word(plain), [(scope.term(Term(variable, ())).variable, radius) for variable, radius in balls], body)


def moves_to(topology: Topology, begin: Cell, cells: Sequence[Cell]) -> Optional[List[Tuple[Token, ...]]]:
    """For each of these cells, in their order, the fewest moves that lead there; None if moves don't reach one of them."""
    paths: Dict[Cell, Tuple[Token, ...]] = {begin: ()}
    front = [begin]
    labels = list(dict.fromkeys(edge.label for edge in topology.edges))
    for _ in range(4):
        reached = []
        for cell in front:
            for label in labels:
                to = topology.move(cell, label)
                if to is not None and to not in paths:
                    paths[to] = paths[cell] + (word(label),)
                    reached.append(to)
        front = reached
    if any(cell not in paths for cell in cells):
        return None
    return [paths[cell] for cell in cells]
