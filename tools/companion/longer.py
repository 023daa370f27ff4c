"""The longer language: what tools/expand reads beside plain scripts (docs/companion.md).

    %let near(p q) p@q | p~q          a named formula with variables
    near(o o.rt), hard(o.rt)          a named formula, or a rule's, at these cells
    life(o.rt)=1                      an automaton's value at a cell
    #p[o1] p=1 >= 2, #p~o p=1 = 3     how many cells of a ball, or neighbours of a cell, are such
    As{red green} f, Es{*} f          for all of these symbols, or for some; * stands for the alphabet
"""
import re
from typing import Dict, List, NamedTuple, Optional, Tuple, Union

from . import tokens
from .commands import Body, Command
from .cursor import Cursor
from .formula_reader import FormulaReader, Read, Scope
from .formulas import Formula, Term
from .reader import WITH_FORMULAS, Reader
from .tokens import Token

SIGNS = re.compile(tokens.TOKEN.pattern.replace(rb"<->|", rb"<->|>=|<=|").replace(rb"[AE%", rb"[#{}*AE%"))


class Call(NamedTuple):
    """A named formula, or a rule's, at cells."""

    name: Token
    cells: List[Term]


class Value(NamedTuple):
    """An automaton's value at a cell, beside a symbol."""

    name: Token
    cell: Term
    symbol: Token
    equal: bool


class Count(NamedTuple):
    """A comparison with the number of cells of a range for which a formula holds. The range is balls, or the neighbours of a cell."""

    sign: Token
    variable: Token
    balls: List[Tuple[Token, Token]]
    beside: Optional[Term]
    body: Formula
    comparison: str
    number: Token


class Loop(NamedTuple):
    """A formula for all of some symbols, or for some of them; without symbols, for those of the alphabet."""

    every: bool
    variable: Token
    symbols: List[Token]
    body: Formula


Longer = Union[Call, Value, Count, Loop]


class LetText(NamedTuple):
    """`%let near(p q) p@q | p~q`."""

    name: Token
    variables: List[Token]
    formula: Formula


class LongReader(FormulaReader):
    """Reads formulas of the longer language."""

    def tight(self, scope: Scope) -> Read:
        token = self.cursor.next()
        if token.is_sign("#"):
            return self.count(scope)
        if (token.is_sign("A") or token.is_sign("E")) and self.cursor.tokens[self.cursor.at + 2:][:1] and \
                self.cursor.tokens[self.cursor.at + 2].is_sign("{"):
            return self.loop(scope)
        return super().tight(scope)

    def atom(self, scope: Scope) -> Formula:
        if not self.cursor.tokens[self.cursor.at + 1].is_sign("("):
            return super().atom(scope)
        name = self.cursor.take()
        self.cursor.take()
        cells = [self.term()]
        while not self.cursor.takes_sign(")"):
            cells.append(self.term())
        sign = self.cursor.next()
        if not (sign.is_sign("=") or sign.is_sign("!=")):
            return Call(name, cells)
        self.cursor.take()
        if len(cells) != 1:
            raise self.cursor.fault("one cell in the brackets after an automaton's name")
        return Value(name, cells[0], self.cursor.name("a symbol"), sign.text == "=")

    def count(self, scope: Scope) -> Read:
        """`#p[o1] f >= 2` or `#p~o f >= 2`."""
        sign = self.cursor.take()
        variable = self.cursor.word("the variable of the counted cells")
        balls, beside = [], None
        if self.cursor.takes_sign("~"):
            beside = self.term()
        else:
            self.cursor.sign("[", "or `~` after the variable of the counted cells")
            balls.append(self.ball())
            while not self.cursor.takes_sign("]"):
                balls.append(self.ball())
        body, height = self.inside(lambda: self.tight(scope | {variable.text}))
        for comparison in (">=", "<=", "="):
            if self.cursor.takes_sign(comparison):
                number = self.cursor.natural("a number of cells")
                return Count(sign, variable, balls, beside, body, comparison, number), self.above(height)
        raise self.cursor.fault("`>=`, `<=` or `=` after what is counted")

    def loop(self, scope: Scope) -> Read:
        """`As{red green} f`, or with E."""
        kind = self.cursor.take()
        variable = self.cursor.word("the symbols' variable")
        self.cursor.sign("{", "before the symbols")
        symbols: List[Token] = []
        if not self.cursor.takes_sign("*"):
            symbols = self.cursor.names("a symbol")
        self.cursor.sign("}", "after the symbols")
        body, height = self.inside(lambda: self.tight(scope))
        return Loop(kind.text == "A", variable, symbols, body), self.above(height)


def let_text(cursor: Cursor, formulas: FormulaReader) -> Body:
    """What follows `%let`."""
    name = cursor.word("the name of the formula")
    cursor.sign("(", "before the variables of the formula")
    variables = [cursor.word("a variable")]
    while not cursor.takes_sign(")"):
        variables.append(cursor.word("a variable or `)`"))
    return LetText(name, variables, formulas.formula(frozenset(variable.text for variable in variables)))


class LongScript(Reader):
    """Reads the commands of a longer script."""

    formula_reader = LongReader
    with_formulas = {**WITH_FORMULAS, "let": let_text}


def long_commands(script: bytes, queries: Dict[str, List[str]]) -> List[Command]:
    """The commands of a longer script; raises the first Fault of its syntax."""
    return LongScript(tokens.tokens_of(script, SIGNS), queries).commands()
