"""Reads the commands of a script. It looks only at the syntax; meaning.py looks names up."""
from typing import Callable, Dict, List, Type, Union

from . import tokens
from .commands import (Alphabet, Ask, AutoText, Body, Command, ComposeText, ConfText, Dim, EdgeText, Limits, Nodes, Only, RuleText,
                       TopologyText, Weights)
from .cursor import Cursor, NumberList
from .faults import Fault
from .formula_reader import FormulaReader
from .lattice import BUILT_IN
from .tokens import Token

HEADER = ("dim", "nodes", "alphabet", "topology", "only", "weights", "limits")
"""The commands of the header, in their order."""


def _dim(cursor: Cursor) -> Body:
    return Dim(cursor.natural("the dimension"))


def _nodes(cursor: Cursor) -> Body:
    return Nodes(cursor.names("a node"))


def _alphabet(cursor: Cursor) -> Body:
    return Alphabet(cursor.names("a symbol"))


def _topology(cursor: Cursor) -> Body:
    if cursor.next().kind == tokens.WORD and cursor.next().text in BUILT_IN:
        return TopologyText(cursor.take(), [])
    if not cursor.next().is_sign("("):
        raise cursor.fault(f"a built-in topology ({', '.join(BUILT_IN)}) or an edge in round brackets")
    edges = []
    while cursor.next().is_sign("("):
        edges.append(_edge(cursor))
    return TopologyText(None, edges)


def _edge(cursor: Cursor) -> EdgeText:
    cursor.take()
    label = cursor.word("the label of an edge")
    source = cursor.name("the node from which an edge leads")
    by = cursor.number_list("an edge's offset", signed=True)
    target = cursor.name("the node to which an edge leads")
    cursor.sign(")", "to close the edge")
    return EdgeText(label, source, by, target)


def _only(cursor: Cursor) -> Body:
    return Only(cursor.name("a node"), cursor.names("a symbol that the node allows"))


def _weights(cursor: Cursor) -> Body:
    found = [cursor.natural("a weight")]
    while cursor.next().kind == tokens.NUMBER:
        found.append(cursor.natural("a weight"))
    return Weights(found)


def _limits(cursor: Cursor) -> Body:
    return Limits([cursor.natural(what) for what in ("the greatest radius", "the greatest period", "the greatest number of pivots")])


def rule_text(cursor: Cursor, formulas: FormulaReader) -> Body:
    """The contents of `%rule`."""
    return RuleText(cursor.word("the rule's name"), formulas.formula())


def _conf(cursor: Cursor) -> Body:
    name = cursor.word("the configuration's name")
    periods = cursor.number_list("the periods", signed=False)
    shear = cursor.number_list("the shear", signed=False) if cursor.next().is_sign("[") else None
    return ConfText(name, periods, shear, cursor.names("a symbol"))


def auto_text(cursor: Cursor, formulas: FormulaReader) -> Body:
    """The contents of `%auto`."""
    name = cursor.word("the automaton's name")
    cases = []
    while cursor.takes_word("when"):
        formula = formulas.formula()
        if not cursor.takes_word("give"):
            raise cursor.fault("`give` after a case's formula")
        cases.append((formula, cursor.name("the symbol that the case gives")))
    if not cursor.takes_word("else"):
        raise cursor.fault("`when` or `else`")
    return AutoText(name, cases, cursor.name("the symbol after `else`"))


def _compose(cursor: Cursor) -> Body:
    what = ("the name of the composition", "the automaton that comes second", "the automaton that comes first")
    return ComposeText(*[cursor.word(each) for each in what])


COMMANDS: Dict[str, Callable[[Cursor], Body]] = {
    "dim": _dim, "nodes": _nodes, "alphabet": _alphabet, "topology": _topology, "only": _only, "weights": _weights,
    "limits": _limits, "conf": _conf, "compose": _compose,
}
"""The commands without formulas."""

WITH_FORMULAS: Dict[str, Callable[[Cursor, FormulaReader], Body]] = {"rule": rule_text, "auto": auto_text}
"""The commands with formulas."""


def _ask(cursor: Cursor, arguments: List[str]) -> Ask:
    """The arguments of a query, of these kinds: rule, conf, auto, number, list, vectors."""
    found: List[Union[Token, NumberList, List[NumberList]]] = []
    for kind in arguments:
        if kind == "number":
            found.append(cursor.natural("a number of the query"))
        elif kind == "list":
            found.append(cursor.number_list("the periods", signed=False))
        elif kind == "vectors":
            vectors = [cursor.number_list("a vector", signed=True)]
            while cursor.next().is_sign("["):
                vectors.append(cursor.number_list("a vector", signed=True))
            found.append(vectors)
        else:
            found.append(cursor.word(f"the name of {NAMED[kind]}"))
    return Ask(found)


NAMED = {"rule": "a rule", "conf": "a configuration", "auto": "an automaton"}
"""The kinds of names in words."""


class Reader:
    """Reads a script's commands in turn. `queries` has the kinds of arguments of each query."""

    with_formulas = WITH_FORMULAS
    formula_reader: Type[FormulaReader] = FormulaReader

    def __init__(self, given: List[Token], queries: Dict[str, List[str]]) -> None:
        self.cursor = Cursor(given)
        self.queries = queries
        self.seen: List[str] = []
        self.number = 0

    def commands(self) -> List[Command]:
        """All commands; raises the first fault of the syntax."""
        found = []
        try:
            if not self.cursor.ends_command():
                raise self.cursor.fault("`%` before the first command")
            while not self.cursor.next().kind == tokens.END:
                self.number += 1
                found.append(self._command())
        except Fault as fault:
            fault.command = self.number
            raise
        return found

    def _command(self) -> Command:
        begin = self.cursor.at
        self.cursor.take()
        keyword = self.cursor.next()
        if keyword.kind != tokens.WORD or not any(keyword.text in known for known in (COMMANDS, self.with_formulas, self.queries)):
            raise self.cursor.fault("the word of a command after `%`")
        self._in_order(keyword)
        self.cursor.take()
        body = self._body(keyword.text)
        if not self.cursor.ends_command():
            raise self.cursor.fault("the next command, which begins with `%`")
        return Command(self.number, keyword, self.cursor.tokens[begin:self.cursor.at], body)

    def _body(self, word: str) -> Body:
        """What follows a command's word."""
        if word in COMMANDS:
            return COMMANDS[word](self.cursor)
        if word in self.with_formulas:
            return self.with_formulas[word](self.cursor, self.formula_reader(self.cursor))
        return _ask(self.cursor, self.queries[word])

    def _in_order(self, keyword: Token) -> None:
        """Raises a fault if a command may not follow those before it."""
        word = keyword.text
        if word in HEADER:
            late = [before for before in self.seen if before not in HEADER or HEADER.index(before) > HEADER.index(word)]
            if late:
                raise Fault("syntax", "", keyword.at, f"the header's command %{word} has to come before %{late[0]}", word)
            if word in self.seen and word != "only":
                raise Fault("syntax", "", keyword.at, f"the header's command %{word} is given twice", word)
        if not self.seen or self.seen[-1] != word:
            self.seen.append(word)
