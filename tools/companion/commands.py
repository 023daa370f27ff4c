"""The commands of a script as written, before names are looked up."""
from typing import List, NamedTuple, Optional, Tuple, Union

from .cursor import NumberList
from .formulas import Formula
from .tokens import Token


class Dim(NamedTuple):
    """`%dim 1`."""

    value: Token


class Nodes(NamedTuple):
    """`%nodes a b`."""

    names: List[Token]


class Alphabet(NamedTuple):
    """`%alphabet red green`."""

    names: List[Token]


class EdgeText(NamedTuple):
    """`(rt a [1] a)`."""

    label: Token
    source: Token
    by: NumberList
    target: Token


class TopologyText(NamedTuple):
    """`%topology king`, or edges."""

    kind: Optional[Token]
    edges: List[EdgeText]


class Only(NamedTuple):
    """`%only b 0 1`."""

    node: Token
    symbols: List[Token]


class Weights(NamedTuple):
    """`%weights 0 2 5`."""

    values: List[Token]


class Limits(NamedTuple):
    """`%limits 6 3 1000`."""

    values: List[Token]


class RuleText(NamedTuple):
    """`%rule hard o=1 -> o.rt=0`."""

    name: Token
    formula: Formula


class ConfText(NamedTuple):
    """`%conf c [3 1] [2] 1 2 0`."""

    name: Token
    periods: NumberList
    shear: Optional[NumberList]
    symbols: List[Token]


class AutoText(NamedTuple):
    """`%auto r when o.lt!=o.rt give 1 else 0`."""

    name: Token
    cases: List[Tuple[Formula, Token]]
    otherwise: Token


class ComposeText(NamedTuple):
    """`%compose h f g`."""

    name: Token
    outer: Token
    inner: Token


class Ask(NamedTuple):
    """A query. Its arguments are names, numbers and lists, as its kind of query demands."""

    arguments: List[Union[Token, NumberList, List[NumberList]]]


Body = Union[Dim, Nodes, Alphabet, TopologyText, Only, Weights, Limits, RuleText, ConfText, AutoText, ComposeText, Ask]


class Command(NamedTuple):
    """A command: its number in the script, its word, all its tokens from `%` on, and its contents."""

    number: int
    keyword: Token
    tokens: List[Token]
    body: Body
