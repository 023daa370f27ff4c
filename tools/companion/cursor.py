"""Goes through the tokens of a script. If a token doesn't fit, it says what was expected."""
from typing import List, NamedTuple

from . import tokens
from .faults import Fault
from .tokens import Token


class NumberList(NamedTuple):
    """`[1 -2]`, with its opening bracket."""

    bracket: Token
    entries: List[Token]

    def values(self) -> List[int]:
        """The numbers of the list."""
        return [entry.value() for entry in self.entries]


class Cursor:
    """A place in a list of tokens, which ends with an END or a BAD token."""

    def __init__(self, given: List[Token]) -> None:
        self.tokens = given
        self.at = 0

    def next(self) -> Token:
        """The next token, without taking it."""
        return self.tokens[self.at]

    def ends_command(self) -> bool:
        """Whether the command is at its end: a `%` comes next, or the script's end."""
        token = self.next()
        return token.kind == tokens.END or token.is_sign("%")

    def take(self) -> Token:
        """Takes the next token."""
        self.at += 1
        return self.tokens[self.at - 1]

    def takes_sign(self, text: str) -> bool:
        """Takes the sign with this text if it comes next; says whether it did."""
        if not self.next().is_sign(text):
            return False
        self.at += 1
        return True

    def takes_word(self, text: str) -> bool:
        """Takes the word with this text if it comes next; says whether it did."""
        if not self.next().is_word(text):
            return False
        self.at += 1
        return True

    def fault(self, expected: str) -> Fault:
        """The fault that the next token isn't the expected one."""
        token = self.next()
        rule = f"expected {expected}, found {token.shown()}"
        if token.kind == tokens.BAD:
            rule = f"{_bad(token)}; expected {expected}"
        return Fault("syntax", "", token.at, rule, token.text)

    def sign(self, text: str, place: str) -> Token:
        """Takes the sign with this text, or raises a fault."""
        if not self.next().is_sign(text):
            raise self.fault(f"`{text}` {place}")
        return self.take()

    def word(self, what: str) -> Token:
        """Takes a word, or raises a fault."""
        if self.next().kind != tokens.WORD:
            raise self.fault(f"{what}, which is a word of letters a to z")
        return self.take()

    def is_name(self) -> bool:
        """Whether a word or a number without a sign comes next: what may name a node or a symbol."""
        return self.next().kind == tokens.WORD or self.next().is_natural()

    def name(self, what: str) -> Token:
        """Takes the name of a node or a symbol, or raises a fault."""
        if not self.is_name():
            raise self.fault(f"{what}, which is a word or a number")
        return self.take()

    def names(self, what: str) -> List[Token]:
        """Takes one name or more."""
        found = [self.name(what)]
        while self.is_name():
            found.append(self.take())
        return found

    def natural(self, what: str) -> Token:
        """Takes a number without a sign, or raises a fault."""
        if not self.next().is_natural():
            raise self.fault(f"{what}, which is a number without a sign")
        return self.take()

    def number_list(self, what: str, signed: bool) -> NumberList:
        """Takes numbers in brackets."""
        bracket = self.sign("[", f"before {what}")
        found = []
        while not self.next().is_sign("]"):
            token = self.next()
            if token.kind != tokens.NUMBER:
                raise self.fault(f"a number of {what} or `]`")
            if not signed and not token.is_natural():
                raise self.fault(f"{what} without negative numbers")
            found.append(self.take())
        self.take()
        return NumberList(bracket, found)


def _bad(token: Token) -> str:
    """Why a byte begins no token."""
    if token.text.isascii() and token.text.isdigit():
        return "a number has no leading zero"
    if token.text == "-":
        return "`-` stands only directly before a number that isn't 0, in `->`, `<->` and `--`"
    if not token.text.isascii():
        return f"the byte {ord(token.text)} isn't ASCII"
    return f"the byte {token.text!r} begins no token"
