"""What the commands of a script mean, and the faults of their meaning.

There is a subclass of Meaning for each command and each kind of query. It looks for faults of names, then of shapes, then of sizes. If there is none,
it adds to the script what the command says.
"""
from typing import Any, Iterator, Optional, Sequence

from .commands import Command
from .faults import Fault, first
from .script import Script
from .tokens import NUMBER, WORD, Token

MOST_COMMANDS = 1000
MOST_LETTERS = 32
MOST_NUMBER = 1000000


def unknown(token: Token, rule: str) -> Fault:
    """The fault of a name that stands for nothing."""
    return Fault("unknown", token.text, token.at, rule, token.text)


def twice(token: Token, rule: str, name: Optional[str] = None) -> Fault:
    """The fault of a name that is taken."""
    return Fault("twice", token.text if name is None else name, token.at, rule, token.text)


def shape(token: Token, rule: str) -> Fault:
    """The fault of numbers that don't fit the dimension."""
    return Fault("dimension", "", token.at, rule, token.text)


def over(limit: str, token: Token, rule: str) -> Fault:
    """The fault of a limit that is passed."""
    return Fault("size", limit, token.at, rule, token.text)


class Meaning:
    """The meaning of a command of a script. The iterators give its faults, those of sizes in the order of the limits."""

    def __init__(self, script: Script, command: Command, commands: Sequence[Command]) -> None:
        self.script = script
        self.command = command
        self.commands = commands
        self.keyword = command.keyword
        self.body: Any = command.body

    def before(self) -> Sequence[Command]:
        """The commands before this one."""
        return self.commands[:self.command.number - 1]

    def after(self) -> Sequence[Command]:
        """The commands after this one."""
        return self.commands[self.command.number:]

    def names(self) -> Iterator[Fault]:
        """Names that stand for nothing, and names that are taken."""
        return iter(())

    def shapes(self) -> Iterator[Fault]:
        """Numbers that don't fit the dimension."""
        return iter(())

    def sizes(self) -> Iterator[Fault]:
        """Limits that are passed, but for those of single tokens."""
        return iter(())

    def apply(self) -> None:
        """Adds to the script what the command says."""

    def fault(self) -> Optional[Fault]:
        """The fault that counts, or None."""
        found = first(list(self.names())) or first(list(self.shapes())) or next(self._token_sizes(), None) or next(self.sizes(), None)
        if found:
            found.command = self.command.number
        return found

    def _token_sizes(self) -> Iterator[Fault]:
        if self.command.number > MOST_COMMANDS:
            yield over("commands", self.keyword, f"a script has at most {MOST_COMMANDS} commands")
        for token in self.command.tokens:
            if token.kind == WORD and len(token.text) > MOST_LETTERS:
                yield over("word", token, f"a word has at most {MOST_LETTERS} letters, this one has {len(token.text)}")
        for token in self.command.tokens:
            if token.kind == NUMBER and abs(token.value()) > MOST_NUMBER:
                yield over("number", token, f"a number is at most {MOST_NUMBER:,} in absolute value")

    def taken(self, name: Token) -> Iterator[Fault]:
        """The fault that a rule, an automaton or a configuration already has this name."""
        if name.text in self.script.named:
            yield twice(name, f"the name {name.text} is taken; rules, automata and configurations share their names")

    def known_symbols(self, tokens: Sequence[Token]) -> Iterator[Fault]:
        """The faults of symbols that the alphabet doesn't have."""
        for token in tokens:
            if token.text not in self.script.symbols:
                yield unknown(token, f"no symbol has this name; the alphabet is {' '.join(self.script.symbols)}")
