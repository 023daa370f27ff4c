"""`tools/expand < longer`: translates a script of the longer language into a plain one. It is not proved; answers are about the plain script."""
import sys
from typing import BinaryIO, Dict, List, TextIO

from .accept import MEANINGS, MOST_BYTES, accept
from .commands import AutoText, Command, ComposeText, RuleText
from .faults import Fault
from .header import repeated
from .longer import LetText, long_commands
from .printing import written
from .queries import QUERIES
from .reader import HEADER
from .report import located
from .script import Script
from .unfolding import ORIGIN, Definition, Unfolding

REFUSED = 2


def header_of(commands: List[Command]) -> Script:
    """The script's header."""
    script = Script()
    for command in commands:
        if command.keyword.text in HEADER:
            meaning = MEANINGS[type(command.body)](script, command, commands)
            fault = meaning.fault()
            if fault:
                raise fault
            meaning.apply()
    script.end_header()
    return script


def definitions_of(commands: List[Command]) -> Dict[str, Definition]:
    """The named formulas, rules, automata and compositions."""
    found: Dict[str, Definition] = {}
    for command in commands:
        body = command.body
        if isinstance(body, (LetText, RuleText, AutoText, ComposeText)):
            if body.name.text in found:
                raise Fault("twice", body.name.text, body.name.at, f"the name {body.name.text} is taken", body.name.text)
            found[body.name.text] = body
        if isinstance(body, LetText):
            for fault in repeated(body.variables, "the variable"):
                raise fault
    return found


class Expanding:
    """Translates the commands of a longer script, and keeps the source of each plain command."""

    def __init__(self, text: bytes) -> None:
        self.text = text
        self.commands = long_commands(text, {word: list(query.arguments) for word, query in QUERIES.items()})
        self.unfolding = Unfolding(header_of(self.commands), definitions_of(self.commands))
        self.sources: List[Command] = []

    def plain(self) -> str:
        """The plain script."""
        lines = []
        for command in self.commands:
            if isinstance(command.body, LetText):
                self._formula(command.body)
                continue
            self.sources.append(command)
            lines.append(self._command(command))
        return "".join(line + "\n" for line in lines)

    def _command(self, command: Command) -> str:
        body = command.body
        if isinstance(body, RuleText):
            return f"%rule {body.name.text} {self._formula(body)}"
        if isinstance(body, AutoText):
            return self._automaton(body)
        begin, end = command.tokens[0].at, command.tokens[-1].at + len(command.tokens[-1].text)
        return self.text[begin:end].decode("ascii")

    def _formula(self, body: "LetText | RuleText") -> str:
        scope = ORIGIN
        if isinstance(body, LetText):
            scope = ORIGIN._replace(cells={variable.text: ORIGIN.cells["o"] for variable in body.variables})
        return written(self.unfolding.rule(body.name, body.formula, scope))

    def _automaton(self, body: AutoText) -> str:
        words = [f"%auto {body.name.text}"]
        for formula, symbol in body.cases:
            words.append(f"when {written(self.unfolding.rule(body.name, formula))} give {symbol.text}")
        return " ".join([*words, f"else {body.otherwise.text}"])


def expanded(text: bytes) -> str:
    """The plain script of a longer one; raises a Fault with a place in the longer one if there is none."""
    expanding = Expanding(text)
    plain = expanding.plain()
    try:
        accept(plain.encode("ascii"))
    except Fault as fault:
        source = expanding.sources[max(fault.command, 1) - 1]
        rule = f"written out, this command is refused ({fault.line().split(' ', 2)[2]}): {fault.rule}"
        named = [token for token in source.tokens if fault.kind != "size" and token.text == fault.name]
        at = (named or source.tokens)[0].at
        raise Fault(fault.kind, fault.name, at, rule, source.keyword.text) from fault
    return plain


def expand(text: bytes, out: TextIO, said: TextIO) -> int:
    """Writes the plain script, and gives the status."""
    try:
        plain = expanded(text)
    except Fault as fault:
        said.write("\n".join(located(text, fault)) + "\n")
        return REFUSED
    out.write(plain)
    return 0


def main(words: List[str], given: BinaryIO) -> int:
    """The command."""
    if words:
        sys.stderr.write("usage: expand < longer\n")
        return 6
    return expand(given.read(MOST_BYTES + 1), sys.stdout, sys.stderr)
