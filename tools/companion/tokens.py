"""The tokens of a script, with their places (docs/guide.md, "Words, numbers, blanks")."""
import re
from typing import List, NamedTuple

WORD, NUMBER, SIGN, BAD, END = "word", "number", "sign", "bad", "end"

LONG = 50
"""How much of a number is read. The numbers of scripts may be as long as scripts are."""

BLANKS = re.compile(rb"(?:[ \t\n\r]+|--[\x00-\x09\x0b-\x7f]*)+")
TOKEN = re.compile(rb"(?P<word>[a-z]+)|(?P<number>(?:0|-?[1-9][0-9]*)(?![0-9]))|(?P<sign><->|->|!=|[AE%()\[\].=!&|~@:])")


class Token(NamedTuple):
    """A token: its kind, its text and the offset of its first byte. The tokens of a whole script end with an END just after the last token."""

    kind: str
    text: str
    at: int

    def is_sign(self, text: str) -> bool:
        """Whether this is the sign with this text."""
        return self.kind == SIGN and self.text == text

    def is_word(self, text: str) -> bool:
        """Whether this is the word with this text."""
        return self.kind == WORD and self.text == text

    def is_natural(self) -> bool:
        """Whether this is a number without a sign."""
        return self.kind == NUMBER and self.text[0] != "-"

    def value(self) -> int:
        """The number that the token spells. If it is very long, another one of its sign that passes each limit as well."""
        return int(self.text[:LONG])

    def shown(self) -> str:
        """How a message names the token."""
        if self.kind == END:
            return "the end of the script"
        return f"`{self.text}`"


def tokens_of(script: bytes, signs: "re.Pattern[bytes]" = TOKEN) -> List[Token]:
    """All tokens with an END, or the tokens before the first byte that begins none, with a BAD token for this byte."""
    tokens: List[Token] = []
    at = end = 0
    while True:
        blanks = BLANKS.match(script, at)
        if blanks:
            at = blanks.end()
        if at == len(script):
            tokens.append(Token(END, "", end))
            return tokens
        found = signs.match(script, at)
        if not found:
            tokens.append(Token(BAD, script[at:at + 1].decode("latin-1"), at))
            return tokens
        tokens.append(Token(str(found.lastgroup), found.group().decode("ascii"), at))
        at = end = found.end()
