"""Reads outputs, line by line; docs/certificate.md, "The lines", is the grammar.

If the bytes are no output, it finds their longest prefix that begins some output. So it reads byte by byte. Steps, of which there may be very
many, are first tried by one regular expression for the whole line.
"""
import re
from typing import Callable, Dict, List, NamedTuple, Optional, Sequence, TypeVar

from .answers import (Answer, Bound, Broken, Conjugate, Density, Empty, In, Least, Listed, Minimal, No, Nothing, Out, Pattern, Starred, Unknown,
                      Yes)
from .refutations import Step

MOST_BYTES = 268435456
MOST_SCRIPT = 1048576
MOST_QUERIES = 1000
MOST_NUMBER = 1 << 40
MOST_CLAUSE = (1 << 64) - 1
MOST_VARIABLE = 1 << 24

# No number of an output has more than twenty digits. Longer ones are left to the reading byte by byte, which stops where they are too large.
STEP = re.compile(rb"step ((?:-?[1-9][0-9]{0,19} )*)0 ((?:[1-9][0-9]{0,19} )*)0 ((?:[1-9][0-9]{0,19} )*)0\n")
NUMBERS = re.compile(rb"((?: (?:0|-?[1-9][0-9]{0,19}))*)\n")

Item = TypeVar("Item")


class NoOutput(Exception):
    """Bytes that are no output; `offset` is the length of the longest prefix that begins some output."""

    def __init__(self, offset: int, expected: str) -> None:
        super().__init__(offset, expected)
        self.offset = offset
        self.expected = expected


class Output(NamedTuple):
    """A whole output."""

    script: bytes
    answers: List[Answer]


class Text:
    """A place in the bytes of an output."""

    def __init__(self, data: bytes) -> None:
        self.data = data
        self.at = 0

    def next(self) -> bytes:
        """The next byte, or none at the end."""
        return self.data[self.at:self.at + 1]

    def one_of(self, words: Sequence[bytes]) -> bytes:
        """Reads one of these words, none of which begins another."""
        common = 0
        for word in words:
            if self.data.startswith(word, self.at):
                self.at += len(word)
                return word
            common = max(common, _common(self.data, self.at, word))
        raise NoOutput(self.at + common, "expected " + " or ".join(repr(word.decode("ascii")) for word in words))

    def word(self, word: bytes) -> None:
        """Reads this word."""
        self.one_of([word])

    def number(self, least: int = 0, most: int = MOST_NUMBER, signed: bool = False) -> int:
        """Reads a number between the bounds, or, with a sign, between their opposites. It ends before a digit that can't follow."""
        begin = self.at
        if signed and self.next() == b"-":
            self.at += 1
            least = max(least, 1)
        digits = self.at
        if self.next() == b"0" and least == 0:
            self.at += 1
            return 0
        value = 0
        while b"0" <= self.next() <= b"9" and (value or self.next() != b"0"):
            value = 10 * value + int(self.next())
            if value > most:
                break
            self.at += 1
        if self.at == digits:
            raise NoOutput(self.at, f"expected a number from {least} to {most}")
        return int(self.data[begin:self.at])

    def numbers(self, least: int = 0, most: int = MOST_NUMBER, signed: bool = False) -> List[int]:
        """Reads numbers, each with a blank before it, up to the end of the line."""
        line = NUMBERS.match(self.data, self.at)
        if line:
            found = [int(number) for number in line.group(1).split()]
            if all((-most if signed else 0) <= number <= most and abs(number) >= least for number in found):
                self.at = line.end()
                return found
        found = []
        while self.one_of([b" ", b"\n"]) == b" ":
            found.append(self.number(least, most, signed))
        return found

    def some_numbers(self, signed: bool = False) -> List[int]:
        """Reads at least one number with a blank before it, up to the end of the line."""
        if self.next() != b" ":
            self.word(b" ")
        return self.numbers(signed=signed)


def _common(data: bytes, at: int, word: bytes) -> int:
    """How many bytes of the word stand at a place, from its first byte on."""
    count = 0
    while count < len(word) and data[at + count:at + count + 1] == word[count:count + 1]:
        count += 1
    return count


def _step(text: Text) -> Step:
    """Reads a step."""
    line = STEP.match(text.data, text.at)
    if line:
        step = Step(*[list(map(int, part.split())) for part in line.groups()])
        bounds = ((step.literals, MOST_VARIABLE), (step.hints, MOST_CLAUSE), (step.deletes, MOST_CLAUSE))
        if all(max(map(abs, part), default=0) <= most for part, most in bounds):
            text.at = line.end()
            return step
    text.word(b"step ")
    parts = []
    for most, signed in ((MOST_VARIABLE, True), (MOST_CLAUSE, False), (MOST_CLAUSE, False)):
        part: List[int] = []
        while text.next() != b"0":
            part.append(text.number(1, most, signed))
            text.word(b" ")
        text.word(b"0 " if len(parts) < 2 else b"0\n")
        parts.append(part)
    return Step(*parts)


def refutation(text: Text) -> List[Step]:
    """Reads a refutation."""
    text.word(b"refutation ")
    count = text.number(1, MOST_CLAUSE)
    text.word(b"\n")
    steps = []
    while len(steps) < count:
        steps.append(_step(text))
    return steps


def configuration(text: Text) -> List[int]:
    """Reads the line `conf`."""
    text.word(b"conf")
    return text.some_numbers()


def _yes(text: Text) -> Answer:
    radii = [text.number()]
    while len(radii) < 2 and text.one_of([b" ", b"\n"]) == b" ":
        radii.append(text.number())
    if len(radii) == 2:
        text.word(b"\n")
    return Yes(radii, [refutation(text) for _ in radii])


def periods(text: Text) -> "tuple[List[int], int]":
    """Reads one to three periods and, after two or three, perhaps a shear, up to the end of the line."""
    found = [text.number()]
    while text.one_of([b"\n", b" "]) == b" ":
        if len(found) == 3 or len(found) == 2 and text.next() == b"s":
            text.word(b"shear ")
            shear = text.number(1)
            text.word(b"\n")
            return found, shear
        found.append(text.number())
    return found, 0


def _no(text: Text) -> Answer:
    side = b""
    if text.next() in (b"l", b"r"):
        side = text.one_of([b"left ", b"right "])
    found, shear = periods(text)
    return No(side.decode("ascii").strip(), found, shear, configuration(text))


def _out(text: Text) -> Answer:
    found = [text.number(signed=True)]
    text.word(b" ")
    found.append(text.number(signed=True))
    while text.one_of([b"\n", b" "] if len(found) < 4 else [b"\n"]) == b" ":
        found.append(text.number(signed=True))
    return Out(found)


def _patterns(text: Text, pattern: Callable[[Text], Item]) -> List[Item]:
    """Reads the number of patterns and a line for each, of which `pattern` reads what follows the word."""
    count = text.number()
    text.word(b"\n")
    found: List[Item] = []
    while len(found) < count:
        text.word(b"pattern ")
        found.append(pattern(text))
    return found


def _list(text: Text) -> Answer:
    return Listed(_patterns(text, lambda line: Pattern(line.number(), line.numbers())))


def _starred(text: Text) -> List[Optional[int]]:
    """Reads numbers and stars, each with a blank before it, up to the end of the line."""
    found: List[Optional[int]] = []
    while text.one_of([b" ", b"\n"]) == b" ":
        if text.next() == b"*":
            text.word(b"*")
            found.append(None)
        else:
            found.append(text.number())
    return found


def _minimal(text: Text) -> Answer:
    return Minimal(_patterns(text, lambda line: Starred(line.number(), _starred(line))))


def _conjugate(text: Text) -> Answer:
    radii = []
    for end in (b" ", b" ", b" ", b"\n"):
        radii.append(text.number())
        text.word(end)
    return Conjugate(radii, [refutation(text) for _ in radii])


def _broken(text: Text) -> Answer:
    part = text.number(1, 4)
    text.word(b" ")
    found, shear = periods(text)
    return Broken(part, found, shear, configuration(text))


def _least(text: Text) -> Answer:
    weight = text.number()
    text.word(b"\n")
    symbols = configuration(text)
    return Least(weight, symbols, refutation(text) if weight else [])


def _fraction(text: Text) -> "tuple[int, int]":
    over = text.number()
    text.word(b"/")
    under = text.number(1)
    text.word(b"\n")
    return over, under


def _density(text: Text) -> Answer:
    over, under = _fraction(text)
    text.word(b"cycle ")
    length = text.number(1)
    states: List[int] = []
    while len(states) < length:
        text.word(b" ")
        states.append(text.number())
    text.word(b"\npotentials")
    return Density(over, under, states, text.some_numbers(signed=True))


def _empty(text: Text) -> Answer:
    text.word(b"ranks")
    return Empty(text.some_numbers())


def _bound(text: Text) -> Answer:
    over, under = _fraction(text)
    text.word(b"denominator ")
    denominator = text.number(1)
    text.word(b"\namounts")
    amounts = text.numbers()
    text.word(b"duals")
    return Bound(over, under, denominator, amounts, text.some_numbers())


def _unknown(text: Text) -> Answer:
    return Unknown(text.one_of([b"limits\n", b"large\n", b"overflow\n", b"pivots\n"]).decode("ascii").strip())


ANSWERS: Dict[bytes, Callable[[Text], Answer]] = {
    b"IN\n": lambda text: In(), b"OUT ": _out, b"YES ": _yes, b"NO ": _no, b"LIST ": _list, b"DENSITY ": _density, b"EMPTY\n": _empty,
    b"BOUND ": _bound, b"UNKNOWN ": _unknown, b"MINIMAL ": _minimal, b"CONJUGATE ": _conjugate, b"BROKEN ": _broken, b"LEAST ": _least,
    b"NONE\n": lambda text: Nothing(refutation(text)),
}
"""The reader of each answer, by the beginning of its line."""


def read_output(data: bytes) -> Output:
    """The output that these bytes are, or NoOutput."""
    text = Text(data)
    text.word(b"diddy 1\nscript ")
    length = text.number(0, MOST_SCRIPT)
    text.word(b"\n")
    script = data[text.at:text.at + length]
    text.at += len(script)
    text.word(b"\n")
    answers: List[Answer] = []
    while text.one_of([b"end\n"] + ([b"query "] if len(answers) < MOST_QUERIES else [])) == b"query ":
        text.word(b"%d " % (len(answers) + 1))
        answers.append(ANSWERS[text.one_of(list(ANSWERS))](text))
    if text.at != len(data):
        raise NoOutput(text.at, "expected nothing after the line `end`")
    return Output(script, answers)
