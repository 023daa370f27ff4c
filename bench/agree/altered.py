"""Altered outputs: what a check has to judge."""
import random
from typing import List


def altered(chance: random.Random, output: bytes) -> bytes:
    """An output with one thing changed: a number, a byte, a line, its end."""
    change = chance.choice([_number, _number, _number, _answer_number, _byte, _line, _cut])
    return change(chance, output)


def _lines(output: bytes) -> List[bytes]:
    return output.split(b"\n")


def _number_in(chance: random.Random, lines: List[bytes], candidates: List[int]) -> bytes:
    """The lines with one number of one of these lines changed."""
    if not candidates:
        return b"\n".join(lines)
    at = chance.choice(candidates)
    words = lines[at].split(b" ")
    places = [place for place, word in enumerate(words) if word.lstrip(b"-").isdigit()]
    if places:
        place = chance.choice(places)
        value = int(words[place])
        words[place] = b"%d" % chance.choice([value + 1, value - 1, -value, 0, 2 * value, chance.randint(0, 40), chance.randint(0, 400)])
        lines[at] = b" ".join(words)
    return b"\n".join(lines)


def _number(chance: random.Random, output: bytes) -> bytes:
    """A number of any line behind the script changed."""
    lines = _lines(output)
    first = next((at for at, line in enumerate(lines) if line.startswith(b"query ")), len(lines))
    return _number_in(chance, lines, list(range(first, len(lines))))


def _answer_number(chance: random.Random, output: bytes) -> bytes:
    """A number of an answer's line changed."""
    lines = _lines(output)
    return _number_in(chance, lines, [at for at, line in enumerate(lines) if line.startswith(b"query ")])


def _byte(chance: random.Random, output: bytes) -> bytes:
    """A byte changed, put in or left out."""
    at = chance.randrange(len(output))
    new = bytes([chance.choice(b"0123456789- \nqueryENDSTOP/\xff")])
    return output[:at] + chance.choice([new, b""]) + output[at + chance.choice([0, 1]):]


def _line(chance: random.Random, output: bytes) -> bytes:
    """A line left out, doubled, or in another place."""
    lines = _lines(output)
    at, other = chance.randrange(len(lines)), chance.randrange(len(lines))
    kind = chance.choice("ods")
    if kind == "o":
        lines.pop(at)
    elif kind == "d":
        lines.insert(at, lines[at])
    else:
        lines[at], lines[other] = lines[other], lines[at]
    return b"\n".join(lines)


def _cut(chance: random.Random, output: bytes) -> bytes:
    """A front of the output, or the output with more behind it."""
    if chance.random() < 0.2:
        return output + chance.choice([b"\n", b" ", b"end\n", b"query 1 IN\n"])
    return output[:chance.randrange(len(output))]
