"""Texts for people: places in a script, tables."""
from typing import List, Sequence

from .faults import Fault, place


def pointed(script: bytes, at: int) -> List[str]:
    """The line of a script that has an offset, and a mark below the place."""
    begin = script.rfind(b"\n", 0, at) + 1
    end = script.find(b"\n", at)
    line = script[begin:len(script) if end < 0 else end].decode("latin-1")
    line = "".join(letter if letter.isprintable() else " " for letter in line)
    column = at - begin
    cut = max(0, column - 60)
    return [f"    {line[cut:cut + 100]}", f"    {' ' * (column - cut)}^"]


def located(script: bytes, fault: Fault) -> List[str]:
    """A fault of a script with its place."""
    line, column = place(script, fault.at)
    return [f"line {line}, column {column}: {fault.rule}", *pointed(script, fault.at)]


def table(rows: Sequence[Sequence[str]]) -> List[str]:
    """Rows with aligned columns; all columns but the first are aligned to the right."""
    widths = [max(len(row[column]) for row in rows) for column in range(len(rows[0]))]
    return ["  ".join([row[0].ljust(widths[0]), *[cell.rjust(width) for cell, width in zip(row[1:], widths[1:])]]).rstrip() for row in rows]
