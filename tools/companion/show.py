"""`tools/show < output`: the configurations of an output as rows of text. It is not proved, and checks nothing.

The row with the greatest y is printed first. There is a layer for each z. The nodes of a position stand beside each other. Two fundamental
boxes are shown along each of the first two axes, with the shear.
"""
import sys
from typing import BinaryIO, List, Optional, TextIO

from .accept import accept
from .faults import Fault
from .lattice import Cell
from .outputs import MOST_BYTES, NoOutput, read_output
from .recheck import REFUSED
from .script import Configuration, Script


def shown(script: Script, configuration: Configuration, marked: Optional[Cell]) -> List[str]:
    """A configuration as rows of text."""
    names = script.symbol_names()
    width = max(len(name) for name in names) + (2 if marked else 0)
    p1, p2, p3 = configuration.periods
    lines = []
    for z in range(p3):
        if p3 > 1:
            lines.append(f"z = {z}")
        for y in reversed(range(2 * p2 if script.dim > 1 else 1)):
            positions = [row_position(script, configuration, (z, y, x), marked, width) for x in range(2 * p1)]
            between = " " if len(script.nodes) == 1 else "   "
            label = f"y = {y}".ljust(8) if script.dim > 1 else ""
            lines.append(f"{label}{between.join(positions)}".rstrip())
    return lines


def row_position(script: Script, configuration: Configuration, position: "tuple[int, int, int]", marked: Optional[Cell], width: int) -> str:
    """The symbols of a position's nodes, with the marked cell in brackets."""
    names = script.symbol_names()
    cells = []
    for node in range(len(script.nodes)):
        cell = (*position, node)
        name = names[configuration.symbol_at(cell)]
        cells.append((f"[{name}]" if cell == marked else f" {name} " if marked else name).rjust(width))
    return " ".join(cells)


def show(data: bytes, out: TextIO, said: TextIO) -> int:
    """Shows the configurations of an output, and gives the status."""
    try:
        output = read_output(data)
        script = accept(output.script)
    except NoOutput as fault:
        said.write(f"this is no output: at byte {fault.offset}: {fault.expected}\n")
        return REFUSED
    except Fault as fault:
        said.write(f"the output's script is refused: {fault.line()}: {fault.rule}\n")
        return REFUSED
    for number, (query, answer) in enumerate(zip(script.queries, output.answers), 1):
        out.write(f"query {number} {query.text()}: {answer.line()}\n")
        picture = query.picture(answer)
        if picture:
            out.write("\n".join(shown(script, *picture)) + "\n")
    return 0


def main(words: List[str], given: BinaryIO) -> int:
    """The command."""
    if words:
        sys.stderr.write("usage: show < output\n")
        return 6
    return show(given.read(MOST_BYTES + 1), sys.stdout, sys.stderr)
