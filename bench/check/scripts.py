"""Writes the scripts of this benchmark to a folder. Their answers are refutations of many steps."""
import itertools
import pathlib
import sys

folder = pathlib.Path(sys.argv[1])


def cell(x, y=0):
    return "o" + (".rt" * x if x > 0 else ".lt" * -x) + (".up" * y if y > 0 else ".dn" * -y)


def pigeons(name, topology, cells, radius, limit):
    """The cells of a ball have different symbols, of which there is one too few."""
    symbols = " ".join(str(symbol) for symbol in range(cells - 1))
    lines = f"%dim {1 if topology == 'line' else 2}\n%alphabet {symbols}\n%topology {topology}\n%limits {limit} 1 0\n"
    rule = f"%rule apart Ap[o{radius}] Aq[o{radius}] (p@q | p!=q)\n%empty apart\n"
    folder.joinpath(f"{name}.diddy").write_text(lines + rule)


def windows(name, length, count):
    """So many of the cells of each window are 1, so the cell behind a window is as its first."""
    words = itertools.combinations(range(length), count)
    some = " | ".join("(" + " & ".join(f"{cell(x)}={int(x in word)}" for x in range(length)) + ")" for word in words)
    lines = f"%dim 1\n%limits 0 1 0\n%rule exact {some}\n%rule again o=1 <-> {cell(length)}=1\n%contains again exact\n"
    folder.joinpath(f"{name}.diddy").write_text(lines)


def at_least(count):
    """So many of the eight neighbours are 1."""
    around = [cell(x, y) for y in (-1, 0, 1) for x in (-1, 0, 1) if (x, y) != (0, 0)]
    return "(" + " | ".join("(" + " & ".join(f"{it}=1" for it in some) + ")" for some in itertools.combinations(around, count)) + ")"


def life(name):
    """Two steps of Life are two steps of Life."""
    cases = f"when ({at_least(3)} | o=1 & {at_least(2)}) & !{at_least(4)} give 1 else 0"
    lines = f"%rule full o@o\n%auto life {cases}\n%compose twice life life\n%same twice twice full\n"
    folder.joinpath(f"{name}.diddy").write_text(lines)


pigeons("pigeons-7", "line", 7, 3, 3)
pigeons("pigeons-9", "king", 9, 1, 1)
pigeons("pigeons-10", "hex", 10, 2, 2)
windows("windows-9", 9, 4)
windows("windows-11", 11, 5)
life("life")
