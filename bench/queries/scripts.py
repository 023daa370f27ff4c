"""Writes the scripts of this benchmark to a folder: forbidden, minimal-parity, minimal-none, minimal-majority, rule110, rule110-apart, life,
life-apart."""
import itertools
import pathlib
import sys

folder = pathlib.Path(sys.argv[1])


def cell(x, y=0):
    return "o" + (".rt" * x if x > 0 else ".lt" * -x) + (".up" * y if y > 0 else ".dn" * -y)


def step(number, left, middle, right):
    return number >> (4 * left + 2 * middle + right) & 1


# The parity of 16 cells: half of the 65,536 fillings are forbidden.
parity = " <-> ".join(f"{cell(x)}=1" for x in range(16))
folder.joinpath("forbidden.diddy").write_text(f"%dim 1 %rule parity {parity} %forbidden parity\n")
folder.joinpath("minimal-parity.diddy").write_text(f"%dim 1 %rule parity {parity} %minimal parity\n")

# No 1 among 16 cells: a pattern for each cell.
none = " & ".join(f"{cell(x)}=0" for x in range(16))
folder.joinpath("minimal-none.diddy").write_text(f"%dim 1 %rule none {none} %minimal none\n")


def most(count, cells):
    """At least so many of the cells are 1, by halves of the list."""
    if count <= 0 or count > len(cells):
        return "o@o" if count <= 0 else "!(o@o)"
    if count in (1, len(cells)):
        return "(" + (" | " if count == 1 else " & ").join(f"{it}=1" for it in cells) + ")"
    middle = len(cells) // 2
    left, right = cells[:middle], cells[middle:]
    ways = range(max(0, count - len(right)), min(count, middle) + 1)
    return "(" + " | ".join(f"({most(here, left)} & {most(count - here, right)})" for here in ways) + ")"


# The majority of 15 cells: a pattern for each eight of them.
majority = most(8, [cell(x) for x in range(15)])
folder.joinpath("minimal-majority.diddy").write_text(f"%dim 1 %rule majority {majority} %minimal majority\n")


def one_step(number):
    """A rule by its table of three cells."""
    cases = [f"{cell(-1)}={a} & {cell(0)}={b} & {cell(1)}={c}" for a, b, c in itertools.product((0, 1), repeat=3) if step(number, a, b, c)]
    return " ".join(f"when {case} give 1" for case in cases) + " else 0"


def two_steps(number):
    """The rule of two steps, by its table of five cells."""
    cases = []
    for word in itertools.product((0, 1), repeat=5):
        if step(number, *[step(number, *word[x : x + 3]) for x in range(3)]):
            cases.append(" & ".join(f"{cell(x - 2)}={symbol}" for x, symbol in enumerate(word)))
    return " ".join(f"when {case} give 1" for case in cases) + " else 0"


start = f"%dim 1 %rule full o@o %auto r {one_step(110)} %compose twice r r %auto wide {two_steps(110)}"
folder.joinpath("rule110.diddy").write_text(f"{start} %same twice wide full\n")
folder.joinpath("rule110-apart.diddy").write_text(f"{start} %compose thrice r twice %same thrice wide full\n")


def at_least(count):
    """So many of the eight neighbours are 1."""
    around = [cell(x, y) for y in (-1, 0, 1) for x in (-1, 0, 1) if (x, y) != (0, 0)]
    return "(" + " | ".join("(" + " & ".join(f"{it}=1" for it in some) + ")" for some in itertools.combinations(around, count)) + ")"


life = f"when ({at_least(3)} | o=1 & {at_least(2)}) & !{at_least(4)} give 1 else 0"
start = f"%rule full o@o %auto life {life} %compose twice life life %compose again life life"
folder.joinpath("life.diddy").write_text(f"{start} %same twice again full\n")
folder.joinpath("life-apart.diddy").write_text(f"{start} %same twice life full\n")
