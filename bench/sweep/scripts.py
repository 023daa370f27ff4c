#!/usr/bin/env python3
"""Writes several hundred scripts into a folder: for each ordered pair of 20 rules on the line, whether the subshift of one rule
contains that of the other."""
import itertools
import pathlib
import sys

MOVES = ["o", "o.rt", "o.rt.rt", "o.rt.rt.rt"]


def rules():
    """For each set of differences among 1, 2 and 3, sets of integers without them; and words that may not stand side by side."""
    for bits in range(1, 8):
        parts = [f"!(o=1 & {MOVES[k + 1]}=1)" for k in range(3) if bits >> k & 1]
        yield " & ".join(parts)
    for word in range(8):
        yield "!(" + " & ".join(f"{MOVES[k]}={word >> k & 1}" for k in range(3)) + ")"
    for word in (0, 3, 5, 6, 9):
        yield "!(" + " & ".join(f"{MOVES[k]}={word >> k & 1}" for k in range(4)) + ")"


def main():
    folder = pathlib.Path(sys.argv[1])
    folder.mkdir(parents=True, exist_ok=True)
    named = list(rules())
    for (a, x), (b, y) in itertools.permutations(enumerate(named), 2):
        script = f"%dim 1\n%limits 4 6 10\n%rule x {x}\n%rule y {y}\n%contains y x\n"
        (folder / f"pair-{a:02}-{b:02}.diddy").write_text(script)
    print(len(list(folder.glob("*.diddy"))), "scripts")


main()
