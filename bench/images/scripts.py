"""Writes the scripts of this benchmark to a folder: shift, elementary, memory, blocks and maps."""
import itertools
import pathlib
import sys

folder = pathlib.Path(sys.argv[1])


def write(name: str, *lines: str) -> None:
    folder.joinpath(f"{name}.diddy").write_text("\n".join(lines) + "\n")


# The shift and its inverse, on colourings of the square lattice with three colours.
write("shift", "%alphabet 0 1 2", "%rule proper o!=o.rt & o!=o.up",
      "%auto left when o.rt=1 give 1 when o.rt=2 give 2 else 0", "%auto right when o.lt=1 give 1 when o.lt=2 give 2 else 0",
      "%conjugate left right proper proper", "%conjugate left left proper proper")


def table(name: str, number: int) -> str:
    """An elementary automaton by its table of three cells."""
    cases = [f"when o.lt={a} & o={b} & o.rt={c} give 1" for a, b, c in itertools.product((0, 1), repeat=3) if number >> (4 * a + 2 * b + c) & 1]
    return " ".join([f"%auto {name}", *cases, "else 0"])


# The elementary automata that are one to one, with their inverses, by their tables.
pairs = {15: 85, 51: 51, 85: 15, 170: 240, 204: 204, 240: 170}
names = {number: "abcdef"[place] for place, number in enumerate(pairs)}
write("elementary", "%dim 1", "%rule full o@o", *[table(name, number) for number, name in names.items()],
      *[f"%conjugate {names[number]} {names[other]} full full" for number, other in pairs.items()])


def memory(number: int) -> "list[str]":
    """An elementary automaton with memory and its inverse, on two nodes."""
    def cases(left: str, here: str, right: str, other: str) -> str:
        words = [f"({left}={a} & {here}={b} & {right}={c})" for a, b, c in itertools.product((0, 1), repeat=3) if number >> (4 * a + 2 * b + c) & 1]
        return f"(({' | '.join(words)}) <-> {other}=0)"
    step = cases("o.lt", "o", "o.rt", "o.was")
    back = cases("o.is.lt.was", "o", "o.is.rt.was", "o.is")
    return [f"%auto step when o:now & {step} give 1 when o:before & o.is=1 give 1 else 0",
            f"%auto back when o:now & o.was=1 give 1 when o:before & {back} give 1 else 0"]


# Rule 110 with memory, and its inverse.
write("memory", "%dim 1", "%nodes now before", "%topology (rt now [1] now) (lt now [-1] now) (was now [0] before) (is before [0] now)",
      "%rule full o@o", *memory(110), "%conjugate step back full full")

# A reversible automaton with blocks of four cells as nodes (Margolus 1984): the billiard ball rule, and the shift to the other blocks.
turn = {(1, 0, 0, 0): (0, 0, 0, 1), (0, 1, 0, 0): (0, 0, 1, 0), (0, 0, 1, 0): (0, 1, 0, 0), (0, 0, 0, 1): (1, 0, 0, 0),
        (1, 0, 0, 1): (0, 1, 1, 0), (0, 1, 1, 0): (1, 0, 0, 1)}
labels = {(a, b): "x" + "y" * a + "z" * b for a, b in itertools.permutations(range(4), 2)}


def at(node: int, other: int) -> str:
    return "o" if node == other else f"o.{labels[node, other]}"


def block_cases() -> str:
    cases = []
    for word in itertools.product((0, 1), repeat=4):
        new = turn.get(word, word)
        for node in range(4):
            if new[node]:
                cases.append(f"when o:{node} & " + " & ".join(f"{at(node, other)}={word[other]}" for other in range(4)) + " give 1")
    return " ".join(cases) + " else 0"


write("blocks", "%nodes 0 1 2 3", "%topology " + " ".join(f"({labels[a, b]} {a} [0 0] {b})" for a, b in itertools.permutations(range(4), 2)),
      "%limits 2 2 10", "%rule full o@o", f"%auto ball {block_cases()}", "%conjugate ball ball full full")

# Maps into hard squares and from them.
write("maps", "%limits 4 4 10", "%rule all o@o", "%rule hard o=1 -> (o.rt=0 & o.up=0)", "%auto corner when o=1 & o.rt=0 & o.up=0 give 1 else 0",
      "%auto xor when o!=o.rt give 1 else 0", "%maps corner all hard", "%maps xor hard all", "%maps xor hard hard", "%compose twice corner corner",
      "%maps twice all hard")
