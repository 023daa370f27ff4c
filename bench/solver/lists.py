#!/usr/bin/env python3
"""Writes the clause lists of this benchmark to a folder, GROUP-NAME.cnf in the format of DIMACS: boxes and tori of colourings in which
cells within a distance differ, by the clauses that diddy makes (`../check/clauses.py`); all tori of one question, with their shears; pigeonholes; random clauses of three literals near
the threshold; and perfect codes and the aperiodic tiles of `examples/`, on their boxes and tori."""
import itertools
import pathlib
import sys

sys.dont_write_bytecode = True
HERE = pathlib.Path(__file__).resolve().parent
sys.path[:0] = [str(HERE.parent / "check"), str(HERE.parent / "boxes")]
from baseline import Clauses, Script, add

FOLDER = pathlib.Path(sys.argv[1])


def write(name, variables, clauses):
    lines = [f"p cnf {variables} {len(clauses)}"] + [" ".join(map(str, [*clause, 0])) for clause in clauses]
    FOLDER.joinpath(f"{name}.cnf").write_text("\n".join(lines) + "\n")


def apart(topology, distance, colours):
    """The script of the colourings in which cells within the distance differ."""
    symbols = " ".join(map(str, range(colours)))
    goals = "%rule knight o=o.rt.rt.up | o=o.rt.rt.dn\n%rule period o=o.rt.rt.rt.rt.rt\n" if topology == "square" else ""
    return Script(f"%alphabet {symbols}\n%topology {topology}\n%rule x Ap[o{distance}] (p@o | p!=o)\n{goals}")


def cells_of(script, ranges):
    side = [ranges[i] if i < script.dim else [0] for i in range(3)]
    return [((x, y, z), a) for z in side[2] for y in side[1] for x in side[0] for a in range(len(script.nodes))]


def box(name, script, premise, radius, goal=None):
    """A rule on a box, and, with a goal, that this rule is false at the origin."""
    cells, clauses = cells_of(script, [range(-radius, radius + 1)] * 3), Clauses()
    clauses.cells(cells, len(script.symbols))
    inside = set(cells)
    for position, node in cells:
        if all(add(position, c) in inside for c in premise.reads[node]):
            clauses.list.append([clauses.gate(premise.tree[node], lambda c: add(position, c))])
    if goal is not None:
        clauses.list.append([-clauses.gate(tree, lambda c: c) for tree in goal.tree])
    write(name, clauses.n, clauses.list)


def torus(name, script, premise, periods, shear=0):
    """A rule on a torus, where a step by the second period moves a row by the shear."""
    periods = (*periods, 1)[:3]
    cells, clauses = cells_of(script, [range(period) for period in periods]), Clauses()
    clauses.cells(cells, len(script.symbols))
    moved = lambda p: (p[0] - p[1] // periods[1] * shear, *p[1:])
    around = lambda c: (tuple(v % period for v, period in zip(moved(c[0]), periods)), c[1])
    for position, node in cells:
        clauses.list.append([clauses.gate(premise.tree[node], lambda c: around(add(position, c)))])
    write(name, clauses.n, clauses.list)


def colourings():
    for topology, distance, colours, radii in (
        ("square", 2, 4, (3, 5)), ("square", 3, 7, (4, 5)), ("king", 1, 3, (5,)), ("king", 2, 8, (3, 4, 5)),
        ("triangle", 2, 6, (3, 4, 5)), ("hex", 2, 3, (2, 5)), ("hex", 3, 5, (3, 5)),
    ):
        script = apart(topology, distance, colours)
        for radius in radii:
            box(f"boxes-{topology}-{distance}-{colours}-radius-{radius}", script, script.rules["x"], radius)
    script = apart("square", 2, 5)
    for goal, radius in (("knight", 3), ("knight", 4), ("knight", 5), ("period", 5)):
        box(f"boxes-square-2-5-{goal}-radius-{radius}", script, script.rules["x"], radius, script.rules[goal])
    for topology, distance, colours, sizes in (
        ("square", 2, 5, ((6, 6), (7, 7), (8, 8), (9, 9), (10, 10))), ("king", 1, 4, ((5, 5), (7, 7))),
        ("triangle", 1, 3, ((7, 7), (8, 8))), ("triangle", 2, 7, ((6, 6), (7, 7), (8, 8))), ("hex", 2, 4, ((5, 5), (6, 6), (7, 7))),
    ):
        script = apart(topology, distance, colours)
        for size in sizes:
            torus(f"tori-{topology}-{distance}-{colours}-{size[0]}x{size[1]}", script, script.rules["x"], size)


def questions():
    """All tori of a question that has no configuration: periods up to six, with each shear."""
    script = apart("triangle", 2, 7)
    for first, second in itertools.product(range(1, 7), repeat=2):
        for shear in range(first):
            name = f"questions-triangle-2-7-{first}x{second}-shear-{shear}"
            torus(name, script, script.rules["x"], (first, second), shear)


def pigeons(holes):
    """So many things and one more in so many holes, no two in one."""
    at = lambda thing, hole: thing * holes + hole + 1
    clauses = [[at(thing, hole) for hole in range(holes)] for thing in range(holes + 1)]
    pairs = itertools.combinations(range(holes + 1), 2)
    clauses += [[-at(one, hole), -at(other, hole)] for one, other in pairs for hole in range(holes)]
    write(f"pigeonholes-{holes}", (holes + 1) * holes, clauses)


def scattered(variables, seed):
    """Random clauses of three literals, 4.26 for each variable, by the generator of Park and Miller (1988)."""
    state, clauses = seed, []

    def below(bound):
        nonlocal state
        state = state * 16807 % 2147483647
        return state % bound

    while len(clauses) < int(4.26 * variables):
        chosen = []
        while len(chosen) < 3:
            variable = below(variables) + 1
            if variable not in chosen:
                chosen.append(variable)
        clauses.append([variable if below(2) else -variable for variable in chosen])
    write(f"random-{variables}-seed-{seed}", variables, clauses)


def examples():
    root = HERE.parent.parent / "examples"
    for name, rule, radii, sizes, goals in (
        ("perfect-codes", "code", (5, 6), ((6, 6), (7, 8), (9, 9)), (("right", 4), ("five", 5), ("knight", 4))),
        ("perfect-codes-hex", "code", (4,), ((5, 5), (7, 7)), ()),
        ("aperiodic-tiles", "tiles", (4, 5), ((5, 8), (6, 8), (7, 8), (8, 8)), (("company", 5),)),
    ):
        script = Script(root.joinpath(f"{name}.diddy").read_text())
        for radius in radii:
            box(f"examples-{name}-radius-{radius}", script, script.rules[rule], radius)
        for goal, radius in goals:
            box(f"examples-{name}-{goal}-radius-{radius}", script, script.rules[rule], radius, script.rules[goal])
        for size in sizes:
            torus(f"examples-{name}-{size[0]}x{size[1]}", script, script.rules[rule], size)


FOLDER.mkdir(parents=True, exist_ok=True)
colourings()
questions()
for holes in (7, 8, 9, 10):
    pigeons(holes)
for variables in (100, 120, 150, 180, 200):
    for seed in (1, 2, 3):
        scattered(variables, seed)
examples()
