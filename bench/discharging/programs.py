#!/usr/bin/env python3
"""The linear program of each query %discharge of a script, made from the definitions in docs/certificate.md by the plain reader of
bench/boxes/baseline.py.

    programs.py lp SCRIPT FOLDER      writes the K-th program to FOLDER/K.lp, in CPLEX's format, for glpsol --exact --lp
    programs.py rows SCRIPT FOLDER    writes it to FOLDER/K.rows, for bench/simplex/run.cpp and run.py
    programs.py check SCRIPT OUTPUT   tests each BOUND of diddy's output: its amounts meet the rows, and its duals are worth it

A line of what it says is the query's number, the cells of the region, its fillings, the patterns, the rows, the columns and the
bound, and the seconds of processor time."""
import pathlib
import sys
import time
from fractions import Fraction

sys.path.insert(0, str(pathlib.Path(__file__).resolve().parent.parent / "boxes"))
import baseline  # noqa: E402


class Script(baseline.Script):
    """A script with weights and with the symbols that each node allows."""

    def __init__(self, text):
        self.weights, self.only = None, {}
        super().__init__(text)
        self.weights = self.weights or list(range(len(self.symbols)))

    def command(self, head, args):
        if head == "weights":
            self.weights = [int(word) for word in args]
        elif head == "only":
            self.topology()
            self.only[self.nodes.index(args[0])] = [self.symbols.index(word) for word in args[1:]]
        else:
            super().command(head, args)

    def allowed(self, node):
        return self.only.get(node, range(len(self.symbols)))


def plus(p, q):
    return tuple(a + b for a, b in zip(p, q))


def minus(p):
    return tuple(-a for a in p)


def box(dim, radius):
    sides = [range(-radius, radius + 1) if axis < dim else [0] for axis in range(3)]
    return [(x, y, z) for z in sides[2] for y in sides[1] for x in sides[0]]


def fillings(script, rule, cells):
    """Those of the cells that are admissible, in lexicographic order: cell by cell, with the rule tested as soon as it is known."""
    index = {cell: at for at, cell in enumerate(cells)}
    tests = [[] for _ in cells]
    for (position, node), at in index.items():
        reads = [(plus(position, offset), to) for offset, to in rule.reads[node]]
        if all(cell in index for cell in reads):
            tests[max([at] + [index[cell] for cell in reads])].append((position, node))
    known = [()]
    for at, (_, node) in enumerate(cells):
        grown = []
        for filling in known:
            for symbol in script.allowed(node):
                longer = filling + (symbol,)

                def holds(place):
                    return rule.holds(rule.tree[place[1]], lambda cell: longer[index[plus(place[0], cell[0]), cell[1]]])

                if all(holds(place) for place in tests[at]):
                    grown.append(longer)
        known = grown
        if len(known) > 65536:
            return None
    return known


def program(script, name, radius, margin, vectors):
    """The cells of the region, how many fillings it has, the patterns, and the rows: coefficients and a bound."""
    rule, nodes = script.rules[name], range(len(script.nodes))
    small = box(script.dim, radius)
    domain = {plus(p, by) for by in [(0, 0, 0), *map(minus, vectors)] for p in small}
    region = sorted({plus(p, q) for p in domain for q in box(script.dim, margin)}, key=lambda p: p[::-1])
    cells = [(p, node) for p in region for node in nodes]
    found = fillings(script, rule, cells)
    if found is None:
        return cells, "large", [], []
    index = {cell: at for at, cell in enumerate(cells)}
    views = [[index[plus(p, by), node] for p in small for node in nodes] for by in [(0, 0, 0), *map(minus, vectors)]]
    origin = [index[(0, 0, 0), node] for node in nodes]
    patterns = sorted({tuple(filling[at] for at in view) for filling in found for view in views})
    number = {pattern: at for at, pattern in enumerate(patterns)}
    rows = {(1,) + (0,) * (len(vectors) * len(patterns)) + (len(nodes) * max(script.weights),): None}
    for filling in found:
        seen = [number[tuple(filling[at] for at in view)] for view in views]
        row = [1] + [0] * (len(vectors) * len(patterns)) + [sum(script.weights[filling[at]] for at in origin)]
        for at, gets in enumerate(seen[1:]):
            row[1 + at * len(patterns) + seen[0]] += 1
            row[1 + at * len(patterns) + gets] -= 1
        rows[tuple(row)] = None
    return cells, len(found), patterns, list(rows)


def written(rows):
    """CPLEX's format."""
    lines = ["Maximize", " x0", "Subject To"]
    for *row, bound in rows:
        terms = [f"{'+' if a > 0 else '-'} {abs(a)} x{j}" for j, a in enumerate(row) if a]
        lines.append(f" {' '.join(terms)} <= {bound}")
    return "\n".join([*lines, "End", ""])


def listed(rows):
    """The format of bench/simplex: "columns cap pivots", then a line for each further row. The cap's row is the first."""
    lines = [f"{len(rows[0]) - 1} {rows[0][-1]} 10000", *(" ".join(map(str, row)) for row in rows[1:])]
    return "\n".join([*lines, ""])


def certified(rows, numbers):
    """Whether a bound, its denominator, amounts and duals are a certificate for the rows."""
    bound, common, amounts, duals = numbers
    columns = [bound * common, *amounts]
    meets = all(sum(a * x for a, x in zip(row, columns) if a) <= row[-1] * common for row in rows)
    sums = [0] * len(columns)
    for dual, row in zip(duals, rows):
        if dual:
            sums = [s + dual * a for s, a in zip(sums, row)]
    worth = sum(dual * row[-1] for dual, row in zip(duals, rows))
    few = len(columns) == len(rows[0]) - 1 and len(duals) == len(rows) and min([*amounts, *duals]) >= 0
    return few and meets and sums[0] >= common and min(sums[1:]) >= 0 and worth == columns[0]


def claimed(output):
    """The parts of each BOUND of an output, by the query's number."""
    found, lines = {}, iter(output.splitlines())
    for line in lines:
        words = line.split()
        if words[:1] == ["query"] and words[2:3] == ["BOUND"]:
            parts = [[int(word) for word in next(lines).split()[1:]] for _ in range(3)]
            found[int(words[1])] = (Fraction(words[3]), parts[0][0], parts[1], parts[2])
    return found


def main():
    word, file, other = sys.argv[1:4]
    script = Script(pathlib.Path(file).read_text())
    bounds = claimed(pathlib.Path(other).read_text()) if word == "check" else {}
    failed = False
    for number, (kind, args) in enumerate(script.queries, 1):
        if kind != "discharge":
            continue
        begun = time.process_time()
        vectors, rest = [], args[3:]
        while rest:
            end = rest.index("]")
            vectors.append(tuple([int(x) for x in rest[1:end]] + [0] * (4 - end)))
            rest = rest[end + 1:]
        cells, many, patterns, rows = program(script, args[0], int(args[1]), int(args[2]), vectors)
        said = "-"
        if word == "lp" and rows:
            pathlib.Path(other, f"{number}.lp").write_text(written(rows))
        if word == "rows" and rows:
            pathlib.Path(other, f"{number}.rows").write_text(listed(rows))
        if number in bounds:
            good = bool(rows) and certified(rows, bounds[number])
            said, failed = f"{bounds[number][0]} {'certified' if good else 'WRONG'}", failed or not good
        size = len(rows[0]) - 1 if rows else 0
        print(number, len(cells), many, len(patterns), len(rows), size, said, f"{time.process_time() - begun:.2f}")
    return 1 if failed else 0


if __name__ == "__main__":
    sys.exit(main())
