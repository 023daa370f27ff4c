"""Reads an output and writes, for each refutation in it, the clauses of its box and its steps: to N.clauses in the form of DIMACS,
and to N.steps as they stand in the output, N from 1. The clauses are made from the script alone, as docs/certificate.md says; nodes
that allow some symbols alone are left out."""
import pathlib
import re
import sys

sys.dont_write_bytecode = True
sys.path.insert(0, str(pathlib.Path(__file__).resolve().parent.parent / "boxes"))
from baseline import Clauses, Formula, Rule, Script, add


class Given:
    """An automaton by cases."""

    def __init__(self, cases, default):
        self.cases, self.default = cases, default

    def reads(self, node):
        return set().union(*(rule.reads[node] for rule, _ in self.cases))

    def value(self, clauses, at, inputs):
        tests = [clauses.gate_over(rule.tree[at[1]], at[0], inputs) for rule, _ in self.cases]
        fired = [clauses.all_of([test] + [-other for other in tests[:i]]) for i, test in enumerate(tests)]
        other = clauses.all_of([-test for test in tests])
        signals = []
        for symbol in range(clauses.symbols):
            parts = [signal for signal, (_, given) in zip(fired, self.cases) if given == symbol]
            signals.append(clauses.some_of(parts + [other] * (self.default == symbol)))
        return signals


class Composed:
    """The second automaton, and then the first."""

    def __init__(self, first, second):
        self.first, self.second = first, second

    def reads(self, node):
        return {add(at, c) for at, b in self.first.reads(node) for c in self.second.reads(b)}

    def value(self, clauses, at, inputs):
        cells = in_order({add(at[0], c) for c in self.first.reads(at[1])})
        return self.first.value(clauses, at, {c: self.second.value(clauses, c, inputs) for c in cells})


class Asked(Script):
    """A script with automata."""

    def command(self, head, args):
        if head not in ("auto", "compose"):
            return super().command(head, args)
        self.topology()
        self.automata = getattr(self, "automata", {})
        if head == "compose":
            self.automata[args[0]] = Composed(self.automata[args[1]], self.automata[args[2]])
            return
        name, rest, cases = args[0], args[1:], []
        while rest[0] == "when":
            formula, rest = Formula(self, rest[1:]).parse()
            cases.append((Rule(self, formula), self.symbols.index(rest[1])))
            rest = rest[2:]
        self.automata[name] = Given(cases, self.symbols.index(rest[1]))


class Box(Clauses):
    """The clauses of a box."""

    def __init__(self, symbols):
        super().__init__()
        self.symbols = symbols

    def gate_over(self, tree, position, inputs):
        kept, self.inputs = self.inputs, inputs
        signal = self.gate(tree, lambda c: add(position, c))
        self.inputs = kept
        return signal

    def all_of(self, signals):
        g = self.new()
        self.list += [[-g, it] for it in signals] + [[g] + [-it for it in signals]]
        return g

    def some_of(self, signals):
        g = self.new()
        self.list += [[g, -it] for it in signals] + [[-g] + signals]
        return g


def in_order(cells):
    return sorted(cells, key=lambda c: (c[0][::-1], c[1]))


def clauses_of(script, premise, radius, add_goal):
    """Those of the box with this radius, and of a goal."""
    nodes = range(len(script.nodes))
    side = [range(-radius, radius + 1) if i < script.dim else [0] for i in range(3)]
    region = [((x, y, z), a) for z in side[2] for y in side[1] for x in side[0] for a in nodes]
    inside, box = set(region), Box(len(script.symbols))
    box.cells(region, len(script.symbols))
    for position, a in region:
        if all(add(position, c) in inside for c in premise.reads[a]):
            box.list.append([box.gate_over(premise.tree[a], position, box.inputs)])
    add_goal(box, nodes)
    return box


def broken(rule):
    """The goal that the rule is false at some node of the origin."""
    return lambda box, nodes: box.list.append([-box.gate_over(rule.tree[a], (0, 0, 0), box.inputs) for a in nodes])


def differing(first, second):
    """The goal that two automata differ there."""

    def add_goal(box, nodes):
        signals = []
        for a in nodes:
            here = ((0, 0, 0), a)
            one, other = (it.value(box, here, box.inputs) for it in (first, second))
            signals.append(box.some_of([box.all_of([f, -g]) for f, g in zip(one, other)]))
        box.list.append(signals)

    return add_goal


def questions(script, head, args):
    """The premise and the goal of each question of a query."""
    rules = script.rules
    if head == "contains":
        return [(rules[args[1]], broken(rules[args[0]]))]
    if head == "equal":
        return [(rules[x], broken(rules[y])) for x, y in (args, args[::-1])]
    if head == "same":
        return [(rules[args[2]], differing(script.automata[args[0]], script.automata[args[1]]))]
    return [(rules[args[0]], lambda box, nodes: None)]


def main():
    data, folder = sys.stdin.buffer.read(), pathlib.Path(sys.argv[1])
    start = re.match(rb"diddy 1\nscript (\d+)\n", data)
    end = start.end() + int(start[1])
    script, number = Asked(data[start.end() : end].decode()), 0
    for found in re.finditer(rb"^query (\d+) YES (\d+)(?: (\d+))?\n", data[end:], re.M):
        rest = end + found.end()
        head, args = script.queries[int(found[1]) - 1]
        for (premise, add_goal), radius in zip(questions(script, head, args), found.groups()[1:]):
            steps = re.compile(rb"refutation \d+\n((?:step [-0-9 ]*\n)*)").match(data, rest)
            rest, number = steps.end(), number + 1
            box = clauses_of(script, premise, int(radius), add_goal)
            lines = [f"p cnf {box.n} {len(box.list)}"] + [" ".join(map(str, clause + [0])) for clause in box.list]
            folder.joinpath(f"{number}.clauses").write_text("\n".join(lines) + "\n")
            folder.joinpath(f"{number}.steps").write_bytes(steps[1])


main()
