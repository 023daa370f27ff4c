"""Box questions: whether something can happen at the origin of a configuration that obeys a rule.

The premise is the rule; the goal is what may happen. docs/certificate.md defines the clauses of a box.
"""
from typing import Callable, Optional, Set

from .clauses import Clauses, Template
from .lattice import Cell, box, distance
from .script import Automaton, Configuration, Rule, Script

MOST_CLAUSES = 2000000


class Nothing:
    """The goal of emptiness, which always holds: any configuration shows it."""

    def reads(self) -> Set[Cell]:
        """The cells that the goal reads at the origin."""
        return set()

    def clause_count(self, script: Script) -> int:
        """How many clauses the goal has."""
        return 0

    def write(self, script: Script, clauses: Clauses, inputs: Callable[[Cell, int], int]) -> None:
        """Appends the goal's clauses."""

    def holds(self, script: Script, symbol_at: Callable[[Cell], int]) -> bool:
        """Whether the goal holds at the origin, if each cell has the symbol that the call gives."""
        return True


class Breaks(Nothing):
    """The goal that a rule is false at some node of the origin."""

    def __init__(self, rule: Rule) -> None:
        self.rule = rule

    def reads(self) -> Set[Cell]:
        return {cell for reads in self.rule.reads for cell in reads}

    def clause_count(self, script: Script) -> int:
        return self.rule.clause_count() + 1

    def write(self, script: Script, clauses: Clauses, inputs: Callable[[Cell, int], int]) -> None:
        signals = [clauses.formula(expanded, inputs) for expanded in self.rule.expansions]
        clauses.add([signal ^ 1 for signal in signals])

    def holds(self, script: Script, symbol_at: Callable[[Cell], int]) -> bool:
        return any(not self.rule.holds_at((0, 0, 0, node), symbol_at) for node in range(len(script.nodes)))


class Differ(Nothing):
    """The goal that two automata give different symbols to some node of the origin."""

    def __init__(self, left: Automaton, right: Automaton) -> None:
        self.left = left
        self.right = right

    def reads(self) -> Set[Cell]:
        return {cell for automaton in (self.left, self.right) for reads in automaton.reads for cell in reads}

    def clause_count(self, script: Script) -> int:
        symbols = len(script.symbols)
        values = sum(automaton.clauses(node, symbols) for node in range(len(script.nodes)) for automaton in (self.left, self.right))
        return values + len(script.nodes) * (3 * symbols + symbols + 1) + 1

    def write(self, script: Script, clauses: Clauses, inputs: Callable[[Cell, int], int]) -> None:
        symbols, signals = len(script.symbols), []
        for node in range(len(script.nodes)):
            left = clauses.automaton(self.left, node, symbols, inputs)
            right = clauses.automaton(self.right, node, symbols, inputs)
            signals.append(clauses.some_of([clauses.all_of((one, other ^ 1)) for one, other in zip(left, right)]))
        clauses.add(signals)

    def holds(self, script: Script, symbol_at: Callable[[Cell], int]) -> bool:
        cells = [(0, 0, 0, node) for node in range(len(script.nodes))]
        return any(self.left.value(cell, symbol_at) != self.right.value(cell, symbol_at) for cell in cells)


Goal = Nothing


class Question:
    """A box question of a script."""

    def __init__(self, script: Script, premise: Rule, goal: Goal) -> None:
        self.script = script
        self.premise = premise
        self.goal = goal

    def least_radius(self) -> int:
        """The least radius of a box that holds all that the goal reads."""
        return max((distance(cell) for cell in self.goal.reads()), default=0)

    def greatest_radius(self) -> int:
        """The greatest radius that is tried."""
        return max(self.script.limits.radius, self.least_radius())

    def clauses_a_position(self) -> int:
        """How many clauses a position takes at most, without those of the goal."""
        script, symbols = self.script, len(self.script.symbols)
        forbidden = sum(symbols - len(allowed) for allowed in script.allowed)
        return len(script.nodes) * (2 + symbols * (symbols - 1) // 2) + forbidden + self.premise.clause_count()

    def most_clauses(self, radius: int) -> int:
        """How many clauses the box of a radius takes at most."""
        return (2 * radius + 1) ** self.script.dim * self.clauses_a_position() + self.goal.clause_count(self.script)

    def torus_clauses(self) -> int:
        """How many clauses the largest torus takes at most."""
        return self.script.limits.period ** self.script.dim * self.clauses_a_position() + self.goal.clause_count(self.script)

    def largest(self) -> int:
        """How many clauses the largest box or torus takes at most."""
        return max(self.most_clauses(self.greatest_radius()), self.torus_clauses())

    def clauses(self, radius: int) -> Clauses:
        """The clauses of the box of a radius."""
        script, symbols = self.script, len(self.script.symbols)
        positions = box(script.dim, radius)
        nodes, middle = len(script.nodes), len(positions) // 2
        steps = self._steps(radius)

        def first_input(cell: Cell) -> int:
            """The variable that says that a cell of the box has the symbol 0."""
            place = middle + cell[0] * steps[0] + cell[1] * steps[1] + cell[2]
            return 1 + (place * nodes + cell[3]) * symbols

        clauses = Clauses(len(positions) * nodes * symbols)
        for number in range(len(positions) * nodes):
            clauses.symbols_of(number, symbols, script.allowed[number % nodes])
        templates = [Template(expanded, first_input) for expanded in self.premise.expansions]
        origin = first_input((0, 0, 0, 0))
        for cell, _ in script.places(self.premise, positions):
            templates[cell[3]].write(clauses, first_input((*cell[:3], 0)) - origin)
        self.goal.write(script, clauses, lambda cell, symbol: 2 * (first_input(cell) + symbol))
        return clauses

    def _steps(self, radius: int) -> "tuple[int, int]":
        """By how much a position's number in the box grows along z and along y."""
        side = 2 * radius + 1
        return side * side, side


def why_not(question: Question, configuration: Configuration) -> Optional[str]:
    """Why a configuration is no witness for a question, or None if it is one."""
    script = question.script
    false = configuration.first_false(question.premise)
    if false is not None:
        return f"the configuration breaks the rule {question.premise.name} at {shown_cell(script, false)}"
    if not question.goal.holds(script, configuration.symbol_at):
        return f"{goal_fault(question.goal)} at the origin of the configuration"
    return None


def goal_fault(goal: Goal) -> str:
    """What is said if a goal doesn't hold."""
    if isinstance(goal, Differ):
        return f"{goal.left.name} and {goal.right.name} give the same symbols"
    return f"the rule {goal.rule.name} is true" if isinstance(goal, Breaks) else "nothing is wrong"


def shown_cell(script: Script, cell: Cell) -> str:
    """A cell in words: its coordinates, and its node if there are several."""
    place = "(" + ", ".join(str(entry) for entry in (cell[2], cell[1], cell[0])[:script.dim]) + ")"
    return place if len(script.nodes) == 1 else f"the node {script.node_names()[cell[3]]} of {place}"
