#!/usr/bin/env python3
"""Box questions by the companion's clauses and a solver: baseline.py SOLVER < script. It answers %contains, %empty, %same, %maps and %conjugate,
and writes the answer lines alone. The clauses of boxes are those of docs/certificate.md; those of tori are made in the same way."""
import pathlib
import subprocess
import sys

sys.dont_write_bytecode = True
BENCH = pathlib.Path(__file__).resolve().parents[1]
sys.path[:0] = [str(BENCH), str(BENCH.parent / "tools")]

from companion.accept import accept  # noqa: E402
from companion.boxes import Question  # noqa: E402
from companion.clauses import Clauses  # noqa: E402
from companion.lattice import moved  # noqa: E402
from companion.script import Configuration  # noqa: E402
from companion.searching import product, tori  # noqa: E402
from dimacs import written  # noqa: E402


def satisfiable(solver: str, clauses: Clauses) -> bool:
    """Whether the solver finds an assignment."""
    with written(clauses) as file:
        return subprocess.run([solver, file], capture_output=True).returncode == 10


def torus(question: Question, periods: "tuple[int, ...]", shear: int) -> Clauses:
    """The clauses of a torus: the cells of a fundamental box, the premise at each of them, and the goal at the origin."""
    script, symbols = question.script, len(question.script.symbols)
    numbers = list(range(product(periods) * len(script.nodes)))
    numbered = Configuration("", periods, shear, numbers, len(script.nodes))
    clauses = Clauses(len(numbers) * symbols)
    cells = list(numbered.cells())
    for number, cell in enumerate(cells):
        clauses.symbols_of(number, symbols, script.allowed[cell[3]])

    def literal(cell, symbol: int) -> int:
        return 2 * (1 + numbered.symbol_at(cell) * symbols + symbol)

    for cell in cells:
        clauses.add((clauses.formula(question.premise.expansions[cell[3]], lambda read, symbol: literal(moved(read, cell[:3]), symbol)),))
    question.goal.write(script, clauses, literal)
    return clauses


def verdict(solver: str, question: Question) -> str:
    """The answer's line to one question."""
    for radius in range(question.least_radius(), question.greatest_radius() + 1):
        if not satisfiable(solver, question.clauses(radius)):
            return f"YES {radius}"
    for periods, shear in tori(question.script):
        if satisfiable(solver, torus(question, periods, shear)):
            return " ".join(["NO", *map(str, periods)] + ([f"shear {shear}"] if shear else []))
    return "UNKNOWN limits"


def main() -> None:
    """The command."""
    solver = sys.argv[1]
    for number, query in enumerate(accept(sys.stdin.buffer.read()).queries, 1):
        print(f"query {number} {query.combined([verdict(solver, question) for question in query.questions()])}", flush=True)


if __name__ == "__main__":
    main()
