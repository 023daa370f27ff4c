#!/usr/bin/env python3
"""Times ten scripts by diddy, and the same questions by general solvers: run.py PROGRAM [NUMBER ..]. With - for PROGRAM only the solvers are timed,
and their answers compared with the stored ones. Seconds of processor time, the least of TURNS turns (3), one turn where it takes over a second; a
call of a solver is stopped after LIMIT seconds (300).

By hand, Python makes clauses or a program, and a solver decides; the times of both stand apart. The clauses are the companion's, box by box, torus
by torus and weight by weight; the linear programs of discharges are those of bench/discharging. A least density is a linear program over the edges of
the transfer graph: the least weight of a circulation of size 1."""
import os
import pathlib
import re
import resource
import shutil
import subprocess
import sys
import tempfile
from fractions import Fraction

sys.dont_write_bytecode = True
BENCH = pathlib.Path(__file__).resolve().parents[1]
EXAMPLES = BENCH.parent / "examples"
sys.path[:0] = [str(BENCH.parent / "tools"), str(BENCH / "discharging"), str(BENCH / "images")]

import baseline as clausal  # noqa: E402
from companion.accept import accept  # noqa: E402

del sys.modules["baseline"]  # bench/boxes has another module of this name
import programs  # noqa: E402

TURNS, LIMIT = int(os.environ.get("TURNS", "3")), float(os.environ.get("LIMIT", "300"))


def made(folder, name):
    """A script that another benchmark makes."""
    with tempfile.TemporaryDirectory() as room:
        subprocess.run([sys.executable, BENCH / folder / "scripts.py", room], check=True)
        return pathlib.Path(room, f"{name}.diddy").read_text()


STORED = ("perfect-codes", "colourings-king", "square-tilings", "pentominoes", "aperiodic-tiles", "dominating-strips", "identifying-codes")
SCRIPTS = {
    **{name: EXAMPLES.joinpath(f"{name}.diddy").read_text() for name in STORED},
    "rule 110 twice": made("queries", "rule110"),
    "the billiard ball rule": made("images", "blocks"),
    "dominating 7 by 7": "%rule dom Ep[o1] p=1\n%least dom [7 7]\n",
}


def used(who):
    """Seconds of processor time so far, of this process or of those that it waited for."""
    usage = resource.getrusage(who)
    return usage.ru_utime + usage.ru_stime


def timed(action):
    """The least time of some turns, own and of children, and what the action gives."""
    best = None
    for _ in range(TURNS):
        own, others = used(resource.RUSAGE_SELF), used(resource.RUSAGE_CHILDREN)
        said = action()
        times = used(resource.RUSAGE_SELF) - own, used(resource.RUSAGE_CHILDREN) - others
        best = times if best is None else min(best, times, key=sum)
        if sum(best) > 1:
            break
    return (*best, said)


def written(program, word, given):
    """What diddy writes."""
    return subprocess.run([program, word], input=given, capture_output=True).stdout


def answers(output):
    """The answer lines of an output, without their numbers."""
    return re.findall(r"^query \d+ (.*)$", output.decode("latin-1"), re.M)


def optimum(text, *options):
    """The least or greatest value of a program in CPLEX's format, by glpsol; None where there is none."""
    with tempfile.TemporaryDirectory() as room:
        pathlib.Path(room, "program.lp").write_text(text)
        subprocess.run(["glpsol", *options, "--lp", f"{room}/program.lp", "-o", f"{room}/out"], capture_output=True, timeout=LIMIT, check=True)
        said = pathlib.Path(room, "out").read_text()
    if not re.search(r"^Status: +(INTEGER )?OPTIMAL", said, re.M):
        return None
    return Fraction(re.search(r"^Objective: .* = (\S+)", said, re.M).group(1)).limit_denominator(10000)


def by_clauses(script):
    """The answers by CaDiCaL."""
    found = []
    for query in accept(script.encode()).queries:
        if query.word != "least":
            found.append(query.combined([clausal.verdict("cadical", question) for question in query.questions()]))
            continue
        torus, below = query.torus(), 1
        while not clausal.satisfiable("cadical", torus.clauses(below)):
            below += 1
        found.append(f"LEAST {below - 1}")
    return found


def by_integers(script):
    """The least numbers of cells that dominate tori, by integer programs with a variable for each cell."""
    found = []
    for query in accept(script.encode()).queries:
        torus, rows = query.torus(), []
        for cell in torus.cells:
            beside = {torus.numbered.symbol_at(other) for other in [cell, *query.script.topology.neighbours(cell)]}
            rows.append(" + ".join(f"x{number}" for number in sorted(beside)) + " >= 1")
        names = [f"x{number}" for number in range(len(torus.cells))]
        least = optimum("\n".join(["Minimize", " + ".join(names), "Subject To", *rows, "Binary", *names, "End", ""]))
        found.append(f"LEAST {least}")
    return found


def circulation(strip):
    """The least weight of a circulation of size 1 through a transfer graph."""
    weights, edges = strip.slice_weights(), list(strip.edges())
    terms = {state: [] for state in range(strip.state_count())}
    for number, (source, target, _) in enumerate(edges):
        if source != target:
            terms[source].append(f"- x{number}")
            terms[target].append(f"+ x{number}")
    goal = [f"+ {weights[slice_]} x{number}" for number, (_, _, slice_) in enumerate(edges) if weights[slice_]]
    rows = ["\n".join([*row, "= 0"]) for row in terms.values() if row]
    return "\n".join(["Minimize", *goal, "Subject To", *rows, *[f"+ x{number}" for number in range(len(edges))], "= 1", "End", ""])


def by_circulations(script, *options):
    """The least densities of strips."""
    found = []
    for query in accept(script.encode()).queries:
        strip = query.strip()
        least = optimum(circulation(strip), *options) if any(True for _ in strip.edges()) else None
        density = None if least is None else least / strip.positions
        found.append("EMPTY" if density is None else f"DENSITY {density.numerator}/{density.denominator}")
    return found


def by_programs(script, *options):
    """The bounds of discharges."""
    read, found = programs.Script(script), []
    for _, args in read.queries:
        vectors, rest = [], args[3:]
        while rest:
            end = rest.index("]")
            vectors.append(tuple([int(entry) for entry in rest[1:end]] + [0] * (4 - end)))
            rest = rest[end + 1:]
        rows = programs.program(read, args[0], int(args[1]), int(args[2]), vectors)[3]
        best = optimum(programs.written(rows), *options)
        found.append(f"BOUND {best.numerator}/{best.denominator}")
    return found


def ways(script):
    """The ways to answer a script by hand."""
    word = accept(script.encode()).queries[0].word
    if word in ("density", "discharge"):
        action = by_circulations if word == "density" else by_programs
        return {"glpsol": lambda: action(script), "glpsol --exact": lambda: action(script, "--exact")}
    if word == "least":
        return {"CaDiCaL": lambda: by_clauses(script), "glpsol, integers": lambda: by_integers(script)}
    return {"CaDiCaL": lambda: by_clauses(script)}


def main():
    """The command."""
    program = sys.argv[1]
    chosen = [int(word) for word in sys.argv[2:]] or range(1, len(SCRIPTS) + 1)
    missing = [name for name in ("cadical", "glpsol") if not shutil.which(name)]
    if missing:
        sys.exit(f"not installed: {', '.join(missing)}")
    print("| Script | answers | diddy | its check | by hand | Python | solver |\n|---|---|---|---|---|---|---|")
    for number, (name, script) in enumerate(SCRIPTS.items(), 1):
        if number not in chosen:
            continue
        own, check, wanted = "", "", None
        if program != "-":
            _, run, output = timed(lambda: written(program, "run", script.encode()))
            own, check, wanted = f"{run:.3f}", f"{timed(lambda: written(program, 'check', output))[1]:.3f}", answers(output)
        elif name in STORED:
            wanted = answers(EXAMPLES.joinpath(f"{name}.answer").read_bytes())
        for way, action in ways(script).items():
            python, solver, said = timed(action)
            count = "other answers" if wanted not in (None, said) else str(len(said))
            print(f"| {name} | {count} | {own} | {check} | {way} | {python:.2f} | {solver:.2f} |", flush=True)
            name = own = check = ""


if __name__ == "__main__":
    main()
