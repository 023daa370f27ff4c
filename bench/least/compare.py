#!/usr/bin/env python3
"""Times least weights of tori: compare.py PROGRAM. For each a line with the answer, the seconds of processor time of diddy's run and of its check, and
of MiniSat and of CaDiCaL, where they are installed, on the two lists that decide: the one that is refuted and the one before it. All commands for a
torus run in turn, twenty times, or once if diddy takes more than a second. Each time is the least. The clauses are made by the companion. The words behind PROGRAM are names of scripts
in this file; without them all are timed."""
import pathlib
import resource
import shutil
import subprocess
import sys

sys.dont_write_bytecode = True
BENCH = pathlib.Path(__file__).resolve().parents[1]
sys.path[:0] = [str(BENCH), str(BENCH.parent / "tools")]

from companion.accept import accept  # noqa: E402
from companion.clauses import Clauses  # noqa: E402
from dimacs import written  # noqa: E402

SOLVERS = [solver for solver in ("minisat", "cadical") if shutil.which(solver)]
DOM = "%rule dom Ep[o1] p=1\n%least dom "
SCRIPTS = {
    **{f"dominating {n} by {n}": f"{DOM}[{n} {n}]\n" for n in range(5, 10)},
    "Roman 5 by 5": "%alphabet 0 1 2\n%rule roman o=0 -> Ep[o1] p=2\n%least roman [5 5]\n",
    "identifying, hexagonal 3 by 3": "%topology hex\n%rule code Ep[o1] p=1 & Ap[o2] (p@o | Eq[o1p1] (q=1 & !((q@o | q~o) & (q@p | q~p))))\n"
    "%least code [3 3]\n",
    "locating, hexagonal 3 by 3": "%topology hex\n%rule code o=1 | Ep[o1] p=1 & Ap[o2] (p@o | p=1 | Eq[o1p1] (q=1 & !(q~o <-> q~p)))\n%least code [3 3]\n",
    "queens 5 by 5": "%topology king\n%rule dom o=1 | " + " | ".join(f"o{''.join('.' + way for _ in range(k))}=1" for way in
                                                                   ("up", "rt", "ne", "nw") for k in range(1, 5)) + "\n%least dom [5 5]\n",
    "free cells beside kings 6 by 6": "%topology king\n%weights 1 0\n%rule apart o=1 -> Ap[o1] (p@o | p=0)\n%least apart [6 6]\n",
}


def timed_once(words: "list[str]", given: bytes) -> "tuple[float, bytes]":
    """The processor time of one run of a command, and what it writes."""
    before = resource.getrusage(resource.RUSAGE_CHILDREN)
    done = subprocess.run(words, input=given, capture_output=True)
    after = resource.getrusage(resource.RUSAGE_CHILDREN)
    return after.ru_utime + after.ru_stime - before.ru_utime - before.ru_stime, done.stdout


def least_times(runs: "list[tuple[list[str], bytes]]", rounds: int) -> "list[float]":
    """The least processor time of each command with its input, when all of them run in turn."""
    times = [[timed_once(words, given)[0] for words, given in runs] for _ in range(rounds)]
    return [min(own) for own in zip(*times)]


def main() -> None:
    """The command."""
    program, names = sys.argv[1], sys.argv[2:] or list(SCRIPTS)
    print("| Torus | answer | bytes written | diddy | its check |" + "".join(f" {solver} |" for solver in SOLVERS))
    print("|---|---|---|---|---|" + "---|" * len(SOLVERS))
    for name in names:
        script = SCRIPTS[name].encode()
        own, output = timed_once([program, "run"], script)
        line = next(line for line in output.split(b"\n") if line.startswith(b"query 1 "))[8:].decode()
        torus, least = accept(script).queries[0].torus(), int(line.split()[1])
        with written(torus.clauses(least)) as refuted, written(torus.clauses(least + 1)) as last:
            solvers = [([solver, file], b"") for solver in SOLVERS for file in (refuted, last)]
            run, check, *solved = least_times([([program, "run"], script), ([program, "check"], output), *solvers], 20 if own <= 1 else 1)
        sums = [first + second for first, second in zip(solved[::2], solved[1::2])]
        print("| " + " | ".join([name, line, f"{len(output):,}", *(f"{time:.3f}" for time in (run, check, *sums))]) + " |", flush=True)


main()
