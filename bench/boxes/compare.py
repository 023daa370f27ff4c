#!/usr/bin/env python3
"""Times whole answers to scripts: compare.py PROGRAM SCRIPT.. For each a line with the seconds of processor time, user and system, of
the program and its solver's processes: of diddy, and of the baseline in Python with each solver that is installed, where it knows the
queries and comes to the same answers; the least of TURNS turns (3), one where it takes a second. An empty script comes first."""
import os
import pathlib
import re
import resource
import shutil
import subprocess
import sys

BASELINE = str(pathlib.Path(__file__).resolve().parent / "baseline.py")
SOLVERS = [solver for solver in ("minisat", "cadical") if shutil.which(solver)]
FURTHER = re.compile(rb"^%(?:conjugate|density|discharge|forbidden|least|maps|minimal|same)\b", re.M)


def timed(words, given, solver=""):
    """The processor time, and the answer lines, or nothing where it failed."""
    least = None
    for _ in range(int(os.environ.get("TURNS", "3"))):
        before = resource.getrusage(resource.RUSAGE_CHILDREN)
        done = subprocess.run(words, input=given, capture_output=True, env={**os.environ, "SOLVER": solver})
        after = resource.getrusage(resource.RUSAGE_CHILDREN)
        time = after.ru_utime + after.ru_stime - before.ru_utime - before.ru_stime
        least = time if least is None else min(least, time)
        if least >= 1 or done.returncode:
            break
    return least, re.findall(r"^query .*$", done.stdout.decode(), re.M)


def main():
    program, scripts = sys.argv[1], [b""] + [pathlib.Path(name).read_bytes() for name in sys.argv[2:]]
    names = ["an empty script"] + [pathlib.Path(name).stem for name in sys.argv[2:]]
    print("| Script | diddy |" + "".join(f" Python and {solver} |" for solver in SOLVERS))
    print("|---|---|" + "---|" * len(SOLVERS))
    for name, script in zip(names, scripts):
        own, answers = timed([program, "run"], script)
        cells = [f"{own:.4f}"]
        for solver in SOLVERS if answers and not FURTHER.search(script) else ():
            time, other = timed([sys.executable, BASELINE], script, solver)
            cells.append(f"{time:.3f}" if other == answers else "" if not other else "other answers")
        print("| " + " | ".join([name, *cells]) + " |", flush=True)


main()
