#!/usr/bin/env python3
"""Times the search beside MiniSat: compare.py PROGRAM FOLDER [GROUP..]. For each list of the folder a line with the seconds of processor
time, user and system, of both whole programs, the least of some turns in which they alternate: five, two where one takes 0.4 seconds, one
where one takes 4. A run over 120 seconds of processor time, as the system's limit counts them, is stopped, and counts with what it took
until then. Then the geometric mean of the quotients of each group, and that of these means. Tori are searched in the style that diddy has
for them, and of their refutations nothing is written, as diddy writes nothing of them. The tori of a question, the group `questions`, stand
in one line: their times together, and the greatest quotient of one that takes 0.1 seconds."""
import math
import os
import pathlib
import re
import resource
import subprocess
import sys
import tempfile

LIMIT = 120
GROUPS = ("boxes", "tori", "questions", "pigeonholes", "random", "examples")
LARGE_TORUS = 25


def seconds(words, given, taken):
    """The processor time of a process, and what it wrote."""
    with open(given, "rb") as source, open(taken, "w+b") as sink:
        before = resource.getrusage(resource.RUSAGE_CHILDREN)
        subprocess.run(words, stdin=source, stdout=sink, stderr=subprocess.DEVNULL,
                       preexec_fn=lambda: resource.setrlimit(resource.RLIMIT_CPU, (LIMIT, LIMIT)))
        after = resource.getrusage(resource.RUSAGE_CHILDREN)
        sink.seek(0)
        return after.ru_utime + after.ru_stime - before.ru_utime - before.ru_stime, sink.read()


def words_of(file):
    """How diddy searches a list: for a torus in the style for its number of positions, and without a refutation."""
    sizes = re.search(r"\d+(?:x\d+)+(?=$|-shear)", file.stem)
    if sizes is None:
        return []
    positions = math.prod(map(int, sizes[0].split("x")))
    return ["quiet"] + ["focused"] * (positions >= LARGE_TORUS)


def compared(program, file, room):
    """The least times of both, what the program found, its steps and the bytes of the refutation, and MiniSat's conflicts."""
    own, other, turn = math.inf, math.inf, 0
    while turn < 5 and not (turn >= 2 and max(own, other) >= 0.4) and not (turn and max(own, other) >= 4):
        time, written = seconds([program, *words_of(file)], file, room / "own")
        own = min(own, time)
        time, log = seconds(["minisat", "-verb=1", str(file)], os.devnull, room / "other")
        other, turn = min(other, time), turn + 1
    words = written.split(b"\n", 1)[0].decode().split() or ["stopped"]
    verdict = {b"SATISFIABLE": "found", b"UNSATISFIABLE": "refuted"}.get((log.split() or [b""])[-1], "stopped")
    assert words[0] == verdict or "stopped" in (words[0], verdict), f"{file}: {words} {verdict}"
    conflicts = next((line.split()[2].decode() for line in log.split(b"\n") if line.startswith(b"conflicts")), "stopped")
    return own, other, words, len(written), conflicts


def mean(numbers):
    return math.exp(sum(map(math.log, numbers)) / len(numbers))


def row(file, result):
    """The line of a list."""
    own, other, words, size, conflicts = result
    steps, size = (words[1], size if size > 100 else "") if words[0] == "refuted" else ("", "")
    name = file.stem.replace("-", " ")
    return f"| {name} | {own:.4f}, {words[0]} | {steps} | {size} | {other:.4f} | {conflicts} | {own / other:.2f} |"


def main():
    program, folder, groups = sys.argv[1], pathlib.Path(sys.argv[2]), sys.argv[3:] or GROUPS
    means = {}
    print("| Clauses | diddy's search | Steps | Bytes | MiniSat | Conflicts | Over MiniSat |\n|---|---|---|---|---|---|---|")
    with tempfile.TemporaryDirectory() as room:
        for group in groups:
            files = sorted(folder.glob(f"{group}-*.cnf"), key=lambda file: re.sub(r"\d+", lambda word: word[0].zfill(3), file.stem))
            results = []
            for file in files:
                results.append(compared(program, file, pathlib.Path(room)))
                if group != "questions":
                    print(row(file, results[-1]), flush=True)
            if group == "questions":
                own, other = (sum(result[k] for result in results) for k in (0, 1))
                most, file = max((result[0] / result[1], file.stem) for result, file in zip(results, files) if max(result[:2]) >= 0.1)
                print(f"| {len(files)} tori | {own:.4f} | | | {other:.4f} | | {own / other:.2f}, at most {most:.2f} ({file}) |", flush=True)
                means[group] = own / other
            else:
                means[group] = mean([result[0] / result[1] for result in results])
    print()
    for group, value in means.items():
        print(f"{group}: {value:.2f}")
    print(f"all: {mean(means.values()):.2f}")


main()
