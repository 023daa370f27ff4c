#!/usr/bin/env python3
"""Times a sample and its parts: parts.py PROGRAM NUMBER. A row of the table is the query, the line of its answer, the bytes of the script,
the seconds by the clock and of processor time (the least of five runs), and the most memory of a run in megabytes."""
import os
import subprocess
import sys
import tempfile
import time

RULES = """%limits 3 3 1000
%rule hard o=1 -> (o.rt=0 & o.up=0)
%rule row o=1 -> o.rt=0
%rule dies (o=1 -> o.rt=1) & !(o=1 & o.rt=1 & o.rt.rt=1)
%rule zero o=0
%rule dom Ep[o1] p=1
"""
QUERIES = """%member c hard
%contains row hard
%contains hard row
%equal hard row
%contains zero dies
%density dom [5]
%discharge dom 0 0 [1 0] [-1 0] [0 1] [0 -1]
"""
LINES = ["IN", "YES 1", "NO 2 1", "NO right 2 1", "YES 3", "DENSITY 1/5", "BOUND 1/5"]
RUNS = 5


def script(number, queries):
    return f"{RULES}%conf c [2 {2 * number}]{' 1 0 0 1' * number}\n{queries}".encode()


def run(words, source):
    """One run: what it wrote, its seconds by the clock and of processor time, and its megabytes."""
    with tempfile.TemporaryFile() as given, tempfile.TemporaryFile() as written:
        given.write(source)
        given.seek(0)
        begun = time.monotonic()
        child = subprocess.Popen(words, stdin=given, stdout=written)
        _, status, used = os.wait4(child.pid, 0)
        clock = time.monotonic() - begun
        child.returncode = os.waitstatus_to_exitcode(status)
        if child.returncode != 0:
            sys.exit(f"{' '.join(words)} ended with {child.returncode}")
        written.seek(0)
        return written.read().decode(), clock, used.ru_utime + used.ru_stime, used.ru_maxrss / 1024


def row(name, words, source, wanted):
    """Prints a row of the table, and asserts the first lines of the answers."""
    runs = [run(words, source) for _ in range(RUNS)]
    lines = [line for line in runs[0][0].splitlines() if line.startswith("query ")]
    if lines != [f"query {k} {line}" for k, line in enumerate(wanted, 1)]:
        sys.exit(f"{name}: {lines}")
    clock, processor = min(it[1] for it in runs), min(it[2] for it in runs)
    print(f"| {name} | {', '.join(wanted)} | {len(source):,} | {clock:.3f} | {processor:.3f} | {max(it[3] for it in runs):.0f} |")


def main():
    program, number = sys.argv[1], int(sys.argv[2])
    print("| Part | answers | bytes read | seconds by the clock | of processor time | megabytes |")
    print("|---|---|---|---|---|---|")
    row(f"`sample {number}`", [program, "sample", str(number)], b"", LINES)
    row("its script by `run`", [program, "run"], script(number, QUERIES), LINES)
    row("no query", [program, "run"], script(number, ""), [])
    for query, line in zip(QUERIES.splitlines(), LINES):
        row(f"`{query}`", [program, "run"], script(number, query + "\n"), [line])


if __name__ == "__main__":
    main()
