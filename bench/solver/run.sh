#!/bin/sh
# Times the search on the clause lists of lists.py beside MiniSat (package minisat): boxes and tori of colourings, all tori of a question
# with their shears, pigeonholes, random clauses, perfect codes and aperiodic tiles. The program over the library writes the whole
# refutation, but for tori; it is proved and built in a temporary folder, with copies of the crates that it stands on, or PROGRAM is another
# build of program.txt. Words are groups: boxes, tori, questions, pigeonholes, random, examples. compare.py says what a line is.
set -eu

here=$(cd "$(dirname "$0")" && pwd)
. "$here/../build.sh"
if [ -z "${PROGRAM:-}" ]; then
    build_program bench_solver "$here/program.txt" dd_values dd_clause dd_derivation dd_trail dd_solver dd_elimination dd_certificate
    PROGRAM=$work/crates/bench_solver/out/bench_solver
fi
python3 "$here/lists.py" "$work/lists"
python3 "$here/compare.py" "$PROGRAM" "$work/lists" "$@"
