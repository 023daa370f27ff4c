#!/usr/bin/env bash
# Times the pivot run on random programs of the shape of discharging bounds, beside the same run in plain C++ and in
# Python's fractions, and glpsol --exact where that is installed (package glpk-utils), which takes other pivots.
# The program over the library is proved and built in a temporary folder, with copies of the crates that it stands on;
# the one invariant that its proof needs is written here.
# Each line is a program (rows, patterns, vectors, seed), then who ran it, the seconds of user time, and what it said:
# the value, the microseconds by the clock, and the pivots if they are counted. It is the least of three runs, of Python
# and glpsol one run. A run over LIMIT seconds (60) is given up.
set -eu

here=$(cd "$(dirname "$0")" && pwd)
. "$here/../build.sh"
mkdir -p "$work/crates/bench_simplex/proofs/program_of"
cat > "$work/crates/bench_simplex/proofs/program_of/Invariants.antt" <<'INVARIANT'
use Rattle.std.proofs.Common.{◌≡◌}
use Rattle.bench_simplex.proofs.program_of.Given as goal

abbrev pub invariant-loop-line : goal.invariant-loop-line
invariant-loop-line l = l.program.columns ≡ l.columns
INVARIANT
build_program bench_simplex "$here/program.txt" dd_values dd_fraction dd_simplex
c++ -O2 -o "$work/run" "$here/run.cpp"

TIMEFORMAT=%U
once() {
    { time timeout "${LIMIT:-60}" "$@" < "$work/program" > "$work/said" || echo over the limit > "$work/said"; } 2> "$work/seconds"
    echo "$(tail -1 "$work/seconds") $(tail -1 "$work/said")"
}

least() {
    for turn in 1 2 3; do
        once "$@"
    done | sort -n | head -1
}

for program in '300 59 1 1' '2000 120 1 1' '300 8 3 1' '300 4 6 1' '300 30 2 1' '1000 4 6 1' '300 20 3 1'; do
    # shellcheck disable=SC2086 # the words are the arguments of the script that writes the program
    python3 "$here/programs.py" $program > "$work/program"
    echo "$program: this library $(least "$work/crates/bench_simplex/out/bench_simplex")"
    echo "$program: C++ $(least "$work/run")"
    echo "$program: Python $(once python3 "$here/run.py")"
    if command -v glpsol > "$work/found"; then
        awk -f "$here/glpk.awk" "$work/program" > "$work/program.lp"
        echo "$program: glpsol --exact $(once glpsol --exact --lp "$work/program.lp")"
    fi
done
