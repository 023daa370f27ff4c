#!/usr/bin/env bash
# Times the discharging bounds of the examples and of the scripts beside this file, from the script's bytes to the last byte of the
# output, beside the same programs made in Python (programs.py), the run of bench/simplex in plain C++, and glpsol --exact where it is
# installed (package glpk-utils). Each BOUND is tested by its amounts and duals over the rows that Python made.
# Seconds of user time: diddy answers a whole script, the lesser of two runs; the others have one query each, one run, and are given
# up after LIMIT seconds (60). The C++ says its value, microseconds by the clock, and pivots.
set -eu

here=$(cd "$(dirname "$0")" && pwd)
. "$here/../build.sh"
find_program
c++ -O2 -o "$work/run" "$here/../simplex/run.cpp"

TIMEFORMAT=%U
seconds() {
    { time timeout "${LIMIT:-60}" "$@" > "$work/said" || true; } 2> "$work/seconds"
    tail -1 "$work/seconds"
}

answered() {
    seconds "$diddy" run < "$script"
    cp "$work/said" "$work/output"
}

[ $# -gt 0 ] || set -- $(grep -l '^%discharge' "$root"/examples/*.diddy) "$here"/*.diddy
for script in "$@"; do
    echo "$(basename "$script" .diddy): $(for turn in 1 2; do answered; done | sort -n | head -1)"
    python3 "$here/programs.py" check "$script" "$work/output" | sed 's/^/    query, cells, fillings, patterns, rows, columns: /'
    rm -f "$work"/*.rows "$work"/*.lp
    python3 "$here/programs.py" rows "$script" "$work" > "$work/nothing"
    python3 "$here/programs.py" lp "$script" "$work" > "$work/nothing"
    for program in "$work"/*.rows; do
        number=$(basename "$program" .rows)
        echo "    query $number: C++ $(seconds "$work/run" < "$program") $(tail -1 "$work/said")"
        if command -v glpsol > "$work/nothing"; then
            echo "    query $number: glpsol --exact $(seconds glpsol --exact --lp "$work/$number.lp" -o "$work/solved") $(grep -s '^Objective' "$work/solved" || true)"
            rm -f "$work/solved"
        fi
    done
done
