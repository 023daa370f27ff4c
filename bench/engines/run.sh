#!/bin/sh
# Times what the program's engines propose of a small list and of lists of a million literals. The program over the library is
# proved and built in a temporary folder, with copies of the crates that it stands on. Each line is a clause list's name, an
# engine, for the walk its flips, whether it is asked for the first time or again, what it proposes, the number of a refutation's hints,
# and the time in microseconds, the least of five runs.
set -eu

here=$(cd "$(dirname "$0")" && pwd)
. "$here/../build.sh"
build_program bench_engines "$here/program.txt" dd_values dd_clause dd_derivation dd_engines
program=$work/crates/bench_engines/out/bench_engines

ask() {
    for turn in 1 2 3 4 5; do
        "$program" < "$work/clauses"
    done | awk -v name="$1" '
        { time = $NF; $NF = ""; if (!($0 in least)) order[++lines] = $0; if (!($0 in least) || time < least[$0]) least[$0] = time }
        END { for (i = 1; i <= lines; i++) print name ": " order[i] least[order[i]] }'
}

awk -v variables=300 -v clauses=1278 -v seed=1 -f "$here/clauses.awk" > "$work/clauses"
ask 'random, 300 variables'
awk -v variables=80000 -v clauses=333333 -v seed=1 -f "$here/clauses.awk" > "$work/clauses"
ask 'random, 80000 variables'
awk -v chain=500000 -f "$here/clauses.awk" > "$work/clauses"
ask 'chain of 500000'
