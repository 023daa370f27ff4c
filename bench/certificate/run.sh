#!/bin/sh
# Times the reading of an output with a refutation of a million steps, in this library and by a plain C scanner of the same numbers.
# The program over the library is proved and built in a temporary folder, with copies of the crates that it stands on.
# Each line ends with the time in microseconds, the least of five runs. The first line has the length of the text in bytes.
set -eu

here=$(cd "$(dirname "$0")" && pwd)
. "$here/../build.sh"
build_program bench_certificate "$here/program.txt" dd_values dd_clause dd_derivation dd_certificate dd_output
cc -O2 -o "$work/scan" "$here/scan.c"
awk -v steps=1000000 -f "$here/steps.awk" > "$work/output"
wc -c < "$work/output"

least() {
    for turn in 1 2 3 4 5; do
        "$@" < "$work/output"
    done | sort -t , -k 2n | head -1
}

echo 'this library'
least "$work/crates/bench_certificate/out/bench_certificate"
echo 'plain C'
least "$work/scan"
