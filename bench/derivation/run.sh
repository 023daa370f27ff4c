#!/bin/sh
# Times the check of two derivations of about a million hinted literals each, in this library and in plain C.
# The program over the library is proved and built in a temporary folder, with copies of the crates that it stands on.
# Each line is a derivation's name, whether it refutes, and the time of one check in microseconds.
set -eu

here=$(cd "$(dirname "$0")" && pwd)
. "$here/../build.sh"
build_program bench_derivation "$here/program.txt" dd_values dd_clause dd_derivation
cc -O2 -o "$work/check" "$here/check.c"

echo 'this library'
"$work/crates/bench_derivation/out/bench_derivation"
echo 'plain C'
"$work/check"
