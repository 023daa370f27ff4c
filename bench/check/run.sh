#!/usr/bin/env bash
# Times the check of outputs with long refutations, and the run that makes them. What of the check is start, script and clauses is the time of a
# check of the same output with one step alone, which fails; what is the reading of the steps besides, that of a check whose first step fails.
# Beside it stands a plain C program that reads the same steps and follows their hints over the same clauses, which it has from a file. Seconds
# of processor time, the least of five turns, or of TURNS; the run is made once. DIDDY names another program than the one that is built here.
# With the word life, two steps of Life are compared with themselves as well, which takes some minutes and writes hundreds of MB for each output.
set -eu

here=$(cd "$(dirname "$0")" && pwd)
. "$here/../build.sh"
find_program
python3 "$here/scripts.py" "$work"
cc -O2 -o "$work/refutes" "$here/check.c"
python3 "$here/run.py" "$diddy" "$work" pigeons-7 pigeons-9 pigeons-10 windows-9 windows-11 "$@"
