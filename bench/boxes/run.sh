#!/bin/sh
# Times whole answers to the scripts of examples/, each from its bytes to the last byte of its output, beside the baseline in Python over
# MiniSat and over CaDiCaL where these are installed: compare.py says what a line is. Words are scripts; DIDDY is another build.
here=$(cd "$(dirname "$0")" && pwd)
. "$here/../build.sh"
find_program
[ $# -gt 0 ] || set -- "$root"/examples/*.diddy
python3 "$here/compare.py" "$diddy" "$@"
