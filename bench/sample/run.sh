#!/usr/bin/env bash
# Times a sample, of the number 16384 or of the one that is given: the whole of it, and a script with its rules, its configuration and one of
# its queries for each of them. A row has seconds by the clock and of processor time, the least of five runs, the most memory that one took,
# and the lines that it wrote. The whole sample is to take at most a second and 200 MB. DIDDY names another program than the one that is
# built here.
set -eu

here=$(cd "$(dirname "$0")" && pwd)
. "$here/../build.sh"
find_program
python3 "$here/parts.py" "$diddy" "${1:-16384}"
