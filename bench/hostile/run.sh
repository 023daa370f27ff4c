#!/usr/bin/env bash
# Runs the program where the outside fails: with the words run and check over scripts of each kind of query and answer, and with the word sample.
# Inputs that are refused and outputs that are rejected are among them. What fails is each allocation in turn, and each from one on; each read and
# each write in turn; the memory that the process may have; a source that can't be read; a pipe that is closed at once or after some bytes; a full
# disk; and a file that may not grow. Each time the status has to be the one for that fault, and a prefix of the whole output has to be written. If
# a memory limit is enough, or if all reads and writes are of one byte, the whole output has to be written. Each line is a script, a word, and the
# number of trials of each kind; the status is 1 if a trial ended otherwise. DIDDY names another program than the one that is built here. MOST is
# the greatest number of allocations, or of writes, of a trial that are tried in each way, evenly spread; it is 400 unless it is given. If no script
# is named and GNU time is installed, a table follows of the most memory that runs and checks take at the limits.
set -eu

here=$(cd "$(dirname "$0")" && pwd)
. "$here/../build.sh"
find_program
cc -O2 -Wall -Wextra -shared -fPIC -o "$work/fails.so" "$here/fails.c"
python3 "$here/trials.py" "$diddy" "$work" "${MOST:-400}" "$@"
[ $# -gt 0 ] || [ ! -x /usr/bin/time ] || "$here/peaks.sh" "$diddy" "$work"
