#!/usr/bin/env bash
# Times a list of forbidden patterns and questions whether automata agree, from the script's bytes to the last byte of the output, and the
# check of that output: the patterns of the parity of 16 cells; the minimal patterns of that, of no 1 among 16 cells, and of the majority of 15;
# rule 110 composed with itself against the rule of its two steps by a table of
# five cells, and against that of three steps, and Life composed with itself against Life. Seconds of processor time of the whole program, the
# least of five runs, or of TURNS. DIDDY names another program than the one that is built here. With the word life, Life composed with itself is
# compared with the same composition as well, which takes long and writes hundreds of MB.
set -eu

here=$(cd "$(dirname "$0")" && pwd)
. "$here/../build.sh"
find_program
python3 "$here/scripts.py" "$work"

echo '| Script | answer | bytes written | diddy | its check |'
echo '|---|---|---|---|---|'
for script in forbidden minimal-parity minimal-none minimal-majority rule110 rule110-apart life-apart "$@"; do
    own=$(least "${TURNS:-5}" "$work/$script.diddy" "$diddy" run)
    cp "$work/said" "$work/output"
    answer=$(grep -a '^query 1 ' "$work/output")
    echo "| $script | ${answer#query 1 } | $(wc -c < "$work/output") | $own | $(least "${TURNS:-5}" "$work/output" "$diddy" check) |"
done
