#!/usr/bin/env bash
# Times whole answers to questions on images and conjugacies, from the script's bytes to the last byte of the output, and the check of that output,
# beside the same questions in Python with a solver over the same clauses: CaDiCaL, or SOLVER. Seconds of processor time with those of the
# processes that Python starts, the least of TURNS runs (5; of Python one). DIDDY names another program than the one that is built here.
set -eu

here=$(cd "$(dirname "$0")" && pwd)
. "$here/../build.sh"
find_program
solver=${SOLVER:-cadical}
python3 "$here/scripts.py" "$work"

echo "| Script | answers | bytes written | diddy | its check | Python and $solver |"
echo '|---|---|---|---|---|---|'
for script in shift elementary memory blocks maps; do
    own=$(least "${TURNS:-5}" "$work/$script.diddy" "$diddy" run)
    cp "$work/said" "$work/output"
    grep -a '^query ' "$work/output" > "$work/lines"
    check=$(least "${TURNS:-5}" "$work/output" "$diddy" check)
    other=
    if command -v "$solver" > "$work/nothing"; then
        other=$(least 1 "$work/$script.diddy" python3 "$here/baseline.py" "$solver")
        cmp -s "$work/said" "$work/lines" || other='other answers'
    fi
    answers=$(sed 's/^query [0-9]* //' "$work/lines" | paste -sd, | sed 's/,/, /g')
    echo "| $script | $answers | $(wc -c < "$work/output") | $own | $check | $other |"
done
