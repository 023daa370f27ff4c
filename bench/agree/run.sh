#!/usr/bin/env bash
# Compares diddy with the companion over random scripts and altered outputs: bench/agree/run.sh [N] [SEED]
# DIDDY names another build of the program. N scripts are shared among the processors; each share has a seed of its own. Then the longer scripts
# of examples/longer are written out and answered, and their answer lines compared.
set -u
cd "$(dirname "$0")"
count=${1:-300} seed=${2:-1} shares=$(nproc)
if [ -z "${DIDDY-}" ]; then
    # the launcher builds the program; it is then called itself, without a look at the sources each time
    ../../diddy run < /dev/null > /dev/null || exit 1
    DIDDY=$(readlink -f ../../crates/dd_program/out/dd_program)
    [ -x "$DIDDY" ] || DIDDY=$(readlink -f ../../diddy)
fi
export DIDDY
seq "$shares" | xargs -P "$shares" -I{} sh -c './agree.py $((('"$count"' + {} - 1) / '"$shares"')) $(('"$seed"' * 1000 + {}))' || exit 1
for longer in ../../examples/longer/*.longer; do
    ../../tools/expand < "$longer" | "$DIDDY" run | grep -a -e '^query [0-9]* ' -e '^end$' | diff - "${longer%.longer}.lines" && continue
    echo "$longer: the answer lines are not those beside it" >&2
    exit 1
done
