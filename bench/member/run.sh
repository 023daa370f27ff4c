#!/bin/sh
# Times membership of a configuration of 65,536 symbols in three rules: the hard-square rule, with three atoms, one of sixteen atoms
# with sixteen moves each, and one of twenty atoms; a rule whose expansion has 16,276 parts; and the reading of a script of 1,048,576
# bytes, with a thousand commands. The time is that of the whole program, from the script's bytes to the end of its output.
set -eu

here=$(cd "$(dirname "$0")" && pwd)
. "$here/../build.sh"
find_program

chessboard() {
    awk 'BEGIN { for (y = 0; y < 256; y++) for (x = 0; x < 256; x++) printf " %d", (x + y) % 2 }'
}
moves=$(printf '.rt.up.lt.dn%.0s' 1 2 3 4)
atoms=$(printf "& o$moves=1 %.0s" 1 2 3 4 5 6 7 8 9 10 11 12 13 14 15)

printf '%%rule r o=1 -> (o.rt=0 & o.up=0) %%conf c [256 256]%s %%member c r' "$(chessboard)" > "$work/hard"
printf '%%rule r o%s=1 -> (%s) %%conf c [256 256]%s %%member c r' "$moves" "${atoms#& }" "$(chessboard)" > "$work/sixteen"

twenty=$(awk 'BEGIN { for (i = 1; i <= 10; i++) { r = r ".rt"; u = u ".up"; printf "%s(o%s=0 | o%s=1)", (i > 1 ? " & " : ""), r, u } }')
printf '%%rule r %s %%conf c [256 256]%s %%member c r' "$twenty" "$(chessboard)" > "$work/twenty"
printf '%%rule r Ap[o3] Aq[p3] Ar[q3] r=0' > "$work/expansion"
# A deep formula, a large configuration, and so many rules that there are a thousand commands, filled up by blanks.
{
    printf '%%rule deep '
    printf '(%.0s' $(seq 60)
    printf 'o=1'
    printf ')%.0s' $(seq 60)
    printf ' %%conf c [256 256]%s' "$(chessboard)"
    awk 'BEGIN {
        for (i = 0; i < 998; i++)
            printf "\n%%rule x%c%c o.rt.up=0 -> (o=1 | o.lt=0) -> !o.dn=1 <-> o.up=0", 97 + int(i / 26) % 26, 97 + i % 26
    }' | sed '678,$s/rule x/rule y/'
} > "$work/commands"
{ cat "$work/commands"; head -c 1048576 /dev/zero | tr '\0' ' '; } | head -c 1048576 > "$work/reading"

for script in hard sixteen twenty expansion reading; do
    echo "$script"
    "$diddy" run < "$work/$script" | tail -n 2 | head -n 1 | cut -c 1-80
    bash -c "time '$diddy' run < '$work/$script' > /dev/null"
done
