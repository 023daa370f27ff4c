#!/usr/bin/env bash
# Times the least densities of strips whose transfer graphs have 64 to 4,096 states, from the script's bytes to the last byte of the
# output, beside a C++ program of the same method over the same graphs. Milliseconds of processor time of the whole program, the least
# of five runs; the two densities must be the same. DIDDY names another program than the one that is built here.
set -eu

here=$(cd "$(dirname "$0")" && pwd)
. "$here/../build.sh"
find_program
c++ -O2 -std=c++17 -o "$work/least_density" "$here/least_density.cpp"

TIMEFORMAT='%U %S'
least() {
    for _ in 1 2 3 4 5; do
        { time "$@" < "$work/script" > "$work/output"; } 2>&1
    done | awk '{ print 1000 * ($1 + $2) }' | sort -n | head -1
}

density() {
    sed -n 's/^query 1 DENSITY //p' "$work/output"
}

# NAME HEIGHT STATES WINDOWS, and the script
row() {
    printf '%s' "$5" > "$work/script"
    own=$(least "$diddy" run)
    found=$(density)
    checked=$(cp "$work/output" "$work/script" && least "$diddy" check)
    other=$(least "$work/least_density" "$1" "$2")
    if [ "$found" != "$(density)" ]; then
        echo "$1 $2: $found, and in C++ $(density)" >&2
        exit 1
    fi
    echo "| $1, $2 high | $3 | $4 | $found | $own | $checked | $other |"
}

echo '| Strip | states | windows | density | diddy | its check | C++ |'
echo '|---|---|---|---|---|---|---|'
for height in 3 4 5; do
    row dominated $height $((1 << 2 * height)) $((1 << 3 * height)) "%rule r Ep[o1] p=1 %density r [$height]"
    row totally $height $((1 << 2 * height)) $((1 << 3 * height)) "%rule r Ep[o1] (p=1 & !p@o) %density r [$height]"
done
row hard 6 64 4096 '%weights 1 0 %rule r o=1 -> (o.rt=0 & o.up=0) %density r [6]'
row hard 8 256 65536 '%weights 1 0 %rule r o=1 -> (o.rt=0 & o.up=0) %density r [8]'
row within_six 1 4096 8192 '%dim 1 %rule r Ep[o3] Eq[p3] q=1 %density r []'
row far_right 4 4096 65536 '%rule r o=1 | o.lt=1 | o.rt=1 | o.rt.rt=1 | o.up=1 %density r [4]'
