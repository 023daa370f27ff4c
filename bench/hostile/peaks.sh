#!/usr/bin/env bash
# The most memory that runs take at the limits, and checks of what they wrote, in thousands of bytes: peaks.sh PROGRAM FOLDER. It needs GNU time.
set -eu

diddy=$1
work=$2
root=$(cd "$(dirname "$0")/../.." && pwd)

# The most memory of the program with these words, over the file $given; what it writes goes to $work/written.
peak() {
    /usr/bin/time -q -f %M -o "$work/peak" "$diddy" "$@" < "$given" > "$work/written" || true
    echo $(($(cat "$work/peak") * 1024 / 1000))
}

# NAME and the words.
row() {
    name=$1
    shift
    run=$(peak "$@")
    bytes=$(wc -c < "$work/written")
    mv "$work/written" "$work/output"
    given=$work/output
    case $1 in
        run) check=$(peak check) ;;
        *) check= ;;
    esac
    echo "| $name | $bytes | $run | $check |"
}

# NAME and the script.
script() {
    printf '%s' "$2" > "$work/script"
    given=$work/script
    row "$1" run
}

# The cell so many places to the right of the origin.
cell() {
    printf 'o'
    for _ in $(seq "$1"); do printf .rt; done
}

# The thirteenth of its cells is the sum, modulo 2, of four before it, but where the twelve before it spell a word that is given: then it is
# free. Without that its states but one lie on one cycle. The short walk to the least cycle gives up on it, and all lengths are tabled.
register() {
    printf '%%dim 1 %%weights 1 0 %%rule r !(%s=1' "$(cell 12)"
    for place in 6 4 1 0; do printf ' <-> %s=1' "$(cell "$place")"; done
    printf ') | ('
    for place in $(seq 0 11); do
        [ "$place" = 0 ] || printf ' & '
        printf '%s=%s' "$(cell "$place")" "${1:$place:1}"
    done
    printf ') %%density r []'
}

echo '| Script | bytes written | run | check |'
echo '|---|---|---|---|'
script 'an empty script' ''
script '4,096 states, 65,536 windows' '%rule r o=1 | o.lt=1 | o.rt=1 | o.rt.rt=1 | o.up=1 %density r [4]'
script '4,096 states, all lengths' "$(register 111000010001)"
script '2,048 rows, 193 columns' "$(cat "$root/examples/free-line.diddy")"
script '54,925 fillings' "$(cat "$root/bench/discharging/fillings.diddy")"
script '65,535 patterns' "%rule r $(cell 0)=1$(for n in $(seq 15); do printf ' & %s=1' "$(cell "$n")"; done) %forbidden r"
script '32,768 minimal patterns' "%rule r $(cell 0)=1$(for n in $(seq 15); do printf ' <-> %s=1' "$(cell "$n")"; done) %minimal r"
zeros=$(printf 'o=0%.0s & ' $(seq 6600))
script 'an image, 1,900,000 clauses' "%limits 8 1 0 %rule r ${zeros}o=0 %auto f when $(cell 8)=1 give 1 else 0 %maps f r r"
script 'a torus of 471 cells' '%dim 1 %rule r o=1 %least r [471]'
script 'the output of `perfect-codes`' "$(cat "$root/examples/perfect-codes.diddy")"
given=/dev/null
row "\`sample 16384\`" sample 16384
