#!/bin/sh
# Times lists of forbidden patterns of a rule that reads sixteen cells, with 65,536 fillings, and the comparison of two steps of an
# automaton with an automaton of two steps: rule 110, and Life with itself. Seconds of the whole program, from the script's bytes to the
# last byte of the output, and of the check of that output: the least processor time of five runs. DIDDY names another build.
set -eu

here=$(cd "$(dirname "$0")" && pwd)
. "$here/../build.sh"
find_program

# Sixteen cells, each compared with 1, joined by an operator.
sixteen() {
    awk -v by="$1" 'BEGIN {
        for (y = 0; y < 4; y++) {
            for (x = 0; x < 4; x++) {
                cell = "o"
                for (i = 0; i < x; i++) cell = cell ".rt"
                for (i = 0; i < y; i++) cell = cell ".up"
                text = text == "" ? cell "=1" : "(" text " " by " " cell "=1)"
            }
        }
        print text
    }'
}

# The automaton that makes two steps of rule 110, by a case for each five cells after which there is a 1.
two_steps() {
    awk 'function bit(number, at) { return int(number / 2 ^ at) % 2 }
    function step(left, here, right) { return bit(110, 4 * left + 2 * here + right) }
    BEGIN {
        split("o.lt.lt o.lt o o.rt o.rt.rt", name, " ")
        for (number = 0; number < 32; number++) {
            for (i = 1; i <= 5; i++) cell[i] = bit(number, 5 - i)
            for (i = 2; i <= 4; i++) after[i] = step(cell[i - 1], cell[i], cell[i + 1])
            if (!step(after[2], after[3], after[4])) continue
            printf " when"
            for (i = 1; i <= 5; i++) printf "%s%s=%d", (i > 1 ? " & " : " "), name[i], cell[i]
            printf " give 1"
        }
        print " else 0"
    }'
}

# That exactly so many of the eight neighbours are 1.
neighbours() {
    awk -v wanted="$1" 'BEGIN {
        split("o.up o.dn o.rt o.lt o.ne o.nw o.se o.sw", name, " ")
        for (number = 0; number < 256; number++) {
            ones = 0
            text = ""
            for (i = 1; i <= 8; i++) {
                one = int(number / 2 ^ (i - 1)) % 2
                ones += one
                text = text (i > 1 ? " & " : "") name[i] "=" one
            }
            if (ones == wanted) line = line (line == "" ? "" : " | ") "(" text ")"
        }
        print line
    }'
}

# The least processor time of five runs.
least() {
    for turn in 1 2 3 4 5; do
        bash -c "TIMEFORMAT='%U %S'; time '$diddy' $1 < '$work/$2' > '$work/$3'" 2>&1
    done | awk '{ print $1 + $2 }' | sort -n | head -1
}

row() {
    own=$(least run script output)
    checked=$(least check output verdict)
    first=$(sed -n 's/^query 1 //p' "$work/output" | head -1)
    steps=$(grep -c '^step' "$work/output" || true)
    echo "| $1 | $first | $steps | $own | $checked |"
}

echo '| Query | answer | steps of its refutation | run | check |'
echo '|---|---|---|---|---|'
parity=$(sixteen '<->')
some=$(sixteen '|')
echo "%rule r $parity | !$parity %forbidden r" > "$work/script"
row 'parity of sixteen cells, or not'
echo "%rule r $parity %forbidden r" > "$work/script"
row 'parity of sixteen cells'
echo "%rule r !$some %forbidden r" > "$work/script"
row 'no 1 among sixteen cells'
echo "%dim 1 %rule full o@o %auto r when o.lt=1 & o=1 & o.rt=1 give 0 when o=1 | o.rt=1 give 1 else 0 %compose rr r r
%auto two$(two_steps) %same rr two full" > "$work/script"
row 'rule 110 twice'
echo "%topology king %rule full o@o %auto life when $(neighbours 3) give 1 when o=1 & ($(neighbours 2)) give 1 else 0
%compose twice life life %same twice twice full" > "$work/script"
row 'Life twice'
