# Writes a clause list in the format of DIMACS: with chain=N, that the first of N variables is true, that each makes the next
# one true, and that the last is false; with variables=N, clauses=M and seed=S, random clauses of three literals.

# The linear congruential generator of Park and Miller (1988).
function random(below) {
    state = (state * 16807) % 2147483647
    return state % below
}

BEGIN {
    if (chain) {
        print "p cnf", chain, chain + 1
        print 1, 0
        for (i = 1; i < chain; i++) print -i, i + 1, 0
        print -chain, 0
    } else {
        state = seed
        for (i = 0; i < 10; i++) random(2)
        print "p cnf", variables, clauses
        for (i = 0; i < clauses; i++) {
            line = ""
            for (k = 0; k < 3; k++) line = line (random(2) ? "-" : "") (random(variables) + 1) " "
            print line "0"
        }
    }
}
