# An output with one refutation of so many steps, each of eight literals and twelve hints.
BEGIN {
    printf "diddy 1\nscript 3\nabc\nquery 1 YES 3\nrefutation %d\n", steps
    for (i = 0; i < steps; i++) {
        line = "step"
        for (j = 0; j < 8; j++)
            line = line " " (j % 2 ? "-" : "") (1 + (i * 31 + j * 977) % 1000000)
        line = line " 0"
        for (j = 0; j < 12; j++)
            line = line " " (1 + (i * 13 + j * 7919) % 3000000)
        print line " 0 0"
    }
    print "end"
}
