# Turns a program of programs.py into CPLEX's format, which glpsol reads.
NR == 1 { columns = $1; print "Maximize\n x0\nSubject To\n x0 <= " $2; next }
{
    line = ""
    for (j = 1; j <= columns; j++) if ($j != 0) line = line ($j > 0 ? " + " : " - ") ($j > 0 ? $j : -$j) " x" (j - 1)
    print line " <= " $(columns + 1)
}
END { print "End" }
