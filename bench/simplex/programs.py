"""Writes a random program of the shape of a discharging bound: "columns cap pivots", then a line for each further row, its
coefficients and its bound.

    programs.py rows patterns vectors seed

A row has column 0, and for each vector what the pattern of its origin gives less what it gets from the vector's pattern;
its bound, from 0 to 3, is the weight of the origin's pattern.
"""
import random
import sys

rows, patterns, vectors, seed = map(int, sys.argv[1:5])
draw = random.Random(seed)
weights = [draw.randint(0, 3) for _ in range(patterns)]
print(1 + patterns * vectors, 3, 10000)
for _ in range(rows):
    row = [1] + [0] * (patterns * vectors)
    origin = draw.randrange(patterns)
    for vector in range(vectors):
        row[1 + vector * patterns + origin] += 1
        row[1 + vector * patterns + draw.randrange(patterns)] -= 1
    print(*row, weights[origin])
