"""The same run in Python's fractions. Says the value, the microseconds and the number of pivots."""
import sys
import time
from fractions import Fraction

columns, cap, limit = map(int, sys.stdin.readline().split())
rows = [[1] + [0] * (columns - 1) + [cap]] + [list(map(int, line.split())) for line in sys.stdin]
table = [[Fraction(number) for number in row] for row in rows]
costs = [Fraction(int(j == 0)) for j in range(columns)] + [Fraction(0)]
basic = list(range(columns, columns + len(rows)))
others = list(range(columns))
start = time.perf_counter()
pivots = 0
while True:
    entering = [(others[j], j) for j in range(columns) if costs[j] > 0]
    if not entering or pivots == limit:
        break
    e = min(entering)[1]
    ratios = [(row[columns] / row[e], basic[i], i) for i, row in enumerate(table) if row[e] > 0]
    r = min(ratios)[2]
    cell = table[r][e]
    table[r][e] = Fraction(1)
    pivot = table[r] = [number / cell for number in table[r]]
    for i, row in enumerate(table):
        factor = row[e]
        if i != r and factor:
            row[e] = Fraction(0)
            table[i] = [a - factor * b if b else a for a, b in zip(row, pivot)]
    factor = costs[e]
    costs[e] = Fraction(0)
    value = costs[columns] + factor * pivot[columns]
    costs = [a - factor * b if b else a for a, b in zip(costs, pivot)]
    costs[columns] = value
    others[e], basic[r] = basic[r], others[e]
    pivots += 1
end = "Pivots" if entering else f"{costs[columns].numerator}/{costs[columns].denominator}"
print(end, round((time.perf_counter() - start) * 1e6), pivots)
