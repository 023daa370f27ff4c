"""The truth of formulas in many cases at once: bit i of a number stands for the i-th case.

The cases are the fillings of some cells, numbered in lexicographic order: a filling is a number whose digits are the symbols, the
first one the most significant.
"""
from typing import Callable, Iterator, List

from .formulas import AllOf, Exactly, Expanded, Leaf, Opposite
from .lattice import Cell


def digit_tables(base: int, count: int) -> List[List[int]]:
    """For each digit place and each value: a bit for each of the numbers with `count` digits whose digit there has the value.

    The first digit is the most significant one.
    """
    tables = []
    for place in range(count):
        block = base ** (count - 1 - place)
        ones, total = (1 << block) - 1, base ** count
        tables.append([_repeated(ones << (value * block), base * block, total) for value in range(base)])
    return tables


def _repeated(pattern: int, period: int, total: int) -> int:
    """A pattern of bits, repeated with a period up to a total length."""
    while period < total:
        pattern |= pattern << period
        period *= 2
    return pattern & ((1 << total) - 1)


def any_of(tables: List[int]) -> int:
    """The union of these sets of cases."""
    found = 0
    for bits in tables:
        found |= bits
    return found


def set_bits(bits: int, total: int) -> Iterator[int]:
    """The places of the set bits, in order."""
    for place, digit in enumerate(reversed(format(bits, f"0{total}b"))):
        if digit == "1":
            yield place


def table(expanded: Expanded, leaf: Callable[[Cell, int], int], full: int) -> int:
    """The cases in which an expansion is true. `full` has the bits of all cases; `leaf` gives the cases in which a cell has a symbol.
    """
    if isinstance(expanded, Leaf):
        return leaf(expanded.cell, expanded.symbol)
    if isinstance(expanded, Opposite):
        return full ^ table(expanded.part, leaf, full)
    if isinstance(expanded, Exactly):
        return full ^ table(expanded.left, leaf, full) ^ table(expanded.right, leaf, full)
    if isinstance(expanded, AllOf):
        cases = full
        for part in expanded.parts:
            cases &= table(part, leaf, full)
        return cases
    cases = 0
    for part in expanded.parts:
        cases |= table(part, leaf, full)
    return cases


def digits(number: int, base: int, count: int) -> List[int]:
    """The digits of a number, the most significant one first."""
    found = []
    for _ in range(count):
        number, digit = divmod(number, base)
        found.append(digit)
    return found[::-1]
