"""Lattices, expansions, clauses and tables, on what docs/certificate.md works out by hand."""
import itertools
import unittest

from ..accept import accept
from ..formulas import size, truth
from ..lattice import BUILT_IN, Topology
from ..strips import Strip
from ..tables import digit_tables, set_bits, table


class Balls(unittest.TestCase):
    """The sizes of balls that docs/unknown.md has."""

    def test_sizes(self) -> None:
        """Balls of the radius 1, 2 and 3."""
        wanted = {"line": [3, 5, 7], "square": [5, 13, 25], "king": [9, 25, 49], "triangle": [7, 19, 37], "hex": [4, 10, 19], "cube": [7, 25, 63]}
        for name, sizes in wanted.items():
            topology = Topology(*BUILT_IN[name])
            self.assertEqual([len(topology.balls([((0, 0, 0, 0), radius)])) for radius in (1, 2, 3)], sizes)


class Clauses(unittest.TestCase):
    """The clauses of the page's examples."""

    def test_by_hand(self) -> None:
        """The 35 clauses of the containment that the page goes through."""
        script = accept(b"%dim 1\n%rule other o=1 <-> o.rt=0\n%rule same o=1 <-> o.rt.rt=1\n%contains same other\n")
        question = script.queries[0].questions()[0]
        clauses = question.clauses(2)
        self.assertEqual((clauses.variables, len(clauses), question.least_radius()), (15, 35, 2))
        signed = [[-(literal >> 1) if literal & 1 else literal >> 1 for literal in clauses.clause(number)] for number in (11, 26, 30, 35)]
        self.assertEqual(signed, [[-11, -2, 3], [-14, -8, 9], [14], [-15]])

    def test_counts(self) -> None:
        """The counts of docs/unknown.md."""
        for rule, clauses, place in ((b"o=1 -> (o.rt=0 & o.up=0)", 6, 9), (b"Ep[o1] p=1", 6, 9), (b"Ep[o1] (p=1 & Aq[o1] (q=1 -> q@p))", 151, 154)):
            question = accept(b"%rule x " + rule + b" %empty x").queries[0].questions()[0]
            self.assertEqual((question.premise.clause_count(), question.clauses_a_position()), (clauses, place))


class Tables(unittest.TestCase):
    """Truth in many cases at once."""

    def test_against_truth(self) -> None:
        """The table of a formula says the same as its truth case by case."""
        rule = accept(b"%dim 1 %rule x (o=1 <-> o.rt=0) | !(o.lt=o.rt)").named["x"]
        reads, expanded = rule.reads[0], rule.expansions[0]
        tables = digit_tables(2, len(reads))
        found = table(expanded, lambda cell, symbol: tables[reads.index(cell)][symbol], (1 << 2 ** len(reads)) - 1)
        cases = [truth(expanded, dict(zip(reads, filling)).__getitem__) for filling in itertools.product(range(2), repeat=len(reads))]
        self.assertEqual([number for number, case in enumerate(cases) if case], list(set_bits(found, len(cases))))
        self.assertEqual(size(expanded), 12)

    def test_edges(self) -> None:
        """The transfer graph of docs/strips.md."""
        script = accept(b"%weights 1 0 %rule hard o=1 -> (o.rt=0 & o.up=0) %density hard [2]")
        edges = [edge[:2] for edge in Strip(script, script.named["hard"], [2]).edges()]
        self.assertEqual(edges, [(0, 0), (0, 1), (0, 2), (0, 3), (1, 0), (1, 2), (2, 0), (2, 1)])
