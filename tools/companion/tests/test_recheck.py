"""Outputs: those of the examples, altered ones, and bytes that are none."""
import unittest

from .common import EXAMPLES, checked, stored, whole

DIES = "%dim 1\n%rule x o=0 & o=1\n%empty x\n"
COVER = "%dim 1\n%rule cover o=1 | o.rt=1\n%density cover []\n%discharge cover 0 0 [1]\n"
COVER_LINES = ["query 1 DENSITY 1/2", "cycle 2 1 0", "potentials -1 0", "query 2 BOUND 1/2", "denominator 2", "amounts 0 1", "duals 0 1 1"]


class Examples(unittest.TestCase):
    """The stored outputs of the examples."""

    def test_all(self) -> None:
        """Each is accepted, with the status of the run."""
        names = sorted(path.stem for path in EXAMPLES.glob("*.answer"))
        self.assertGreater(len(names), 50)
        for name in names:
            output, status = stored(name)
            self.assertEqual(checked(output)[0], status, name)


class Altered(unittest.TestCase):
    """What is said of outputs that aren't right."""

    def rejected(self, output: bytes, said: str) -> None:
        """Whether an answer is rejected, for this reason."""
        status, out, why = checked(output)
        self.assertEqual((status, out.split()[-1]), (7, "rejected"))
        self.assertIn(said, why)

    def test_steps(self) -> None:
        """Steps that don't refute."""
        self.assertEqual(checked(whole(DIES, "query 1 YES 0", "refutation 1", "step 0 6 4 2 3 0 0"))[0], 0)
        for step, said in (("0 6 4 2 0 0", "the last hint 2 has a literal that is not false"),
                           ("0 1 6 4 2 3 0 0", "step 1: hint 1 has two literals that are not false"),
                           ("0 6 4 2 9 0 0", "hint 9 is not the number of a clause"), ("0 0 0", "there is no hint"),
                           ("0 6 4 2 3 3 0 0", "hint 3 has no literal"), ("0 6 6 4 2 3 0 0", "hint 6 has a literal that is true already"),
                           ("4 0 6 0 0", "the variable 4 is over"), ("1 -1 0 6 0 0", "stands twice")):
            self.rejected(whole(DIES, "query 1 YES 0", "refutation 1", f"step {step}"), said)

    def test_radius(self) -> None:
        """Steps over the clauses of another radius, and a radius over the limit."""
        output, _ = stored("periods")
        self.rejected(output.replace(b"query 2 YES 3", b"query 2 YES 4"), "the steps refute the clauses of another radius")
        self.rejected(output.replace(b"query 2 YES 3", b"query 2 YES 5"), "the radius 5 is over the limit 4")

    def test_configurations(self) -> None:
        """Configurations that are no witnesses."""
        script = "%dim 1\n%rule x o!=o.rt\n%empty x\n"
        self.rejected(whole(script, "query 1 NO 10", "conf 0 1 0 1 0 1 0 1 0 1"), "the period 10 is over the limit 4")
        self.rejected(whole(script, "query 1 NO 1", "conf 0"), "breaks the rule x at (0)")
        self.rejected(whole(script, "query 1 NO 2", "conf 0 1 0"), "3 symbols")

    def test_strips(self) -> None:
        """Cycles, potentials and fractions that aren't right."""
        self.assertEqual(checked(whole(COVER, *COVER_LINES))[0], 0)
        for place, line, said in ((0, "query 1 DENSITY 2/4", "lowest terms"), (1, "cycle 1 0", "but no edge does"),
                                  (1, "cycle 1 1", "has the density 1, not 1/2"), (2, "potentials -1 2", "potential 1 breaks the edge 0 -> 1 by 2")):
            lines = list(COVER_LINES)
            lines[place] = line
            self.rejected(whole(COVER, *lines), said)

    def test_bounds(self) -> None:
        """Amounts and duals that aren't right."""
        for place, line, said in ((5, "amounts 1 0", "row 2 comes to 2"), (6, "duals 0 1 0", "the duals sum to 1 in the column of c"),
                                  (6, "duals 1 1 1", "the duals sum to 2 on the right sides"), (4, "denominator 3", "doesn't divide")):
            lines = list(COVER_LINES)
            lines[place] = line
            self.rejected(whole(COVER, *lines), said)

    def test_counts(self) -> None:
        """Too few answers, and too many."""
        self.rejected(whole(COVER, *COVER_LINES[:3]), "there is no answer")
        self.rejected(whole("%dim 1\n", "query 1 IN"), "0 queries")


class NoOutputs(unittest.TestCase):
    """Bytes that are no output: how long a front begins one."""

    def test_offsets(self) -> None:
        """Fronts of a small output, and what can't follow."""
        output = whole(DIES, "query 1 YES 0", "refutation 1", "step 0 6 4 2 3 0 0")
        for length in range(len(output)):
            self.assertEqual(checked(output[:length])[1], f"refused at {length}\n")
        for old, new, right in ((b"YES 0", b"YES 00", b"YES 0"), (b"query 1", b"query 2", b"query "), (b"step 0", b"step -0", b"step -"),
                                (b"end", b"enx", b"en"), (b"YES 0", b"NO 1 1 shear 0", b"NO 1 1 shear "), (b"end\n", b"end\n\n", b"end\n"),
                                (b"refutation 1", b"refutation 0", b"refutation "), (b"YES 0", b"YES 1099511627777", b"YES 109951162777")):
            wrong = output.replace(old, new)
            self.assertEqual(checked(wrong)[1], f"refused at {wrong.rindex(new) + len(right)}\n", new)

    def test_long_numbers(self) -> None:
        """Numbers of many digits end where they are too large."""
        for lines, front in ((("query 1 YES 0", "refutation 1", "step 0 1" + "1" * 100000 + " 0 0"), "step 0 " + "1" * 20),
                             (("query 1 NO 1", "conf 0 1" + "1" * 100000), "conf 0 " + "1" * 12)):
            output = whole(DIES, *lines)
            self.assertEqual(checked(output)[1], f"refused at {output.index(front.encode()) + len(front)}\n")

    def test_no_script(self) -> None:
        """An output whose script is refused."""
        self.assertEqual(checked(whole("%rule a o=2\n"))[:2], (2, "refused script 1 unknown 2\n"))
