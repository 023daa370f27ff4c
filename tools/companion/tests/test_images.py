"""Answers to `%minimal`, `%maps` and `%conjugate`: right ones, altered ones, and what is refused."""
import unittest

from ..accept import accept
from .common import checked, refusal, whole

HARD = "%rule hard o=1 -> (o.rt=0 & o.up=0)\n%minimal hard\n"
ROW = ("%dim 1\n%rule row o=1 -> o.rt=0\n%auto sl when o.rt=1 give 1 else 0\n%auto sr when o.lt=1 give 1 else 0\n%auto nul else 0\n"
       "%auto id when o=1 give 1 else 0\n%rule full o@o\n%rule z o=0\n")


def lines(script: str) -> "list[str]":
    """The answer lines of a script, by plain searches."""
    return [query.found() for query in accept(script.encode("ascii")).queries]


class Found(unittest.TestCase):
    """What plain searches find."""

    def test_lines(self) -> None:
        """Patterns without a needless cell, maps, and inverse maps."""
        self.assertEqual(lines(HARD), ["MINIMAL 2"])
        self.assertEqual(lines("%dim 1 %rule x o=0 & o=1 %rule y !(o@o) %minimal x %minimal y"), ["MINIMAL 1", "MINIMAL 1"])
        self.assertEqual(lines(ROW + "%conjugate sl sr row row %conjugate nul nul row row %maps nul full z %maps id full z"),
                         ["CONJUGATE 2 1 0 0", "BROKEN 3 2", "YES 0", "NO 1"])


class Refused(unittest.TestCase):
    """Scripts that ask what can't be asked."""

    def test_symbols(self) -> None:
        """One symbol alone, and names that stand for something else."""
        self.assertEqual(refusal("%alphabet a %rule x o=a %auto f else a %maps f x x")[0], "refused 4 dimension")
        self.assertEqual(refusal("%alphabet a %rule x o=a %auto f else a %conjugate f f x x")[0], "refused 4 dimension")
        self.assertEqual(refusal("%rule x o=1 %maps x x x")[0], "refused 2 unknown x")

    def test_sizes(self) -> None:
        """The guard first, then instances, reach, depth and clauses, one question after the other."""
        deep = "!" * 64 + "o=0"
        self.assertEqual(refusal(f"%dim 1 %only 0 0 %rule x {deep} %auto f else 0 %maps f x x")[0], "refused 5 size depth")
        self.assertEqual(refusal(f"%dim 1 %rule x {deep} %auto f else 0 %maps f x x")[0], "accepted")
        far = "o" + ".rt" * 9
        self.assertEqual(refusal(f"%dim 1 %rule x {far}=0 %auto f when {far}=1 give 1 else 0 %maps f x x")[0], "refused 4 size reach")
        self.assertEqual(refusal("%dim 1 %rule x " + " & ".join(f"o{'.rt' * i}=1" for i in range(17)) + " %minimal x")[0],
                         "refused 3 size patterns")


class Checked(unittest.TestCase):
    """Checks of answers."""

    def rejected(self, output: bytes, said: str) -> None:
        """Whether an answer is rejected, for this reason."""
        status, out, why = checked(output)
        self.assertEqual((status, out.split()[-1]), (7, "rejected"))
        self.assertIn(said, why)

    def test_patterns(self) -> None:
        """Hard squares have two patterns of two cells."""
        self.assertEqual(checked(whole(HARD, "query 1 MINIMAL 2", "pattern 0 1 * 1", "pattern 0 1 1 *"))[0], 0)
        self.rejected(whole(HARD, "query 1 MINIMAL 2", "pattern 0 1 0 1", "pattern 0 1 1 *"), "pattern 1 is 0 1 0 1, and has to be 0 1 * 1")
        self.rejected(whole(HARD, "query 1 MINIMAL 2", "pattern 0 1 1 *", "pattern 0 1 * 1"), "pattern 1 is 0 1 1 *")
        self.rejected(whole(HARD, "query 1 MINIMAL 1", "pattern 0 1 * 1"), "there are 1 patterns, and there have to be 2")
        self.rejected(whole(HARD, "query 1 LIST 0"), "no answer to such a query")

    def test_broken(self) -> None:
        """A configuration that breaks the third question, and ones that don't."""
        script = ROW + "%conjugate nul nul row row\n"
        self.assertEqual(checked(whole(script, "query 1 BROKEN 3 2", "conf 1 0"))[0], 0)
        self.assertEqual(checked(whole(script, "query 1 BROKEN 4 2", "conf 1 0"))[0], 0)
        self.rejected(whole(script, "query 1 BROKEN 1 2", "conf 1 0"), "question 1: ")
        self.rejected(whole(script, "query 1 BROKEN 3 2", "conf 0 0"), "question 3: ")
        self.rejected(whole(script, "query 1 BROKEN 3 1", "conf 1"), "breaks the rule row")
        self.rejected(whole(script, "query 1 NO 2", "conf 1 0"), "no answer to such a query")
        self.assertEqual(checked(whole(script, "query 1 UNKNOWN limits"))[0], 1)

    def test_offsets(self) -> None:
        """How far the texts of these answers begin one."""
        for wrong, right in (("BROKEN 5 2", "BROKEN "), ("BROKEN 0 2", "BROKEN "), ("BROKEN 12 2", "BROKEN 1"), ("BROKEN 1 2 shear 1", "BROKEN 1 2 "),
                             ("BROKEN 1 2 1 shear 0", "BROKEN 1 2 1 shear "), ("CONJUGATE 1 1 1\n", "CONJUGATE 1 1 1"),
                             ("CONJUGATE 1 1 1 1 1", "CONJUGATE 1 1 1 1"), ("MINIMAL 1\npattern 0 **", "MINIMAL 1\npattern 0 *"),
                             ("MINIMAL 1\npattern *", "MINIMAL 1\npattern ")):
            output = whole(ROW, f"query 1 {wrong}")
            self.assertEqual(checked(output)[1], f"refused at {output.rindex(wrong.encode()) + len(right)}\n", wrong)
