"""Minimal patterns, images and least weights, found by plain searches on small cases worked out by hand."""
import itertools
import unittest

from ..accept import accept
from ..fillings import breaking
from ..maps import conjugacy_questions, image_question
from ..minimal import agrees, minimal
from ..searching import verdict
from ..torus import Torus


class Minimal(unittest.TestCase):
    """Minimal forbidden patterns."""

    def test_hard(self) -> None:
        """Of hard squares there are two, of a rule that is always false one without cells."""
        script = accept(b"%rule hard o=1 -> (o.rt=0 & o.up=0)\n%rule x o=0 & o=1\n%rule y !(o@o)\n")
        self.assertEqual(minimal(script, script.named["hard"], 0), [[1, None, 1], [1, 1, None]])
        self.assertEqual(minimal(script, script.named["x"], 0), [[None]])
        self.assertEqual(minimal(script, script.named["y"], 0), [[]])

    def test_same(self) -> None:
        """They forbid what all patterns forbid."""
        script = accept(b"%alphabet 0 1 2 %only 0 0 1 %rule x (o=0 -> o.rt!=o.up) & (o.up=1 | o.lt=1 | o=0)")
        rule = script.named["x"]
        found = minimal(script, rule, 0)
        broken = set(breaking(script, rule, 0))
        for filling in itertools.product((0, 1), repeat=len(rule.reads[0])):
            self.assertEqual(filling in broken, any(agrees(filling, partial) for partial in found))


class Maps(unittest.TestCase):
    """Images and conjugacies."""

    def test_shifts(self) -> None:
        """The shifts of the line are inverse to each other; an automaton that forgets is no inverse of itself."""
        script = accept(b"%dim 1 %rule row o=1 -> o.rt=0 %auto sl when o.rt=1 give 1 else 0 %auto sr when o.lt=1 give 1 else 0 %auto nul else 0")
        named = script.named
        both = conjugacy_questions(script, named["sl"], named["sr"], named["row"], named["row"])
        self.assertEqual([verdict(question) for question in both], ["YES 2", "YES 1", "YES 0", "YES 0"])
        nul = conjugacy_questions(script, named["nul"], named["nul"], named["row"], named["row"])
        self.assertEqual(verdict(nul[2]), "NO 2")

    def test_images(self) -> None:
        """The automaton that forgets maps all configurations to that of 0s, the identity doesn't."""
        script = accept(b"%dim 1 %rule full o@o %rule z o=0 %auto nul else 0 %auto id when o=1 give 1 else 0")
        named = script.named
        self.assertEqual(verdict(image_question(script, named["nul"], named["full"], named["z"])), "YES 0")
        self.assertEqual(verdict(image_question(script, named["id"], named["full"], named["z"])), "NO 1")


class Bounds(unittest.TestCase):
    """Bounds by discharging."""

    def test_large(self) -> None:
        """Neither region has an admissible filling. But the rule is tested at no cell of the first two rows, which have ten cells in the first
        region and six in the second. So the first eleven cells of the first region have 3^11 admissible fillings, which are too many."""
        script = accept(b"%alphabet a b c %topology king %rule y o.dn.dn=a & o.dn.sw=c %discharge y 0 1 [-1 1] [0 1] [1 1] %discharge y 0 1 [0 1]")
        self.assertEqual([query.found() for query in script.queries], ["UNKNOWN large", "BOUND 2/1"])


class Least(unittest.TestCase):
    """Least weights on a torus."""

    def test_small(self) -> None:
        """Three cells dominate a torus of nine; a rule may leave none, or one without weight."""
        script = accept(b"%rule dom Ep[o1] p=1")
        self.assertEqual(Torus(script, script.named["dom"], [3, 3]).least()[0], 3)
        script = accept(b"%dim 1 %rule cover o=1 | o.rt=1 %rule stuck o.rt=1 & !(o=1 & o.rt=1) %rule z o=0")
        found = [Torus(script, script.named[name], [period]).least() for name, period in (("cover", 3), ("stuck", 2), ("z", 2))]
        self.assertEqual([each and each[0] for each in found], [2, None, 0])

    def test_clauses(self) -> None:
        """The clauses with a weight below the least one can't all be true, and with one more they can."""
        script = accept(b"%dim 1 %weights 1 2 %rule cover o=1 | o.rt=1")
        torus = Torus(script, script.named["cover"], [3])
        least = torus.least()[0]
        self.assertEqual([satisfiable(torus.clauses(below)) for below in (least, least + 1)], [False, True])


def satisfiable(clauses) -> bool:
    """Whether some assignment makes all clauses true, by trying one literal after the other."""
    given = [list(clauses.clause(number)) for number in range(1, len(clauses) + 1)]

    def search(left: list) -> bool:
        if not left:
            return True
        shortest = min(left, key=len)
        return any(search([[other for other in clause if other != literal ^ 1] for clause in left if literal not in clause])
                   for literal in shortest)

    return search(given)
