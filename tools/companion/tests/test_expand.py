"""The longer language."""
import itertools
import re
import unittest

from ..accept import accept
from ..expand import expanded
from ..faults import Fault, place
from ..formulas import And, IsSymbol, Not, Or, Term
from ..thresholds import COMPARISONS, at_least
from ..printing import weight
from ..unfolding import word
from .common import DOCS, EXAMPLES


def holds(formula, values) -> bool:
    """Whether a formula over the variables a, b, c and on holds."""
    if isinstance(formula, And):
        return all(holds(part, values) for part in formula.parts)
    if isinstance(formula, Or):
        return any(holds(part, values) for part in formula.parts)
    if isinstance(formula, Not):
        return not holds(formula.part, values)
    return values[formula.term.variable.text]


def atoms(count: int) -> list:
    """So many atoms."""
    return [IsSymbol(Term(word(letter), ()), word("x"), True) for letter in "abcdefghijklmnopqrstuvwxy"[:count]]


class Counts(unittest.TestCase):
    """Formulas that count."""

    def test_truth(self) -> None:
        """Counts of up to six formulas hold where they should."""
        compare = {">=": lambda one, other: one >= other, "<=": lambda one, other: one <= other, "=": lambda one, other: one == other}
        for count in range(7):
            for sign, number in itertools.product(COMPARISONS, range(count + 2)):
                formula = COMPARISONS[sign](number, atoms(count))
                for values in itertools.product((False, True), repeat=count):
                    named = dict(zip("abcdef", values))
                    self.assertEqual(holds(formula, named), compare[sign](sum(values), number), (sign, number, values))

    def test_sizes(self) -> None:
        """They grow slowly: all pairs of 24 would be 276."""
        self.assertLess(weight(at_least(2, atoms(24))), 190)
        self.assertLess(weight(at_least(23, atoms(24))), 230)


class Scripts(unittest.TestCase):
    """Whole scripts."""

    def test_examples(self) -> None:
        """The longer examples come out as scripts."""
        names = list((EXAMPLES / "longer").glob("*.longer"))
        self.assertGreaterEqual(len(names), 3)
        for name in names:
            self.assertTrue(accept(expanded(name.read_bytes()).encode("ascii")).queries, name)

    def test_page(self) -> None:
        """The longer scripts of docs/companion.md come out as the plain ones behind them."""
        page = (DOCS / "companion.md").read_text(encoding="utf-8")
        pairs = re.findall(r"^```longer\n(.*?)^```\n\n(?:[^`]*\n)?```diddy\n(.*?)^```", page, re.M | re.S)
        self.assertTrue(pairs)
        for longer, plain in pairs:
            self.assertEqual(expanded(longer.encode("ascii")), plain)

    def same(self, longer: str, plain: str) -> None:
        """Whether a rule comes out so."""
        self.assertEqual(expanded(f"%rule x {longer}\n".encode("ascii")), f"%rule x {plain}\n")

    def test_forms(self) -> None:
        """The forms of the language, one by one."""
        self.same("Ep[o1] p=1 -> (o=1 | o=0)", "Ep[o1] p=1 -> o=1 | o=0")
        self.same("As{0 1} (o=s -> o.rt!=s)", "(o=0 -> o.rt!=0) & (o=1 -> o.rt!=1)")
        self.same("Es{*} o=s", "o=0 | o=1")
        self.same("#p[o1] p=1 >= 1", "o.dn=1 | o.lt=1 | o=1 | o.rt=1 | o.up=1")
        self.same("#p~o p=1 <= 0", "!(o.dn=1 | o.lt=1 | o.rt=1 | o.up=1)")
        self.same("#p[o1] p=1 >= 6", "!o@o")

    def test_names(self) -> None:
        """Named formulas, rules and automata; variables that are bound twice get other names."""
        script = b"%let sees(p) Eq[p1] q=1\n%rule x Eq[o1] sees(q)\n%rule y x(o.up)\n"
        self.assertEqual(expanded(script), "%rule x Eq[o1] Ep[q1] p=1\n%rule y Ep[o1] (p@o.up & Eq[p1] Er[q1] r=1)\n")
        script = b"%auto f when o.rt=1 give 0 when o=1 give 1 else 0\n%compose g f f\n%rule x f(o.up)=1\n%rule y g(o)=0\n"
        lines = expanded(script).splitlines()
        self.assertEqual(lines[2], "%rule x !o.up.rt=1 & o.up=1")
        self.assertEqual(lines[3], "%rule y !o.rt.rt=1 & o.rt=1 | !(!o.rt=1 & o=1)")

    def test_nodes(self) -> None:
        """Where moves differ from node to node, each has a part of its own; and cells that no moves lead to are counted by quantifiers."""
        ladder = b"%dim 1 %nodes a b %topology (u a [0] b) (d b [0] a)\n%rule x #p~o p=1 = 1\n"
        self.assertIn("o:a & o.u=1 | o:b & o.d=1", expanded(ladder))
        one = b"%dim 1 %topology (rt 0 [1] 0)\n%rule x #p~o p=1 >= 2\n"
        self.assertIn("Ep[o1] (p~o & p=1 & Eq[o1] (!q@p & q~o & q=1))", expanded(one))

    def test_missing_moves(self) -> None:
        """Where a move is missing, a value at its end is no symbol, also inside a composition."""
        one_way = b"%dim 1 %nodes a b %topology (u a [0] b)\n%auto f when o=1 give 0 else 1 %auto g when o.u=1 give 1 else 0 %compose h g f\n"
        lines = expanded(one_way + b"%rule x h(o)=1\n%rule y f(o.u)!=1\n%rule z h(o)!=1\n").splitlines()
        self.assertEqual(lines[-3:], ["%rule x o.u=o.u & !o.u=1", "%rule y o.u=o.u & o.u=1", "%rule z !(o.u=o.u & !o.u=1)"])
        equal = b"%auto g when o.u=o give 1 else 0 %compose h g f\n%rule x h(o)=1\n"
        self.assertIn("o.u=o.u & (", expanded(b"%dim 1 %nodes a b %topology (u a [0] b)\n%auto f when o=1 give 0 else 1\n" + equal))

    def test_faults(self) -> None:
        """Messages with a line and a column."""
        for script, kind, row, column in (
                (b"%let a(p p) p=1\n", "twice", 1, 10), (b"%rule x #p[o1] p=2 >= 2\n", "unknown", 1, 18),
                (b"%let a(p) p=1\n%let a(p) p=0\n", "twice", 2, 6), (b"%let a(p) b(p)\n%let b(p) a(p)\n", "syntax", 2, 11),
                (b"%let a(p) p=1\n%rule x a(o o)\n", "dimension", 2, 9), (b"%rule x\n  a(o)\n", "unknown", 2, 3),
                (b"\n%rule x #p[o3] (Aq[p3] Ar[q3] r=q) >= 1\n", "size", 2, 1), (b"%rule x #p[o1] p=1\n", "syntax", 2, 0)):
            with self.assertRaises(Fault) as raised:
                expanded(script)
            self.assertEqual(raised.exception.kind, kind, script)
            if column:
                self.assertEqual(place(script, raised.exception.at), (row, column), script)


class Growth(unittest.TestCase):
    """What grows too large is refused in good time."""

    def test_large(self) -> None:
        """Half of a ball of 63 cells, and a tower of compositions."""
        tower = b"%auto f when o.rt!=o.lt give 1 else 0 %compose c f f %compose d c c %compose e d d\n%rule x e(o)=1\n"
        for script, row in ((b"%dim 3\n%rule x #p[o3] p=1 >= 32\n", 2), (tower, 2)):
            with self.assertRaises(Fault) as raised:
                expanded(script)
            self.assertEqual((raised.exception.kind, place(script, raised.exception.at)[0]), ("size", row), script)
