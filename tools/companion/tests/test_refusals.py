"""Scripts that are refused: the line, the place and the rule."""
import re
import unittest

from .common import DOCS, refusal

PLACES = {
    "x": "x", "%rule a o=1 &": "", "%rule a o=01": "01", "%rule a o=0 %dim 1": "dim", "%conf c [-1 1] 0": "-1", "%rule a o=2": "2",
    "%rule a o.left=0": "left", "%rule a p=0": "p=", "%rule a o=0 %member c a": "c a", "%only 0 1 %conf c [1 1] 0": "0",
    "%alphabet a b a": "a", "%rule a o=0 %conf a [1 1] 0": "a [", "%rule a Ao[o1] o=0": "o[",
    "%rule a o=0 %discharge a 0 0 [1 0] [1 0]": "[1 0]", "%dim 4": "4", "%dim 1 %topology square": "square", "%nodes a b": "b",
    "%weights 1": "1", "%conf c [2 2] 0 1": "[2", "%dim 1 %conf c [2] [1] 0 1": "[1]", "%rule a o=0 %density a [2 2]": "[2",
    "%weights 0 1000001": "1000001", "%weights 0 1001": "1001", "%limits 9 4 10000": "9", "%rule a Ep[o4] p=1": "4]",
    "%conf c [2 1] [2] 0 1": "2] 0", "%rule a o=0 %discharge a 0 0 [5 0]": "5", "%rule a Ep[o1] p=1 %density a [6]": "density",
    "%alphabet a %rule x o=a %auto f else a %maps f x x": "maps", f"%rule {'a' * 33} o=0": "a" * 33,
    "%dim 1 %nodes a b c d e %topology (x a [0] b)": "e %", "%alphabet a b c d e f g h i j k l m n o p q": "q",
    "%dim 1 %topology (x 0 [5] 0)": "5", f"%rule a o{'.up' * 17}=0": "up=", "%rule a Ep[o1o1o1o1o1] p=1": "o1]",
    "%rule a Ap[o3] Aq[p3] Ar[q3] r=q": "a Ap", "%dim 1 %topology (x 0 [4] 0) %rule a o.x.x.x.x.x=1": "a o",
    "%rule a Ep[o3] p=1 %forbidden a": "forbidden", "%rule a Ep[o3] p=1 %minimal a": "minimal",
    f"%dim 1 %rule a o{'.rt' * 9}=0 %auto f when o{'.rt' * 8}=0 give 0 else 1 %maps f a a": "maps",
    "%rule a o=0 %auto f else 0 %maps f a": "", "%rule a o=0 %conjugate f f a a": "f f", "%minimal a": "a",
    f"%only 0 0 %rule a {'!' * 64}o=0 %auto f else 0 %maps f a a": "maps",
    "%dim 3 %limits 8 8 10 %rule a Ep[o3] Aq[p1] q=1 %empty a": "empty", "%rule a o=0 %least a [-1 1]": "-1",
    "%rule a o=0 %least a [2]": "[2", "%rule a o=0 %least a [0 3]": "[0", "%rule a o=0 %least a [300 300]": "[300 ",
    "%rule a o=1 %least a [40 40]": "least",
}
"""For each script of docs/refusals.md, the text at whose last occurrence its fault is reported."""


class Refusals(unittest.TestCase):
    """The scripts of docs/refusals.md, and more."""

    def test_page(self) -> None:
        """Each script of the page is refused as the page says, and each at the right place."""
        page = (DOCS / "refusals.md").read_text(encoding="utf-8")
        lines = [line for block in re.findall(r"^```refused\n(.*?)^```", page, re.M | re.S) for line in block.splitlines()]
        self.assertGreater(len(lines), 30)
        for line in lines:
            script, _, wanted = line.rpartition("-- ")
            found = refusal(line + "\n")
            self.assertEqual(found[0], wanted, line)
            script = script.strip()
            self.assertEqual(found[2], script.rfind(PLACES[script]) + 1 if PLACES[script] else len(script) + 1, line)

    def test_header_order(self) -> None:
        """A command of the header that comes too late is reported as such."""
        line, row, column, rule = refusal("%rule a o=0\n%dim 1\n")
        self.assertEqual((line, row, column), ("refused 2 syntax", 2, 2))
        self.assertIn("has to come before %rule", rule)
        self.assertIn("given twice", refusal("%dim 1 %dim 1")[3])

    def test_wrong_kind(self) -> None:
        """A rule's name in place of a configuration's is reported as such."""
        line, _, column, rule = refusal("%rule a o=0\n%member a a\n")
        self.assertEqual((line, column), ("refused 2 unknown a", 9))
        self.assertIn("expected a configuration here, but a is a rule", rule)

    def test_kinds_in_order(self) -> None:
        """In a command the first kind counts, and within sizes the first limit."""
        self.assertEqual(refusal("%rule a o=0 %rule a b=1")[0], "refused 2 unknown b")
        self.assertEqual(refusal("%rule a Ep[o4] p.up.up.up.up.up.up.up.up.up.up.up.up.up.up.up.up.up=1")[0], "refused 1 size moves")

    def test_long_numbers(self) -> None:
        """Numbers of many digits, as long as a script may be."""
        long = "1" * 100000
        for script, wanted in ((f"%dim {long}", "1 dimension"), (f"%weights 0 {long}", "1 size number"), (f"%rule a o={long}", f"1 unknown {long}"),
                               (f"%rule a o=0 %discharge a 0 0 [{long} 1] [{long}2 1]", "2 size number"),
                               (f"%rule a o=0 %discharge a 0 0 [{long} 1] [{long} 1]", "2 twice vector")):
            self.assertEqual(refusal(script)[0], f"refused {wanted}")

    def test_bytes(self) -> None:
        """Bytes that begin no token."""
        self.assertEqual(refusal("%rule a o=0 -- \xe9")[:3], ("refused 1 syntax", 1, 16))
        self.assertEqual(refusal("%rule a o=0 <--> o=1")[:3], ("refused 1 syntax", 1, 13))
        self.assertEqual(refusal("-- % \n%rule a o=0")[0], "accepted")
