"""Pictures and tables."""
import io
import re
import unittest

from ..explain import explain
from ..show import show
from .common import DOCS, stored


class Pictures(unittest.TestCase):
    """tools/show."""

    def shown(self, name: str) -> str:
        """What is shown of an example's output."""
        out = io.StringIO()
        self.assertEqual(show(stored(name)[0], out, out), 0)
        return out.getvalue()

    def test_sheared(self) -> None:
        """The row with the greatest y comes first, shears are carried out, and the cell of an OUT is marked."""
        shown = self.shown("sheared-codes").splitlines()
        self.assertEqual(shown[3:5], ["y = 1    0   1   0   0   0   0   1   0   0   0", "y = 0    1  [0]  0   0   0   1   0   0   0   0"])

    def test_layers(self) -> None:
        """A layer for each z."""
        self.assertIn("z = 1\ny = 1   0 0\ny = 0   0 0\n", self.shown("cube"))


class Explanations(unittest.TestCase):
    """tools/explain."""

    def test_tables(self) -> None:
        """Sizes and costs of an accepted script."""
        out = io.StringIO()
        self.assertEqual(explain(b"%rule code Ep[o1] (p=1 & Aq[o1] (q=1 -> q@p))\n%empty code\n%density code [2]\n", out), 0)
        for said in ("code     0      5      1    116      151", "4: 12,474", "40 tori", "16 of at most 4,096 states"):
            self.assertIn(said, out.getvalue())

    def test_place(self) -> None:
        """A mark below the place of a fault."""
        out = io.StringIO()
        self.assertEqual(explain(b"%dim 1\n%rule a o=2\n", out), 2)
        self.assertIn("line 2, column 11", out.getvalue())
        self.assertTrue(out.getvalue().endswith("    %rule a o=2\n              ^\n"))


class Page(unittest.TestCase):
    """What docs/companion.md shows."""

    def test_page(self) -> None:
        """Each explanation is that of the script before it, and the picture that of the example."""
        page = (DOCS / "companion.md").read_text(encoding="utf-8")
        pairs = re.findall(r"^```(?:script|diddy)\n(.*?)^```\n\n```explained\n(.*?)^```", page, re.M | re.S)
        self.assertEqual(len(pairs), 2)
        for script, wanted in pairs:
            out = io.StringIO()
            explain(script.encode("ascii"), out)
            self.assertEqual(out.getvalue(), wanted)
        out = io.StringIO()
        show(stored("sheared-codes")[0], out, out)
        self.assertIn(f"```shown\n{out.getvalue()}```\n", page)
