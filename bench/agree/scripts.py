"""Random scripts: whole ones, mutated ones, and ones at the limits."""
import random
from typing import Callable, List

LABELS = {"line": "rt lt", "square": "up dn rt lt", "king": "up dn rt lt ne sw", "triangle": "up dn rt lt ne", "hex": "a b c",
          "cube": "up dn rt fw bk", "ladder": "rt lt up dn", "one": "rt"}
DIMENSIONS = {"line": 1, "square": 2, "king": 2, "triangle": 2, "hex": 2, "cube": 3, "ladder": 1, "one": 1}
NODES = {"hex": ["0", "1"], "ladder": ["a", "b"]}
OWN = {"ladder": "(rt a [1] a) (lt a [-1] a) (rt b [1] b) (lt b [-1] b) (up a [0] b) (dn b [0] a)", "one": "(rt 0 [1] 0)"}


class Formulas:
    """Random formulas over a topology and an alphabet."""

    def __init__(self, chance: random.Random, topology: str, symbols: List[str]) -> None:
        self.chance = chance
        self.labels = LABELS[topology].split()
        self.symbols = symbols
        self.nodes = NODES.get(topology, ["0"])

    def term(self, scope: List[str]) -> str:
        """A term with few moves."""
        moves = self.chance.choices(self.labels, k=self.chance.choice([0, 0, 1, 1, 1, 2]))
        return ".".join([self.chance.choice(scope), *moves])

    def atom(self, scope: List[str]) -> str:
        """An atom."""
        kind = self.chance.random()
        if kind < 0.6:
            return f"{self.term(scope)}{self.chance.choice(['=', '=', '!='])}{self.chance.choice(self.symbols)}"
        if kind < 0.8:
            return f"{self.term(scope)}{self.chance.choice(['=', '!='])}{self.term(scope)}"
        if kind < 0.95:
            return f"{self.term(scope)}{self.chance.choice('~@')}{self.term(scope)}"
        return f"{self.term(scope)}:{self.chance.choice(self.nodes)}"

    def formula(self, depth: int, scope: List[str]) -> str:
        """A formula up to a depth."""
        if depth == 0 or self.chance.random() < 0.2:
            return self.atom(scope)
        kind = self.chance.choice("!&|>=AE&|>")
        if kind == "!":
            return f"!{self.tight(depth - 1, scope)}"
        if kind in "&|":
            parts = [self.tight(depth - 1, scope) for _ in range(self.chance.randint(2, 3))]
            return f" {kind} ".join(parts)
        if kind in ">=":
            sign = {">": "->", "=": "<->"}[kind]
            return f"{self.tight(depth - 1, scope)} {sign} {self.tight(depth - 1, scope)}"
        new = next(name for name in "pqrstu" if name not in scope)
        balls = "".join(f"{name}{self.chance.choice([0, 1, 1, 1])}" for name in self.chance.sample(scope, self.chance.randint(1, min(2, len(scope)))))
        return f"{kind}{new}[{balls}] {self.tight(depth - 1, [*scope, new])}"

    def tight(self, depth: int, scope: List[str]) -> str:
        """A formula that may stand anywhere."""
        return f"({self.formula(depth, scope)})" if depth else self.atom(scope)


class Scripts:
    """Random scripts."""

    def __init__(self, chance: random.Random) -> None:
        self.chance = chance

    def whole(self) -> str:
        """A script that is mostly accepted."""
        chance = self.chance
        topology = chance.choice(["line", "line", "square", "square", "king", "triangle", "hex", "ladder", "one", "cube"])
        dim, nodes = DIMENSIONS[topology], NODES.get(topology, ["0"])
        symbols = chance.choice([["0", "1"], ["0", "1"], ["0", "1"], ["a", "b", "c"]])
        lines = [f"%dim {dim}"] if dim != 2 else []
        lines += ["%nodes " + " ".join(nodes)] if topology == "ladder" else []
        lines += ["%alphabet " + " ".join(symbols)] if symbols != ["0", "1"] else []
        lines += [f"%topology {OWN.get(topology, topology)}"] if topology not in ("line", "square", "cube") else []
        if chance.random() < 0.2:
            lines.append(f"%only {chance.choice(nodes)} {' '.join(chance.sample(symbols, chance.randint(1, len(symbols))))}")
        if chance.random() < 0.3:
            lines.append("%weights " + " ".join(str(chance.randint(0, 3)) for _ in symbols))
        lines.append(f"%limits {chance.randint(0, 2)} {chance.randint(1, 2 if dim == 3 else 3)} {chance.choice([10, 1000])}")
        formulas = Formulas(chance, topology, symbols)
        lines += [f"%rule {name} {formulas.formula(chance.randint(1, 3), ['o'])}" for name in "xyz"]
        lines += self.definitions(formulas, dim, len(nodes))
        lines += [self.query(dim) for _ in range(chance.randint(1, 3))]
        return "\n".join(lines) + "\n"

    def definitions(self, formulas: Formulas, dim: int, nodes: int) -> List[str]:
        """Configurations and automata."""
        chance, lines = self.chance, []
        periods = [chance.randint(1, 3) for _ in range(dim)]
        volume = nodes
        for period in periods:
            volume *= period
        shear = f" [{chance.randrange(periods[0])}]" if dim > 1 and chance.random() < 0.4 else ""
        lines.append(f"%conf c [{' '.join(map(str, periods))}]{shear} {' '.join(chance.choices(formulas.symbols, k=volume))}")
        for name in "fg":
            cases = [f"when {formulas.formula(chance.randint(0, 2), ['o'])} give {chance.choice(formulas.symbols)}"
                     for _ in range(chance.randint(0, 2))]
            lines.append(" ".join([f"%auto {name}", *cases, f"else {chance.choice(formulas.symbols)}"]))
        if chance.random() < 0.5:
            lines.append(f"%compose h {chance.choice('fg')} {chance.choice('fg')}")
        else:
            lines.append(f"%auto h else {chance.choice(formulas.symbols)}")
        return lines

    def query(self, dim: int) -> str:
        """A query."""
        chance = self.chance
        rules = chance.choices("xyz", k=2)
        kind = chance.choice(["member", "contains", "contains", "equal", "empty", "same", "forbidden", "minimal", "maps", "conjugate", "density",
                              "least", "discharge"])
        if kind in ("contains", "equal"):
            return f"%{kind} {rules[0]} {rules[1]}"
        if kind in ("maps", "conjugate"):
            automata = chance.choices("fgh", k=1 if kind == "maps" else 2)
            return f"%{kind} {' '.join([*automata, *rules])}"
        if kind == "density":
            return f"%density {rules[0]} [{' '.join(str(chance.randint(1, 2)) for _ in range(dim - 1))}]"
        if kind == "least":
            return f"%least {rules[0]} [{' '.join(str(chance.randint(1, 2 if dim == 3 else 3)) for _ in range(dim))}]"
        if kind == "discharge":
            vectors = {tuple(chance.randint(-1, 1) for _ in range(dim)) for _ in range(chance.randint(1, 3))}
            text = " ".join(f"[{' '.join(map(str, vector))}]" for vector in sorted(vectors))
            return f"%discharge {rules[0]} 0 {chance.choice([0, 0, 0, 1])} {text}"
        before = {"member": "c ", "same": " ".join(chance.choices("fgh", k=2)) + " "}.get(kind, "")
        return f"%{kind} {before}{rules[0]}"

    def mutated(self) -> str:
        """A script with a few tokens changed, so that it is mostly refused."""
        chance = self.chance
        tokens = self.whole().replace("\n", " \n ").split(" ")
        for _ in range(chance.randint(1, 2)):
            at = chance.randrange(len(tokens))
            change: Callable[[], None] = chance.choice([
                lambda: tokens.pop(at), lambda: tokens.insert(at, chance.choice(tokens)),
                lambda: tokens.__setitem__(at, chance.choice(tokens)), lambda: tokens.__setitem__(at, self.letter_changed(tokens[at]))])
            change()
            if not tokens:
                return ""
        return " ".join(tokens)

    def letter_changed(self, token: str) -> str:
        """A token with a letter changed, put in or left out."""
        chance = self.chance
        at = chance.randrange(len(token) + 1)
        letter = chance.choice("0123456789abxyzo%()[].=!&|~@:-<>AE \n\t#\x7f\xff")
        return token[:at] + chance.choice([letter, ""]) + token[at + chance.choice([0, 1]):]

    def border(self) -> str:
        """A script at a limit, or one past it."""
        more = self.chance.randint(0, 1)
        return self.chance.choice(BORDERS)(more)


def _deep(more: int) -> str:
    return "%rule x " + "!" * (64 + more) + "o=0\n"


def _brackets(more: int) -> str:
    return "%rule x " + "(" * (64 + more) + "o=0" + ")" * (64 + more) + "\n"


def _arrows(more: int) -> str:
    return "%rule x " + "o=0 -> " * (64 + more) + "o=1\n"


def _equivalences(more: int) -> str:
    return "%rule x " + "o=0 <-> " * (64 + more) + "o=1\n"


def _alternating(more: int) -> str:
    return "%rule x " + "(o=0 & " * (32 + more) + "o=1" + ")" * (32 + more) + "\n"


def _nested(more: int) -> str:
    lines = ["%dim 1 %auto f else 0 %compose c f f"]
    names = ["c", *["c" + chr(97 + i // 26) + chr(97 + i % 26) for i in range(64)]]
    lines += [f"%compose {name} f {before}" for before, name in zip(names, names[1:64 + more])]
    return " ".join(lines) + "\n"


BORDERS: List[Callable[[int], str]] = [
    _deep, _brackets, _arrows, _equivalences, _alternating, _nested,
    lambda more: f"%rule {'a' * (32 + more)} o=0\n",
    lambda more: f"%weights 0 {1000000 + more}\n",
    lambda more: f"%weights 0 {1000 + more}\n",
    lambda more: "%alphabet " + " ".join("abcdefghijklmnopq"[:16 + more]) + "\n",
    lambda more: "%dim 1 %nodes " + " ".join("abcde"[:4 + more]) + " %topology (x a [0] b)\n",
    lambda more: "%dim 1 %topology " + " ".join(f"({'x' * i} 0 [1] 0)" for i in range(1, 33)) + " "
    + " ".join(f"({'y' * i} 0 [1] 0)" for i in range(1, 33 + more)) + "\n",
    lambda more: f"%dim 1 %topology (x 0 [{4 + more}] 0)\n",
    lambda more: f"%limits {8 + more} 8 100000\n", lambda more: f"%limits 8 {8 + more} 100000\n",
    lambda more: f"%limits 8 8 {100000 + more}\n", lambda more: f"%limits 8 {1 - more} 0\n",
    lambda more: f"%rule x o{'.up' * (16 + more)}=0\n",
    lambda more: f"%rule x Ep[o{3 + more}] p=1\n",
    lambda more: f"%rule x Ep[{'o1' * (4 + more)}] p=1\n",
    lambda more: "%dim 1 %topology (x 0 [4] 0) (y 0 [1] 0) %rule x o.x.x.x.x" + ".y" * more + "=1\n",
    lambda more: "%conf c [2 1] [" + str(1 + more) + "] 0 1\n",
    lambda more: "%dim 1 %rule x " + " & ".join(f"o{'.rt' * i}=1" for i in range(15 + 1 + more)) + " %forbidden x\n",
    lambda more: "%dim 1 %rule x " + " & ".join(f"o{'.rt' * i}=1" for i in range(15 + 1 + more)) + " %minimal x\n",
    lambda more: f"%alphabet {'a b'[:3 - 2 * more]} %rule x o=a %auto f else a %conjugate f f x x\n",
    lambda more: f"%dim 1 %only 0 0 %rule x {'!' * (63 + more)}o=0 %auto f else 0 %maps f x x\n",
    lambda more: f"%dim 1 %only 0 0 %rule x {'!' * (63 + more)}o=0 %rule y o=0 %auto f else 0 %conjugate f f x y\n",
    lambda more: f"%dim 1 %rule x o{'.rt' * 9}=0 %auto f when o{'.rt' * (7 + more)}=0 give 0 else 1 %maps f x x\n",
    lambda more: f"%dim 1 %auto f when o{'.rt' * 9}=0 give 0 else 1 %auto g when o{'.rt' * (7 + more)}=0 give 0 else 1 %rule x o=0 | o=1 "
    "%conjugate f g x x\n",
    lambda more: f"%dim 1 %rule x {'o=0 & ' * (19994 + more)}o=0 %auto f else 0 %maps f x x\n",
    lambda more: f"%weights 0 0 %rule x o@o %least x [256 {256 + more}]\n", lambda more: f"%rule x o@o %least x [1 {1 - more}]\n",
    lambda more: f"%dim 1 %rule x o=0 %least x [{471 + more}]\n",
    lambda more: f"%rule x o=0 %density x [{8 + more}]\n",
    lambda more: f"%dim 1 %rule x o=0 | o{'.rt' * (12 + more)}=1 %density x []\n",
    lambda more: f"%rule x o=0 %density x [{64 + more}]\n",
    lambda more: "%dim 1 %rule x o=0 %discharge x 0 0 " + " ".join(f"[{i}]" for i in range(-4, 5)) + "\n",
    lambda more: f"%dim 1 %rule x o=0 %discharge x {3 + more} 0 [1]\n", lambda more: f"%dim 1 %rule x o=0 %discharge x 0 {3 + more} [1]\n",
    lambda more: "%rule x o=0 " + "%empty x " * (999 + more) + "\n",
    lambda more: "%rule x " + "o=0 & " * (19998 + more) + "o=0\n",
    lambda more: "%dim 1 %auto f when " + "o=0 & " * (19996 + more) + "o=0 give 1 else 0\n",
    lambda more: "%rule x o=0 %discharge x 0 0 " + " ".join(f"[{i % 5} {i // 5}]" for i in range(16 + more)) + "\n",
]
"""Scripts at the limits, as they are with the number 0 and one past with 1."""
