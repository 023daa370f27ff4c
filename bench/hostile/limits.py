#!/usr/bin/env python3
"""Times the program at its limits, and measures its memory there: bench/hostile/limits.py PROGRAM [TABLE..]

It prints three tables in Markdown, or those that are named:

- `limits`: for each kind of query and of command a script at its limits, its run, and the check of what the run wrote.
- `scripts`: scripts of 1,048,576 bytes, the most that are read: for each kind of command many of them, long ones, and ones with a list that is
  too long; blanks, comments, numbers, names; and as many queries of each kind as a script takes. The answer is a refusal, or that of the last
  query. A check follows where the script is accepted.
- `outputs`: outputs of 268,435,456 bytes, the most that a check reads, with a long body of each form. The check gets each of them whole, and
  then without its last ten bytes.

A time is in seconds of processor time, user and system, of one process. Memory is the most that the process held, in millions of bytes; a
process begins as a copy of this one, so less than what this one holds isn't seen. Where there is a column `half`, the same was done at half the
length, and the column has the whole's time over the half's: near 2 where the time grows as the length does, near 4 where it grows as its square.

A process that takes more than 120 seconds is stopped. A name after the tables' names leaves out all rows without it: `limits.py PROGRAM scripts
conf`. MOST_SCRIPT and MOST_OUTPUT in the environment are other lengths in place of the two above, for a quick trial.
"""
import os
import pathlib
import resource
import subprocess
import sys
import tempfile
from bisect import bisect_right
from typing import Callable, Iterator, List, NamedTuple, Optional, Tuple

TOP = pathlib.Path(__file__).resolve().parent.parent.parent
MOST_SCRIPT = int(os.environ.get("MOST_SCRIPT", "1048576"))
MOST_OUTPUT = int(os.environ.get("MOST_OUTPUT", "268435456"))
LONGEST = 120
LETTERS = "abcdefghijklmnopqrstuvwxyz"
SYMBOLS = "abcdefghijklmnpq"
"""Sixteen names of symbols, none of which is the variable `o`."""
PARTS = 20000
"""The most parts of a rule or an automaton."""


class Measured(NamedTuple):
    """What came of a process."""

    status: int
    seconds: float
    memory: float
    said: str

    def time(self) -> str:
        """The time for a table."""
        return f"{self.seconds:.2f}"


class Program:
    """The program, and a folder for what it reads and writes."""

    def __init__(self, path: str, folder: str) -> None:
        self.path = path
        self.given, self.output, self.said = (pathlib.Path(folder) / name for name in ("given", "output", "said"))

    def measure(self, words: List[str], given: pathlib.Path, into: pathlib.Path) -> Measured:
        """Runs the program over one file into another."""
        limit = lambda: resource.setrlimit(resource.RLIMIT_CPU, (LONGEST, LONGEST))
        with open(given, "rb") as source, open(into, "wb") as sink:
            process = subprocess.Popen([self.path, *words], stdin=source, stdout=sink, stderr=subprocess.DEVNULL, preexec_fn=limit)
            _, ended, used = os.wait4(process.pid, 0)
            process.returncode = os.waitstatus_to_exitcode(ended)
        seconds = used.ru_utime + used.ru_stime
        return Measured(process.returncode, seconds, used.ru_maxrss * 1024 / 1e6, outcome(process.returncode, into))

    def run(self, script: bytes) -> Measured:
        """The run over a script."""
        self.given.write_bytes(script)
        return self.measure(["run"], self.given, self.output)

    def check(self, given: pathlib.Path) -> Measured:
        """The check of a file."""
        return self.measure(["check"], given, self.said)


def outcome(status: int, written: pathlib.Path) -> str:
    """The last line that says something: a refusal, an answer, or what a check says; short, and with how the process ended if that was a fault."""
    if status < 0:
        return "stopped"
    last = ""
    with open(written, "rb") as lines:
        for line in iter(lambda: lines.readline(200), b""):
            if line.startswith((b"query ", b"refused ", b"checked ")):
                last = line[:60].decode("latin-1").strip()
    if last.startswith("query ") and not last.endswith(("accepted", "rejected")):
        last = last.split(" ", 2)[2]
    return {3: "a read failed", 4: "a write failed", 5: "out of memory"}.get(status, last)


def cell(count: int, label: str = "rt", start: str = "o") -> str:
    """The cell so many moves away."""
    return start + f".{label}" * count


def all_of(atom: str, count: int) -> str:
    """The atom so many times."""
    return " & ".join([atom] * count)


def true_of(cells: int, parts: int) -> str:
    """A formula of so many parts or a few less that is true everywhere and reads so many cells of a line."""
    each = [f"({cell(at)}=0 | {cell(at)}=1)" for at in range(cells)]
    return " & ".join(each[number % cells] for number in range((parts - 1) // 3))


def word(number: int, length: int = 5) -> str:
    """A word of its own for each number."""
    letters = ""
    for _ in range(length):
        number, letter = divmod(number, 26)
        letters = LETTERS[letter] + letters
    return letters


def register(free: str) -> str:
    """A strip of 4,096 states on which the short way to the least mean gives up, as in peaks.sh."""
    fed = " <-> ".join(f"{cell(place)}=1" for place in (12, 6, 4, 1, 0))
    kept = " & ".join(f"{cell(place)}={symbol}" for place, symbol in enumerate(free))
    return f"%dim 1 %weights 1 0 %rule r !({fed}) | ({kept}) %density r []"


# ---- Scripts at their limits


def limit_scripts() -> Iterator[Tuple[str, str]]:
    """Each with a name. All boxes have a radius of 8 and nearly 2,000,000 clauses."""
    far = cell(8)
    zero = f"%rule x {all_of('o=0', 6800)}"
    yield "member: 65,536 cells, 20,000 parts", f"%rule r {all_of('o.rt=0', PARTS - 1)} %conf c [256 256]{' 0' * 65536} %member c r"
    yield "contains: a YES", f"%limits 8 1 0 {zero} %rule y {far}=0 %contains y x"
    yield (
        "contains: an UNKNOWN after all 288 tori",
        f"%limits 8 8 0 %rule x (o=1 -> o.rt=1) & {all_of('(o=0 | o=1)', 1700)} %rule y o=o.rt %contains y x",
    )
    yield "equal: a YES", f"%limits 8 1 0 {zero} %rule y {far}=0 & {all_of('o=0', 6800)} %equal x y"
    yield "empty: a YES", f"%limits 8 1 0 %rule x {far}=1 & {all_of('o=0', 6800)} %empty x"
    yield "empty: a NO in dimension 3", f"%dim 3 %limits 8 1 0 %rule x {all_of('o=0', 400)} %empty x"
    yield (
        "same: automata of 20,000 parts",
        f"%limits 8 1 0 %rule x {all_of('o=0', 6600)} %auto f when {all_of(far + '=0', PARTS - 3)} give 1 else 0 "
        f"%auto g when {far}=0 give 1 else 0 %same f g x",
    )
    nested = " ".join(f"%compose {word(number)} {word(number - 1)} f" for number in range(1, 64))
    yield "same: compositions 64 deep", f"{zero} %auto f when o=1 give 1 else 0 %compose {word(0)} f f {nested} %same {word(63)} f x"
    yield "maps: a YES", f"%limits 8 1 0 %rule x {all_of('o=0', 6600)} %auto f when {far}=0 give 0 else 1 %maps f x x"
    moved = f"%auto f when {far}=1 give 1 else 0 %auto g when {cell(8, 'lt')}=1 give 1 else 0"
    yield "conjugate: CONJUGATE", f"%limits 8 1 0 %rule x {all_of('o=0', 6600)} {moved} %conjugate f g x x"
    nodes = "%dim 1 %nodes a b c d %topology (rt a [1] a) (rt b [1] b) (rt c [1] c) (rt d [1] d)"
    ones = " & ".join(f"{cell(place)}=1" for place in range(16))
    for kind in ("forbidden", "minimal"):
        yield f"{kind}: 65,535 patterns at each of four nodes", f"{nodes} %rule r {ones} %{kind} r"
        yield f"{kind}: 65,536 fillings, 20,000 parts", f"%dim 1 %rule r {true_of(16, PARTS)} %{kind} r"
    yield "minimal: 32,768 patterns", f"%dim 1 %rule r {' <-> '.join(f'{cell(place)}=1' for place in range(16))} %minimal r"
    yield "density: 4,096 states, all lengths", register("111000010001")
    sixteen = f"%dim 1 %alphabet {' '.join(SYMBOLS)}"
    either = f"({cell(3)}=a | !{cell(3)}=a)"
    yield "density: 4,096 states, 65,536 windows, 20,000 parts", f"{sixteen} %rule r {all_of(either, 4999)} %density r []"
    yield "density: 343 states, 117,649 windows", "%alphabet a b c d e f g %rule r o!=o.rt %density r [3]"
    grows = " & ".join(f"(o={old} -> {' | '.join(f'o.rt={new}' for new in SYMBOLS[at + 1 :]) or '!o@o'})" for at, old in enumerate(SYMBOLS))
    yield "density: EMPTY, 4,096 states", f"{sixteen} %rule r {either} & {grows} %density r []"
    yield "least: a torus of 65,536 cells", f"%weights 0 0 %rule r {all_of('o=0', 26)} %least r [256 256]"
    yield "least: the heaviest torus", "%dim 1 %rule r o=1 %least r [471]"
    yield "least: NONE", "%dim 1 %rule r o!=o.rt %least r [469]"
    yield "discharge: 2,048 rows, 193 columns", (TOP / "examples/free-line.diddy").read_text()
    yield "discharge: 54,925 fillings", (TOP / "bench/discharging/fillings.diddy").read_text()
    row = f"%rule r {true_of(2, PARTS - 10)} & !(o=1 & o.rt=1)"
    yield "discharge: 54,925 fillings, 20,000 parts", f"{row} %discharge r 0 1 [1 0] [-1 0] [0 1] [0 -1]"
    balls = "Ap[o3] Aq[p3] Ar[q3] r=0"
    yield "rule: 998 of 16,276 parts", " ".join(f"%rule {word(number)} {balls}" for number in range(998)) + " %rule r o=0 %empty r"
    automata = " ".join(f"%auto {word(number)} when {balls} give 1 else 0" for number in range(998))
    yield "auto: 998 of 16,278 parts", f"{automata} %rule r o=0 %empty r"
    inner = f"%auto f when {all_of('o=0', 9990)} give 1 else 0 %auto g when o=0 give 1 else 0 "
    yield "compose: 996 of 19,989 parts", inner + " ".join(f"%compose {word(number)} g f" for number in range(996)) + " %rule r o=0 %empty r"
    both = "%limits 0 1 0 " + " ".join(f"%auto {name} when {all_of('o=0', 9000)} give 0 else 1" for name in "fg") + f" %rule x {all_of('o=0', 9000)} "
    yield "maps: 995 of 27,009 parts, over the limit", both + "%maps f x x " * 995 + "%empty no"
    yield "conjugate: 995 of 27,009 parts, over the limit", both + "%conjugate f g x x " * 995 + "%empty no"


# ---- Scripts of the greatest length

Sized = Callable[[int], str]
"""A script of a given length, or a little shorter."""


def filled(first: str, unit: str, last: str = "") -> Sized:
    """A text repeated between two others."""
    return lambda size: first + unit * ((size - len(first) - len(last)) // len(unit)) + last


def listed(first: str, form: Callable[[int], str], last: str = "", most: int = MOST_SCRIPT) -> Sized:
    """Texts that differ between two others, at most so many."""

    def make(size: int) -> str:
        room, texts = size - len(first) - len(last), []
        while len(texts) < most:
            texts.append(form(len(texts)))
            room -= len(texts[-1])
            if room < 0:
                texts.pop()
                break
        return first + "".join(texts) + last

    return make


def asked(start: str, query: str) -> Sized:
    """As many queries as a script takes, with blanks between them."""
    count = 1000 - start.count("%")
    unit = query + " " * ((MOST_SCRIPT - len(start)) // count - len(query))
    return listed(start, lambda _: unit, most=count)


def long_scripts() -> Iterator[Tuple[str, Sized]]:
    """Each with a name."""
    yield "nothing but blanks", filled("", " ")
    yield "nothing but line feeds", filled("", "\n")
    yield "one comment", filled("--", "x")
    yield "many comments", filled("", "--\n")
    yield "bytes that begin no token", filled("", "\xff")
    yield "signs that open commands", filled("", "%")
    yield "dim: a long number", filled("%dim 1", "1")
    yield "nodes: many names", listed("%dim 1 %nodes", lambda number: " " + word(number), " %topology (a aaaaa [0] aaaab)")
    yield "alphabet: many names", listed("%alphabet", lambda number: " " + word(number))
    yield "alphabet: many numbers", listed("%alphabet", lambda number: f" {number}")
    yield "alphabet: one long name", filled("%alphabet a", "a")
    yield "topology: many edges", listed("%dim 1 %topology", lambda number: f" ({word(number)} 0 [1] 0)")
    yield "topology: one label, many nodes", listed("%dim 1 %topology", lambda number: f" (a {number} [1] 0)")
    yield "topology: one long offset", filled("%dim 1 %topology (a 0 [1", " 1", "] 0)")
    yield "only: many symbols", listed("%only 0", lambda number: f" {number}")
    yield "weights: many numbers", filled("%weights", " 1")
    yield "limits: a long number", filled("%limits 1", "1", " 1 1")
    yield "conf: many periods", filled("%conf c [1", " 1", "] 0")
    yield "conf: too many symbols", filled("%conf c [1000 1000]", " 0")
    spread = " " * 14 + "0"
    yield "conf: 65,536 symbols", lambda size: f"%conf c [256 {size // 4096}]{spread * (size // 4096 * 256)}%rule r o=0 %member c r"
    yield "conf: many", listed("", lambda number: f"%conf {word(number)} [23 22]" + " 0" * 506 + "\n", "%rule r o=0 %member aaaaa r", 995)
    yield "rule: a long formula", filled("%rule r o=0", " & o=0")
    moves = "o" + ".rt.lt" * 7 + ".rt=0"
    yield "rule: 20,000 atoms of fifteen moves", listed("%rule r o=0", lambda _: f" & {moves}", " %forbidden r", PARTS - 2)
    yield "rule: implications", filled("%rule r o=0", " -> o=0")
    yield "rule: equivalences", filled("%rule r o=0", " <-> o=0")
    yield "rule: brackets", filled("%rule r ", "(", "o=0")
    yield "rule: negations", filled("%rule r ", "!", "o=0")
    yield "rule: many moves", filled("%rule r o", ".rt", "=0")
    yield "rule: many balls", filled("%rule r Ap[", "o1", "] p=0")
    deep = "".join(f"A{word(number, 2)}[o3]" for number in range(60))
    yield "rule: sixty quantifiers, many times", filled("%rule r o=0", f" & {deep} o=0")
    yield "rule: unknown variables", listed("%rule r o=0", lambda number: f" & {word(number)}=0")
    yield "rule: a long symbol", filled("%rule r o=", "1")
    yield "rule: a long name", filled("%rule ", "a", " o=0")
    many = all_of("o.rt=0", 113)
    yield "rule: many", listed("", lambda number: f"%rule {word(number)} {many}\n", "%empty aaaaa", 999)
    yield "rule: many, and a fault at the end", listed("", lambda number: f"%rule {word(number)} {many}\n", "%empty no", 999)
    yield "auto: too many cases", filled("%auto f", " when o=0 give 1", " else 0")
    case = "when o" + ".rt.lt" * 7 + ".rt" * 2 + "=0 & o" + ".rt" * 5 + "=1 give 1 "
    compared = "else 0 %rule r o=0 %same f f r"
    yield "auto: as many cases as there may be", listed("%auto f ", lambda _: case, compared, PARTS // 4 - 1)
    yield "auto: 900 cases", listed("%auto f ", lambda _: case + " " * 1000, compared, 900)
    automata = listed("%rule r o=0 ", lambda number: f"%auto {word(number)} when {many} give 1 else 0\n", "%same aaaaa aaaaa r", 998)
    yield "auto: many", automata
    start = f"%rule r o=0 %auto f when {all_of('o=0', 9990)} give 1 else 0 %auto g else 0 "
    yield "compose: many", listed(start, lambda number: f"%compose {word(number)} g f" + " " * 950, "%same aaaaa g r", 996)
    yield "commands: too many", filled("%rule r o=0", " %empty r")
    yield "density: many periods", filled("%rule r o=0 %density r [1", " 1", "]")
    yield "least: many periods", filled("%rule r o=0 %least r [1", " 1", "]")
    yield "discharge: many vectors", listed("%rule r o=0 %discharge r 0 0", lambda number: f" [{number % 1000} {number // 1000}]")
    yield "discharge: one long vector", filled("%rule r o=0 %discharge r 0 0 [1", " 1", "]")
    rule, line = "%rule r o=1 -> o.rt=0 ", "%dim 1 "
    yield "member: many", asked(rule + "%conf c [2 2] 0 1 1 0 ", "%member c r")
    yield "contains: many", asked(rule, "%contains r r")
    yield "equal: many", asked(rule, "%equal r r")
    yield "empty: many", asked(rule, "%empty r")
    automata = rule + "%auto f when o.rt=1 give 1 else 0 %auto g when o.lt=1 give 1 else 0 "
    yield "same: many", asked(automata, "%same f f r")
    yield "maps: many", asked(automata, "%maps f r r")
    yield "conjugate: many", asked(automata, "%conjugate f g r r")
    yield "forbidden: many", asked(rule, "%forbidden r")
    yield "minimal: many", asked(rule, "%minimal r")
    yield "density: many", asked(rule, "%density r [3]")
    yield "least: many", asked(rule, "%least r [3 3]")
    yield "discharge: many", asked(line + rule, "%discharge r 0 0 [1]")


# ---- Outputs of the greatest length


class Body(NamedTuple):
    """A long body: its length for each number of items, and its bytes."""

    length: Callable[[int], int]
    blocks: Callable[[int], Iterator[bytes]]


class Form(NamedTuple):
    """An output of one answer. What stands before its body may have `%d`, the number of items and of steps besides."""

    name: str
    script: str
    before: str
    body: Body
    after: str
    besides: int = 0

    def head(self, items: int, blanks: int) -> bytes:
        """What stands before the body. The script has so many blanks more than the least that are needed."""
        script = self.script + " " * (self.least() - len(self.script) + blanks)
        before = self.before % (items + self.besides) if "%d" in self.before else self.before
        return f"diddy 1\nscript {len(script)}\n{script}\nquery 1 {before}".encode()

    def least(self) -> int:
        """The least length of the script: four times as long and longer, it has as many digits."""
        return 200000 if len(self.script) > 1000 else 1000

    def write(self, path: pathlib.Path, size: int) -> None:
        """Writes an output of this length, or a little shorter where blanks in its script don't make up for the rest."""
        after = f"{self.after}end\n".encode()
        room = size - len(self.head(10**9, 0)) - len(after)
        items = max(bisect_right(range(room), room, key=self.body.length) - 1, 1)
        rest = size - len(self.head(items, 0)) - self.body.length(items) - len(after)
        with open(path, "wb") as file:
            file.write(self.head(items, rest if rest < 4 * self.least() else 0))
            for block in self.body.blocks(items):
                file.write(block)
            file.write(after)


def repeated(unit: str) -> Body:
    """The same bytes for each item."""
    bytes_of, many = unit.encode(), max(1, 1000000 // len(unit))

    def blocks(items: int) -> Iterator[bytes]:
        for start in range(0, items, many):
            yield bytes_of * min(many, items - start)

    return Body(lambda items: items * len(bytes_of), blocks)


def digits(last: int) -> int:
    """The length of all numbers from 1 on, written one after another."""
    return sum(last - 10**place + 1 for place in range(len(str(last))) if last >= 10**place)


def numbered(before: str, start: int, after: str) -> Body:
    """A number for each item, between the same bytes."""

    def blocks(items: int) -> Iterator[bytes]:
        for first in range(start, start + items, 50000):
            yield "".join(f"{before}{number}{after}" for number in range(first, min(first + 50000, start + items))).encode()

    return Body(lambda items: items * len(before + after) + digits(start + items - 1) - digits(start - 1), blocks)


def both(first: Body, then: str, second: Body) -> Body:
    """As many items of two bodies, one after the other."""

    def blocks(items: int) -> Iterator[bytes]:
        yield from first.blocks(items)
        yield then.encode()
        yield from second.blocks(items)

    return Body(lambda items: first.length(items) + len(then) + second.length(items), blocks)


# A box of 4,913 cells, each with the gate "all of" a hundred gates of two equal parts: 402 clauses for each cell behind two for its inputs.
CELLS, GATES = 17**3, 100
BOX = f"%dim 3 %limits 8 1 0 %rule x {all_of('(o=0 & o=0)', GATES)} %rule y {cell(8)}=0 %contains y x"
PER_CELL, VARIABLES = 4 * GATES + 2, (GATES + 3) * CELLS


def first_of(number: int) -> int:
    """The number of the last clause before those of this cell."""
    return 2 * CELLS + PER_CELL * number


def long_hints() -> str:
    """A step whose hints make all gates true, cell by cell, but the last cell's: the clause that this one is true is its own."""
    hints = []
    for first in map(first_of, range(CELLS - 1)):
        hints += [first + PER_CELL, *range(first + 3 * GATES + 1, first + 4 * GATES + 1), first + 1]
    return f"step {VARIABLES} 0 {' '.join(map(str, hints))} {first_of(CELLS)} 0 0\n"


def long_clause() -> str:
    """A step with a literal for each variable. The clause that the last cell's gate is true is a part of it."""
    return f"step {' '.join(map(str, range(1, VARIABLES + 1)))} 0 {first_of(CELLS)} 0 0\n"


def last_step() -> str:
    """The goal says that the cell eight to the right of the origin isn't 0. The premise says that it is."""
    first = first_of(CELLS // 2 + 8)
    return f"step 0 {first + PER_CELL} {first + 3 * GATES + 1} {first + 1} {first_of(CELLS) + 1} 0 0\n"


def refutations() -> Iterator[Form]:
    """Outputs with long refutations."""
    none, end, step = "%dim 1 %rule x o=0 & o=1 %empty x", "step 0 6 4 2 3 0 0\n", "step 3 0 6 0 0\n"
    start = "YES 0\nrefutation %d\n"
    yield Form("YES: right steps", none, start, repeated(step), end, 1)
    yield Form("YES: right steps, each without the one before", none, start + step, numbered("step 3 0 6 0 ", 7, " 0\n"), end, 2)
    deleted = both(repeated(step), "step 3 0 6 0", numbered(" ", 7, ""))
    yield Form("YES: right steps, and one that deletes them", none, start, deleted, " 0\n" + end, 2)
    yield Form("YES: right steps of 506,039 literals", BOX, "YES 8\nrefutation %d\n", repeated(long_clause()), last_step(), 1)
    yield Form("YES: right steps of 501,025 hints", BOX, "YES 8\nrefutation %d\n", repeated(long_hints()), last_step(), 1)
    wide, many = f"%dim 1 %limits 0 1 0 %rule x {all_of('o=0', PARTS - 2)} & o=1 %empty x", PARTS - 1
    last = f"step 0 {many + 4} 3 {many + 2} 2 0 0\n"
    yield Form("YES: right steps by a clause of 20,000 literals", wide, start, repeated(f"step 3 -1 -2 0 {many + 3} 0 0\n"), last, 1)
    yield Form("YES: empty steps", none, start, repeated("step 0 0 0\n"), "")
    yield Form("YES: one literal again and again", none, "YES 0\nrefutation 1\nstep", repeated(" 3"), " 0 6 0 0\n")
    yield Form("YES: one hint again and again", none, "YES 0\nrefutation 1\nstep 3 0", repeated(" 6"), " 0 0\n")
    yield Form("YES: one delete again and again", none, "YES 0\nrefutation 1\nstep 3 0 6 0", repeated(" 1"), " 0\n")
    yield Form("YES: a long number", none, "YES 0\nrefutation 1\nstep 0 1", repeated("1"), " 0 0\n")


def forms() -> Iterator[Form]:
    """Each form of answer with a body that may be long."""
    yield from refutations()
    yield Form("NO: many symbols", "%dim 1 %rule x o=0 %empty x", "NO 1\nconf", repeated(" 0"), "\n")
    yield Form("BROKEN: many symbols", "%dim 1 %rule x o=0 %auto f else 0 %conjugate f f x x", "BROKEN 1 1\nconf", repeated(" 0"), "\n")
    for kind, answer, entry in (("forbidden", "LIST", 0), ("minimal", "MINIMAL", "*")):
        script = f"%dim 1 %rule x o=1 %{kind} x"
        yield Form(f"{answer}: short patterns", script, f"{answer} %d\n", repeated(f"pattern 0 {entry}\n"), "")
        yield Form(f"{answer}: patterns of nothing", script, f"{answer} %d\n", repeated("pattern 0\n"), "")
        yield Form(f"{answer}: one long pattern", script, f"{answer} 1\npattern 0", repeated(f" {entry}"), "\n")
    strip = "%dim 1 %rule x o=0 | o=1 %density x []"
    yield Form("DENSITY: a right cycle", strip, "DENSITY 0/1\ncycle %d", repeated(" 0"), "\npotentials 0 0\n")
    yield Form("DENSITY: many potentials", strip, "DENSITY 0/1\ncycle 1 0\npotentials", repeated(" 0"), "\n")
    yield Form("EMPTY: many ranks", strip, "EMPTY\nranks", repeated(" 0"), "\n")
    yield Form("LEAST: many symbols", "%dim 1 %rule x o=0 %least x [1]", "LEAST 0\nconf", repeated(" 0"), "\n")
    bound = "%dim 1 %rule x o=0 %discharge x 0 0 [1]"
    yield Form("BOUND: many amounts", bound, "BOUND 0/1\ndenominator 1\namounts", repeated(" 0"), "\nduals 1\n")
    yield Form("BOUND: many duals", bound, "BOUND 0/1\ndenominator 1\namounts 0\nduals", repeated(" 0"), "\n")


# ---- The tables


def row(*entries: object) -> None:
    """A line of a table."""
    print("|", " | ".join(map(str, entries)), "|", flush=True)


def head(*entries: str) -> None:
    """The first lines of a table."""
    print()
    row(*entries)
    print("|" + "---|" * len(entries), flush=True)


def factor(whole: Measured, half: Measured) -> str:
    """The one time over the other, where they say anything."""
    return f"{whole.seconds / half.seconds:.1f}" if half.seconds >= 0.02 else ""


def limits(program: Program, part: str) -> None:
    """The first table."""
    head("At the limits", "answer", "bytes written", "run", "memory", "its check", "memory")
    for name, script in limit_scripts():
        if part in name:
            run = program.run(script.encode())
            check = program.check(program.output) if run.status in (0, 1) else None
            said = run.said if check is None or check.status == run.status else f"{run.said}, {check.said}"
            rest = (check.time(), round(check.memory)) if check else ("", "")
            row(name, said, f"{program.output.stat().st_size:,}", run.time(), round(run.memory), *rest)


def scripts(program: Program, part: str) -> None:
    """The second table."""
    head(f"Script of {MOST_SCRIPT:,} bytes", "answer", "run", "half", "memory", "its check", "half", "memory")
    for name, make in long_scripts():
        if part in name:
            half, half_check = whole(program, make(MOST_SCRIPT // 2), MOST_SCRIPT // 2)
            run, check = whole(program, make(MOST_SCRIPT), MOST_SCRIPT)
            said = run.said if check is None or check.status == run.status else f"{run.said}, {check.said}"
            rest = (check.time(), factor(check, half_check) if half_check else "", round(check.memory)) if check else ("", "", "")
            row(name, said, run.time(), factor(run, half), round(run.memory), *rest)


def whole(program: Program, script: str, size: int) -> Tuple[Measured, Optional[Measured]]:
    """The run over a script that blanks make as long as it has to be, and the check of its output."""
    run = program.run(script.ljust(size).encode("latin-1"))
    return run, program.check(program.output) if run.status in (0, 1) else None


def outputs(program: Program, part: str) -> None:
    """The third table."""
    head(f"Output of {MOST_OUTPUT:,} bytes", "check", "time", "half", "memory", "cut short", "time", "memory")
    for form in forms():
        if part in form.name:
            form.write(program.output, MOST_OUTPUT // 2)
            half = program.check(program.output)
            form.write(program.output, MOST_OUTPUT)
            check = program.check(program.output)
            os.truncate(program.output, program.output.stat().st_size - 10)
            cut = program.check(program.output)
            row(form.name, check.said, check.time(), factor(check, half), round(check.memory), cut.said, cut.time(), round(cut.memory))


def main() -> int:
    """The command."""
    tables = {"limits": limits, "scripts": scripts, "outputs": outputs}
    named = [name for name in sys.argv[2:] if name in tables] or list(tables)
    part = " ".join(name for name in sys.argv[2:] if name not in tables)
    with tempfile.TemporaryDirectory() as folder:
        program = Program(sys.argv[1], folder)
        for name in named:
            tables[name](program, part)
    return 0


if __name__ == "__main__":
    sys.exit(main())
