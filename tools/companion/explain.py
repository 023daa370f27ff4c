"""`tools/explain < script`: where and why a script is refused, or what an accepted one will cost. It is not proved."""
import sys
from typing import BinaryIO, Iterator, List, TextIO

from .accept import MOST_BYTES, accept
from .definitions import MOST_PARTS, MOST_REACH
from .faults import Fault
from .formulas import gate_clauses
from .lattice import distance
from .report import located, table
from .script import Cases, Composition, Rule, Script

ACCEPTED, REFUSED = 0, 2


def header_lines(script: Script) -> List[str]:
    """What the header says, with the defaults of what it leaves out."""
    names = script.symbol_names()
    nodes = [f"{name}: {' '.join(names[symbol] for symbol in allowed)}" for name, allowed in zip(script.nodes, script.allowed)]
    return [f"dimension {script.dim}; {len(script.topology.edges)} edges with the labels {' '.join(sorted(script.topology.labels))}",
            f"nodes and the symbols that they allow: {'; '.join(nodes)}",
            f"weights: {' '.join(map(str, script.weights))}",
            f"limits: radius {script.limits.radius}, period {script.limits.period}, {script.limits.pivots:,} pivots"]


def definition_rows(script: Script) -> Iterator[List[str]]:
    """A row for each rule and automaton at each node: how many cells it reads, how far away, and how large it is."""
    for name, named in script.named.items():
        for node, node_name in enumerate(script.nodes):
            if isinstance(named, Rule):
                size, clauses = named.sizes()[node], gate_clauses(named.expansions[node])
            elif isinstance(named, (Cases, Composition)):
                size, clauses = named.sizes[node], named.clauses(node, len(script.symbols))
            else:
                continue
            reads = named.reads[node]
            reach = max(map(distance, reads), default=0)
            yield [name, node_name, str(len(reads)), str(reach), f"{size:,}", f"{clauses:,}"]


def explained(script: Script) -> Iterator[str]:
    """The lines about an accepted script."""
    yield from header_lines(script)
    rows = list(definition_rows(script))
    if rows:
        yield ""
        yield from table([["name", "node", "reads", "reach", "parts", "clauses"], *rows])
        yield f"(a rule reads at most {MOST_REACH} away, and has at most {MOST_PARTS:,} parts at a node)"
    for number, query in enumerate(script.queries, 1):
        yield ""
        yield f"query {number} {query.text()}"
        for said in query.costs():
            yield f"    {said}"


def explain(text: bytes, out: TextIO) -> int:
    """Writes what there is to say of a script, and gives the status."""
    if len(text) > MOST_BYTES:
        out.write(f"refused long\nthe script has over {MOST_BYTES:,} bytes\n")
        return REFUSED
    try:
        script = accept(text)
    except Fault as fault:
        lines = [fault.line(), *located(text, fault)]
        out.write("\n".join(lines) + "\n")
        return REFUSED
    for line in explained(script):
        out.write(line + "\n")
    return ACCEPTED


def main(words: List[str], given: BinaryIO) -> int:
    """The command."""
    if words:
        sys.stderr.write("usage: explain < script\n")
        return 6
    return explain(given.read(MOST_BYTES + 1), sys.stdout)
