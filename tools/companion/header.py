"""What the commands of the header mean, and their faults."""
from typing import Iterator, List, Sequence

from .commands import Nodes, Only, TopologyText
from .faults import Fault
from .lattice import BUILT_IN, DEFAULT, Edge, Topology, offset
from .meaning import Meaning, over, shape, twice, unknown
from .script import Limits
from .tokens import Token

MOST_NODES, MOST_SYMBOLS, MOST_EDGES = 4, 16, 64
MOST_OFFSET, MOST_WEIGHT = 4, 1000
MOST_RADIUS, MOST_PERIOD, MOST_PIVOTS = 8, 8, 100000


class DimMeaning(Meaning):
    """`%dim`."""

    def shapes(self) -> Iterator[Fault]:
        value = self.body.value
        if value.value() not in DEFAULT:
            yield shape(value, "the dimension is 1, 2 or 3")

    def apply(self) -> None:
        self.script.dim = self.body.value.value()


def repeated(tokens: Sequence[Token], what: str) -> Iterator[Fault]:
    """The faults of names that stand earlier in the same list."""
    seen = set()
    for token in tokens:
        if token.text in seen:
            yield twice(token, f"{what} {token.text} is given twice")
        seen.add(token.text)


class NodesMeaning(Meaning):
    """`%nodes`."""

    def names(self) -> Iterator[Fault]:
        return repeated(self.body.names, "the node")

    def shapes(self) -> Iterator[Fault]:
        names = self.body.names
        if len(names) > 1 and not any(isinstance(command.body, TopologyText) for command in self.after()):
            yield shape(names[1], "two nodes or more need a %topology, and the script has none")

    def sizes(self) -> Iterator[Fault]:
        names = self.body.names
        if len(names) > MOST_NODES:
            yield over("nodes", names[MOST_NODES], f"a position has at most {MOST_NODES} nodes")

    def apply(self) -> None:
        self.script.nodes = {token.text: number for number, token in enumerate(self.body.names)}


class AlphabetMeaning(Meaning):
    """`%alphabet`."""

    def names(self) -> Iterator[Fault]:
        return repeated(self.body.names, "the symbol")

    def sizes(self) -> Iterator[Fault]:
        names = self.body.names
        if len(names) > MOST_SYMBOLS:
            yield over("alphabet", names[MOST_SYMBOLS], f"an alphabet has at most {MOST_SYMBOLS} symbols")

    def apply(self) -> None:
        self.script.symbols = {token.text: number for number, token in enumerate(self.body.names)}


class TopologyMeaning(Meaning):
    """`%topology`."""

    def _nodes_given(self) -> bool:
        return any(isinstance(command.body, Nodes) for command in self.before())

    def names(self) -> Iterator[Fault]:
        known = self.script.nodes
        seen = set()
        for edge in self.body.edges:
            for node in (edge.source, edge.target):
                if node.text not in known:
                    yield unknown(node, f"no node has this name; the nodes are {' '.join(known)}")
            if (edge.label.text, edge.source.text) in seen:
                yield twice(edge.label, f"two edges with the label {edge.label.text} lead from the node {edge.source.text}")
            seen.add((edge.label.text, edge.source.text))

    def shapes(self) -> Iterator[Fault]:
        body, script = self.body, self.script
        if body.kind is not None:
            dim, nodes, _ = BUILT_IN[body.kind.text]
            if dim != script.dim:
                yield shape(body.kind, f"the topology {body.kind.text} has the dimension {dim}, the script has {script.dim}")
            if self._nodes_given() and nodes != len(script.nodes):
                yield shape(body.kind, f"the topology {body.kind.text} has {nodes} nodes, the script has {len(script.nodes)}")
        for edge in body.edges:
            if len(edge.by.entries) != script.dim:
                yield shape(edge.by.bracket, f"an offset has {script.dim} entries, one for each axis")

    def sizes(self) -> Iterator[Fault]:
        edges = self.body.edges
        if len(edges) > MOST_EDGES:
            yield over("edges", edges[MOST_EDGES].label, f"a topology has at most {MOST_EDGES} edges")
        for edge in edges:
            for entry in edge.by.entries:
                if abs(entry.value()) > MOST_OFFSET:
                    yield over("offset", entry, f"an offset's entries are at most {MOST_OFFSET} in absolute value")

    def apply(self) -> None:
        body, script = self.body, self.script
        if body.kind is not None:
            dim, nodes, edges = BUILT_IN[body.kind.text]
            if len(script.nodes) != nodes:
                script.nodes = {str(node): node for node in range(nodes)}
        else:
            dim, edges = script.dim, [
                Edge(edge.label.text, script.nodes[edge.source.text], offset(edge.by.values()), script.nodes[edge.target.text])
                for edge in body.edges]
        script.topology = Topology(dim, len(script.nodes), edges)


class OnlyMeaning(Meaning):
    """`%only`."""

    def names(self) -> Iterator[Fault]:
        body, script = self.body, self.script
        if body.node.text not in script.nodes:
            yield unknown(body.node, f"no node has this name; the nodes are {' '.join(script.nodes)}")
        elif body.node.text in self._restricted():
            yield twice(body.node, f"the node {body.node.text} is restricted twice")
        yield from self.known_symbols(body.symbols)
        yield from repeated(body.symbols, "the symbol")

    def _restricted(self) -> List[str]:
        return [command.body.node.text for command in self.before() if isinstance(command.body, Only)]

    def apply(self) -> None:
        script, body = self.script, self.body
        if not script.allowed:
            script.allowed = [list(script.symbols.values()) for _ in script.nodes]
        script.allowed[script.nodes[body.node.text]] = sorted(script.symbols[symbol.text] for symbol in body.symbols)


class WeightsMeaning(Meaning):
    """`%weights`."""

    def shapes(self) -> Iterator[Fault]:
        given, wanted = len(self.body.values), len(self.script.symbols)
        if given != wanted:
            yield shape(self.body.values[0], f"there are {given} weights for {wanted} symbols")

    def sizes(self) -> Iterator[Fault]:
        for value in self.body.values:
            if value.value() > MOST_WEIGHT:
                yield over("weight", value, f"a weight is at most {MOST_WEIGHT}")

    def apply(self) -> None:
        self.script.weights = [value.value() for value in self.body.values]


class LimitsMeaning(Meaning):
    """`%limits`."""

    def sizes(self) -> Iterator[Fault]:
        radius, period, pivots = self.body.values
        if radius.value() > MOST_RADIUS:
            yield over("limits", radius, f"the greatest radius is at most {MOST_RADIUS}")
        if not 1 <= period.value() <= MOST_PERIOD:
            yield over("limits", period, f"the greatest period is in 1..{MOST_PERIOD}")
        if pivots.value() > MOST_PIVOTS:
            yield over("limits", pivots, f"the greatest number of pivots is at most {MOST_PIVOTS:,}")

    def apply(self) -> None:
        self.script.limits = Limits(*[value.value() for value in self.body.values])
