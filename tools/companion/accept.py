"""Reads a script from its bytes: gives the script, or the fault for which it is refused."""
from typing import Dict, List, Type

from .commands import (Alphabet, AutoText, Command, ComposeText, ConfText, Dim, Limits, Nodes, Only, RuleText, TopologyText, Weights)
from .definitions import AutoMeaning, ComposeMeaning, ConfMeaning, RuleMeaning
from .header import (AlphabetMeaning, DimMeaning, LimitsMeaning, NodesMeaning, OnlyMeaning, TopologyMeaning, WeightsMeaning)
from .meaning import Meaning
from .queries import QUERIES
from .reader import Reader
from .script import Script
from .tokens import tokens_of

MOST_BYTES = 1048576

MEANINGS: Dict[type, Type[Meaning]] = {
    Dim: DimMeaning, Nodes: NodesMeaning, Alphabet: AlphabetMeaning, TopologyText: TopologyMeaning, Only: OnlyMeaning,
    Weights: WeightsMeaning, Limits: LimitsMeaning, RuleText: RuleMeaning, ConfText: ConfMeaning, AutoText: AutoMeaning,
    ComposeText: ComposeMeaning,
}


def commands_of(text: bytes) -> List[Command]:
    """The commands of a script; raises the first Fault of its syntax."""
    return Reader(tokens_of(text), {word: list(query.arguments) for word, query in QUERIES.items()}).commands()


def accept(text: bytes) -> Script:
    """The script that these bytes spell; raises the Fault for which they are refused."""
    commands = commands_of(text)
    script = Script()
    for command in commands:
        kind = MEANINGS.get(type(command.body)) or QUERIES[command.keyword.text]
        meaning = kind(script, command, commands)
        fault = meaning.fault()
        if fault:
            raise fault
        meaning.apply()
    script.end_header()
    return script
