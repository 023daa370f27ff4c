"""The kinds of queries. A new one is a module with a class of its own, a line in this table, and its answers in answers.py and
outputs.py."""
from typing import Dict, Type

from .base import Query
from .comparisons import Contains, Emptiness, Equal, Same
from .densities import LeastDensity
from .discharges import BestBound
from .images import Conjugacy, Maps
from .membership import Member
from .patterns import Forbidden, MinimalPatterns
from .tori import LeastWeight

KINDS = (Member, Contains, Equal, Emptiness, Same, Forbidden, LeastDensity, BestBound, MinimalPatterns, Maps, Conjugacy, LeastWeight)

QUERIES: Dict[str, Type[Query]] = {kind.word: kind for kind in KINDS}
"""Each kind of query by its word."""
