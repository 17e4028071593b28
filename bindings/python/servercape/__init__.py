"""The history of a planning board: which bytes its cells held at each tick, by calls that are proved.

    index = Index.open(8)
    index.record(1, 100, bytes([7, 7, 7]))
    index.finish()
    for number in index.touching(1, 90, 101):
        print(index.block(number))
"""
from .days import Days
from .index import Block, Found, Index, Kind, Operation
from .library import VERSION as __version__
from .places import Place
from .refusal import ADVICE, WORDS, Refused
from .reports import Occupation

__all__ = ["ADVICE", "Block", "Days", "Found", "Index", "Kind", "Occupation", "Operation", "Place", "Refused", "WORDS", "__version__"]
