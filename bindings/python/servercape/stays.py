"""What stands on a board, train by train: runs of one byte, and stays, which are runs joined."""
import re
from collections.abc import Iterable, Iterator
from typing import NamedTuple

from .index import Block, Kind
from .places import MINUTES

# The byte that says that a platform is free.
FREE = 0

# A train by its byte, as lists of bookings have it, in hexadecimal digits; of minutes without one, that they are free.
TRAIN_NAMES = tuple("free" if byte == FREE else f"{byte:02x}" for byte in range(256))

EQUAL_BYTES = re.compile(rb"(.)\1*", re.DOTALL)


def trains(data: bytes) -> str:
    """Bytes as trains: one name where all are equal, else one for each run, as `free*10 51*40`."""
    if data.count(data[0]) == len(data):
        return TRAIN_NAMES[data[0]]
    equal = (match.group() for match in EQUAL_BYTES.finditer(data))
    return " ".join(TRAIN_NAMES[run[0]] + (f"*{len(run)}" if len(run) > 1 else "") for run in equal)


class Run(NamedTuple):
    """Cells from `first` up to, and not including, `end`: on one platform, with one byte."""

    first: int
    end: int
    train: int


def runs(block: Block) -> Iterator[Run]:
    """A block's cells, ascending."""
    for match in EQUAL_BYTES.finditer(block.bytes):
        first, end = block.first + match.start(), block.first + match.end()
        while first < end:
            behind = min(end, (first // MINUTES + 1) * MINUTES)
            yield Run(first, behind, block.bytes[match.start()])
            first = behind


class Stay(NamedTuple):
    """A train that stands in the cells from `first` up to, and not including, `end`, as it was recorded at tick `created`. It stands so up to, and not including,
    tick `destroyed`."""

    kind: Kind
    first: int
    end: int
    train: int
    created: int
    destroyed: int


def stays(blocks: Iterable[Block], start: int, end: int) -> Iterator[Stay]:
    """The stays in the cells of [start, end), of blocks that are live at one tick, ascending by first cell. Runs side by side with the same train, recorded at the
    same tick, are one stay; what lies outside is cut off, and free minutes are left out."""
    stay: Stay | None = None
    for block in blocks:
        for run in runs(block):
            first, behind = max(run.first, start), min(run.end, end)
            if run.train == FREE or first >= behind:
                continue
            if stay is not None and joined(stay, first, run.train, block.created):
                stay = stay._replace(end=behind, destroyed=min(stay.destroyed, block.destroyed))
                continue
            if stay is not None:
                yield stay
            stay = Stay(block.kind, first, behind, run.train, block.created, block.destroyed)
    if stay is not None:
        yield stay


def joined(stay: Stay, first: int, train: int, created: int) -> bool:
    """Whether a run goes on with a stay, on the same platform."""
    return (stay.end, stay.train, stay.created) == (first, train, created) and first % MINUTES != 0
