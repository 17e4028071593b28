"""How many nodes and entries finish needs, counted from the lives of an open index's blocks and
pieces.

The inner nodes of the tree over [0, end) are a binary search tree of the ticks between 0 and end: a
node's tick is its middle. The number of a tick is its way down, a bit for each level: 0 for left
and 1 for right, then a 1 for the node itself, then zeros. So numbers stand in the order of ticks,
and the highest bit in which two ways differ says how deep they part.

A block that lives from c to d is an entry of the nodes that hang to the right of the way down to c
and to the left of the way down to d, below where these two part. So its entries come of three
tables by tick: numbers, and how many bits there are in a number and in the one before it.
"""
from array import array
from collections.abc import Sequence
from itertools import pairwise
from typing import NamedTuple

# All ticks up to the last one are numbered together where they are at most so many times as many as
# the lives; else each by itself.
SPARSE = 2

# A number for each tick, or for some.
_ByTick = list[int] | dict[int, int]


class Lives(NamedTuple):
    """The ticks of one kind's blocks, and those at which its pieces were written, which live up
    to the end."""

    created: Sequence[int]
    destroyed: Sequence[int]
    written: Sequence[int]


class Need(NamedTuple):
    """What finish needs: just so many entries, and at most so many nodes."""

    nodes: int
    entries: int


def need(lives: Lives, end: int) -> Need:
    """What finish needs for the tree of one kind."""
    if max(lives.destroyed, default=0) >= end:
        lives = _inside(lives, end)
    created, destroyed, written = lives
    if not created and not written:
        return Need(0, 0)
    last = max(max(destroyed, default=0), max(written, default=0))
    if last <= SPARSE * (len(created) + len(written)):
        ways = _Ways.up_to(last, end)
        inner = last + ways.to_right(last)
    else:
        ticks = sorted({*created, *destroyed, *written} - {0})
        ways = _Ways.to_each(ticks, end)
        # a node has halves where a tick is strictly inside it: those on the ways down, of which
        # those of two neighbours have the upper part in common
        inner = sum(ways.to_right(tick) + ways.to_left(tick) + 1 for tick in ticks)
        inner -= sum(ways.common(*pair) for pair in pairwise(ticks))
    # blocks of no life at tick 0, which are no entries, make the nodes on the way to its leaf
    none = destroyed.count(0)
    entries = ways.entries(created, destroyed) - none
    entries += sum(map(ways.to_right, written)) + len(written)
    return Need(1 + 2 * (inner + (ways.levels if none else 0)), entries)


def _inside(lives: Lives, end: int) -> Lives:
    """The same with blocks that live up to the end among the pieces. No call leaves such blocks
    in an open index."""
    pairs = list(zip(lives.created, lives.destroyed))
    inside = [pair for pair in pairs if pair[1] < end]
    lasting = [min(created, end - 1) for created, destroyed in pairs if destroyed >= end]
    created, destroyed = [pair[0] for pair in inside], [pair[1] for pair in inside]
    return Lives(created, destroyed, [*lives.written, *lasting])


class _Ways:
    """The ways down to some ticks, by tick, and to tick 0, which is on the left of every node."""

    def __init__(self, levels: int, tables: Sequence[_ByTick]) -> None:
        self.levels = levels
        self._number, self._before, self._ones, self._ones_before = tables

    @classmethod
    def up_to(cls, last: int, end: int) -> "_Ways":
        """Those to all ticks up to the last one."""
        levels = _levels(end)
        return cls(levels, _tables(levels, _numbers(end, levels, last, {})))

    @classmethod
    def to_each(cls, ticks: Sequence[int], end: int) -> "_Ways":
        """Those to some ticks."""
        levels = _levels(end)
        tables = _tables(levels, [_number(end, levels, tick) for tick in ticks])
        return cls(levels, [dict(zip([0, *ticks], table)) for table in tables])

    def to_left(self, tick: int) -> int:
        """How many nodes hang to the left of a way."""
        return self._ones[tick] - 1

    def to_right(self, tick: int) -> int:
        """How many nodes hang to the right of it."""
        return self.levels - 1 - self._ones_before[tick]

    def common(self, first: int, second: int) -> int:
        """How many nodes two ways to ascending ticks have in common."""
        return self.levels + 1 - (self._before[first] ^ self._number[second]).bit_length()

    def entries(self, created: Sequence[int], destroyed: Sequence[int]) -> int:
        """Of all blocks with such lives: what hangs to the right of one way and to the left of
        the other, less what hangs above where they part."""
        number, before = self._number, self._before
        ones, ones_before = self._ones, self._ones_before
        each = [(before[start] ^ number[end]).bit_length() + ones[end] - ones_before[start]
                for start, end in zip(created, destroyed)]
        return sum(each) - 2 * len(each)


def _levels(end: int) -> int:
    return max(1, (end - 1).bit_length())


def _tables(levels: int, numbers: Sequence[int]) -> list[list[int]]:
    """The number of tick 0 and of others, those before them, and the bits of both. The way to tick
    0 parts from all others above the root."""
    before = [number - 1 for number in numbers]
    ones, ones_before = map(int.bit_count, numbers), map(int.bit_count, before)
    return [[0, *numbers], [1 << levels, *before], [1, *ones], [levels - 1, *ones_before]]


def _number(end: int, levels: int, tick: int) -> int:
    """The number of a tick."""
    low, high, number, half = 0, end, 0, 1 << levels
    while True:
        middle, half = (low + high) // 2, half >> 1
        if tick == middle:
            return number | half
        if tick < middle:
            high = middle
        else:
            low, number = middle, number | half


def _numbers(width: int, levels: int, wanted: int,
             known: "dict[tuple[int, int, int], array[int]]") -> "array[int]":
    """The numbers of the first so many ticks strictly inside a node of some width. A level of
    the tree has two widths at most, so most parts are known."""
    wanted = min(wanted, width - 1)
    if wanted == 0:
        return array("Q")
    key = width, levels, wanted
    if key not in known:
        left, half = width // 2, 1 << (levels - 1)
        numbers = _numbers(left, levels - 1, wanted, known)[:]
        if wanted >= left:
            numbers.append(half)
            right = _numbers(width - left, levels - 1, wanted - left, known)
            numbers.extend(map(half.__or__, right))
        known[key] = numbers
    return known[key]
