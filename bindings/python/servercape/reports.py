"""What reports on a closed index tell: how much of some windows is occupied."""
from __future__ import annotations

from array import array
from collections.abc import Iterable
from fractions import Fraction
from typing import NamedTuple


class Occupation(NamedTuple):
    """How many cells of some windows are occupied: held, with a byte other than 0. The fraction
    `occupied / cells` is reduced fully. `tenths` of a percent are from 0 to 1,000: the nearest, and
    of two that are as near the even one."""

    occupied: int
    cells: int
    tenths: int

    @property
    def fraction(self) -> Fraction:
        return Fraction(self.occupied, self.cells)

    @property
    def percent(self) -> float:
        return self.tenths / 10

    def __str__(self) -> str:
        return f"{self.occupied}/{self.cells} ({self.percent} %)"


def window_numbers(windows: Iterable[tuple[int, int]]) -> array[int]:
    """The starts and ends of windows, one behind the other."""
    try:
        return array("Q", [cell for start, end in windows for cell in (start, end)])
    except OverflowError:
        raise ValueError("a cell of a window is not from 0 to 2^64 - 1") from None
