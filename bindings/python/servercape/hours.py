"""Station hours as the numbers of a calendar."""
from array import array
from collections.abc import Iterable

# Minutes of a day, each window from its first up to, and not including, its second.
Windows = Iterable[tuple[int, int]]

# How many days have hours; the most windows of a day, and the most special days. More can be said, by their count, and are refused.
WEEK, MOST_WINDOWS, MOST_SPECIAL = 7, 8, 64


def calendar(week: Iterable[Windows], special: Iterable[tuple[int, Windows]]) -> "array[int]":
    """The hours of each weekday; a count; of each special day its number and hours."""
    days, special = list(week), list(special)
    if len(days) != WEEK:
        raise ValueError(f"a week has {WEEK} days, not {len(days)}")
    numbers = [number for windows in days for number in _hours(windows)] + [len(special)]
    for day, windows in special[:MOST_SPECIAL]:
        numbers += (day, *_hours(windows))
    try:
        return array("Q", numbers)
    except OverflowError:
        raise ValueError("a number of the calendar is not from 0 to 2^64 - 1") from None


def _hours(windows: Windows) -> list[int]:
    """A count and eight pairs."""
    windows = list(windows)
    pairs = [number for start, end in windows[:MOST_WINDOWS] for number in (start, end)]
    return [len(windows), *pairs, *[0] * (2 * MOST_WINDOWS - len(pairs))]
