"""What the command prints of reports: windows as they are written, and how reports are listed."""
from collections.abc import Iterator, Sequence
from typing import NamedTuple

from .boardfile import KINDS, Fault, number
from .days import Days
from .index import Index, Kind
from .listing import Listing, Row, stretch, times
from .places import MINUTES, Place, minutes_on
from .reports import Occupation

Window = tuple[int, int]

MOST_PLATFORM = MINUTES - 1


# ── windows ──


def platforms_of(text: str) -> range:
    """One platform, or some from the first to the last, as `2` or `1-4`."""
    first, dash, last = text.partition("-")
    one = number(first, 64, "the platform")
    other = number(last, 64, "the last platform") if dash else one
    if not one <= other <= MOST_PLATFORM:
        raise Fault(f"'{text}' are no platforms: write one, as 2, or the first and the last, "
                    "as 1-4, each below 2^32")
    return range(one, other + 1)


def windows_of(text: str, days: Days) -> list[Window]:
    """What --window says: cells, as `100..104`; or minutes of a platform or of several, as
    `1-4:monday 06:00..monday 22:00`."""
    front, colon, minutes = text.partition(":")
    on_platforms = bool(colon) and front.replace("-", "", 1).isdigit()
    start, dots, end = (minutes if on_platforms else text).partition("..")
    if not dots:
        raise Fault(f"'{text}' is no window: write FROM..TO, as '100..104' or "
                    "'2:monday 06:00..monday 22:00'")
    if on_platforms:
        first, behind = start.strip() or None, end.strip() or None
        return [minutes_on(platform, first, behind, days) for platform in platforms_of(front)]
    return [(number(start, 64, "the window's first cell"),
             number(end, 64, "the cell behind the window"))]


def window_words(window: Window, days: Days) -> str:
    """Where a window is; one without cells is at a minute."""
    start, end = window
    if start < end:
        return stretch(start, end, days)
    place = Place.of(start)
    return f"platform {place.platform} at {place.time_by(days)}, 0 min"


# ── occupation ──


class Occupied(NamedTuple):
    """The report on a window, or on all together; there is none on a window without cells."""

    window: Window | None
    length: int
    report: Occupation | None


def occupied(index: Index, tick: int, windows: Sequence[Window], each: bool) -> Iterator[Occupied]:
    """All windows together; in front of that, where it is asked for, each by itself."""
    together = index.occupation(tick, windows)
    for start, end in windows if each else ():
        report = index.occupation(tick, [(start, end)]) if start < end else None
        yield Occupied((start, end), end - start, report)
    yield Occupied(None, sum(end - start for start, end in windows), together)


def occupation_listing(days: Days, kind: Kind) -> Listing[Occupied]:
    time = times(days)

    def share(told: Occupied) -> Row:
        report = told.report
        return (report.occupied, report.cells, report.percent) if report else (0, 0, None)

    def plain(told: Occupied) -> Row:
        return *(told.window or ("-", "-")), *("-" if each is None else each for each in share(told))

    def row(told: Occupied) -> Row:
        where: Row = (None,) * 4
        if told.window is not None:
            platform, minute = divmod(told.window[0], MINUTES)
            where = platform, minute, *time(minute)
        return *where, told.length, KINDS[kind], *share(told)

    def words(told: Occupied) -> str:
        where = window_words(told.window, days) if told.window else "all windows together"
        if told.report is None:
            return f"{where}: no cell"
        count, cells, _ = told.report
        return f"{where}: {count}/{cells} occupied, {told.report.percent} %"

    return Listing(("start", "end", "occupied", "cells", "percent"), plain,
                   ("platform", "minute", "day", "clock", "length", "kind",
                    "occupied", "cells", "percent"), row, words)
