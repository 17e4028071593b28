"""Rows as plain lines, as a spreadsheet's, as JSON, or in words."""
import csv
import json
from collections.abc import Callable, Iterable
from functools import lru_cache
from typing import Generic, NamedTuple, TextIO, TypeVar

from .boardfile import KINDS
from .days import Days
from .index import Block, Kind
from .places import MINUTES, Place
from .stays import TRAIN_NAMES, Stay, trains

T = TypeVar("T")
Value = int | float | str | None
Row = tuple[Value, ...]

# Programs that read JSON keep whole numbers up to here; larger ones, as ticks may be, are written as text.
MOST_WHOLE = 1 << 53

# How many clock times are kept while rows are written.
KEPT = 1 << 16


class Listing(NamedTuple, Generic[T]):
    """How things of one sort are listed: the columns of plain lines and of spreadsheets and JSON, the row that a thing has in each, and its words. Where no value
    can need a spreadsheet's quotes, rows are written as they are, which takes half the time."""

    plain_columns: tuple[str, ...]
    plain: Callable[[T], Row]
    columns: tuple[str, ...]
    row: Callable[[T], Row]
    words: Callable[[T], str]
    unquoted: bool = False


def show(things: Iterable[T], listing: Listing[T], form: str, out: TextIO) -> None:
    """Prints things in a form: plain, human, csv or json."""
    if form == "json":
        show_json(map(listing.row, things), listing.columns, out)
    elif form == "csv" and listing.unquoted:
        show_lines(map(listing.row, things), listing.columns, ",", out)
    elif form == "csv":
        writer = csv.writer(out, lineterminator="\n")
        writer.writerow(listing.columns)
        writer.writerows(map(listing.row, things))
    elif form == "human":
        out.writelines(f"{listing.words(thing)}\n" for thing in things)
    else:
        show_lines(map(listing.plain, things), listing.plain_columns, " ", out)


def show_lines(rows: Iterable[Row], columns: tuple[str, ...], separator: str, out: TextIO) -> None:
    line = separator.join(["%s"] * len(columns)) + "\n"
    out.write(line % columns)
    out.writelines(map(line.__mod__, rows))


def show_json(rows: Iterable[Row], columns: tuple[str, ...], out: TextIO) -> None:
    separator = "["
    for row in rows:
        out.write(f"{separator}\n {json.dumps({name: json_value(value) for name, value in zip(columns, row)})}")
        separator = ","
    out.write("[]\n" if separator == "[" else "\n]\n")


def json_value(value: Value) -> Value:
    return str(value) if isinstance(value, int) and value > MOST_WHOLE else value


# ── words and times ──


def times(days: Days) -> Callable[[int], tuple[str, str]]:
    """Day and clock time of a minute, as `("tuesday+1", "01:42")`."""

    @lru_cache(KEPT)
    def time(minute: int) -> tuple[str, str]:
        day, _, clock = days.time(minute).partition(" ")
        return day, clock

    return time


def labels(days: Days) -> Callable[[int], str]:
    """Clock label of a cell, four digits, as the call gives it."""
    time = times(days)
    return lambda cell: time(cell % MINUTES)[1].replace(":", "")


def stretch(first: int, end: int, days: Days) -> str:
    """Cells in words, half open: the second time is the first minute that is no longer meant."""
    start, last = Place.of(first), Place.of(end - 1)
    other = "" if last.platform == start.platform else f"platform {last.platform} "
    return f"platform {start.platform} from {days.time(start.minute)} to {other}{days.time(last.minute + 1)}, {end - first} min"


# ── what is listed ──


def block_listing(days: Days) -> Listing[tuple[int, Block]]:
    """Blocks with their numbers. The plain lines are those of the program `board`, with the number in front and the train behind."""
    time, label = times(days), labels(days)

    def plain(numbered: tuple[int, Block]) -> Row:
        number, (_, first, created, destroyed, data) = numbered
        return number, first, len(data), created, destroyed, label(first), data.hex(), trains(data)

    def row(numbered: tuple[int, Block]) -> Row:
        number, (kind, first, created, destroyed, data) = numbered
        platform, minute = divmod(first, MINUTES)
        day, clock = time(minute)
        return number, platform, minute, day, clock, len(data), KINDS[kind], trains(data), created, destroyed

    def words(numbered: tuple[int, Block]) -> str:
        number, block = numbered
        name = trains(block.bytes)
        who = name if name == "free" else f"trains {name}" if " " in name else f"train {name}"
        return f"block {number}: {who} at {stretch(block.first, block.end, days)}, live from tick {block.created} up to {block.destroyed}"

    return Listing(("block", "cell", "n", "from", "to", "clock", "bytes", "train"), plain,
                   ("block", "platform", "minute", "day", "clock", "length", "kind", "train", "created", "destroyed"), row, words, unquoted=True)


def stay_listing(days: Days) -> Listing[Stay]:
    time, label = times(days), labels(days)

    def plain(stay: Stay) -> Row:
        return stay.first, stay.end - stay.first, stay.created, stay.destroyed, label(stay.first), TRAIN_NAMES[stay.train]

    def row(stay: Stay) -> Row:
        platform, minute = divmod(stay.first, MINUTES)
        day, clock = time(minute)
        return platform, minute, day, clock, stay.end - stay.first, KINDS[stay.kind], TRAIN_NAMES[stay.train], stay.created, stay.destroyed

    def words(stay: Stay) -> str:
        return f"train {TRAIN_NAMES[stay.train]} at {stretch(stay.first, stay.end, days)}, booked at tick {stay.created}, stands so up to {stay.destroyed}"

    return Listing(("cell", "n", "from", "to", "clock", "train"), plain,
                   ("platform", "minute", "day", "clock", "length", "kind", "train", "created", "destroyed"), row, words, unquoted=True)


def cell_listing(days: Days, kind: Kind) -> Listing[tuple[int, int | None]]:
    """Cells with the byte that each holds, None where it holds none."""
    time, label = times(days), labels(days)

    def plain(held: tuple[int, int | None]) -> Row:
        cell, byte = held
        return cell, label(cell), "-" if byte is None else f"{byte:02x}"

    def row(held: tuple[int, int | None]) -> Row:
        cell, byte = held
        platform, minute = divmod(cell, MINUTES)
        return platform, minute, *time(minute), KINDS[kind], None if byte is None else TRAIN_NAMES[byte]

    def words(held: tuple[int, int | None]) -> str:
        cell, byte = held
        place = Place.of(cell)
        what = "no booking" if byte is None else "free" if byte == 0 else f"train {TRAIN_NAMES[byte]}"
        return f"platform {place.platform} {place.time_by(days)}: {what}"

    return Listing(("cell", "clock", "byte"), plain, ("platform", "minute", "day", "clock", "kind", "train"), row, words)


def same(columns: tuple[str, ...], row: Callable[[T], Row], words: Callable[[T], str]) -> Listing[T]:
    """Things whose plain lines have the columns of a spreadsheet."""
    return Listing(columns, row, columns, row, words)
