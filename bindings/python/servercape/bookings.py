"""Lists of bookings of any size: readable, as tools/boardfile.py has it, or the binary input of the program `board`.

A readable list may have several kinds, which that program has not: `kind memory other` names them, and `at 3 kind other cell 102 bytes 09` is a booking of one of
them. A booking that names none is of the first.
"""
import struct
from typing import Any, NamedTuple

from .boardfile import FRONT, MARK, START, Fault, kind_of, statement
from .days import REGULAR, Days
from .index import Operation
from .places import Place

BOM = b"\xef\xbb\xbf"
WIDE_BOMS = (b"\xff\xfe", b"\xfe\xff")
FIELDS = struct.Struct("<2sQQH")


class Bookings(NamedTuple):
    """A list of bookings. Of each `kinds_of` has its kind, and `places` the number of its line, or of its record."""

    end_tick: int
    kinds: list[int]
    operations: list[Operation]
    kinds_of: list[int]
    places: list[int]
    unit: str

    def place(self, number: int) -> str:
        return f"{self.unit} {self.places[number]}"


def read_bookings(data: bytes, days: Days = REGULAR) -> Bookings:
    """Reads either form. What is binary has a zero in its end tick or kind, or a mark behind them; no text has. Days and clock times of a text go by a list of days.
    Raises `Fault`."""
    marked = data[START:START + len(MARK)] == MARK
    if not marked and is_wide(data):
        raise Fault("this is text in UTF-16: save the list as UTF-8")
    return read_binary(data) if marked or b"\0" in data[:START] else read_text(data, days)


def is_wide(data: bytes) -> bool:
    """Whether bytes are text in UTF-16: by the mark in front, or by a zero beside each of the first characters. A binary list without bookings has nine bytes."""
    front = data[:START - 1]
    pairs = (front[0::2], front[1::2])
    zero_beside = len(front) == START - 1 and any(not any(zeros) and text.isascii() and all(text) for text, zeros in (pairs, pairs[::-1]))
    return len(data) != START and (data.startswith(WIDE_BOMS) or zero_beside)


def moved(booking: tuple[int, int, bytes], days: Days) -> tuple[int, int, bytes]:
    """A booking by platform, day and clock time, which was read as if every day had 1,440 minutes."""
    tick, cell, data = booking
    return tick, Place.of(cell).moved(days).cell, data


def without_kind(words: list[str], kinds: list[int]) -> tuple[list[str], int]:
    """A line as `board` has it, with one kind at most and none in a booking, and the kind of its booking. Further kinds of the list join those that are known."""
    if words[0] == "kind":
        kinds += map(kind_of, words[1:])
        return words[:2], 0
    if words[0] == "at" and words[2:3] == ["kind"]:
        if len(words) < 4:
            raise Fault("write: at TICK kind KIND cell CELL bytes .. or: at TICK kind KIND platform P DAY HH:MM bytes ..")
        return words[:2] + words[4:], kind_of(words[3])
    return words, kinds[0] if kinds else 0


def read_text(data: bytes, days: Days) -> Bookings:
    board: dict[str, Any] = {"bookings": []}
    kinds: list[int] = []
    kinds_of: list[int] = []
    places: list[int] = []
    for at, line in enumerate(data.removeprefix(BOM).split(b"\n"), 1):
        try:
            words = line.decode("utf-8").partition("#")[0].split()
            if words:
                words, kind = without_kind(words, kinds)
                statement(board, words)
            if len(board["bookings"]) > len(places):
                places.append(at)
                kinds_of.append(kind)
                if days.listed and words[2] == "platform":
                    board["bookings"][-1] = moved(board["bookings"][-1], days)
        except UnicodeDecodeError:
            raise Fault(f"line {at}: this is no text in UTF-8") from None
        except Fault as fault:
            raise Fault(f"line {at}: {fault}") from None
    for name in ("end", "kind"):
        if name not in board:
            raise Fault(f"there is no {name}")
    return Bookings(board["end"], kinds, list(map(Operation._make, board["bookings"])), kinds_of, places, "line")


def read_binary(data: bytes) -> Bookings:
    if len(data) < START:
        raise Fault(f"record 0 is cut: there are {len(data)} bytes, and end tick and kind take {START}")
    operations: list[Operation] = []
    end_tick, kind = struct.unpack_from("<QB", data)
    at = START
    while at < len(data):
        where = f"record {len(operations) + 1}, at byte {at}"
        if not MARK.startswith(data[at:at + 2]):
            raise Fault(f"{where}: its mark is {data[at:at + 2].hex(' ')}, not b7 4f")
        start = at + FRONT
        if len(data) < start:
            raise Fault(f"{where}, is cut")
        _, tick, first, length = FIELDS.unpack_from(data, at)
        at = start + length
        if len(data) < at:
            raise Fault(f"{where}, is cut")
        operations.append(Operation(tick, first, data[start:at]))
    return Bookings(end_tick, [kind], operations, [kind] * len(operations), list(range(1, len(operations) + 1)), "record")
