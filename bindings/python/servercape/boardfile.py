#!/usr/bin/env python3
"""Turns a readable list of bookings into the input of the program `board`, and back.

  boardfile.py make FILE.txt [FILE.board]   text to input
  boardfile.py show FILE.board [FILE.txt]   input to text
  boardfile.py --test                       tries itself, by round trips and by wrong files
  boardfile.py --help                       this text

`-` stands for standard input or output; without the second file it writes standard output. The status is 0 where it is done, 1 for a wrong file, 2 for wrong
arguments, 3 where reading or writing failed.

The text has one statement to a line; `#` starts a comment:

  end 8                                      the end tick, first of all
  kind memory                                constant, memory, register, unique, other, or a number up to 255
  at 3 cell 102 bytes 090909                 a booking: tick, first cell, a byte for each cell
  at 3 platform 2 monday 01:42 bytes 09*3    the same bytes from 01:42 on platform 2
  at 5 platform 0 tuesday+1 23:52 bytes 07*8 0000

A cell has its platform in the upper 32 bits and its minute in the lower 32. Minute 0 is a Monday 00:00, and every day has 1,440 minutes; `tuesday+1` is
the Tuesday one week after the first. Bytes are pairs of hexadecimal digits, in one or more words; `09*3` stands for `090909`, and no word at all for no
cells. Bookings stand in the order in which they are made. Text that board would refuse, as a kind above 4, is taken: it may be meant. The text is UTF-8; a
byte order mark in front is passed over.

The input has 8 bytes of end tick, 1 of kind, then for each booking the mark B7 4F, 8 bytes of tick, 8 of first cell, 2 of length, and the bytes; numbers
are little-endian. Board reads the first 65,536 bytes: a longer input is refused here.
"""
import random
import sys
from collections.abc import Callable
from pathlib import Path
from typing import Any, TypedDict, TypeVar

MARK = b"\xb7\x4f"
FRONT = 20  # bytes of a record before its own bytes: mark, tick, first cell, length
START = 9  # bytes before the first record: end tick, kind
MOST_INPUT = 65536
MOST_BYTES = 65535
DAY = 1440
KINDS = ["constant", "memory", "register", "unique", "other"]
DAYS = ["monday", "tuesday", "wednesday", "thursday", "friday", "saturday", "sunday"]


# Tick, first cell and bytes.
Booking = tuple[int, int, bytes]
Given = TypeVar("Given")


class Board(TypedDict, total=False):
    """A list of bookings, with its end tick and kind once they are known."""

    end: int
    kind: int
    bookings: list[Booking]


class Fault(Exception):
    """What is wrong with a file; the caller adds its name."""


# ── from text ──


def number(word: str, bits: int, what: str) -> int:
    """A decimal number that fits so many bits."""
    if not (word.isascii() and word.isdigit()):
        raise Fault(f"{what} must be a number, not '{word}'")
    digits = word.lstrip("0") or "0"
    if len(digits) > 20 or int(digits) >= 1 << bits:
        raise Fault(f"{what} {digits[:30]} is too large: it must be below 2^{bits}")
    return int(digits)


def kind_of(word: str) -> int:
    return KINDS.index(word.lower()) if word.lower() in KINDS else number(word, 8, "the kind")


def minute_of(day: str, time: str) -> int:
    """The minute of a day, as `monday` or `tuesday+1`, and a clock time, as `01:42`."""
    name, plus, weeks = day.partition("+")
    if name.lower() not in DAYS:
        raise Fault(f"'{day}' is no day: write monday to sunday, with +N for N weeks later")
    week = number(weeks, 32, "the week") if plus else 0
    hours, colon, minutes = time.partition(":")
    if not colon or len(minutes) != 2:
        raise Fault(f"'{time}' is no clock time: write it as 01:42")
    hour, minute = number(hours, 8, "the hour"), number(minutes, 8, "the minute")
    if hour > 23 or minute > 59:
        raise Fault(f"'{time}' is no clock time: it goes from 00:00 to 23:59")
    whole = (7 * week + DAYS.index(name.lower())) * DAY + 60 * hour + minute
    if whole >= 1 << 32:
        raise Fault(f"'{day} {time}' is too late: a platform has 2^32 minutes")
    return whole


def bytes_of(words: list[str]) -> bytes:
    """The bytes that words stand for: pairs of hexadecimal digits, `09*3` for three times 09."""
    out = bytearray()
    for word in words:
        pairs, star, times = word.partition("*")
        try:
            part = bytes.fromhex(pairs)
        except ValueError:
            part = b""
        if not part:
            raise Fault(f"'{word}' is no bytes: write pairs of hexadecimal digits, as 0709 or 07*14")
        repeat = number(times, 32, "the repeat") if star else 1
        if len(out) + repeat * len(part) > MOST_BYTES:
            raise Fault(f"a booking has at most {MOST_BYTES} bytes")
        out += part * repeat
    return bytes(out)


def booking(words: list[str]) -> Booking:
    """Tick, first cell and bytes of `at TICK cell CELL bytes ..` or `at TICK platform P DAY TIME bytes ..`."""
    form = "write: at TICK cell CELL bytes .. or: at TICK platform P DAY HH:MM bytes .."
    if len(words) >= 5 and words[2] == "cell" and words[4] == "bytes":
        cell, rest = number(words[3], 64, "the cell"), words[5:]
    elif len(words) >= 7 and words[2] == "platform" and words[6] == "bytes":
        cell = (number(words[3], 32, "the platform") << 32) + minute_of(words[4], words[5])
        rest = words[7:]
    else:
        raise Fault(form)
    return number(words[1], 64, "the tick"), cell, bytes_of(rest)


def statement(board: Board | dict[str, Any], words: list[str]) -> None:
    """Adds a line to the board: its `end`, its `kind`, or one of its bookings."""
    if words[0] in ("end", "kind"):
        if words[0] in board:
            raise Fault(f"there is more than one {words[0]}")
        if len(words) != 2:
            raise Fault(f"write: {words[0]} and its value")
        if words[0] == "end":
            board["end"] = number(words[1], 64, "the end tick")
        else:
            board["kind"] = kind_of(words[1])
    elif words[0] == "at":
        if "end" not in board or "kind" not in board:
            raise Fault("end and kind stand before the first booking")
        board["bookings"].append(booking(words))
    else:
        raise Fault(f"'{words[0]}' is no statement: it is end, kind or at")


def decoded(data: bytes) -> str:
    """A file's bytes as text."""
    try:
        return data.decode("utf-8-sig")
    except UnicodeDecodeError as error:
        # with the mark in front the error counts from behind it
        at = error.start + len(data) - len(error.object)
        line = data.count(b"\n", 0, at) + 1
        raise Fault(f"line {line}: byte {data[at]:02x} is no UTF-8 text; a board's input is turned into text by show") from None


def read_text(text: str) -> Board:
    board = Board(bookings=[])
    for at, line in enumerate(text.split("\n"), 1):
        words = line.partition("#")[0].split()
        try:
            if words:
                statement(board, words)
        except Fault as fault:
            raise Fault(f"line {at}: {fault}") from None
    for name in ("end", "kind"):
        if name not in board:
            raise Fault(f"there is no {name}")
    return board


# ── to and from input ──


def write_input(board: Board) -> bytes:
    parts = [board["end"].to_bytes(8, "little"), board["kind"].to_bytes(1, "little")]
    for tick, cell, data in board["bookings"]:
        parts += [MARK, tick.to_bytes(8, "little"), cell.to_bytes(8, "little"), len(data).to_bytes(2, "little"), data]
    whole = b"".join(parts)
    if len(whole) > MOST_INPUT:
        raise Fault(f"the input would have {len(whole)} bytes, and board reads the first {MOST_INPUT}")
    return whole


def read_input(data: bytes) -> Board:
    if len(data) < START:
        raise Fault(f"record 0 is cut: there are {len(data)} bytes, and end tick and kind take {START}")
    if len(data) > MOST_INPUT:
        raise Fault(f"the input has {len(data)} bytes, and board reads the first {MOST_INPUT}")

    def little(start: int, width: int) -> int:
        return int.from_bytes(data[start : start + width], "little")

    board, at = Board(end=little(0, 8), kind=little(8, 1), bookings=[]), START
    while at < len(data):
        k = len(board["bookings"]) + 1
        if not MARK.startswith(data[at : at + 2]):
            raise Fault(f"record {k}, at byte {at}: its mark is {data[at : at + 2].hex(' ')}, not b7 4f")
        start = at + FRONT
        if len(data) < start or len(data) < start + little(at + 18, 2):
            raise Fault(f"record {k}, at byte {at}, is cut")
        end = start + little(at + 18, 2)
        board["bookings"].append((little(at + 2, 8), little(at + 10, 8), data[start:end]))
        at = end
    return board


# ── to text ──


def words_of(data: bytes) -> list[str]:
    """Bytes as text: equal ones that follow one another as `09*3`, where that is shorter."""
    words: list[str] = []
    at = 0
    while at < len(data):
        end = at
        while end < len(data) and data[end] == data[at]:
            end += 1
        words.append(f"{data[at]:02x}*{end - at}" if end - at > 1 else f"{data[at]:02x}")
        at = end
    return words


def write_text(board: Board) -> str:
    kind = board["kind"]
    lines = [f"end {board['end']}", f"kind {KINDS[kind] if kind < len(KINDS) else kind}"]
    for tick, cell, data in board["bookings"]:
        platform, minute = cell >> 32, cell % (1 << 32)
        day, clock = divmod(minute, DAY)
        week, weekday = divmod(day, 7)
        name = DAYS[weekday] + (f"+{week}" if week else "")
        where = f"platform {platform} {name} {clock // 60:02}:{clock % 60:02}"
        lines.append(" ".join(["at", str(tick), where, "bytes", *words_of(data)]))
    return "\n".join(lines) + "\n"


# ── tests ──

LISTING = """end 8
kind memory
at 1 cell 100 bytes 070707   # a comment
at 3 platform 0 monday 01:42 bytes 09*3

at 5 cell 100 bytes 07 07
at 6 cell 103 bytes 04
"""

WRONG_TEXTS = [
    ("end 8\nkind cloud\n", "line 2: the kind"),
    ("end 8\nkind memory\nat 1 cell 5 bytes 7\n", "line 3: '7' is no bytes"),
    ("end 8\nkind 1\nat 1 platform 0 someday 01:42 bytes 07\n", "line 3: 'someday' is no day"),
    ("end 8\nkind 1\n\nat 1 platform 0 monday 24:00 bytes 07\n", "line 4: '24:00' is no clock time"),
    ("end 8\nkind 1\nat 1 platform 0 monday 1:2 bytes 07\n", "line 3: '1:2' is no clock time"),
    ("end 8\nkind 1\nat 18446744073709551616 cell 0 bytes 07\n", "line 3: the tick"),
    ("end " + 9999 * "9" + "\nkind 1\n", "line 1: the end tick 9999"),
    ("end 8\nkind 1\nat 1 cell 0 bytes 07*65536\n", "line 3: a booking has at most"),
    ("end 8\nkind 1\nat 1 platform 0 monday+426090 00:00 bytes 07\n", "line 3: 'monday+426090 00:00' is too late"),
    ("end 8\nkind 1\nat 1 bytes 07\n", "line 3: write: at TICK"),
    ("end 8\nkind 1\nend 9\n", "line 3: there is more than one end"),
    ("at 1 cell 0 bytes 07\n", "line 1: end and kind stand before"),
    ("end 8\nkind 1\nbook it\n", "line 3: 'book' is no statement"),
    ("end 8\n", "there is no kind"),
    ("end 8\nkind 1\n" + 2 * "at 1 cell 0 bytes 07*40000\n", "the input would have 80049 bytes"),
]

WRONG_BYTES = [
    (b"end 8\nkind 1\n# Z\xfcrich\n", "line 3: byte fc is no UTF-8 text"),
    (b"\xef\xbb\xbfend 8\nkind \xff\n", "line 2: byte ff is no UTF-8 text"),
    ("end 8\n".encode("utf-16"), "line 1: byte ff is no UTF-8 text"),
    (b"end 8\nkind 1\n# cut \xc3", "line 3: byte c3 is no UTF-8 text"),
]

WRONG_INPUTS = [
    (b"", "record 0 is cut"),
    (bytes(8), "record 0 is cut"),
    (bytes(9) + MARK, "record 1, at byte 9, is cut"),
    (bytes(9) + b"\x4f\xb7" + bytes(18), "record 1, at byte 9: its mark is 4f b7"),
    (bytes(9) + b"\xb7", "record 1, at byte 9, is cut"),
    (bytes(9) + MARK + bytes(18) + MARK + bytes(16) + b"\x02\x00\x07", "record 2, at byte 29, is cut"),
    (bytes(65537), "the input has 65537 bytes"),
]


def expect_fault(run: Callable[[Given], object], given: Given, words: str) -> None:
    try:
        run(given)
    except Fault as fault:
        assert words in str(fault), f"'{fault}' should say '{words}'"
    else:
        raise AssertionError(f"not refused: {repr(given)[:60]}")


def random_board(dice: random.Random) -> Board:
    """A board with small and large numbers, and with bookings of no cells."""

    def any_number() -> int:
        return dice.choice([0, 1, dice.randrange(2000), dice.randrange(1 << 64), (1 << 64) - 1])

    def data() -> bytes:
        return bytes(dice.choice([7, 9, dice.randrange(256)]) for _ in range(dice.randrange(30)))

    bookings = [(any_number(), any_number(), data()) for _ in range(dice.randrange(40))]
    return Board(end=any_number(), kind=dice.randrange(256), bookings=bookings)


def test() -> None:
    bookings = [(1, 100, b"\7\7\7"), (3, 102, b"\t\t\t"), (5, 100, b"\7\7"), (6, 103, b"\4")]
    listing = Board(end=8, kind=1, bookings=bookings)
    assert read_text(LISTING) == listing
    assert write_input(listing)[:31] == bytes.fromhex("0800000000000000 01 b74f 0100000000000000 6400000000000000 0300 0707")
    assert number(5000 * "0" + "7", 8, "a number") == 7
    assert read_text("end 1 \nkind OTHER\nat 0 platform 2 Tuesday+1 23:52 bytes\n")["bookings"] == [(0, (2 << 32) + 8 * DAY + 1432, b"")]
    dice = random.Random(1440)
    for board in [listing] + [random_board(dice) for _ in range(500)]:
        assert read_input(write_input(board)) == board
        assert read_text(write_text(board)) == board
    for text, words in WRONG_TEXTS:
        expect_fault(lambda given: write_input(read_text(given)), text, words)
    for data, words in WRONG_BYTES:
        expect_fault(decoded, data, words)
    for data, words in WRONG_INPUTS:
        expect_fault(read_input, data, words)
    assert decoded(b"\xef\xbb\xbf# Z\xc3\xbcrich\r\n") == "# Zürich\r\n"
    assert read_text(decoded(b"\xef\xbb\xbf" + LISTING.replace("\n", "\r\n").encode())) == listing
    test_examples(Path(__file__).resolve().parents[3] / "examples")
    print("boardfile: ok")


def test_examples(examples: Path) -> None:
    for name in ("listing", "midnight"):
        made = write_input(read_text((examples / f"{name}.txt").read_text("utf-8")))
        wanted = (examples / f"{name}.board").read_bytes()
        assert made == wanted, f"examples/{name}.board is not what {name}.txt makes"
    bad = (examples / "bad.board").read_bytes()
    expect_fault(read_input, bad, "record 2, at byte 32: its mark is b7 4e")


# ── the command ──


def load(name: str) -> bytes:
    with open(0 if name == "-" else name, "rb", closefd=name != "-") as file:
        return file.read()


def store(name: str, data: bytes) -> None:
    with open(1 if name == "-" else name, "wb", closefd=name != "-") as file:
        file.write(data)


def fail(status: int, words: str) -> int:
    print(f"boardfile: {words}", file=sys.stderr)
    return status


def main(arguments: list[str]) -> int:
    """Does what the arguments ask; the status."""
    name, to = "", "-"
    try:
        if "--help" in arguments or "-h" in arguments:
            store("-", (__doc__ or "").encode())
        elif arguments == ["--test"]:
            test()
        elif len(arguments) not in (2, 3) or arguments[0] not in ("make", "show"):
            return fail(2, "write: make FILE.txt [FILE.board], or show FILE.board [FILE.txt]; --help says more")
        else:
            name, *rest = arguments[1:]
            to, data = rest[0] if rest else "-", load(name)
            store(to, write_input(read_text(decoded(data))) if arguments[0] == "make" else write_text(read_input(data)).encode())
    except Fault as fault:
        return fail(1, f"{name}: {fault}")
    except OSError as error:
        where = error.filename if isinstance(error.filename, str) else "standard input or output"
        return fail(3, f"{where}: {error.strerror}")
    return 0


if __name__ == "__main__":
    sys.exit(main(sys.argv[1:]))
