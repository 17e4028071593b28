"""How the stored list is laid out (stored.py): numbers, rows, parts, written and read.

The file is parts of 65,536 bytes, the last one shorter. A part is a number P, a pool of P bytes, then rows up to one of no numbers, then zeros. A number
below 248 is one byte; else a byte 247 + k stands before its k bytes, the highest first. A row is how many numbers it has, then those; the columns that it
leaves out are 0. Column 0 says what it is, column 1 is the number of the refusal, 0 where the call is taken. Bytes stand in the pool of the part, and a row
says where they start. A case stands in one part. A row `damaged` is a load for each place of a run: of the file cut at that place, or, where `by` is not
0, with the byte there raised by so much.

Block numbers that a call lists are bytes in the pool, `length` of them. `touching` has its columns where `find` has them; in place of the nodes visited it has
0. `next` and `last` have `found`, 1 or 0, and the number, 0 where it is missing. `record` has `updated`, 1 and the cell of an update, 0 and 0 of a read. The
numbers of a calendar, of a list of days and of windows stand in the pool as numbers stand in a row, `count` of them. Of a refused call what must come is 0.

The kinds that `open` takes are bytes in the pool, `length` of them, as the call is lent them. Every call that names a kind has it in column KIND, behind its other
columns. Of a load that is taken `kinds` is the mask of the one kind, bit k for kind k, as it stands in the block table.
"""
from board_model import WORD, hexed

PART = 65536

CASE, OWN, OPEN, RECORD, FINISH, BLOCK, FIND, CELLS, WRITE, LOAD, CLOCK, SCRATCH, DAMAGED, TOUCHING, NEXT, LAST, CALENDAR, DAYS, OCCUPATION = range(1, 20)

# The column of the kind, in the row of a call that names one.
KIND = 9

# The columns from 2 on; crates/replay/src names them too. `@` is where bytes start.
LENT = ["pieces", "scratch", "blocks", "store", "nodes", "entries"]
COLUMNS = {
    CASE: ["case"],
    OWN: ["own case"],
    OPEN: ["open", "end", "@kinds", "length"] + [""] * 5 + LENT,
    RECORD: ["record", "tick", "first", "@bytes", "length", "updated", "cell", "", "kind"],
    FINISH: ["finish", "blocks", "nodes", "entries"],
    BLOCK: ["block", "number", "kind", "first", "length", "created", "destroyed", "@bytes"],
    FIND: ["find", "tick", "start", "end", "room", "length", "visited", "@numbers", "kind"],
    CELLS: ["cells", "tick", "start", "end", "byte room", "held room", "@bytes", "@held", "kind"],
    WRITE: ["write", "room", "@file", "length"],
    LOAD: ["load", "at", "@file", "length", "next", "end", "kinds", "count", ""] + LENT,
    CLOCK: ["clock", "cell", "label"],
    SCRATCH: ["scratch"] + [""] * 9 + ["scratch"],
    DAMAGED: ["damaged", "at", "@file", "length", "by", "from", "many"],
    TOUCHING: ["touching", "tick", "start", "end", "room", "length", "", "@numbers", "kind"],
    NEXT: ["next", "tick", "cell", "found", "number", "", "", "", "kind"],
    LAST: ["last", "tick", "cell", "found", "number", "", "", "", "kind"],
    CALENDAR: ["calendar", "@numbers", "length", "count"],
    DAYS: ["days", "@numbers", "length", "count"],
    OCCUPATION: ["occupation", "tick", "@numbers", "length", "count", "occupied", "cells", "tenths", "kind"],
}


# ── written ──


def number(value):
    assert 0 <= value < WORD
    if value < 248:
        return bytes([value])
    width = (value.bit_length() + 7) // 8
    return bytes([247 + width]) + value.to_bytes(width, "big")


def row(numbers):
    while numbers and numbers[-1] == 0:
        numbers = numbers[:-1]
    return number(len(numbers)) + b"".join(map(number, numbers))


class Part:
    """Rows, and a pool in which each stretch of bytes is kept once."""

    def __init__(self):
        self.pool, self.rows = bytearray(), b""

    def place(self, data):
        at = self.pool.find(data)
        if at < 0:
            at = len(self.pool)
            self.pool += data
        return at

    def bytes(self):
        return number(len(self.pool)) + bytes(self.pool) + self.rows + b"\0"


# ── read ──


def read_number(data, at):
    if data[at] < 248:
        return data[at], at + 1
    width = data[at] - 247
    return int.from_bytes(data[at + 1:at + 1 + width], "big"), at + 1 + width


def rows_of(part):
    """The rows of a part, each with the part's pool."""
    size, at = read_number(part, 0)
    pool, at = part[at:at + size], at + size
    while part[at]:
        count, at = read_number(part, at)
        numbers = []
        for _ in range(count):
            value, at = read_number(part, at)
            numbers.append(value)
        yield numbers + [0] * (16 - count), pool


def line(numbers, pool):
    """A row in words; what a refused call would answer is left out."""
    name, *columns = COLUMNS[numbers[0]]
    values = dict(zip(columns, numbers[2:]))
    length = values["end"] - values["start"] if name == "cells" else values.get("length", 0)
    words = [name] + [f"refused {numbers[1]}"] * (numbers[1] > 0)
    for column, value in values.items():
        if column.startswith("@"):
            words.append(f"{column[1:]} {hexed(pool[value:value + max(0, length)])}")
        elif column:
            words.append(f"{column} {value}")
    return ", ".join(words)
