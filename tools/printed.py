#!/usr/bin/env python3
"""Inputs for the program `board`, and what it must print of each: the data of the program `board_try`.

  printed.py make          writes crates/board_try/stdin
  printed.py list          the cases by number, with how many bytes they have and how their output starts
  printed.py run PROGRAM   runs a program on each input, and compares what it prints
  printed.py --test        tries itself: the boards to try, and that crates/board_try/stdin is what `make` writes

What must be printed is what the model of the rules (board_model.py) says, by nothing that the program uses.

The data is a count of cases, then for each case the input's length, the input, the output's length and the output; counts and lengths have 4 bytes,
little-endian.
"""
import os
import subprocess
import sys

from board_model import MOST_END, WORD, Model, hexed

MARK = b"\xb7\x4f"
MOST_INPUT = 65536
ROWS = (512, 8 * 512, 1024, 65536, 1024, 4096)  # what `board` lends: pieces, scratch (in numbers), blocks, store, nodes, entries
LARGEST = WORD - 1
HEADER = "cell n from to clock bytes"
DATA = os.path.join(os.path.dirname(os.path.abspath(__file__)), "..", "crates", "board_try", "stdin")


# ── what the rules say ──


def records_of(data):
    """The records, or the number of the first wrong mark or cut one."""
    if len(data) < 9:
        return None, 0
    records, at = [], 9
    while at < len(data):
        front = data[at : at + 20]
        if front[:2] != MARK or len(front) < 20:
            return None, len(records) + 1
        tick, first, length = (int.from_bytes(front[a:b], "little") for a, b in ((2, 10), (10, 18), (18, 20)))
        if len(data) < at + 20 + length:
            return None, len(records) + 1
        records.append((tick, first, data[at + 20 : at + 20 + length]))
        at += 20 + length
    return records, None


def printed(data):
    """All that `board` prints of an input."""
    data = data[:MOST_INPUT]
    records, bad = records_of(data)
    if records is None:
        return f"bad record {bad}\n".encode()
    index, refused = Model(), lambda answer: answer.startswith("refused")
    answer = index.answer(["open", int.from_bytes(data[:8], "little"), data[8], *ROWS])
    if refused(answer):
        return f"open {answer}\n".encode()
    lines = [HEADER]
    for k, (tick, first, cells) in enumerate(records, 1):
        answer = index.answer(["record", tick, first, hexed(cells)])
        lines += [f"op {k} {answer}"] if refused(answer) else []
    answer = index.answer(["finish"])
    if refused(answer):
        lines.append(f"finish {answer}")
    else:
        lines += [f"{b.first} {len(b.data)} {b.created} {b.destroyed} {index.clock(b.first)[0]:04} {b.data.hex()}" for b in index.blocks]
    return "".join(line + "\n" for line in lines).encode()


# ── the cases ──


def record(tick, first, data):
    return MARK + tick.to_bytes(8, "little") + first.to_bytes(8, "little") + len(data).to_bytes(2, "little") + bytes(data)


def board(end, kind, *records):
    return end.to_bytes(8, "little") + bytes([kind]) + b"".join(record(*r) for r in records)


LISTING = board(8, 1, (1, 100, b"\7\7\7"), (3, 102, b"\t\t\t"), (5, 100, b"\7\7"), (6, 103, b"\4"))
MIDNIGHT = board(
    16, 1, (1, 1432, b"\7" * 14), (2, 1 << 32 | 1430, b"\t" * 10), (4, 1 << 32 | 1430, b"\t" * 16), (9, 1440, bytes(6)), (9, 1439, b"\1\2")
)


def marked_boards():
    """The boards to try of docs/RULES.md."""
    yield LISTING
    yield MIDNIGHT
    yield board(8, 1, (0, 10, b"\5\5"), (1, 10, b"\5\5\5\5"))
    yield board(8, 0, (0, 20, b"\1" * 10), (1, 20, b"\2\3\4\5"))
    yield board(8, 2, (3, 20, b"\1"), (3, 20, b"\2"))
    yield board(8, 3, (1, 7, b"\1"))
    yield board(8, 4, (0, 7, b"\1"), (0, 7, b"\2"))
    yield board(9, 1, (0, LARGEST - 1, b"\7"), (0, LARGEST - 1, b"\7\7"), (8, 4, b"\1"), (9, 5, b"\1"))


def openings():
    """Opening: E 0, 1, 2^63 and above, kinds 4, 5 and 255; no record at all."""
    for end in (0, 1, 2, MOST_END, MOST_END + 1, LARGEST):
        yield board(end, 1)
        yield board(end, 4, (0, 5, b"\1\2"))
    for kind in (5, 255):
        yield board(8, kind, (0, 5, b"\1"))
    yield board(0, 5)


def refusals():
    """Refusals of record, alone and in checking order; what is refused changes nothing."""
    yield board(8, 1, (0, 5, b""))
    yield board(8, 1, (0, LARGEST, b"\1"), (0, LARGEST - 1, b"\1\2"), (0, LARGEST, b""))
    yield board(8, 1, (8, 5, b"\1"), (LARGEST, 5, b"\1"), (7, 5, b"\1"))
    yield board(8, 1, (3, 5, b"\1"), (2, 5, b"\1"), (2, 6, b"\1"), (3, 6, b"\2"))
    yield board(8, 1, (5, 5, b"\1"), (9, LARGEST, b""), (9, LARGEST, b"\1"), (9, 5, b"\1"), (4, 5, b"\1"), (5, 5, b"\2"))
    yield board(8, 1, (6, 5, b"\1"), (7, 5, b"\1"), (6, 5, b"\2"), (7, 5, b"\2"))
    yield board(8, 1, *[(9, 0, b"")] * 12, (0, 0, b"\0"))


def updates():
    """Pieces cut on every side, and blocks of no life."""
    yield board(8, 1, (0, 10, b"\1" * 10), (1, 13, b"\2" * 4), (2, 8, b"\3" * 4), (3, 18, b"\4" * 4), (4, 0, b"\5" * 40))
    yield board(8, 1, (2, 10, b"\1" * 3), (2, 20, b"\2" * 3), (2, 12, b"\3" * 9), (2, 11, b"\4" * 2), (2, 11, b"\4" * 2))
    yield board(1, 1, *[(0, 5, bytes([i])) for i in range(20)])
    yield board(8, 1, *[(i % 8 // 2, i * 7 % 19, bytes([i % 3] * (1 + i % 5))) for i in range(60)])
    yield board(1000, 1, *[(i, i * i % 97 + (i % 3 << 32), bytes([i * 11 % 256] * (1 + i * 5 % 23))) for i in range(200)])
    yield board(8, 1, (0, 5, b""), (1, 1440 * 7 + 719, b"\xff\x00\x10"), (2, 7 << 32 | 0xFFFFFFFF, b"\xab\xcd"))


def bad_records():
    """A wrong mark at the first, a middle and the last record, and the listing cut at every byte."""
    fronts = [9, 32, 55, 77]
    for at in fronts:
        for mark in (b"\xb7\x4e", b"\xb6\x4f", b"\x4f\xb7", b"\0\0"):
            yield LISTING[:at] + mark + LISTING[at + 2 :]
    for cut in range(len(LISTING)):
        yield LISTING[:cut]
    yield LISTING + b"\xb7"
    yield LISTING + b"\n"
    yield board(0, 9, (9, 9, b"")) + b"\0"
    yield board(8, 1) + MARK + bytes(16) + b"\xff\xff" + bytes(200)


def edge_of_input():
    """Exactly 65,536 bytes; longer, where the last record ends at the edge, or is cut there."""
    long = bytes(i * i % 251 for i in range(65507))
    yield board(3, 1, (1, 77, long))
    yield board(3, 1, (1, 77, b"\1" * 200), (9, 50, long[:65287])) + MARK + b"garbage"
    yield board(3, 1, (1, 77, long[:-1])) + b"\xb7"
    yield board(3, 1, (1, 77, b"\1\2\3"), (2, 50, b"\1" * 65485))
    yield board(3, 1, *[(0, 5, b"")] * 3275, (0, 5, b"\1" * 7)) + record(0, 6, b"\1")


def tables_spent():
    """512 pieces (9), 1,024 blocks (10), 1,024 nodes (12), 4,096 entries (13): the last that fits, and one more."""
    cell = lambda ticks: [(t, 5, bytes([t % 2])) for t in ticks]
    yield board(4, 1, *[(0, 3 * i, b"\1") for i in range(513)], (1, 3, b"\2"), (2, 4, b"\2"), (2, 0, b"\3\3\3\3"), (3, 100, b"\4"))
    yield board(4, 1, *[(0, 3 * i, b"\1\1\1"[: 1 + i % 2]) for i in range(510)], (1, 10000, b"\1\1\1"), (1, 10001, b"\2"), (1, 9999, b"\2"), (1, 10000, b"\2"))
    yield board(2, 1, *[(0, 5, bytes([i % 2])) for i in range(1024)])
    yield board(2, 1, *[(0, 5, bytes([i % 2])) for i in range(1025)], (1, 6, b"\1"), (1, 5, b"\1"), (1, 5, b"\1\1"))
    yield board(513, 1, *cell(range(1, 513)))
    yield board(513, 1, *cell(range(513)))
    yield board(MOST_END, 1, *[(i * (MOST_END // 21) + i * i, 5, bytes([i])) for i in range(1, 21)])
    yield board(MOST_END, 1, *[(1, 2 * i, b"\7") for i in range(65)], (1, 1000, b"\1"), (1, 1000, b"\2"))
    yield board(MOST_END, 1, (0, 999, b"\7"), *[(1, 2 * i, b"\7") for i in range(65)])
    yield board(MOST_END, 1, (0, 999, b"\7"), (0, 1001, b"\7"), *[(1, 2 * i, b"\7") for i in range(65)])
    yield board(MOST_END, 1, *[(1, 2 * i, b"\7") for i in range(66)])


def cases():
    for part in (marked_boards, openings, refusals, updates, bad_records, edge_of_input, tables_spent):
        for data in part():
            yield part.__name__, data


# ── the data ──


def whole():
    many = [(data, printed(data)) for _, data in cases()]
    size = lambda n: n.to_bytes(4, "little")
    return size(len(many)) + b"".join(size(len(x)) + x + size(len(y)) + y for x, y in many)


# ── tests ──


def test():
    listing = b"cell n from to clock bytes\n102 1 1 3 0142 07\n103 1 3 6 0143 09\n100 2 1 8 0140 0707\n102 1 3 8 0142 09\n103 1 6 8 0143 04\n104 1 3 8 0144 09\n"
    assert printed(LISTING) == listing
    assert printed(board(8, 1, (0, 10, b"\5\5"), (1, 10, b"\5\5\5\5"))) == f"{HEADER}\n10 2 0 1 0010 0505\n10 4 1 8 0010 05050505\n".encode()
    said = b"".join(printed(data) for _, data in cases())
    for words in ["bad record 0", "open refused 1", *[f"refused {n}\n" for n in (5, 6, 7, 8, 9, 10)], "finish refused 12", "finish refused 13"]:
        assert words.encode() in said, words
    for number in (2, 3, 4, 11):
        assert f"refused {number}\n".encode() not in said
    with open(DATA, "rb") as file:
        assert file.read() == whole(), "crates/board_try/stdin is not what `make` writes"
    print("printed: ok")


# ── the command ──


def run(program):
    differ = 0
    for number, (name, data) in enumerate(cases()):
        came = subprocess.run([program], input=data, stdout=subprocess.PIPE).stdout
        if came != printed(data):
            differ += 1
            print(f"case {number} ({name}) differs: it printed {came[:60]!r}")
    print(f"{number + 1} boards compared, {differ} differ")
    return 1 if differ else 0


def main(arguments):
    if arguments == ["--help"]:
        print(__doc__)
    elif arguments == ["--test"]:
        test()
    elif arguments == ["make"]:
        with open(DATA, "wb") as file:
            file.write(whole())
    elif arguments == ["list"]:
        for number, (name, data) in enumerate(cases()):
            lines = printed(data).decode().split("\n")
            print(f"{number} {name}: {len(data)} bytes, {len(lines) - 1} lines: {' / '.join(lines[:2])[:90]}")
    elif len(arguments) == 2 and arguments[0] == "run":
        sys.exit(run(arguments[1]))
    else:
        sys.exit(__doc__.split("\n\nWhat")[0])


if __name__ == "__main__":
    main(sys.argv[1:])
