"""Own cases for the stored list (stored.py): the files of stored_files.py, files with one byte changed, timetables, boards whose tables are just too small, and
one file damaged at every place.

Each case is a name and a list of calls in words (board_model.py); what a call answers is left to the model. All of it is determined: the dice are a
fixed sequence of numbers.
"""
from board_model import LEAST_SCRATCH, MINUTES, MOST_END, WORD, Model, hexed, number_bytes, unhexed
from board_oracle import differs
from stored_files import GROUPS, RIGHT, SMALL, TEN, TWENTY, file, node

ROOMY = (67, 1027, 259, 515)  # rows of blocks, store, nodes, entries that the small files fit in
WIDE = (64, LEAST_SCRATCH, 256, 4096, 4096, 8192)  # rows of an open with room for everything, and the scratch


class Dice:
    """A fixed sequence of numbers: the same for every Python."""

    def __init__(self, seed):
        self.state = seed

    def below(self, bound):
        self.state = (self.state * 6364136223846793005 + 1442695040888963407) % WORD
        return (self.state >> 33) % bound

    def among(self, low, high):
        return low + self.below(high - low + 1)

    def pick(self, things):
        return things[self.below(len(things))]


# ── calls on a file ──


def load(content, at=0, rows=ROOMY):
    return ["load", at, *rows, hexed(content)]


def reads_of(model, dice):
    """Reads of a closed index, drawn around its blocks."""
    calls = [["block", n] for n in range(len(model.blocks) + 1)]
    spots = sorted({c for b in model.blocks for c in (b.first, b.end, b.first - 1) if 0 <= c < WORD} | {0, WORD - 1})
    ticks = sorted({t for b in model.blocks for t in (b.created, b.destroyed - 1, b.destroyed) if 0 <= t < model.end} | {0, model.end - 1})
    for _ in range(min(8, 2 + len(model.blocks))):
        tick = dice.pick(ticks)
        start, end = sorted([dice.pick(spots), dice.pick(spots)])
        calls.append(["find", tick, start, end, dice.pick([0, 1, 3, 40, 40, 40])])
        start = dice.pick(spots)
        end = min(start + dice.below(40), WORD - 1)
        calls.append(["cells", tick, start, end, end - start + dice.below(3), max(0, end - start + dice.below(4) - 1)])
    calls.append(["find", model.end, 0, 9, 9])
    calls.append(["find", model.end - 1, 9, 8, 9])
    return calls


def after_load(model, dice, content):
    """What is asked after a load that is taken: its blocks, reads, and the bytes again."""
    size = len(content)
    tail = [["write", size], ["write", max(0, size - 1)], ["write", size + 5], ["record", 0, 0, "01"], ["finish"]]
    return reads_of(model, dice) + tail


def file_case(name, dice, content, at=0, rows=ROOMY, whole=None):
    """A load; then its reads, or that no index is there."""
    model = Model()
    calls = [load(content, at, rows)]
    answer = model.answer(list(map(str, calls[0])))
    if answer.startswith("refused"):
        return name, calls + [["block", 0]]
    taken = int(answer.split()[0])
    return name, calls + after_load(model, dice, (content if whole is None else whole)[at:taken])


def rooms(dice):
    """20: each table with exactly enough rows, and with one too few; 20 before 21 and behind 19."""
    exact = (2, 5, 2, 2)
    yield file_case("rows-exact", dice, SMALL, rows=exact)
    for i in range(4):
        fewer = tuple(n - (i == j) for j, n in enumerate(exact))
        none = tuple(0 if i == j else n + 7 for j, n in enumerate(exact))
        yield file_case(f"rows-fewer-{i}", dice, SMALL, rows=fewer)
        yield file_case(f"rows-none-{i}", dice, SMALL, rows=none)
        yield file_case(f"rows-before-21-{i}", dice, file([TEN, TWENTY], node(1, 4, [0], right=RIGHT)), rows=fewer)
        yield file_case(f"rows-behind-19-{i}", dice, file([TEN, TWENTY], node(0, 4, [0], left=b"\2", right=RIGHT)), rows=fewer)
    yield file_case("rows-enough-21", dice, file([TEN, TWENTY], node(1, 4, [0], right=RIGHT)), rows=exact)
    yield file_case("rows-0-no-root", dice, file([], b"\0"), rows=(0, 0, 0, 0))
    yield file_case("rows-0-one-node", dice, file([], node(0, 4, [])), rows=(0, 0, 0, 0))
    yield file_case("rows-0-one-node-enough", dice, file([], node(0, 4, [])), rows=(0, 0, 1, 0))


def positions(dice):
    """Files that start inside other bytes; positions at and past the end."""
    around = b"\1\0\0" + SMALL + b"\xff\xfe\xfd"
    for at in [3, 0, 1, 2, 4, len(around) - 3, len(around) - 1, len(around), len(around) + 1, MOST_END, WORD - 8, WORD - 1]:
        yield file_case(f"at-{at}", dice, around, at)
    yield file_case("at-0-empty", dice, b"")
    yield file_case("at-1-empty", dice, b"", 1)
    yield file_case("two-files-first", dice, SMALL + SMALL)
    yield file_case("two-files-second", dice, SMALL + SMALL, len(SMALL))
    yield file_case("cut-inside", dice, (b"\0" * 5 + SMALL)[:-1], 5)


def changed(dice, goods):
    """Files of boards with one byte changed or lost, a number made large, or a stretch from another place."""
    for number in range(130):
        content = bytearray(dice.pick(goods))
        way, at = dice.below(6), dice.below(len(content))
        if way == 0:
            del content[at]
        elif way == 1:
            content[at] = dice.below(256)
        elif way == 2:
            content[at] ^= 1 << dice.below(8)
        elif way == 3:
            content[at] = (content[at] + dice.pick([1, 255])) % 256
        elif way == 4:
            at = min(at, len(content) - 8)
            content[at:at + 8] = number_bytes(dice.pick([0, 1, MOST_END, MOST_END + 1, WORD - 1]))
        else:
            content = content[:at]
        yield file_case(f"changed-{number}", dice, bytes(content), rows=(80, 1100, 300, 600))


# ── boards ──


def timetable(dice, end, ops):
    """Records of a planning day: trains booked, moved, cancelled, said again, some over midnight."""
    tick, calls, booked = 0, [], []
    for _ in range(ops):
        tick = min(tick + dice.pick([0, 1, 1, 2, 3]), end - 1)
        way = dice.below(10)
        if way < 5 or not booked:
            minute = dice.pick([475, 480, 485, 490, 1425, 1430, 1436, 1440, 1444, 2870])
            first = dice.below(2) * MINUTES + minute + dice.below(6)
            data = bytes([dice.among(1, 250)]) * dice.among(1, 18)
        else:
            first, data = dice.pick(booked)
            if way == 5:
                data = b"\0" * len(data)
            elif way == 6:
                first += dice.among(1, 4)
            elif way == 7:
                data = data + data[:dice.below(4)]
            elif way == 8:
                data = data[dice.below(len(data)):]
        booked.append((first, data))
        calls.append(["record", tick, first, hexed(data)])
    return calls


def without(end, records):
    """The records that are taken and meet neither D1 nor D2: the Rust takes the whole list."""
    model, kept = Model(), []
    model.answer(list(map(str, ["open", end, 1, *WIDE])))
    for call in records:
        meets = differs(model, 1, call[2], unhexed(call[3]))
        if not meets and not model.answer(list(map(str, call))).startswith("refused"):
            kept.append(call)
    return kept


def played(calls):
    model = Model()
    for call in calls:
        model.answer(list(map(str, call)))
    return model


def board_case(name, dice, end, kind, records, rows=WIDE):
    calls = [["open", end, kind, *rows], ["block", 0], ["write", 9]] + records
    calls += [["record", records[-1][1], 5, "-"], ["record", end, 5, "01"], ["record", 0, WORD - 1, "01"], ["finish"]]
    model = played(calls)
    if model.state == "open":
        return name, calls
    content = unhexed(model.answer(["write", str(1 << 20)]))
    calls += reads_of(model, dice) + [["write", len(content) + 3], ["write", max(0, len(content) - 1)], ["finish"]]
    calls += [load(content, 0, rows[2:])]
    model = played(calls)
    return name, calls + (after_load(model, dice, content) if model.state else [["block", 0]])


def file_of(end, kind, records):
    model = played([["open", end, kind, *WIDE]] + records + [["finish"]])
    return unhexed(model.answer(["write", str(1 << 20)]))


def need_of(end, records):
    """What a list of records and its finish need: rows of pieces, the scratch, rows of blocks, store, nodes, entries."""
    model = Model()
    model.answer(list(map(str, ["open", end, 1, *WIDE])))
    pieces = 0
    for call in records:
        model.answer(list(map(str, call)))
        pieces = max(pieces, len(model.pieces))
    blocks, nodes, entries = map(int, model.answer(["finish"]).split())
    return [pieces, LEAST_SCRATCH, blocks, model.used, nodes, entries]


def tight(dice, name, end, kind, records):
    """Tables with exactly the rows that are needed, and each of them with one row fewer, the scratch with one number."""
    need = need_of(end, records)
    yield board_case(f"{name}-exact", dice, end, kind, records, tuple(need))
    for i in range(6):
        fewer = tuple(max(0, n - (i == j)) for j, n in enumerate(need))
        yield board_case(f"{name}-fewer-{i}", dice, end, kind, records, fewer)


def over(dice, end, records):
    """Loads into the tables of a finished index: a damaged file leaves it (17 to 20) or leaves no index (21 to 24); a good one takes its place."""
    rows = (16, LEAST_SCRATCH, 67, 1027, 259, 515)
    calls = [["open", end, 1, *rows]] + records + [["finish"], ["block", 0], load(SMALL[:-1]), ["block", 0]]
    calls += [load(file([TEN], b"\2")), ["block", 1], load(SMALL), ["block", 0], ["block", 2], ["record", 0, 0, "01"]]
    calls += [load(file([TEN] * 68, b"\0")), ["block", 1], load(file([TEN], b"\0")), ["block", 0], ["finish"], ["find", 0, 0, 9, 9]]
    return calls + [["open", end, 2, *rows]] + records + [["finish"], ["block", 0]]


# ── every damage of one file ──

DAMAGED_AT, DAMAGED_END = 5, 40  # where the file stands among other bytes; its end tick


def bookings():
    """Ninety bookings of eight cells by three at a tick, so that some blocks have no life."""
    seed, calls = 7, []
    for i in range(90):
        seed = (seed * 1103515245 + 12345) % (1 << 31)
        calls.append(["record", i // 3, seed // 65536 % 60, hexed(bytes([i + 1]) * 8)])
    return calls


def all_reads(blocks, end, cells):
    """Every block, and at every tick what is found, every cell, what touches the whole and each stretch of eight cells, and the neighbours of that."""
    calls = [["block", n] for n in range(blocks + 1)]
    for tick in range(end):
        calls += [["find", tick, 0, cells, 64], ["touching", tick, 0, cells, 64]]
        calls += [["cells", tick, start, start + 64, 64, 64] for start in range(0, cells, 64)]
        for start in range(0, 80, 8):
            calls += [["touching", tick, start, start + 8, 8], ["next", tick, start + 8], ["last", tick, start]]
    return calls


def damaged():
    """A board whose file is cut at every length and has every byte changed."""
    rows, records = (64, LEAST_SCRATCH, 230, 2000, 80, 400), bookings()
    content = file_of(DAMAGED_END, 2, records)
    front = b"\xaa" * DAMAGED_AT + content
    whole, reads = front.ljust(16384, b"\xaa"), all_reads(214, DAMAGED_END, 256)
    calls = [["open", DAMAGED_END, 2, *rows]] + records + [["finish"]] + reads + [["write", len(content)], ["write", len(content) - 1]]
    yield "damaged-board", calls
    yield "damaged-loaded", [load(whole, DAMAGED_AT, rows[2:])] + reads + [["write", len(content)]]
    yield "damaged-no-row", [load(whole, DAMAGED_AT, (0, *rows[3:])), ["block", 0]]
    yield "damaged-cut", [load(whole, DAMAGED_AT, rows[2:]), ["damaged", DAMAGED_AT, 0, 0, len(front), hexed(front)]]
    for start in range(DAMAGED_AT, len(front), 3000):
        changes = ["damaged", DAMAGED_AT, 1, start, min(start + 3000, len(front)), hexed(whole)]
        yield f"damaged-from-{start}", [load(whole, DAMAGED_AT, rows[2:]), changes]


def own_cases():
    dice = Dice(2026)
    cases = [file_case(f"{group.__name__}-{name}", dice, content) for group in GROUPS for name, content in group()]
    cases += list(rooms(dice)) + list(positions(dice))
    ends = [MOST_END, 1 << 40, 65, 1440] + [dice.pick([30, 32, 40, 64]) for _ in range(14)]
    days = [(end, timetable(dice, end, dice.among(3, 9 if end > 100 else 15))) for end in ends]
    days += [(end, without(end, timetable(dice, end, 18))) for end in [16, 24, 33, 48] * 4]
    for number, (end, records) in enumerate(days):
        cases.append(board_case(f"day-{number}", dice, end, number % 5, records))
    goods = [file_of(end, number % 5, records) for number, (end, records) in enumerate(days)]
    goods = [content for content in goods if len(content) < 2000]
    for number, content in enumerate(goods[:12]):
        whole = b"\4" * dice.among(1, 9) + content
        cases.append(file_case(f"day-file-{number}", dice, whole + b"\1" * dice.below(3), len(whole) - len(content), (80, 1100, 300, 600)))
    cases += changed(dice, [SMALL] + [content for content in goods if len(content) < 1000])
    for number, (end, records) in enumerate(days[-5:]):
        cases += tight(dice, f"tight-{number}", end, number % 5, records[:9])
    cases += [(f"over-{number}", over(dice, end, records)) for number, (end, records) in enumerate(days[-4:])]
    # bookings that come in ascending order make a list of a tree that is not balanced; the dice are its own, so that the cases above stay
    ascending = [["record", n, 10 * n, f"{n + 1:02x}" * 2] for n in range(33)]
    cases.append(board_case("ascending-33", Dice(33), 64, 1, ascending))
    cases.append(("clock", [["open", 8, 1, *WIDE]] + [["clock", m] for m in list(range(0, 1440, 37)) + [MINUTES - 1, MINUTES, 7 * MINUTES + 1439, WORD - 1]]))
    return cases + list(damaged())
