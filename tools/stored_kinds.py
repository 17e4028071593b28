"""Own cases of several kinds in one run for the stored list (stored.py): sets of kinds, kinds that were not opened, cells that two kinds have, what all kinds share,
trees and files by kind code, and drawn lists over several kinds, in tables with room, with just enough and with one row too few.

As in stored_cases.py a case is a name and a list of calls in words; what they answer is left to the model. Here each call names its kind.
"""
from board_model import KINDS, LEAST_SCRATCH, MINUTES, MOST_END, WORD, Model, hexed, unhexed
from stored_cases import WIDE, Dice, load, played, timetable
from stored_files import SMALL, TEN, block, file, node
from stored_hours import calendar, install

ALL = range(KINDS)
TOP = WORD - 1  # the cell behind the last one that can be booked
ANSWER, FILE = 64, 16384  # the most places of an answer, and bytes of a file, that replay lends


def kinds_word(kinds):
    return ",".join(map(str, kinds)) or "-"


def opened(kinds, end=8, rows=WIDE):
    return ["open", end, kinds_word(kinds), *rows]


def train(kind, tick, first, many=1, byte=8):
    return ["record", kind, tick, first, hexed(bytes([byte]) * many)]


# ── calls on a closed index ──


def reads(kind, tick, start=0, end=12):
    """Each read of a kind at a tick."""
    calls = [["find", kind, tick, start, end, ANSWER], ["touching", kind, tick, start, end, ANSWER], ["cells", kind, tick, start, end, 64, 64]]
    return calls + [[call, kind, tick, cell] for cell in (start, end) for call in ("next", "last")]


def parts_of(content):
    """Where the parts of a file start, one behind the other, and their ends."""
    model, at, parts = Model(), 0, []
    while at < len(content):
        behind = int(model.answer(load(content, at, (256, 4096, 4096, 8192))).split()[0])
        parts.append((at, behind))
        at = behind
    return parts


def files_of(calls, rows=WIDE):
    """What is written of a finished board, and each of its parts loaded: its kind alone is there, and writing gives the part."""
    content = unhexed(played(calls).answer(["write", str(1 << 20)]))
    if len(content) > FILE:
        return [["write", FILE]]
    asked = [["write", len(content)], ["write", max(0, len(content) - 1)], ["write", 0]]
    for at, behind in parts_of(content):
        again = load(content, at, rows[2:])
        loaded = played([again])
        asked += [again, ["write", behind - at], ["write", behind - at - 1]] + [["block", n] for n in range(len(loaded.blocks) + 1)]
        asked += [call for kind in (content[at], (content[at] + 1) % KINDS) for tick in (0, loaded.end - 1) for call in reads(kind, tick)]
    return asked


def whole(calls, kinds=ALL, ticks=(0, 1, 3, 4, 7), cells=(0, 12)):
    """A board with its finish, every block, every kind at every tick, and its files."""
    calls = calls + [["finish"]]
    count = len(played(calls).blocks)
    asked = [["block", n] for n in range(count + 1)] + [call for kind in kinds for tick in ticks for call in reads(kind, tick, *cells)]
    return calls + asked + files_of(calls)


# ── the board of request 3 ──

MIXED = [train(3, 1, 5), train(0, 3, 9), train(0, 4, 5)]


def mixed():
    """Kinds 0, 3 and 4, cells 5 and 9 of two of them: 11 nodes and 6 entries, just enough and one too few; room for one kind alone."""
    yield "mixed", whole([opened([4, 0, 3, 0])] + MIXED, (*ALL, 5, 255))
    for nodes, entries in ((11, 6), (10, 6), (11, 5), (10, 5), (6, 6), (5, 3), (0, 6), (11, 0)):
        calls = [["open", 8, "0,3,4", 3, LEAST_SCRATCH, 3, 3, nodes, entries]] + MIXED + [["finish"], ["block", 2], train(3, 4, 5)]
        yield f"mixed-{nodes}-{entries}", calls + reads(3, 5) + [["write", FILE]]


# ── sets ──


def sets():
    """1: an empty set, a kind above 4 anywhere in the slice; a set named in any order and often is the same; a refused opening leaves the index."""
    taken = [[kind] for kind in ALL] + [[4, 0, 3], [1, 1], [1] * 300, [0, 1, 2, 3, 4] * 20, [4, 3, 2, 1, 0]]
    for place, kinds in enumerate(taken):
        calls = [opened(kinds)] + [train(kind, kind, 10 + kind) for kind in (*ALL, 5, 6, 31, 128, 255)] + [["finish"]]
        yield f"set-{place}", calls + [call for kind in (*ALL, 5, 255) for call in reads(kind, 7, 9, 16)] + files_of(calls)
    wrong = [[], [5], [255], [0, 5], [5, 0], [1, 2, 3, 4, 5], [0, 0, 0, 128], [4] * 250 + [5]]
    calls = [opened([2, 3]), train(3, 1, 5)] + [opened(kinds) for kinds in wrong] + [opened([2, 3], end) for end in (0, MOST_END + 1, TOP)] + [opened([], 0)]
    yield "set-refused", calls + [train(3, 1, 5), train(2, 1, 5), train(1, 1, 5), ["finish"]] + [opened(kinds) for kinds in wrong] + reads(3, 1) + reads(4, 1)
    yield "set-none-opened", [opened(kinds) for kinds in wrong] + [train(0, 0, 0), ["finish"]] + reads(0, 0)
    anew = [opened([0, 1]), train(0, 1, 5), train(1, 1, 5), opened([1, 2]), train(0, 1, 5), train(1, 1, 5), train(2, 1, 5), ["finish"]]
    yield "set-anew", anew + [call for kind in ALL for call in reads(kind, 1)] + [opened([3]), train(3, 0, 5), train(1, 0, 5), ["finish"]] + reads(3, 0) + reads(1, 0)


# ── 25 ──


def not_opened():
    """25 behind 2 and 3 and before 5 to 8, behind 2 and 4 and before 14 to 16, also for kinds above 4; what a refused call leaves."""
    faults = [(8, TOP, "-"), (8, TOP, "07"), (9, 5, "07"), (0, 5, "07"), (2, 5, "0707"), (2, 5, "-")]
    narrow = ["open", 8, "0,3", 1, LEAST_SCRATCH, 1, 1, 9, 9]
    asked = [["record", kind, *fault] for kind in (0, 1, 4, 5, 255) for fault in faults]
    late = [call for kind in (0, 1, 2, 3, 4, 5, 255) for call in (
        ["find", kind, 8, 9, 8, 0], ["find", kind, 7, 9, 8, 0], ["find", kind, 7, 0, 9, 0], ["touching", kind, 8, 9, 8, 0], ["touching", kind, 7, 9, 8, 0], ["touching", kind, 7, 0, 9, 0],
        ["cells", kind, 8, 9, 8, 0, 0], ["cells", kind, 7, 9, 8, 0, 0], ["cells", kind, 7, 0, 9, 0, 9], ["next", kind, 8, 0], ["next", kind, 7, 0], ["last", kind, 8, 9], ["last", kind, 7, TOP])]
    yield "order", [narrow, train(3, 2, 5)] + asked + late + [["finish"]] + asked + late + [["finish"]]
    yield "scratch", [narrow, ["scratch", 7]] + asked + [["scratch", 8]] + asked[:12]
    yield "no-head", [["open", 8, "0,3", -1, LEAST_SCRATCH, 9, 9, 9, 9]] + asked + late
    yield "loaded", [load(SMALL)] + asked + late + [call for kind in ALL for call in reads(kind, 0, 10, 30)]
    yield "no-index", [load(SMALL[:-1])] + asked[:8] + late[:20]
    kept = [train(1, 7, 0), train(4, 7, 0, 99), ["record", 5, 7, 0, "-"]]
    yield "kept", whole([opened([0, 3]), train(0, 1, 5)] + kept + [train(3, 1, 5)] + kept + [train(0, 1, 5), train(0, 2, 5, 2)])


# ── cells of two kinds ──


def apart():
    """The same cells in each kind: what one kind writes is unknown to the others, with the same byte and with another; pieces side by side on the line of all kinds."""
    for number, order in enumerate(((0, 1, 2, 3, 4), (4, 3, 2, 1, 0), (2, 0, 4, 1, 3))):
        calls = [opened(ALL)] + [train(kind, 0, 5, 3) for kind in order] + [train(kind, 1, 5, 3) for kind in order]
        yield f"same-{number}", whole(calls + [train(order[2], 2, 6, 1, 9), train(order[1], 3, 4, 6, 7), train(order[2], 4, 6)])
    ends = [train(kind, 0, first, many, 1 + kind) for kind in (2, 1, 3) for first, many in ((0, 2), (TOP - 2, 2), (TOP - 1, 1))]
    over = [train(2, 1, 0, 4), train(1, 2, TOP - 3, 3), train(3, 3, TOP - 2, 3), train(3, 3, TOP - 1, 1, 4)]
    asked = [call for kind in (1, 2, 3) for tick in range(4) for cells in ((0, 5), (TOP - 6, TOP)) for call in reads(kind, tick, *cells)]
    calls = [opened([1, 2, 3], 4)] + ends + over + [["finish"]]
    yield "ends", calls + asked + [["find", kind, 3, 0, TOP, ANSWER] for kind in ALL] + [["touching", kind, 3, 0, TOP, ANSWER] for kind in ALL] + files_of(calls)
    yield "no-life", whole([opened([0, 4]), train(0, 3, 5), train(0, 3, 5, 1, 9), train(4, 3, 5), train(4, 3, 5, 1, 9), train(0, 3, 5)])


def ticks():
    """The last accepted tick is common to all kinds; a read of one kind moves it for the others."""
    calls = [opened([0, 1, 4]), train(0, 3, 5), train(1, 2, 5), train(1, 3, 5), train(4, 4, 5), train(0, 3, 5), train(0, 5, 5), train(1, 4, 6), train(1, 5, 6), train(2, 7, 6), train(4, 5, 6)]
    yield "ticks", whole(calls + [train(0, 7, 5), train(1, 6, 5), train(4, 7, 5, 2)])


# ── what all kinds share ──


def spaces():
    """9, 10 and 11 count all kinds together: the last that fits, and one more of another kind; a read needs no room."""
    few = (0, 3, 4), (0, 2)
    pieces = [train(0, 0, 0), train(3, 0, 0), train(4, 0, 0), train(0, 0, 2), train(3, 0, 0, 2), train(4, 0, 0, 2), train(4, 1, 0, 1, 9)]
    for rows in (2, 3, 4):
        yield f"pieces-{rows}", whole([opened([0, 3, 4], rows=(rows, LEAST_SCRATCH, *WIDE[2:]))] + pieces, *few)
    for rows in (3, 4, 5, 6):
        yield f"blocks-{rows}", whole([opened([0, 3, 4], rows=(*WIDE[:2], rows, *WIDE[3:]))] + pieces + [train(0, 2, 0, 1, 9), train(3, 2, 1, 1, 9), train(4, 2, 0)], *few)
    for size in (3, 5, 6, 7):
        yield f"store-{size}", whole([opened([0, 3, 4], rows=(*WIDE[:3], size, *WIDE[4:]))] + pieces, *few)


def need_of(end, kinds, records):
    """What a list of records and its finish need: rows of pieces, the scratch, rows of blocks, store, nodes, entries."""
    model, pieces = played([opened(kinds, end)]), 0
    for call in records:
        model.answer(call)
        pieces = max(pieces, len(model.pieces))
    blocks, nodes, entries = map(int, model.answer(["finish"]).split())
    return [pieces, LEAST_SCRATCH, blocks, model.used, nodes, entries]


def tight(name, end, kinds, records):
    """Tables with exactly the rows that are needed, and each of them with one row fewer."""
    need = need_of(end, kinds, records)
    asked = [["block", 0], ["write", FILE]] + [["touching", kind, end - 1, 0, TOP, ANSWER] for kind in kinds]
    for fewer in (None, 0, 2, 3, 4, 5):
        rows = tuple(max(0, n - (place == fewer)) for place, n in enumerate(need))
        yield f"{name}-{'exact' if fewer is None else fewer}", [opened(kinds, end, rows)] + records + [["finish"]] + asked


# ── one calendar for all ──


def hours():
    """A calendar counts for every kind; 25 comes before 26, and 8 too."""
    cells = [(kind, cell) for kind in (0, 2, 4) for cell in (479, 480, 1199, 1200, MINUTES + 480)]
    calls = [opened([0, 2]), train(2, 1, 479), install(calendar([[(480, 1200)]]))] + [train(kind, 1, cell) for kind, cell in cells]
    calls += [train(0, 0, 479), train(4, 0, 479), train(0, 2, 479, 1, 0), ["days", "0,1500"], train(0, 2, 480 + 60), train(2, 2, 480), ["finish"]]
    yield "hours", calls + [call for kind in (0, 2, 4) for call in reads(kind, 2, 470, 490)] + [["clock", 480], ["block", 0], ["block", 1]]


# ── files ──


def files():
    """Files of several kinds in one: any may come first, a kind twice, one cut or damaged behind a good one; a load opens its kind alone."""
    of = lambda kind: file([block(10, b"abc", 0, 4, kind=kind), block(20, b"de", 2, 4, kind=kind)], node(0, 4, [0], right=node(2, 4, [1])), kind=kind)
    both, size = of(3) + of(0), len(SMALL)
    asked = [call for kind in ALL for tick in (1, 3) for call in reads(kind, tick, 9, 30)]
    yield "two", [load(both)] + asked + [["write", FILE], load(both, size)] + asked + [["write", FILE], load(both, 2 * size), ["block", 0]]
    yield "twice", [load(of(4) + of(4), size)] + asked + [["write", size], ["write", size - 1]]
    yield "cut-behind", [load((of(1) + of(2))[:-1])] + asked + [load((of(1) + of(2))[:-1], size)] + asked + [["write", FILE]]
    unlike = bytearray(of(2))
    unlike[9] = 3
    yield "unlike-behind", [load(of(1) + bytes(unlike))] + asked[:14] + [load(of(1) + bytes(unlike), size), ["block", 0]]
    no_life = file([block(10, b"abc", 1, 1, kind=2)], node(0, 4, []), kind=2)
    yield "no-life-behind", [load(of(1) + no_life), load(of(1) + no_life, size), ["block", 0], load(bytes([2]) + bytes(8) + node(0, 4, [])), ["finish"]]
    yield "over", [opened([0, 3, 4])] + MIXED + [["finish"], load(of(2), 0, WIDE[2:])] + asked + [load(of(2)[:-1], 0, WIDE[2:])] + asked + [opened([1, 2]), train(2, 0, 5), train(3, 0, 5), ["finish"]] + reads(2, 0)
    yield "room", [load(of(kind), 0, rows) for kind in (0, 4) for rows in ((2, 5, 2, 2), (1, 5, 2, 2), (2, 4, 2, 2), (2, 5, 1, 2), (2, 5, 2, 1))] + [load(file([TEN], b"\0")), ["block", 0]]


# ── drawn ──


def drawn_records(dice, kinds, end, ops):
    """Bookings of few cells and bytes over several kinds, now and then of one that is not opened."""
    tick, records = 0, []
    for _ in range(ops):
        tick = min(tick + dice.pick([0, 0, 1, 1, 2]), end - 1)
        kind = dice.among(0, 6) if dice.below(12) == 0 else dice.pick(kinds)
        first, base = dice.below(10), dice.pick([0, 0, 0, MINUTES - 4, TOP - 16])
        data = bytes(dice.pick([0, 7, 7, 9]) for _ in range(dice.among(1, min(5, 10 - first))))
        records.append(["record", kind, tick if dice.below(15) else max(0, tick - 1), base + first, hexed(data)])
    return records


def drawn(dice):
    """Lists over two to five kinds, read at every edge; each with its files."""
    for number in range(20):
        kinds = sorted({dice.below(KINDS) for _ in range(dice.among(2, 7))}) or [0, 3]
        end = dice.pick([3, 8, 8, 9, 16, 31, 33, 1 << 40, MOST_END])
        calls = [opened([dice.pick(kinds) for _ in range(4)] + kinds, end)] + drawn_records(dice, kinds, end, dice.among(8, 40)) + [["finish"]]
        model = played(calls)
        asked = [["block", n] for n in range(len(model.blocks) + 1)]
        spots = sorted({c for b in model.blocks for c in (b.first - 1, b.first, b.end) if 0 <= c < TOP} | {0, TOP - 1})
        ticks = sorted({t for b in model.blocks for t in (b.created, b.destroyed - 1) if 0 <= t < end} | {0, end - 1})
        for _ in range(24):
            kind, tick, start = dice.pick([*kinds, *kinds, dice.below(7)]), dice.pick(ticks), dice.pick(spots)
            asked += reads(kind, tick, start, min(start + dice.below(30), TOP))
        yield f"drawn-{number}", calls + asked + files_of(calls)


def days(dice):
    """A planning day in which platforms, rolling stock and crews are booked in turn, and the same with each table exact and one row short."""
    for number, kinds in enumerate(((0, 1), (1, 3, 4), (0, 1, 2, 3, 4), (2, 4))):
        end = dice.pick([16, 24, 40])
        records = [["record", dice.pick(kinds), *call[1:]] for call in timetable(dice, end, 16)]
        calls = [opened(kinds, end)] + records + [["finish"]]
        yield f"day-{number}", calls + [call for kind in ALL for tick in (0, end // 2, end - 1) for call in reads(kind, tick, 470, 500)] + files_of(calls)
        yield from tight(f"day-{number}", end, kinds, records)
    for number, kinds in enumerate(((0, 4), (1, 2, 3), tuple(ALL))):
        yield from tight(f"tight-{number}", 9, kinds, drawn_records(dice, kinds, 9, 18))


def one_tick():
    """All five kinds at each tick, from the largest end tick too: five blocks are destroyed at one tick, as many are created."""
    for end in (6, 64, MOST_END):
        step = end // 6
        records = [train(kind, tick * step, 100 * kind + tick % 2, 3, 1 + tick) for tick in range(6) for kind in (4, 2, 0, 3, 1)]
        calls = [opened(ALL, end)] + records + [["finish"]]
        asked = [call for kind in ALL for tick in range(6) for call in reads(kind, tick * step, 100 * kind, 100 * kind + 5)]
        yield f"one-tick-{end}", calls + asked + files_of(calls)


def kinds_cases():
    dice = Dice(3)
    groups = [mixed(), sets(), not_opened(), apart(), ticks(), spaces(), hours(), files(), one_tick(), drawn(dice), days(dice)]
    return [(f"kinds-{name}", calls) for group in groups for name, calls in group]
