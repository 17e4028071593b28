"""Own cases of touching, next and last for the stored list (stored.py): boards whose windows start and end at every edge of a block, boards whose blocks stand
in many nodes, drawn planning days, and each refusal; of finished and of loaded indices.

As in stored_cases.py a case is a name and a list of calls in words; what they answer is left to the model.
"""
from board_model import MINUTES, MOST_END, WORD, hexed, unhexed
from stored_cases import ROOMY, WIDE, Dice, load, played, timetable
from stored_files import SMALL, TEN, file

ANSWER = 64  # the most places of an answer that replay lends


# ── calls on a closed index ──


def lists_of(model, tick, start, end):
    """The blocks that touch a window, in an answer just long enough and in one that is too short by one."""
    count = int(model.answer(["touching", str(tick), str(start), str(end), str(ANSWER)]).split()[0])
    return [["touching", tick, start, end, room] for room in (count, count - 1) if 0 <= room]


def neighbours_of(ticks, cells):
    return [[call, tick, cell] for tick in ticks for cell in cells for call in ("next", "last")]


def edges_of(model):
    """The first cell of each block and the one before, its last cell and the one after; the first cell of all and the last."""
    cells = {c for b in model.blocks for c in (b.first - 1, b.first, b.end - 1, b.end)}
    return sorted({c for c in cells if 0 <= c < WORD} | {0, WORD - 1})


def lives_of(model):
    """The ticks at which a block comes or goes, those before, and the last one."""
    ticks = {t for b in model.blocks for t in (b.created - 1, b.created, b.destroyed - 1, b.destroyed)}
    return sorted({t for t in ticks if 0 <= t < model.end} | {0, model.end - 1})


def refused_of(end):
    """14 before 15 before 16: the end tick, a window turned round, an answer of no places; next and last know 14 alone."""
    calls = [["touching", end, 9, 8, 0], ["touching", end, 0, WORD - 1, ANSWER], ["touching", WORD - 1, 0, 0, 0]]
    calls += [["touching", end - 1, 9, 8, 0], ["touching", end - 1, 9, 8, ANSWER], ["touching", end - 1, WORD - 1, 0, 0]]
    return calls + neighbours_of((end, WORD - 1), (0, 9, WORD - 1))


def whole(model, ticks=None):
    """Every window between two edges, and the neighbours of every edge, at these ticks."""
    cells, ticks = edges_of(model), lives_of(model) if ticks is None else ticks
    calls = []
    for tick in ticks:
        for place, start in enumerate(cells):
            for end in cells[place:]:
                calls += lists_of(model, tick, start, end)
    return calls + neighbours_of(ticks, cells) + refused_of(model.end)


def all_of(model, ticks):
    """The whole board at these ticks."""
    return [call for tick in ticks for call in lists_of(model, tick, 0, WORD - 1)]


def some(model, dice, many):
    """Windows between two edges and neighbours, drawn."""
    cells, ticks, calls = edges_of(model), lives_of(model), []
    for _ in range(many):
        tick = dice.pick(ticks)
        start, end = sorted([dice.pick(cells), dice.pick(cells)])
        calls += lists_of(model, tick, start, end) + neighbours_of([tick], [dice.pick(cells)])
    return calls + refused_of(model.end)


def closed(end, kind, records, reads, rows=WIDE):
    """A board with its reads, and the same of the index that is loaded from its file."""
    calls = [["open", end, kind, *rows]] + records + [["finish"]]
    model = played(calls)
    content = unhexed(model.answer(["write", str(1 << 20)]))
    calls += reads(model)
    if not content:
        return calls
    again = load(content, 0, rows[2:])
    return calls + [again] + reads(played([again]))


def booked(*bookings):
    return [["record", tick, first, hexed(bytes([train]) * length)] for tick, first, length, train in bookings]


# ── boards ──


def edges():
    """Stays with gaps and without, one that is cut in the middle, cells from 0 on, and bookings of one tick, some of which have no life."""
    stays = booked((1, 10, 5, 1), (1, 20, 3, 2), (1, 23, 3, 3), (3, 12, 1, 4), (3, 12, 1, 5))
    yield "stays", closed(4, 1, stays, whole)
    yield "from-0", closed(2, 0, booked((0, 0, 2, 1), (0, 2, 1, 2), (1, 1, 3, 3)), whole)
    yield "no-life", closed(8, 1, booked((3, 50, 1, 1), (3, 50, 1, 2), (3, 48, 5, 3), (5, 50, 1, 4), (5, 50, 1, 3)), whole)
    yield "midnight", closed(2, 1, booked((0, 1400, 10, 2), (0, 1432, 14, 3), (1, MINUTES - 3, 3, 4), (1, MINUTES, 3, 5)), whole)
    yield "one-tick", closed(1, 4, booked((0, 5, 1, 1), (0, 7, 2, 1)), whole)


def last_cells():
    """Cells up to 2^64 - 2, which is the last that can be booked; the largest end tick, with a way of 64 nodes to the last tick."""
    top = WORD - 1
    yield "top", closed(2, 1, booked((0, top - 4, 4, 1), (1, top - 1, 1, 2)), whole)
    yield "top-one", closed(1, 1, booked((0, top - 1, 1, 1)), whole)
    late = booked((0, 5, 4, 1), (MOST_END - 2, 7, 4, 2), (MOST_END - 1, 0, 6, 3), (MOST_END - 1, top - 1, 1, 4))
    yield "late", closed(MOST_END, 3, late, lambda model: whole(model, [0, MOST_END - 2, MOST_END - 1]))


def empty():
    """An index without blocks, and one that was emptied of trains: a byte 0 is held."""
    yield "no-block", closed(8, 1, [], whole)
    yield "set-free", closed(8, 1, booked((1, 30, 4, 1), (2, 30, 4, 0)), whole)


def many_nodes(dice):
    """Stays that begin at other ticks than their places in order, so that the list is put together from many nodes; an answer of 64 places, filled."""
    for name, end, many in [("nodes-32", 32, 31), ("nodes-64", 64, 64), ("nodes-100", 100, 60)]:
        places = list(range(many))
        order = [places.pop(dice.below(len(places))) for _ in range(many)]
        records = booked(*[(tick * end // many, 100 + 3 * place, dice.among(1, 3), 1 + tick % 250) for tick, place in enumerate(order)])
        yield name, closed(end, 1, records, lambda model: all_of(model, range(0, model.end, 7)) + some(model, dice, 60))


def replaced(dice):
    """One stretch of cells booked over and over, in parts: at a tick the live blocks stand in other nodes than at the tick before."""
    for name, end in [("replaced-16", 16), ("replaced-33", 33)]:
        bookings = [(tick, 200 + dice.below(24), dice.among(1, 8), 1 + tick % 5) for tick in range(end - 1)]
        yield name, closed(end, 2, booked(*bookings), lambda model: some(model, dice, 90))


def days(dice):
    for number, end in enumerate([16, 24, 40, 64, 1 << 40]):
        records = timetable(dice, end, 12)
        yield f"day-{number}", closed(end, number % 5, records, lambda model: some(model, dice, 24))


# ── refusals ──

READS = [["touching", 9, 1, 0, 0], ["touching", 0, 0, 9, 9], ["next", 9, 0], ["next", 0, 0], ["last", 9, 0], ["last", 0, WORD - 1]]


def refusals():
    """2 before 4 before 14: a table without its head, no index, an open index."""
    for table in (0, 2, 4, 5):
        yield f"no-head-{table}", [["open", 8, 1, *[-1 if i == table else 9 for i in range(6)]]] + READS
    yield "no-index", [load(SMALL[:-1])] + READS
    yield "zeros", [load(file([TEN], b"\0"))] + READS
    yield "open-empty", [["open", 8, 1, *WIDE]] + READS
    yield "open", [["open", 8, 1, *WIDE], ["record", 1, 5, "0101"]] + READS
    yield "loaded", [load(SMALL, 0, ROOMY)] + READS + whole(played([load(SMALL, 0, ROOMY)]))


def touching_cases():
    dice = Dice(1440)
    groups = [edges(), last_cells(), empty(), many_nodes(dice), replaced(dice), days(dice), refusals()]
    return [(f"touching-{name}", calls) for group in groups for name, calls in group]
