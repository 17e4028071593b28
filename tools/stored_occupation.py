"""Own cases of the occupation report for the stored list (stored.py): fractions and ties of tenths, windows at every edge of a block, repeats, empty and crossing windows,
each fault of 37 and of 15 at its edge, the order of refusals, several kinds, and drawn windows; of finished and of loaded indices.

As in stored_cases.py a case is a name and a list of calls in words; what they answer is left to the model.
"""
from board_model import KINDS, MINUTES, MOST_END, WORD
from reports_model import MOST_CELLS, MOST_WINDOWS
from stored_cases import WIDE, Dice, load, played, timetable
from stored_files import SMALL
from stored_hours import word
from stored_kinds import kinds_word
from stored_touching import booked, closed, edges_of, lives_of

TOP = WORD - 1


def occupation(tick, *windows):
    """Of the first kind of the index."""
    return ["occupation", tick, word([cell for window in windows for cell in window])]


def of_kind(kind, tick, *windows):
    return ["occupation", kind, *occupation(tick, *windows)[1:]]


# ── fractions ──


def fractions(dice):
    """So many occupied cells of a window, each count of some lengths: halves of a tenth that go up and down, none and all; the boards that are easy to tell."""
    long = booked((0, 10_000, 4000, 7))
    part = lambda occupied, cells: occupation(5, (10_000 - (cells - occupied), 10_000 + occupied))
    named = [part(*fraction) for fraction in ((3, 4), (2, 3), (1, 16), (3, 16), (1, 2000), (3, 2000), (6, 8), (0, 8), (8, 8), (1, 3), (2, 6), (999, 1000), (1999, 2000), (1, 1), (0, 1))]
    yield "named", closed(8, 1, long, lambda model: named)
    for cells in (1, 2, 3, 7, 8, 16, 80, 125):
        yield f"of-{cells}", closed(8, 1, long, lambda model: [part(occupied, cells) for occupied in range(cells + 1)])
    ties = [part(occupied, cells) for cells in (400, 2000) for occupied in (1, 3, 5, 7, 9, cells // 2 - 1, cells // 2 + 1, cells - 3, cells - 1)]
    drawn = [part(dice.below(cells + 1), cells) for cells in (6, 12, 30, 97, 1024, 1999, 3000) for _ in range(12)]
    yield "ties", closed(8, 1, long, lambda model: ties + drawn)
    zeros = [["record", 0, 100, "07000700000700"]]
    yield "held-zeros", closed(8, 1, zeros, lambda model: [occupation(5, (start, end)) for start in range(98, 109) for end in range(start + 1, 110)])


# ── windows ──


def whole(model):
    """At each tick where a block comes or goes: every window between two edges; where it is not too long also with the one before, and twice beside one cell."""
    cells, calls, before = edges_of(model), [], (0, 1)
    for tick in lives_of(model):
        for place, start in enumerate(cells):
            for end in cells[place:]:
                calls.append(occupation(tick, (start, end)))
                if 0 < end - start < MOST_CELLS:
                    calls += [occupation(tick, (start, end), before), occupation(tick, (start, end), (12, 13), (start, end))]
                    before = (start, end)
    return calls


def edges():
    """Stays with gaps and without, a block over the start, no life, midnight and the end of a platform, the first cells and the last; an index without blocks."""
    yield "stays", closed(4, 1, booked((1, 10, 5, 1), (1, 20, 3, 2), (1, 23, 3, 0), (3, 12, 1, 4), (3, 12, 1, 0)), lambda model: whole(model)[::2])
    yield "no-life", closed(8, 1, booked((3, 50, 1, 1), (3, 50, 1, 2), (3, 48, 5, 3), (5, 50, 1, 0)), whole)
    yield "midnight", closed(2, 1, booked((0, 1432, 14, 3), (1, MINUTES - 3, 3, 4), (1, MINUTES, 3, 5)), whole)
    yield "top", closed(2, 1, booked((0, TOP - 4, 4, 1), (1, TOP - 1, 1, 2)), whole)
    yield "late", closed(MOST_END, 3, booked((0, 5, 4, 1), (MOST_END - 2, 7, 4, 0), (MOST_END - 1, 0, 6, 3)), lambda model: whole(model)[::3])
    yield "no-block", closed(8, 1, [], whole)
    yield "set-free", closed(8, 1, booked((1, 30, 4, 1), (2, 30, 4, 0)), whole)


def many_windows():
    """256 windows and 257: all alike, adjoining, far apart, empty but for the last one; with a number more, which starts one that ends at 0."""
    board, reads = booked((0, 100, 300, 7), (0, 7 * MINUTES + 5, 9, 8)), []
    for count in (255, MOST_WINDOWS, MOST_WINDOWS + 1, 300):
        alike, adjoining = [(100, 101)] * count, [(90 + k, 91 + k) for k in range(count)]
        apart, empty = [(MINUTES * k, MINUTES * k + 7) for k in range(count)], [(k, k) for k in range(count - 1)] + [(399, 402)]
        numbers = [["occupation", 5, word([cell for window in alike[:-1] for cell in window] + [start])] for start in (0, 1)]
        reads += [occupation(5, *windows) for windows in (alike, adjoining, apart, empty, [(5, 5)] * count)] + numbers
    yield "many", closed(8, 1, board, lambda model: reads)


def many_cells():
    """2^32 cells and one more, in one window and in several; sums above 2^64."""
    some, most = booked((0, 100, 60, 7), (0, MINUTES + 5, 20, 8), (0, 3 * MINUTES - 4, 8, 9)), MOST_CELLS
    fits = [[(0, most)], [(7, most + 7)], [(MINUTES, 2 * MINUTES)], [(0, most - 1), (100, 101)], [(0, most // 2)] * 2, [(0, most // 256)] * 256, [(TOP - most, TOP)], [(0, most - 1)]]
    more = [[(0, most + 1)], [(0, most), (9, 10)], [(9, 10), (0, most)], [(0, most // 256)] * 255 + [(0, most // 256 + 1)], [(0, TOP)], [(0, TOP)] * 2, [(1, TOP)] * 3, [(0, TOP)] * 256]
    more += [[(0, TOP), (5, 6), (0, 1)], [(0, 1 << 63)] * 2, [(0, 1 << 63)] * 2 + [(100, 104)], [(TOP - most - 1, TOP)], [(0, most), (5, 5)]]
    yield "cells", closed(8, 1, some, lambda model: [occupation(5, *windows) for windows in fits + more])


def drawn(dice):
    """Planning days: one to eight windows around edges, which overlap, repeat and stand in any order."""
    for number, end in enumerate((16, 24, 40, 1 << 40)):
        def reads(model):
            cells, ticks, calls = edges_of(model), lives_of(model), []
            near = lambda: dice.pick([(c, min(c + dice.below(30), TOP)) for c in [dice.pick(cells)]])
            for _ in range(60):
                windows = [dice.pick([near(), tuple(sorted((dice.pick(cells[1:-1] or cells), dice.pick(cells[1:-1] or cells))))]) for _ in range(dice.among(1, 8))]
                calls.append(occupation(dice.pick(ticks), *windows))
            return calls
        yield f"drawn-{number}", closed(end, number % KINDS, timetable(dice, end, 12), reads)


# ── kinds and refusals ──


def kinds(dice):
    """Each kind counts its own cells."""
    records = [["record", kind, 0, 10 + 3 * kind, "0807" * (1 + kind)] for kind in (0, 2, 4)] + [["record", 2, 1, 12, "00"]]
    windows = [[(0, 30)], [(10, 14)], [(12, 13), (10, 20)], [(22, 31)]]
    asked = [of_kind(kind, tick, *each) for kind in range(KINDS + 1) for tick in (0, 1, 7) for each in windows]
    yield "kinds", [["open", 8, kinds_word((4, 0, 2)), *WIDE]] + records + [["finish"]] + asked + [of_kind(255, 8, (9, 8))]


# 15 and 37 in front of each other; an odd slice with a start of 0 and above; 14 behind all that.
FAULTS = [occupation(9, (9, 8)), occupation(7, (9, 8)), occupation(7, (5, 5), (9, 8)), occupation(7, *[(1, 2)] * 256, (9, 8)), occupation(7, (9, 8), *[(1, 2)] * 256), occupation(7, (0, TOP), (TOP, 0)),
          occupation(7), occupation(8), occupation(7, (5, 5)), occupation(7, *[(1, 2)] * 257), occupation(7, (0, MOST_CELLS + 1)), ["occupation", 7, "0"], ["occupation", 7, "1"], ["occupation", 7, "4,5,0"],
          ["occupation", 7, "4,5,6"], occupation(WORD - 1), occupation(7, (4, 6)), occupation(7, (TOP, TOP)), occupation(7, (TOP - 1, TOP))]


def refusals():
    """2 before 4 before 25 before 14 before 15 before 37."""
    asked = FAULTS + [of_kind(kind, tick, *windows) for kind in (0, 1, 5, 255) for tick, windows in ((8, [(9, 8)]), (7, [(9, 8)]), (7, []), (7, [(0, 9)]))]
    for table in (0, 2, 4, 5):
        yield f"no-head-{table}", [["open", 8, 1, *[-1 if i == table else 9 for i in range(6)]]] + asked
    yield "no-index", [load(SMALL[:-1])] + asked
    yield "open", [["open", 8, 1, *WIDE], ["record", 1, 5, "0101"]] + asked + [["finish"]] + asked + [["record", 7, 9, "07"]] + FAULTS
    yield "loaded", [load(SMALL)] + asked + [call for tick in range(4) for call in whole(played([load(SMALL)]))[:40]]


def occupation_cases():
    dice = Dice(13)
    groups = [fractions(dice), edges(), many_windows(), many_cells(), drawn(dice), kinds(dice), refusals()]
    return [(f"occupation-{name}", calls) for group in groups for name, calls in group]
