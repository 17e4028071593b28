"""The package: each method against the plain model of the documents (tools/board_model.py), growth, refusals, and arguments that no call takes."""
import inspect
import pickle
import random
import typing
import unittest
from datetime import date

from support import ROOT

import board_model
import servercape
from servercape.hours import calendar
from servercape.library import library
from servercape import ADVICE, WORDS, Block, Days, Index, Kind, Operation, Place, Refused
from servercape.boardfile import Fault

LISTING = [Operation(1, 100, b"\7\7\7"), Operation(3, 102, b"\t\t\t"), Operation(5, 100, b"\7\7"), Operation(6, 103, b"\4")]
ROOM = 1 << 40


def finished(operations, end_tick=8) -> Index:
    index = Index.open(end_tick)
    index.record_all(operations)
    index.finish()
    return index


def answer(run):
    """What a call gives, or its refusal."""
    try:
        return run()
    except Refused as refused:
        return refused


def random_operation(dice) -> Operation:
    first = dice.choice([dice.randrange(40), dice.randrange(40), (1 << 64) - dice.randrange(1, 9)])
    return Operation(dice.randrange(14), first, bytes(dice.choice([0, 7, 9]) for _ in range(dice.choice([0, 1, 2, 5, 12]))))


def random_windows(dice) -> list[tuple[int, int]]:
    """Around the cells of the operations, and now and then a fault of 27."""
    fault = dice.randrange(40) == 0
    edges = lambda: dice.choice([sorted(dice.sample(range(60), 2)), (0, 1440), (1439, 1440)])
    return [(5, 5)] if fault else [tuple(edges()) for _ in range(dice.choice([0, 1, 2, 8 + (dice.randrange(20) == 0)]))]


def random_calendar(dice) -> tuple:
    days = sorted(dice.sample([0, 1, 7, (1 << 32) // 1440, (1 << 64) - 1], dice.randrange(4)), reverse=dice.randrange(20) == 0)
    return [random_windows(dice) for _ in range(7)], [(day, random_windows(dice)) for day in days]


def random_days(dice) -> list[tuple[int, int]]:
    """Around the cells of the operations, where no day lies, and now and then a fault of 28."""
    days = sorted(dice.sample([0, 1, 2, 7, 8, (1 << 32) // 1440, (1 << 64) - 1], dice.randrange(5)), reverse=dice.randrange(15) == 0)
    return [(day, dice.choice([1380, 1500] * 9 + [1440])) for day in days]


class Played:
    """The model with the package's shapes of answers; it has room for all."""

    def __init__(self, end_tick, kinds):
        self.model = board_model.Model()
        self.model.open(end_tick, kinds, ROOM, ROOM, ROOM, ROOM, ROOM, ROOM)

    def call(self, name, *arguments):
        try:
            return getattr(self.model, name)(*arguments)
        except board_model.Refused as refused:
            return Refused(refused.number)

    def shaped(self, shape, name, *arguments):
        given = self.call(name, *arguments)
        return given if isinstance(given, Refused) else shape(given)

    def record(self, kind, tick, first, data):
        return self.shaped(lambda given: given[1] if given[0] == "update" else None, "record", kind, tick, first, board_model.hexed(data))

    def find(self, kind, tick, start, end):
        return self.shaped(lambda given: (given[2:], given[1]), "find", kind, tick, start, end, ROOM)

    def touching(self, kind, tick, start, end):
        return self.shaped(lambda given: given[1:], "touching", kind, tick, start, end, ROOM)

    def calendar(self, week, special):
        return self.shaped(lambda given: None, "calendar", ",".join(map(str, calendar(week, special))))

    def days(self, listed):
        return self.shaped(lambda given: None, "days", ",".join(str(number) for pair in listed for number in pair) or "-")

    def clock(self, cell):
        return self.shaped(lambda given: given[0], "clock", cell)

    def near(self, name, kind, tick, cell):
        return self.shaped(lambda given: None if given[0] == "missing" else given[0], name, kind, tick, cell)

    def cells(self, kind, tick, start, end):
        shape = lambda given: [byte if held else None for byte, held in zip(*map(board_model.unhexed, given))]
        return self.shaped(shape, "cells", kind, tick, start, end, ROOM, ROOM)

    def block(self, number):
        return self.shaped(lambda given: Block(given[0], given[1], given[3], given[4], board_model.unhexed(given[5])), "block", number)


class Model(unittest.TestCase):
    def play(self, dice):
        end_tick, kinds = dice.randrange(1, 14), [dice.randrange(5) for _ in range(dice.choice([1, 1, 2, 4]))]
        index, model = Index.open(end_tick, kinds), Played(end_tick, kinds)
        self.assertEqual(index.kinds, tuple(sorted(set(kinds))))
        for _ in range(dice.randrange(4)):
            if dice.randrange(2):
                hours = random_calendar(dice)
                self.assertEqual(answer(lambda: index.install_calendar(*hours)), model.calendar(*hours))
            if dice.randrange(2):
                listed = random_days(dice)
                self.assertEqual(answer(lambda: index.install_days(listed)), model.days(listed))
            operations = [random_operation(dice) for _ in range(dice.randrange(12))]
            # now and then a kind that was not opened
            kind = dice.choice([*kinds, *kinds, *kinds, dice.choice([0, 1, 2, 3, 4, 5, 255])])
            want = [model.record(kind, *operation) for operation in operations]
            if dice.randrange(2):
                self.assertEqual(index.record_all(operations, kind=kind), want)
            else:
                self.assertEqual([answer(lambda: index.record(*operation, kind=kind)) for operation in operations], want)
        self.compare(dice, index, model)  # before finish each is refused 4
        board = index.finished()
        self.assertFalse(index.closed)
        index.finish()
        self.assertEqual(list(board.blocks()), list(index.blocks()))
        model.call("finish")
        self.compare(dice, index, model)
        listed = random_days(dice)
        self.assertEqual(answer(lambda: index.install_days(listed)), model.days(listed))  # of a finished index too
        self.compare(dice, index, model)
        self.assertEqual(answer(lambda: index.record(13, 1, b"x", kind=9)), Refused(3))
        self.assertEqual(answer(index.finish), Refused(3))
        self.assertEqual(answer(lambda: index.install_calendar([[]] * 7)), Refused(3))
        return index

    def compare(self, dice, index, model):
        self.assertEqual(library.state(*index._tables), (index._state,))  # the state that the index keeps is true
        window = lambda: (dice.randrange(14), dice.randrange(45), dice.randrange(45))
        for _ in range(12):
            asked, kind = window(), dice.choice([*index.kinds, *index.kinds, dice.randrange(6)])
            self.assertEqual(answer(lambda: index.find(*asked, kind=kind)), model.find(kind, *asked))
            self.assertEqual(answer(lambda: index.touching(*asked, kind=kind)), model.touching(kind, *asked))
            self.assertEqual(answer(lambda: index.cells(*asked, kind=kind)), model.cells(kind, *asked))
            self.assertEqual(answer(lambda: index.next(*asked[:2], kind=kind)), model.near("next", kind, *asked[:2]))
            self.assertEqual(answer(lambda: index.last(*asked[:2], kind=kind)), model.near("last", kind, *asked[:2]))
            for cell in (asked[1], dice.randrange(5000), dice.randrange(1 << 32), dice.randrange(1 << 64), (1 << 32) - 1 - dice.randrange(300)):
                label = index.clock(cell)
                shown = index.days.place(cell % (1 << 32))[1]
                self.assertEqual((label, shown // 60 * 100 + shown % 60), (model.clock(cell), label))
        for number in range(30):
            self.assertEqual(answer(lambda: index.block(number)), model.block(number))

    def test_random_lists(self):
        dice = random.Random(24)
        for _ in range(150):
            index = self.play(dice)
            file, at = b"xyz" + index.write(), 3
            for kind in sorted({block.kind for block in index.blocks()}):
                loaded, end = Index.load(file, at)
                self.assertEqual((loaded.kinds, loaded.write()), ((kind,), file[at:end]))
                self.assertEqual(list(loaded.blocks()), [block for block in index.blocks() if block.kind == kind and block.created < block.destroyed])
                at = end
            self.assertEqual(at, len(file))

    def test_damaged_files(self):
        file = finished(LISTING).write()
        model = board_model.Model()
        model.rows = {"scratch": 8, "pieces": 0, "blocks": ROOM, "store": ROOM, "nodes": ROOM, "entries": ROOM}
        for place in range(len(file)):
            for by in (0, 1, 128):
                damaged = board_model.damaged_at(file, place, by)
                got = answer(lambda: Index.load(damaged))
                self.assertEqual(got.number if isinstance(got, Refused) else 0, model.refusal(damaged, 0))


class Growth(unittest.TestCase):
    def test_many(self):
        """Many bookings one by one and as one list leave the same; no table was large enough at first."""
        dice = random.Random(7)
        operations = [Operation(tick, dice.randrange(3000), bytes([dice.randrange(256)]) * dice.randrange(1, 60)) for tick in range(5000)]
        one, all_at_once = Index.open(1 << 63, Kind.OTHER), Index.open(1 << 63, Kind.OTHER)
        self.assertEqual([one.record(*operation) for operation in operations], all_at_once.record_all(operations))
        one.finish()
        all_at_once.finish()
        self.assertEqual(one.write(), all_at_once.write())
        self.assertEqual(library.state(*one._tables), (one._state,))
        self.assertGreater(one.block_count, 5000)
        everything = one.find(4999, 0, 1 << 63).numbers
        self.assertEqual(sorted(everything), sorted(one.touching(4999, 0, 1 << 63)))
        self.assertGreater(len(everything), 64)

    def test_long_booking_over_many(self):
        """The most that an update can leave: each cell a piece of its own, then one booking over all."""
        index = Index.open(100)
        self.assertEqual(set(map(type, index.record_all([(1, 2 * cell, b"a") for cell in range(3000)]))), {int})
        self.assertEqual(index.record_all([(2, 1, b"b" * 6000), *((3, 3 * cell, b"c") for cell in range(2000))])[0], 1)
        index.finish()
        self.assertEqual(index.cells(3, 0, 4), [99, 98, 98, 99])


class Kinds(unittest.TestCase):
    def test_several(self):
        """The board of request 3: the same cell and byte in two kinds are two bookings, and their files stand one behind the other."""
        index = Index.open(8, [Kind.OTHER, Kind.CONSTANT, Kind.UNIQUE, Kind.CONSTANT])
        self.assertEqual(index.kinds, (Kind.CONSTANT, Kind.UNIQUE, Kind.OTHER))
        self.assertEqual(index.record(1, 5, b"\x08", kind=Kind.UNIQUE), 5)
        self.assertEqual(index.record_all([(0, 5, b"\x08"), (3, 9, b"\x08"), (4, 5, b"\x08")], kind=Kind.CONSTANT), [Refused(8), 9, 5])
        self.assertRaisesRegex(ValueError, "several kinds", index.record, 4, 5, b"a")
        self.assertRaisesRegex(ValueError, "several kinds", lambda: index.kind)
        index.finish()
        self.assertEqual((index.block_count, index.node_count, index.entry_count), (3, 11, 6))
        self.assertEqual([(block.kind, block.first) for block in index.blocks()], [(0, 5), (0, 9), (3, 5)])
        self.assertEqual([index.find(5, 0, 10, kind=kind) for kind in index.kinds], [([0, 1], 2), ([2], 2), ([], 0)])
        self.assertEqual([index.cells(3, 5, 6, kind=kind) for kind in index.kinds], [[None], [8], [None]])
        self.assertRaisesRegex(ValueError, "several kinds", index.touching, 5, 0, 10)
        file = index.write()
        first, end = Index.load(file)
        second, behind = Index.load(file, end)
        self.assertEqual((len(file), end, behind, first.kind, second.kind), (544, 272, 544, Kind.CONSTANT, Kind.UNIQUE))
        self.assertEqual((first.touching(5, 0, 10), second.touching(5, 0, 10)), ([0, 1], [0]))
        self.assertEqual((repr(index), repr(second)), ("<Index constant+unique+other, end tick 8, 3 blocks, closed>", "<Index unique, end tick 8, 1 blocks, closed>"))


class Hours(unittest.TestCase):
    def test_hours(self):
        index = Index.open(8)
        monday = [[(480, 1200)], *[[]] * 6]
        self.assertEqual(index.record(1, 479, b"a"), 479)  # until the first calendar every cell is open
        index.install_calendar(monday)
        self.assertEqual(answer(lambda: index.record(1, 479, b"a")), Refused(26))
        self.assertEqual(index.record_all([(1, 480, b"a"), (1, 1199, b"aa"), (1, 1199, b"a\0"), (1, 1440, b"a")]), [480, Refused(26), 1199, Refused(26)])
        self.assertEqual(answer(lambda: index.install_calendar([[(9, 9)]] * 7)), Refused(27))  # the one before still counts
        self.assertEqual(answer(lambda: index.record(1, 0, b"a")), Refused(26))
        index.install_calendar(monday, [(1, [(0, 5)])])
        self.assertEqual(index.record(2, 1440, b"aaaaa"), 1440)
        index.install_calendar(monday, [(0, []), (1, [(0, 5)])])  # on a special day only its windows count
        self.assertEqual(index.record_all([(2, 480, b"a"), (2, 7 * 1440 + 480, b"a"), (2, 1440, b"aaaaa")]), [Refused(26), 7 * 1440 + 480, None])
        copy = index.copy()
        self.assertEqual(answer(lambda: copy.record(2, 1445, b"a")), Refused(26))
        copy.install_calendar([[(0, 1440)]] * 7)
        self.assertEqual(copy.record(2, 1445, b"a"), 1445)
        self.assertEqual(library.state(*index._tables), (index._state,))

    def test_every_window_counts(self):
        """A full calendar, whose windows are all apart."""
        index = Index.open(8)
        windows = lambda day: [(100 * k + day, 100 * k + day + 1) for k in range(8)]
        index.install_calendar(map(windows, range(7)), ((70 + k, windows(10 + k)) for k in range(64)))
        cells = [(day, minute) for day in (*range(9), *range(69, 136, 5), 70, 133, 134) for minute in range(800)]
        answers = index.record_all((0, 1440 * day + minute, b"a") for day, minute in cells)
        is_open = lambda day, minute: minute % 100 == (day - 60 if 70 <= day < 134 else day % 7)
        self.assertEqual([given == Refused(26) for given in answers], [not is_open(*cell) for cell in cells])

    def test_no_such_calendar(self):
        index = Index.open(8)
        for week, special in (([], []), ([[]] * 6, []), ([[(-1, 5)]] * 7, []), ([[]] * 7, [(1 << 64, [])]), ([[(1, 2, 3)]] * 7, [])):
            self.assertRaises(ValueError, index.install_calendar, week, special)
        for week, special in (([[5]] * 7, []), (5, []), ([[("0", "9")]] * 7, []), ([[]] * 7, [5])):
            self.assertRaises(TypeError, index.install_calendar, week, special)
        self.assertEqual(index.record(0, 0, b"a"), 0)


class ListedDays(unittest.TestCase):
    def test_labels(self):
        index = Index.open(8)
        labels = lambda index: [index.clock(cell) for cell in (119, 120, 179, 180, 239, 240, 1379, 1380, 1499, 1500)]
        self.assertEqual(labels(index), [159, 200, 259, 300, 359, 400, 2259, 2300, 59, 100])
        index.install_days([(0, 1380)])
        self.assertEqual(labels(index), [159, 300, 359, 400, 459, 500, 2359, 0, 159, 200])
        self.assertEqual(index.clock((1 << 32) - 1), 515)
        index.install_days([(0, 1500)])
        long = [159, 200, 259, 200, 259, 300, 2159, 2200, 2359, 0]
        self.assertEqual(labels(index), long)
        self.assertEqual(answer(lambda: index.install_days([(0, 1440)])), Refused(28))  # the list before still counts
        index.record(1, 100, b"a")
        copy = index.copy()
        index.finish()
        self.assertEqual((labels(index), labels(copy), index.days), (long, long, Days([(0, 1500)])))
        index.install_days([])
        self.assertEqual((labels(index)[3], index.days, labels(copy)), (300, Days(), long))
        loaded = Index.load(index.write())[0]
        self.assertEqual((loaded.days, loaded.clock(180)), (Days(), 300))  # a file holds no list
        loaded.install_days(copy.days)
        self.assertEqual(labels(loaded), long)
        self.assertEqual(library.state(*loaded._tables), (loaded._state,))

    def test_hours_go_by_what_the_clock_shows(self):
        index = Index.open(8)
        index.install_calendar([[(120, 180)]] * 7)
        index.install_days([(0, 1380), (1, 1500)])
        answers = index.record_all((1, cell, b"a") for cell in range(3 * 1440))
        taken = [cell for cell, given in enumerate(answers) if given != Refused(26)]
        self.assertEqual(taken, [*range(1500, 1620), *range(3000, 3060)])  # none on the short day, both passes on the long one

    def test_days_and_times(self):
        for listed in ([], [(0, 1380)], [(0, 1500), (1, 1500), (5, 1380)], [(day, 1500) for day in range(64)], [((1 << 64) - 1, 1380)]):
            days = Days(listed)
            for minute in (*range(0, 12000), *range(90000, 99000), (1 << 32) - 1):
                day, shown = days.place(minute)
                self.assertTrue(days.start(day) <= minute < days.start(day + 1) and 0 <= shown < 1440)
                first = days.minute(day, shown)
                self.assertIn(minute - first, (0, 60) if dict(listed).get(day) == 1500 else (0,))
        days = Days([(0, 1380), (6, 1500)])
        self.assertEqual((Place.at(2, "monday", "03:00", days).minute, Place.at(2, "sunday", "02:30", days).minute, Place.at(0, "monday+1", "00:00", days).minute), (120, 8730, 10080))
        self.assertEqual((Place(2, 120).time_by(days), Place(2, 8790).time_by(days), Place(2, 1380).time_by(days)), ("monday 03:00", "sunday 02:30", "tuesday 00:00"))
        self.assertRaisesRegex(Fault, "02:30 is no time of day 0", Place.at, 0, "monday", "02:30", days)
        self.assertEqual((Place.at(0, "tuesday", "02:30", days).time, Place(0, 8640).time), ("tuesday 01:30", "sunday 00:00"))

    def test_dates(self):
        days = Days.central_european(date(2024, 1, 1), range(2024, 2027))
        self.assertEqual(days.listed, [(90, 1380), (300, 1500), (454, 1380), (664, 1500), (818, 1380), (1028, 1500)])
        self.assertEqual(list(Days.central_european(date(2025, 6, 2), [2026, 2024, 2025])), [(day - 518, minutes) for day, minutes in days.listed[3:]])
        self.assertEqual(len(list(Days.central_european(date(2024, 1, 1), range(2024, 2056)))), 64)
        self.assertEqual(answer(lambda: Days.central_european(date(2024, 1, 1), range(2024, 2057))), Refused(28))
        self.assertRaises(ValueError, Days.central_european, date(2024, 1, 2), [2024])
        self.assertEqual((repr(Days([(3, 1380)])), hash(Days()), Days() == Days([(3, 1380)])), ("Days([(3, 1380)])", hash(Days([])), False))

    def test_no_such_list(self):
        index = Index.open(8)
        for listed in ([(-1, 1380)], [(1 << 64, 1380)], [(1, 2, 3)]):
            self.assertRaises(ValueError, index.install_days, listed)
        for listed in ([5], 5, [("0", 1380)]):
            self.assertRaises(TypeError, index.install_days, listed)
        self.assertEqual(index.days, Days())


class Refusals(unittest.TestCase):
    def test_each(self):
        index = Index.open(8)
        index.record(3, 0, b"a")
        closed = finished(LISTING)
        cases = [(1, lambda: Index.open(0)), (1, lambda: Index.open((1 << 63) + 1)), (1, lambda: Index.open(8, 5)), (1, lambda: Index.open(8, [])), (1, lambda: Index.open(8, [1, 5])), (3, closed.finish),
                 (25, lambda: index.record(8, 0, b"", kind=Kind.OTHER)), (25, lambda: closed.find(8, 1, 0, kind=5)), (25, lambda: closed.touching(8, 1, 0, kind=0)), (25, lambda: closed.cells(8, 1, 0, kind=255)),
                 (25, lambda: closed.next(8, 0, kind=2)), (25, lambda: closed.last(8, 0, kind=3)), (4, lambda: index.find(8, 1, 0, kind=5)), (3, lambda: closed.record(8, 0, b"", kind=5)),
                 (3, lambda: closed.record(1, 1, b"a")), (4, lambda: index.find(0, 0, 1)), (4, lambda: index.blocks()), (4, index.write),
                 (5, lambda: index.record(3, 0, b"")), (6, lambda: index.record(3, (1 << 64) - 2, b"ab")), (7, lambda: index.record(8, 0, b"a")),
                 (8, lambda: index.record(2, 0, b"a")), (14, lambda: closed.find(8, 0, 1)), (14, lambda: closed.next(8, 0)),
                 (3, lambda: closed.install_calendar([[]] * 7)), (27, lambda: index.install_calendar([[(5, 5)]] * 7)),
                 (27, lambda: index.install_calendar([[(0, 1441)]] * 7)), (27, lambda: index.install_calendar([[(0, 1)] * 9] * 7)),
                 (27, lambda: index.install_calendar([[]] * 7, [(3, []), (3, [])])), (27, lambda: index.install_calendar([[]] * 7, [(day, []) for day in range(65)])),
                 (28, lambda: index.install_days([(0, 1440)])), (28, lambda: closed.install_days([(3, 1380), (3, 1500)])), (28, lambda: Days([(4, 1380), (3, 1500)])),
                 (28, lambda: index.install_days((day, 1380) for day in range(65))), (2, lambda: Index().install_days([])), (2, lambda: Index().clock(0)),
                 (15, lambda: closed.cells(1, 2, 1)), (15, lambda: closed.block(6)), (17, lambda: Index.load(b"")), (17, lambda: Index.load(b"", 9))]
        for number, run in cases:
            with self.subTest(number=number):
                self.assertEqual(answer(run), Refused(number))

    def test_window_larger_than_memory(self):
        index = finished(LISTING)
        self.assertEqual(answer(lambda: index.cells(9, 0, (1 << 64) - 1)), Refused(14))
        with self.assertRaises(MemoryError):
            index.cells(1, 0, (1 << 64) - 1)

    def test_words(self):
        self.assertEqual(list(WORDS), sorted(WORDS))
        self.assertEqual(min(WORDS), 1)
        self.assertEqual(str(Refused(8)), "refused 8: the booking's tick is below the last accepted one")
        with self.assertRaisesRegex(Refused, "15: there is no block of that number"):
            finished(LISTING).block(6)
        with self.assertRaisesRegex(Refused, "15: the window's start is above its end"):
            finished(LISTING).find(0, 2, 1)
        self.assertEqual(pickle.loads(pickle.dumps(Refused(8))), Refused(8))

    def test_advice(self):
        self.assertEqual(Refused(8).advice, "give edits in order; several may have the same tick")
        self.assertEqual(Refused(15, 1).advice, "count from 0, up to the number of blocks less one")
        self.assertEqual([(number, len(words)) for number, words in WORDS.items()], [(number, len(advice)) for number, advice in ADVICE.items()])

    def test_a_number_that_is_not_known(self):
        self.assertEqual(str(Refused(99)), "refused 99: a reason that this package does not know")

    def test_what_no_call_takes(self):
        index = finished(LISTING)
        for run in (lambda: index.find(-1, 0, 1), lambda: index.find(0, 0, 1 << 64), lambda: index.block(-1), lambda: Index.open(8, 256), lambda: Index.open(8, [1, -1]), lambda: index.find(0, 0, 1, kind=256),
                    lambda: Index.open(8).record_all([(1 << 64, 0, b"a")]), lambda: Index.open(8).record(-1, 0, b"a"), lambda: Index.load(b"", -1), lambda: Index.load(bytes(50), -30)):
            self.assertRaises(ValueError, run)
        for run in (lambda: Index.open(8).record(0, 0, 5), lambda: Index.open(8).record_all([(0, 0, "text")]), lambda: index.find("1", 0, 1)):
            self.assertRaises(TypeError, run)


class Values(unittest.TestCase):
    def test_getters(self):
        index = Index.open(8)
        self.assertEqual(index.record_all(LISTING), [100, 102, None, 103])
        self.assertEqual((index.end_tick, index.kind, index.kinds, index.last_tick, index.closed, index.block_count, index.byte_count), (8, Kind.MEMORY, (Kind.MEMORY,), 6, False, 2, 7))
        index.finish()
        self.assertEqual((index.closed, index.block_count, index.node_count, index.entry_count), (True, 6, 10, 12))
        self.assertEqual(index.find(6, 100, 104), ([2, 3, 4], 3))
        self.assertEqual(repr(index), "<Index memory, end tick 8, 6 blocks, closed>")

    def test_view_of_a_file(self):
        """The bytes of `write`, which nobody can change, and which stay what they were."""
        index = finished(LISTING)
        view, file = index.write_view(), index.write()
        self.assertEqual((bytes(view), view.readonly, view.nbytes), (file, True, len(file)))
        index.install_days([(0, 1380)])
        self.assertEqual((bytes(view), answer(Index.open(8).write_view)), (file, Refused(4)))

    def test_no_blocks(self):
        index = finished([])
        self.assertEqual((index.find(0, 0, 9), index.touching(0, 0, 9), index.write(), list(index.blocks())), (([], 0), [], b"", []))

    def test_places(self):
        place = Place.at(2, "tuesday+1", "23:52")
        self.assertEqual((Place.of(place.cell), place.time), (place, "tuesday+1 23:52"))
        self.assertEqual(Index.open(8).clock(place.cell), 2352)

    def test_types(self):
        """Every public name has types."""
        for name in servercape.__all__:
            public = getattr(servercape, name)
            functions = [public] if inspect.isfunction(public) else [
                function for key, function in vars(public).items() if not key.startswith("_") and callable(getattr(function, "__func__", function))
            ] if inspect.isclass(public) else []
            for function in functions:
                function = getattr(function, "__func__", function)
                if inspect.isfunction(function):
                    hints = typing.get_type_hints(function)
                    wanted = [each for each in inspect.signature(function).parameters if each not in ("self", "cls")] + ["return"]
                    self.assertEqual([each for each in wanted if each not in hints], [], f"{name}.{function.__name__}")


if __name__ == "__main__":
    unittest.main()
