"""What an index remembers of its tables stays true: copies, pickles, threads, and calls that are
interrupted."""
import copy
import pickle
import random
import signal
import threading
import unittest
from array import array
from concurrent.futures import ThreadPoolExecutor
from unittest import mock

import support  # noqa: F401, it puts the package on the path

from servercape import Index, Kind, Refused
from servercape import index as module
from servercape.library import library
from servercape.room import Lives, need

CLOSED = 2


def board(count: int = 300, kinds=Kind.MEMORY) -> Index:
    """An open index with blocks and pieces."""
    index, dice = Index.open(1000, kinds), random.Random(7)
    for tick in range(count):
        index.record(tick, dice.randrange(90), bytes([dice.randrange(3)]) * dice.randrange(1, 20), kind=dice.choice(index.kinds))
    return index


def listed(index: Index) -> list:
    return list(index.finished().blocks())


def number(run) -> int:
    """That of its refusal, or 0."""
    try:
        run()
    except Refused as refused:
        return refused.number
    return 0


class Checked(unittest.TestCase):
    def check(self, index: Index) -> None:
        """The state that the index remembers is that of its tables."""
        closed = index.closed
        self.assertEqual(library.state(*index._tables), (index._state,))
        self.assertEqual(closed, index._state == CLOSED)


class Tagged(Index):
    """A subclass that keeps something of its own, and takes arguments."""

    def __init__(self, tag="none"):
        self.tag = tag


class Copies(Checked):
    WAYS = [copy.copy, copy.deepcopy, Index.copy, lambda index: pickle.loads(pickle.dumps(index)),
            *(lambda index, protocol=protocol: pickle.loads(pickle.dumps(index, protocol)) for protocol in range(pickle.HIGHEST_PROTOCOL + 1))]

    def test_each_has_tables_of_its_own(self):
        for way in self.WAYS:
            index = board()
            before, other = listed(index), way(index)
            self.assertEqual(listed(other), before)
            other.finish()
            self.assertEqual(list(other.blocks()), before)
            self.assertFalse(index.closed)
            self.assertEqual(index.record(999, 5000, b"abc"), 5000)
            self.assertEqual(index.finished().cells(999, 5000, 5003), [97, 98, 99])
            self.assertEqual(number(lambda: other.record(999, 5000, b"abc")), 3)
            self.assertEqual(list(other.blocks()), before)
            for each in (index, other):
                self.check(each)

    def test_of_every_state(self):
        closed = board()
        closed.finish()
        loaded, _ = Index.load(closed.write())
        several = board(kinds=[Kind.MEMORY, Kind.OTHER])
        with_days = board()
        with_days.install_days([(0, 1380)])
        with_days.install_calendar([[(0, 60)]] * 7)
        for index in (closed, loaded, several, with_days, Index.open(1 << 63, range(5)), Index()):
            for way in self.WAYS:
                other = way(index)
                for mine, others in zip(index._tables, other._tables):  # a pickle leaves out the room behind the rows
                    self.assertEqual(others, mine[:len(others)])
                self.assertEqual((other.closed, other.kinds, other.days, repr(other)), (index.closed, index.kinds, index.days, repr(index)))
                self.check(other)
                if index.closed:
                    self.assertEqual(other.write(), index.write())

    def test_of_a_subclass(self):
        index = Tagged.open(8)
        index.tag, index.notes = "mine", ["a"]
        index.record(1, 5, b"x")
        for way in self.WAYS:
            other = way(index)
            self.assertEqual((type(other), other.tag, other.notes, listed(other)), (Tagged, "mine", ["a"], listed(index)))
            self.assertEqual(other.notes is index.notes, way in (copy.copy, Index.copy))
        self.assertIs(type(index.finished()), Tagged)

    def test_deep_copy_that_holds_itself(self):
        index = board(3)
        index.myself = index
        other = copy.deepcopy(index)
        self.assertIs(other.myself, other)

    def test_small(self):
        """A pickle leaves out the room that waits behind the rows."""
        index = Index.open(8)
        empty = len(pickle.dumps(index))
        index.record(1, 5, b"x" * 100_000)
        index.record(1, 5, b"y")
        self.assertLess(len(pickle.dumps(index)), empty + 101_000)


class Pickles(Checked):
    def parts(self, index: Index) -> dict:
        return index.__getstate__()

    def load(self, state) -> Index:
        index = Index.__new__(Index)
        index.__setstate__(state)
        return index

    def test_damaged(self):
        """Every one that is taken has a state that is true, and most are not taken."""
        dice, refused = random.Random(41), 0
        for index in (board(60), board(60).finished()):
            file = pickle.dumps(index)
            for _ in range(400):
                damaged = bytearray(file)
                damaged[dice.randrange(120, len(file) - 80)] ^= 1 << dice.randrange(8)
                try:
                    taken = pickle.loads(bytes(damaged))
                except (pickle.UnpicklingError, ValueError, TypeError, KeyError, EOFError, AttributeError, IndexError, OverflowError, UnicodeError, ImportError, MemoryError):
                    refused += 1
                    continue
                self.check(taken)
                number(lambda: taken.record(999, 0, b"abc"))
                self.check(taken)
        self.assertGreater(refused, 200)

    def test_spoiled_tables(self):
        index = board(60)
        state = self.parts(index)
        spoiled = bytearray(state["tables"][0])
        spoiled[8] += 1  # one piece more than there are
        state["tables"][0] = bytes(spoiled)
        self.assertRaisesRegex(pickle.UnpicklingError, "not well formed", self.load, state)
        self.check(index)

    def test_no_index(self):
        good = self.parts(board(5))
        tables = good["tables"]
        cases = [{}, {"tables": tables}, {"tables": tables[:4], "attributes": {}}, {"tables": [*tables, tables[0]], "attributes": {}},
                 {"tables": [tables[0] + b"x", *tables[1:]], "attributes": {}}, {"tables": [b"", *tables[1:]], "attributes": {}},
                 {"tables": ["text", *tables[1:]], "attributes": {}}, {"tables": [5, *tables[1:]], "attributes": {}},
                 {"tables": [b""] * 5, "attributes": {}}, {"tables": 5, "attributes": {}}, {"tables": tables, "attributes": 5},
                 {"_state": 1, "_pieces": array("Q"), "_blocks": array("Q")}, (None, {"_state": 1}), 5]
        for case in cases:
            with self.subTest(case=str(case)[:60]):
                self.assertRaises(pickle.UnpicklingError, self.load, case)

    def test_what_was_there_stays(self):
        """A pickle that is refused leaves the index into which it is put."""
        index = board()
        before = listed(index)
        self.assertRaises(pickle.UnpicklingError, index.__setstate__, {"tables": [bytes(64)] * 5, "attributes": {}})
        self.assertEqual(listed(index), before)
        self.check(index)


class Remembered(Checked):
    def test_init_twice(self):
        index = board()
        before = listed(index)
        index.__init__()
        self.assertEqual(listed(index), before)
        self.check(index)

    def test_subclass_without_init(self):
        class Bare(Index):
            def __init__(self):
                pass

        self.assertEqual(number(lambda: Bare().finish()), 2)
        self.assertEqual(Bare.open(8).record(1, 5, b"x"), 5)

    def test_private_attributes_are_not_in_the_dictionary(self):
        self.assertEqual(vars(board(1)), {})

    def test_bytes_that_lie_about_their_length(self):
        class Longer(bytes):
            def __len__(self):
                return 1 << 40

        index = Index.open(8)
        self.assertEqual(index.record(1, 100, Longer(b"abc")), 100)
        self.assertEqual(index.record_all([(2, 200, Longer(b"de"))]), [200])
        index.finish()
        self.assertEqual((index.cells(2, 99, 104), index.byte_count), ([None, 97, 98, 99, None], 5))
        self.assertEqual(Index.load(Longer(index.write()))[0].block_count, 2)

    def test_interrupted_behind_the_call(self):
        """An exception after the library has done its work, before the index knows of it."""
        def interrupted(name):
            whole = getattr(library, name)

            def call(*arguments):
                whole(*arguments)
                raise KeyboardInterrupt
            return mock.patch.object(library, name, call)

        index = board()
        with interrupted("finish"), self.assertRaises(KeyboardInterrupt):
            index.finish()
        self.assertEqual(number(lambda: index.record(999, 0, b"abc")), 3)
        self.assertTrue(index.closed)
        self.check(index)
        for name, run in (("record_tested", lambda: index.record(999, 5000, b"abc")), ("record_all", lambda: index.record_all([(999, 6000, b"abc")])),
                          ("install_days", lambda: index.install_days([(0, 1380)])), ("install_calendar", lambda: index.install_calendar([[]] * 7))):
            index = board()
            with interrupted(name), self.assertRaises(KeyboardInterrupt):
                run()
            self.check(index)
            self.assertEqual(number(index.finish), 0)
            self.check(index)

    def test_interrupted_in_front_of_the_call(self):
        index = board()
        with mock.patch.object(library, "finish", side_effect=KeyboardInterrupt), self.assertRaises(KeyboardInterrupt):
            index.finish()
        self.check(index)
        self.assertEqual(index.record(999, 5000, b"abc"), 5000)

    def test_no_memory(self):
        """Growth that fails, at each place where a table grows: the index goes on as it was."""
        operations = [(tick, 7 * tick, bytes([tick % 3]) * 11) for tick in range(400)]
        whole = Index.open(1000)
        whole.record_all(operations)
        for failing in range(1, 12):
            index, calls = Index.open(1000), 0

            def add_zeros(table, size, usual=module._add_zeros):
                nonlocal calls
                calls += size > 0
                if calls == failing and size > 0:
                    raise MemoryError
                usual(table, size)

            failed = 0
            with mock.patch.object(module, "_add_zeros", add_zeros):
                for operation in operations:
                    try:
                        index.record(*operation)
                    except MemoryError:
                        failed += 1
                        self.check(index)
                        index.record(*operation)
                try:
                    index.finish()
                except MemoryError:
                    failed += 1
                    self.check(index)
                    self.assertFalse(index.closed)
                    index.finish()
            self.assertEqual(failed, int(calls >= failing))
            self.check(index)
            self.assertEqual(list(index.blocks()), listed(whole))

    def test_inside_a_call(self):
        """A signal handler or a finalizer that calls the index from inside one of its calls."""
        index = board()
        before = listed(index)
        whole = library.record_tested

        def call(*arguments):
            self.assertRaisesRegex(RuntimeError, "in use", index.finish)
            self.assertRaisesRegex(RuntimeError, "in use", index.record, 999, 0, b"x" * 99999)
            self.assertRaisesRegex(RuntimeError, "in use", copy.copy, index)
            return whole(*arguments)

        with mock.patch.object(library, "record_tested", call):
            self.assertEqual(index.record(999, 5000, b"abc"), 5000)
        self.check(index)
        self.assertEqual(len(listed(index)), len(before) + 1)

    def test_operations_that_use_the_index(self):
        """What a caller hands over is taken before the index is: it may call the index itself."""
        index = board()
        count = index.block_count
        self.assertEqual(index.record_all((999, 5000 + k, bytes([index.record(998, 6000 + k, b"x") % 256])) for k in range(3)), [5000, 5001, 5002])
        self.assertEqual(index.block_count, count)
        index.install_days((day, 1380) for day in [index.block_count])
        self.assertEqual(index.days.listed, [(count, 1380)])

    def test_blocks_while_it_is_copied(self):
        index = board().finished()
        blocks = index.blocks()
        first = next(blocks)
        other = pickle.loads(pickle.dumps(index))
        self.assertEqual([first, *blocks], list(other.blocks()))

    @unittest.skipUnless(hasattr(signal, "setitimer"), "there are no timers")
    def test_signals(self):
        """Interrupts at any moment of many calls leave tables of which the state is true."""
        class Interrupt(Exception):
            pass

        def interrupt(*_):
            raise Interrupt

        usual = signal.signal(signal.SIGALRM, interrupt)
        dice, done = random.Random(3), 0
        try:
            for turn in range(60):
                index = Index.open(100000)
                signal.setitimer(signal.ITIMER_REAL, dice.uniform(0.0002, 0.004))
                try:
                    for tick in range(3000):
                        index.record(tick, dice.randrange(5000), bytes([tick % 251]) * dice.randrange(1, 9))
                        done += 1
                    index.finish()
                except Interrupt:
                    pass
                finally:
                    signal.setitimer(signal.ITIMER_REAL, 0)
                self.check(index)
                if not index.closed:
                    index.record(99998, 1 << 40, b"x")
                    index.finish()
                self.check(index)
        finally:
            signal.setitimer(signal.ITIMER_REAL, 0)
            signal.signal(signal.SIGALRM, usual)
        self.assertGreater(done, 0)


class Threads(Checked):
    THREADS = 4

    def together(self, run) -> list:
        """What some threads give that begin at the same moment."""
        barrier = threading.Barrier(self.THREADS)

        def begin(thread):
            barrier.wait()
            return run(thread)

        with ThreadPoolExecutor(self.THREADS) as pool:
            return list(pool.map(begin, range(self.THREADS)))

    def test_one_index(self):
        """No booking is lost and none is refused, whoever lets the tables grow."""
        count, index = 3000, Index.open(8)
        first = lambda thread, k: (thread << 32) + 3 * k
        changed = self.together(lambda thread: [index.record(1, first(thread, k), bytes([thread + 1, k % 251, 7])) for k in range(count)])
        self.assertEqual(changed, [[first(thread, k) for k in range(count)] for thread in range(self.THREADS)])
        self.check(index)
        index.finish()
        self.check(index)
        self.assertEqual(index.block_count, self.THREADS * count)
        for thread in range(self.THREADS):
            want = [byte for k in range(count) for byte in (thread + 1, k % 251, 7)]
            self.assertEqual(index.cells(1, first(thread, 0), first(thread, count)), want)

    def test_mixed_calls(self):
        """Lists, copies, pickles and counts while others record: each copy is a board that has
        stood."""
        index = Index.open(8)

        def run(thread):
            seen = 0
            for k in range(60):
                at = (thread << 32) + 100 * k
                self.assertEqual(index.record_all([(1, at, b"ab"), (1, at + 2, b"c")]), [at, at + 2])
                other = [copy.copy, lambda each: pickle.loads(pickle.dumps(each)), Index.finished, Index.copy][k % 4](index)
                self.check(other)
                used = other.byte_count
                self.assertTrue(used % 3 == 0 and used >= seen + 3)
                seen = used
            return seen

        self.together(run)
        self.check(index)
        self.assertEqual(index.byte_count, self.THREADS * 60 * 3)

    def test_readers(self):
        index = board().finished()
        asked = lambda: (index.touching(500, 0, 90), index.find(500, 0, 90), index.cells(500, 0, 90), list(index.blocks()), index.write(), index.next(500, 3), index.last(500, 60))
        want = asked()
        self.assertEqual(self.together(lambda _: [asked() for _ in range(20)]), [[want] * 20] * self.THREADS)

    def test_finish_once(self):
        """Of many that finish it one does, and no booking comes behind."""
        for _ in range(20):
            index = board(50)
            answers = self.together(lambda thread: number(index.finish if thread % 2 else lambda: index.record(999, 5000 + thread, b"x")))
            self.assertEqual(sorted(answers[1::2]), [0, 3])
            self.check(index)
            taken = sum(answer == 0 for answer in answers[0::2])
            self.assertEqual(len(index.touching(999, 5000, 5009)), taken)

    def test_two_indexes_do_not_wait(self):
        """While one is inside a call the other one is used."""
        one, two = board(5), board(5)
        inside, done = threading.Event(), threading.Event()
        whole = library.record_tested

        def call(*arguments):
            if arguments[1] is one._pieces:
                inside.set()
                self.assertTrue(done.wait(30))
            return whole(*arguments)

        with mock.patch.object(library, "record_tested", call):
            other = threading.Thread(target=one.record, args=(999, 5000, b"a"))
            other.start()
            self.assertTrue(inside.wait(30))
            self.assertEqual(two.record(999, 5000, b"a"), 5000)
            done.set()
            other.join()
        self.assertEqual(len(listed(one)), len(listed(two)))


def entries_of(low: int, high: int, created: int, destroyed: int) -> int:
    """How many entries a life has in the tree over [low, high), node by node."""
    if created <= low and high <= destroyed:
        return 1
    if high - low < 2 or created == destroyed:
        return 0
    middle = (low + high) // 2
    return (entries_of(low, middle, created, destroyed) if created < middle else 0) + (entries_of(middle, high, created, destroyed) if destroyed > middle else 0)


def nodes_of(end: int, lives: list[tuple[int, int]]) -> int:
    """How many nodes lives make, node by node."""
    nodes = set()
    for created, destroyed in lives:
        ways = [(0, end)]
        while ways:
            low, high = way = ways.pop()
            nodes.add(way)
            if high - low > 1 and not (created <= low and high <= destroyed):
                middle = (low + high) // 2
                ways += [(low, middle)] * (created < middle) + [(middle, high)] * (destroyed > middle)
    return len(nodes)


class Room(unittest.TestCase):
    """What finish needs is counted."""

    def test_random_lives(self):
        dice = random.Random(5)
        for _ in range(2000):
            end = dice.choice([1, 2, 3, 5, 7, 8, 11, 12, 33, 64, 100, 1000, 1023, 10 ** 6 + 7, (1 << 63) - dice.randrange(9), dice.randrange(1, 1 << 63)])
            ticks = end if dice.randrange(2) else min(end, 60)
            pairs = [tuple(sorted(dice.choice([(dice.randrange(ticks), dice.randrange(ticks)), 2 * (dice.randrange(ticks),), (dice.randrange(ticks), end)])))
                     for _ in range(dice.randrange(14))]
            written = [dice.randrange(ticks) for _ in range(dice.randrange(6))]
            lives = pairs + [(tick, end) for tick in written]
            got = need(Lives([created for created, _ in pairs], [destroyed for _, destroyed in pairs], written), end)
            self.assertEqual(got.entries, sum(entries_of(0, end, *life) for life in lives))
            nodes = nodes_of(end, lives) if lives else 0
            # where ticks are dense, as many as there can be
            most = max(2 * nodes, 4 * len(lives) + 2 * 64) + 128 * ((0, 0) in lives)
            self.assertTrue(nodes <= got.nodes <= most, (end, lives))

    def test_just_enough(self):
        """Finish takes just the entries that are counted, and the nodes with few to spare, of
        one kind and of several."""
        for index in (board(), board(5), board(300, [Kind.MEMORY, Kind.OTHER, Kind.UNIQUE]), Index.open(8), Index.open(1 << 63)):
            index.finish()
            self.assertEqual(len(index._entries), library.length(module.ENTRIES, index.entry_count)[0])
            rows = (len(index._nodes) - 8) // 8
            self.assertTrue(index.node_count <= rows <= 2 * index.node_count + len(index.kinds))


if __name__ == "__main__":
    unittest.main()
