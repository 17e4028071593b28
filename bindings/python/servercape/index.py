"""An index and its tables."""
from __future__ import annotations

import struct
from array import array
from collections.abc import Callable, Iterable, Iterator
from contextlib import AbstractContextManager
from copy import deepcopy
from copyreg import __newobj__  # type: ignore[attr-defined]
from enum import IntEnum
from functools import wraps
from itertools import compress
from pickle import UnpicklingError
from threading import RLock
from typing import Any, Concatenate, NamedTuple, ParamSpec, Self, TypeVar

from .days import Days, numbers
from .hours import Windows, calendar
from .library import Info, library
from .refusal import Refused, accepted
from .reports import Occupation, window_numbers
from .room import Lives, need

# What `servercape_length` counts.
PIECES, BLOCKS, STORE, NODES, ENTRIES, SCRATCH = range(6)

# What `servercape_state` says of tables; and that it is to be asked.
NOT_WELL_FORMED, OPEN, CLOSED = range(3)
UNKNOWN = -1

# Where the lifetimes of blocks and pieces stand in their rows, of eight numbers each
# (docs/LAYOUT.md): no call tells those of an open index.
ROW = 8
BLOCK_HEAD, CREATED, DESTROYED, BLOCK_OWNER = library.length(BLOCKS, 0)[0], 2, 3, 5
PIECE_HEAD, WRITTEN, PIECE_OWNER = ROW, 2, 7

# The table that a booking has no room in, by its refusal.
NO_ROOM = {9: PIECES, 10: BLOCKS, 11: STORE}
OUTSIDE, EXCEEDS, NO_ROOM_FOR_FILE = 15, 16, 20

# The fewest bytes by which a table grows.
LEAST_GROWTH = 4096

# The fewest bytes of a block in a file, and of a node: its fields with one byte, its fields alone.
LEAST_BLOCK, LEAST_NODE = 34, 33


class Kind(IntEnum):
    """A kind of space. An index is opened with one or more, and a cell of one kind is none of another."""

    CONSTANT = 0
    MEMORY = 1
    REGISTER = 2
    UNIQUE = 3
    OTHER = 4


# The kinds of each mask, by code.
KIND_SETS = [tuple(kind for kind in Kind if mask >> kind & 1) for mask in range(1 << len(Kind))]


class Block(NamedTuple):
    """Bytes that the cells from `first` on held from tick `created` up to, and not including, `destroyed`."""

    kind: Kind
    first: int
    created: int
    destroyed: int
    bytes: bytes

    @property
    def end(self) -> int:
        """The cell behind the last one."""
        return self.first + len(self.bytes)


class Operation(NamedTuple):
    """A byte for each cell from `first` on, at a tick."""

    tick: int
    first: int
    bytes: bytes


class Found(NamedTuple):
    """What find lists: block numbers, and how many nodes were visited."""

    numbers: list[int]
    visited: int


P = ParamSpec("P")
R = TypeVar("R")


def _step(method: Callable[Concatenate[Index, P], R]) -> Callable[Concatenate[Index, P], R]:
    """A method that has its index to itself: other threads wait until it ends. Called from inside another one, as a signal handler or a finalizer may do, it raises
    `RuntimeError`, since the tables may move just then. So it calls no other such method, and no code of the caller's."""
    @wraps(method)
    def step(self: Index, /, *arguments: P.args, **named: P.kwargs) -> R:
        with self._lock:
            if self._busy:
                raise RuntimeError("the index is in use: a signal handler or a finalizer must not call it from inside one of its own calls")
            try:
                self._busy = True
                if self._state == UNKNOWN:
                    self._state, = library.state(*self._tables)
                return method(self, *arguments, **named)
            finally:
                self._busy = False

    return step


def _lengthen(table: array[int], which: int, rows: int) -> None:
    """Makes a table at least so many rows long, by zeros, which leaves it what it was."""
    length, = library.length(which, rows)
    if length == 0 and rows > 0:
        raise MemoryError(f"no table has {rows} rows")
    _add_zeros(table, (length - len(table)) * table.itemsize)


def _add_zeros(table: array[int], size: int) -> None:
    """So many bytes more, or none where there is no memory."""
    if size > 0:
        table.frombytes(_zeros(size))


def _empty_tables() -> list[array[int]]:
    """Pieces, blocks, store, nodes, entries: their heads alone, with zeros, which hold no index."""
    tables = [array("B" if which == STORE else "Q") for which in (PIECES, BLOCKS, STORE, NODES, ENTRIES)]
    for which, table in enumerate(tables):
        _lengthen(table, which, 0)
    return tables


def _bytes(data: bytes) -> bytes:
    """What holds bytes, as bytes; a number, of which `bytes` would make zeros, is none. A subclass may tell another length than it has, so it is copied too."""
    return data if type(data) is bytes else memoryview(data).tobytes()


def _kinds(kinds: int | Iterable[int]) -> bytes:
    """One kind or several, a byte each."""
    return bytes([kinds] if isinstance(kinds, int) else kinds)


def _zeros(size: int) -> bytes:
    try:
        return bytes(size)
    except OverflowError:
        raise MemoryError(f"there is no room for {size} bytes") from None


class Index:
    """The history of a board. `Index.open` starts one and `Index.load` reads one from a file; its tables grow as they must.

    Each method is one proved call. Nobody else can change the tables, so they are tested once: the calls after one test are used, with the state that is
    kept here.

    Several threads may use an index: each method has it to itself, and the others wait. Indexes do not wait for one another, and the calls of the library run
    side by side. `copy`, `copy.copy` and `copy.deepcopy` give an index of its own, and a pickle carries the tables, which are tested when it is loaded. A process
    that is forked has an index of its own too; but one that another thread is just using then stays in use there.

    A method that records or reads cells takes their kind by name, `kind=Kind.OTHER`. Of an index that has one kind it may be left out.
    """

    _lock: AbstractContextManager[object]
    _busy: bool
    _state: int
    _opened: tuple[Kind, ...]
    _days: Days
    _scratch: array[int]

    # what nobody else sets; a subclass, or who likes to, may keep more beside it
    __slots__ = ("_lock", "_busy", "_state", "_opened", "_days", "_pieces", "_blocks", "_store", "_nodes", "_entries", "_scratch",
                 "__dict__", "__weakref__")

    def __new__(cls, *arguments: object, **named: object) -> Self:
        """Every index has tables, also where a subclass does not call `__init__`, and keeps its lock, where somebody calls it twice."""
        index = super().__new__(cls)
        index._lock, index._busy = RLock(), False
        index._scratch = array("Q")
        _lengthen(index._scratch, SCRATCH, 1)
        index._take(NOT_WELL_FORMED, _empty_tables())
        return index

    def __init__(self) -> None:
        """Tables that hold no index yet."""

    def _take(self, state: int, tables: Iterable[array[int]], days: Days = Days()) -> None:
        """Other tables in place of those that it has, what `servercape_state` says of them, and the
        list of days that is installed in them."""
        self._state = UNKNOWN
        self._pieces, self._blocks, self._store, self._nodes, self._entries = tables
        self._state, self._days = state, days
        # the kinds of an index never change
        self._opened = KIND_SETS[self._info.kinds]

    @property
    def _tables(self) -> tuple[array[int], ...]:
        return self._pieces, self._blocks, self._store, self._nodes, self._entries

    @property
    def _tree(self) -> tuple[array[int], ...]:
        return self._blocks, self._nodes, self._entries

    @property
    def _report(self) -> tuple[int | array[int], ...]:
        """The state, and the tables that a report is lent."""
        return self._state, self._blocks, self._store, self._nodes, self._entries

    @classmethod
    def open(cls, end_tick: int, kinds: int | Iterable[int] = Kind.MEMORY) -> Self:
        """Opens an index with one kind or several. Refusal 1."""
        index, tables = cls(), _empty_tables()
        accepted(*library.open(*tables, end_tick, _kinds(kinds)))
        index._take(OPEN, tables)
        return index

    @classmethod
    def load(cls, file: bytes, at: int = 0) -> tuple[Self, int]:
        """A finished index of one kind from a file's bytes from a position on, with the position after it, where the next kind of the same board begins. Refusals
        17 to 19, 21 to 24."""
        index, tables, file = cls(), _empty_tables(), _bytes(file)
        size = max(0, len(file) - at)
        blocks = min(int.from_bytes(file[at + 1:at + 9], "little"), size // LEAST_BLOCK)
        _lengthen(tables[BLOCKS], BLOCKS, blocks)
        # 20 changes nothing and comes of a first pass over the file, so it is cheap to ask again
        rows, most = blocks + 64, {STORE: size, NODES: size // LEAST_NODE, ENTRIES: size // 8}
        while True:
            for which, bound in most.items():
                _lengthen(tables[which], which, min(rows, bound))
            number, end = library.load(*tables, file, at)
            if number != NO_ROOM_FOR_FILE or rows > size:
                break
            rows *= 2
        accepted(number)
        index._take(CLOSED, tables)
        return index, end

    # ── copies ──

    def copy(self) -> Self:
        """An index of its own that stands as this one does."""
        return self.__copy__()

    def __copy__(self) -> Self:
        other: Self = type(self).__new__(type(self))
        vars(other).update(vars(self))
        other._take(*self._snapshot())
        return other

    @_step
    def _snapshot(self) -> tuple[int, list[array[int]], Days]:
        """Copies of the tables; the same numbers have the same state."""
        return self._state, [table[:] for table in self._tables], self._days

    def __deepcopy__(self, memo: dict[int, Any]) -> Self:
        memo[id(self)] = other = self.__copy__()
        vars(other).update(deepcopy(vars(self), memo))
        return other

    def __reduce__(self) -> tuple[Any, ...]:
        # by __new__ in each protocol
        return __newobj__, (type(self),), self.__getstate__()

    @_step
    def __getstate__(self) -> dict[str, Any]:
        """The rows in use, for a pickle; none of an index that was not opened."""
        info = self._info
        # an open index has room for its pieces in the block table
        rows = info.pieces, info.blocks + info.pieces, info.store, info.nodes, info.entries
        lengths = [library.length(which, count)[0] for which, count in enumerate(rows)]
        tables = [memoryview(table)[:length].tobytes() for table, length in zip(self._tables, lengths)]
        return {"tables": tables if self._state != NOT_WELL_FORMED else [], "days": list(self._days), "attributes": dict(vars(self))}

    def __setstate__(self, given: dict[str, Any]) -> None:
        """Takes the tables of a pickle if they are well formed; else it raises `UnpicklingError`."""
        try:
            tables = [array("B" if which == STORE else "Q", _bytes(rows)) for which, rows in enumerate(given["tables"])] or _empty_tables()
            days, attributes = list(given["days"]), dict(given["attributes"])
            state, = library.state(*tables)
            if len(tables) != len(self._tables):
                raise ValueError("an index has five tables")
            # installed anew, the list that is remembered is that of the tables
            installed, = library.install_days(*tables, numbers(days)) if given["tables"] else (0,)
        except (AttributeError, IndexError, KeyError, TypeError, ValueError):
            raise UnpicklingError("this pickle holds no index") from None
        if installed or state == NOT_WELL_FORMED and given["tables"]:
            raise UnpicklingError("the pickle of an index is damaged: its tables are not well formed")
        self._restore(state, tables, Days(days), attributes)

    @_step
    def _restore(self, state: int, tables: Iterable[array[int]], days: Days, attributes: dict[str, Any]) -> None:
        self._take(state, tables, days)
        vars(self).update(attributes)

    # ── what stands in it ──

    @property
    def _info(self) -> Info:
        """What stands in the tables; all 0 where they hold no index."""
        _, *numbers = library.info_tested(self._state, self._pieces, self._blocks, self._nodes, self._entries)
        return Info(*numbers)

    @property
    @_step
    def end_tick(self) -> int:
        return self._info.end_tick

    @property
    @_step
    def kinds(self) -> tuple[Kind, ...]:
        """The kinds that it was opened with, by code."""
        return self._opened

    @property
    @_step
    def kind(self) -> Kind:
        """The kind of an index that has one; of one that has several it raises `ValueError`."""
        return self._only_kind()

    def _only_kind(self) -> Kind:
        if len(self._opened) > 1:
            raise ValueError("the index has several kinds: name one, by kind=")
        return self._opened[0] if self._opened else Kind.MEMORY

    def _named(self, kind: int | None) -> int:
        """The kind that is named, or the only one."""
        return self._only_kind() if kind is None else kind

    @property
    @_step
    def last_tick(self) -> int:
        """The last accepted tick, 0 before any; a file does not hold it."""
        return self._info.last_tick

    @property
    @_step
    def closed(self) -> bool:
        """Whether the index is finished or loaded: it can be read, and takes no more operations."""
        return self._state == CLOSED

    @property
    @_step
    def block_count(self) -> int:
        return self._info.blocks

    @property
    @_step
    def byte_count(self) -> int:
        """How many bytes of the store are in use."""
        return self._info.store

    @property
    @_step
    def node_count(self) -> int:
        return self._info.nodes

    @property
    @_step
    def entry_count(self) -> int:
        return self._info.entries

    @_step
    def __repr__(self) -> str:
        state = "closed" if self._state == CLOSED else "open"
        kinds, info = "+".join(kind.name.lower() for kind in self._opened), self._info
        return f"<Index {kinds}, end tick {info.end_tick}, {info.blocks} blocks, {state}>"

    # ── recording ──

    @_step
    def record(self, tick: int, first: int, data: bytes, *, kind: int | None = None) -> int | None:
        """Records the bytes of the cells from `first` on, at a tick: the lowest cell that was unknown or had another byte, or None where nothing changed.
        Outside the station hours that are installed a byte other than 0 is refused 26, even where it changes nothing. Refusals 3, 25, 5 to 8, 26."""
        data, kind = _bytes(data), self._named(kind)
        while True:
            number, updated, cell = library.record_tested(
                self._state, self._pieces, self._blocks, self._store, self._scratch, kind, tick, first, data)
            if number not in NO_ROOM:
                accepted(number)
                return cell if updated else None
            table = self._tables[NO_ROOM[number]]
            # by half, so that a row is moved a few times at most
            size = len(table) * table.itemsize
            _add_zeros(table, max(size // 16 * 8, LEAST_GROWTH, len(data) if table is self._store else 0))

    def record_all(self, operations: Iterable[tuple[int, int, bytes]], *, kind: int | None = None) -> list[int | None | Refused]:
        """Records many operations of one kind, tick, first cell and bytes each, one after the other: for each what `record` gives, or the refusal that it raises. A
        refused one changes nothing, and the next one is recorded."""
        parts: list[bytes] = []
        size = 0
        for tick, first, data in operations:
            data = _bytes(data)
            try:
                parts += (struct.pack("<QQQ", tick, first, len(data)), data)
            except struct.error:
                raise ValueError(f"tick {tick} or cell {first} is not from 0 to 2^64 - 1") from None
            size += len(data)
        return self._record_list(b"".join(parts), len(parts) // 2, size, kind)

    @_step
    def _record_list(self, operations: bytes, count: int, size: int, kind: int | None) -> list[int | None | Refused]:
        """Records so many operations with so many bytes together, which stand in a row."""
        kind = self._named(kind)
        self._reserve(count, size)
        answers = array("Q", bytes(24 * count))
        library.record_all(*self._tables, self._scratch, kind, operations, answers)
        return [Refused(number) if number else cell if updated else None
                for number, updated, cell in zip(answers[0::3], answers[1::3], answers[2::3])]

    def _reserve(self, operations: int, size: int) -> None:
        """Makes room for so many operations with so many bytes together, whatever they are, so that none is refused 9 to 11.

        An update cuts out of pieces what it overlaps. Each piece inside it becomes a block, and each at its edge a block and a piece. With the update's own
        piece that makes two pieces more at most, and three more of blocks and pieces together.
        """
        if self._state != OPEN:
            return
        info = self._info
        needs = {PIECES: info.pieces + 2 * operations, BLOCKS: info.blocks + info.pieces + 3 * operations, STORE: info.store + size}
        for which, rows in needs.items():
            table = self._tables[which]
            if library.length(which, rows)[0] > len(table):
                _lengthen(table, which, rows + rows // 2)

    def install_calendar(self, week: Iterable[Windows], special: Iterable[tuple[int, Windows]] = ()) -> None:
        """Installs station hours in place of those before; until the first, every cell is open. A window is a pair, from and to, in minutes of the day. `week` has
        those of each weekday, Monday first, and `special` pairs of a day's number, ascending, and the windows that count on it in place of its weekday's: without
        windows it is closed. Day 0 is a Monday. Refusals 3, 27."""
        self._install_calendar(calendar(week, special))

    def install_days(self, listed: Iterable[tuple[int, int]]) -> None:
        """Installs a list of days in place of the one before, into an open or a finished index: pairs of a day's number and its minutes, 1,380 or 1,500, ascending by
        day, at most 64. All other days have 1,440, and an empty list takes the one before back. Clock labels and station hours go by it; what is booked already
        stays. `Days` makes such a list. Refusal 28."""
        days = list(listed)
        self._install_days(numbers(days), days)

    @_step
    def _install_calendar(self, given: array[int]) -> None:
        accepted(*library.install_calendar(*self._tables, given))

    @_step
    def _install_days(self, given: array[int], days: list[tuple[int, int]]) -> None:
        accepted(*library.install_days(*self._tables, given))
        self._days = Days(days)

    @_step
    def finish(self) -> None:
        """Finishes the index: it can be read from now on, and takes no more operations. Refusal 3."""
        if self._state == OPEN:
            needs = [need(lives, self._info.end_tick) for lives in self._lives()]
            _lengthen(self._nodes, NODES, sum(each.nodes for each in needs))
            _lengthen(self._entries, ENTRIES, sum(each.entries for each in needs))
        # whoever is interrupted behind the call asks the tables
        state, self._state = self._state, UNKNOWN
        number, = library.finish(*self._tables)
        self._state = state if number else CLOSED
        accepted(number)

    def _lives(self) -> Iterator[Lives]:
        """Those of each kind."""
        info = self._info
        behind_blocks, behind_pieces = BLOCK_HEAD + ROW * info.blocks, PIECE_HEAD + ROW * info.pieces
        created, destroyed, owners = (self._blocks[BLOCK_HEAD + column:behind_blocks:ROW] for column in (CREATED, DESTROYED, BLOCK_OWNER))
        written, piece_owners = (self._pieces[PIECE_HEAD + column:behind_pieces:ROW] for column in (WRITTEN, PIECE_OWNER))
        if len(self._opened) == 1:
            yield Lives(created, destroyed, written)
            return
        for kind in self._opened:
            of_blocks, of_pieces = [owner == kind for owner in owners], [owner == kind for owner in piece_owners]
            yield Lives(array("Q", compress(created, of_blocks)), array("Q", compress(destroyed, of_blocks)), array("Q", compress(written, of_pieces)))

    def finished(self) -> Self:
        """The board as it stands now, to be read: a copy that is finished. This one goes on. Refusal 3."""
        copy = self.copy()
        copy.finish()
        return copy

    # ── reading ──

    @_step
    def block(self, number: int) -> Block:
        """The block of a number, from 0 in recorded order. Refusals 4, 15."""
        refusal, kind, first, length, created, destroyed, offset = library.block_tested(self._state, self._blocks, self._store, number)
        accepted(refusal, meaning=1 if refusal == OUTSIDE else 0)
        return Block(Kind(kind), first, created, destroyed, self._store[offset:offset + length].tobytes())

    def blocks(self) -> Iterator[Block]:
        """All blocks in recorded order. Refusal 4."""
        return map(self.block, range(self._closed_count()))

    @_step
    def _closed_count(self) -> int:
        """How many blocks a closed index has. Refusal 4."""
        if self._state != CLOSED:
            raise Refused(4)
        return self._info.blocks

    def _listed(self, call: Callable[..., tuple[int, ...]], *arguments: int) -> tuple[list[int], list[int]]:
        """What a call lists, in a slice that grows where it is refused 16: a block is listed once at most."""
        room = 64
        while True:
            answer = array("Q", bytes(8 * room))
            number, count, *rest = call(self._state, *self._tree, *arguments, answer)
            if number != EXCEEDS:
                accepted(number)
                return answer[:count].tolist(), rest
            room = min(8 * room, self._info.blocks)

    @_step
    def find(self, tick: int, start: int, end: int, *, kind: int | None = None) -> Found:
        """The blocks of a kind live at a tick whose first cell is in [start, end). One that starts before it and reaches in is not listed: `touching` has all.
        Refusals 4, 25, 14, 15."""
        found, (visited,) = self._listed(library.find_tested, self._named(kind), tick, start, end)
        return Found(found, visited)

    @_step
    def touching(self, tick: int, start: int, end: int, *, kind: int | None = None) -> list[int]:
        """The blocks of a kind live at a tick that hold any cell of [start, end), ascending by first cell; an empty window lists none. Refusals 4, 25, 14, 15."""
        return self._listed(library.touching_tested, self._named(kind), tick, start, end)[0]

    @_step
    def next(self, tick: int, cell: int, *, kind: int | None = None) -> int | None:
        """The first block of a kind live at a tick that starts at or after the cell. Refusals 4, 25, 14."""
        return self._near(library.next_tested, self._named(kind), tick, cell)

    @_step
    def last(self, tick: int, cell: int, *, kind: int | None = None) -> int | None:
        """The last block of a kind live at a tick whose cells are all below the cell. Refusals 4, 25, 14."""
        return self._near(library.last_tested, self._named(kind), tick, cell)

    def _near(self, call: Callable[..., tuple[int, ...]], kind: int, tick: int, cell: int) -> int | None:
        refusal, found, number = call(self._state, *self._tree, kind, tick, cell)
        accepted(refusal)
        return number if found else None

    @_step
    def cells(self, tick: int, start: int, end: int, *, kind: int | None = None) -> list[int | None]:
        """For each cell of [start, end) of a kind the byte that it holds at a tick, None where it holds none. Refusals 4, 25, 14, 15."""
        own = self._named(kind)

        def read(count: int) -> tuple[int, array[int], array[int]]:
            data, held = array("B", _zeros(count)), array("B", _zeros(count))
            number, = library.read_cells_tested(
                self._state, self._blocks, self._store, self._nodes, self._entries, own, tick, start, end, data, held)
            return number, data, held

        # into no cells first: a window that is refused takes no memory
        number, data, held = read(0)
        if number == EXCEEDS:
            number, data, held = read(end - start)
        accepted(number)
        return [byte if known else None for byte, known in zip(data, held)]

    def occupation(self, tick: int, windows: Iterable[tuple[int, int]], *,
                   kind: int | None = None) -> Occupation:
        """How many cells of some windows of a kind, each [start, end), are occupied at a tick: held,
        with a byte other than 0. All windows are taken together, and a cell that several of them
        have counts for each. They may be of several platforms. Refusals 4, 25, 14, 15 of any
        window, 37."""
        return self._occupation(tick, window_numbers(windows), kind)

    @_step
    def _occupation(self, tick: int, windows: array[int], kind: int | None) -> Occupation:
        number, *told = library.occupation_tested(*self._report, self._named(kind), tick, windows)
        accepted(number)
        return Occupation(*told)

    def write(self) -> bytes:
        """The file of the index: of each kind that has blocks a part, by code, which is loaded by itself. An index without blocks gives no bytes. Refusal 4."""
        return self.write_view().tobytes()

    @_step
    def write_view(self) -> memoryview:
        """The same as a view, which takes half the memory and is written to a file as it is. Refusal 4."""
        # of each kind its code and a count; the fields of blocks, and their bytes; the fields of nodes with a byte before each, and one for each child that is not there
        info = self._info
        most = 10 * len(Kind) + 33 * info.blocks + info.store + 34 * info.nodes + 8 * info.entries
        out = array("B", _zeros(most if self._state == CLOSED else 0))
        number, written = library.write_tested(self._state, self._blocks, self._store, self._nodes, self._entries, out)
        accepted(number)
        return memoryview(out)[:written].toreadonly()

    # ── days ──

    @property
    @_step
    def days(self) -> Days:
        """The list of days that is installed."""
        return Days(self._days)

    @_step
    def clock(self, cell: int) -> int:
        """The clock label of a cell by the list of days, of an open or a finished index: hours times 100 plus minutes."""
        number, label = library.clock_tested(self._state, self._blocks, cell)
        accepted(number)
        return label
