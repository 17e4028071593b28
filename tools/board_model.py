"""The rules (docs/RULES.md) as a plain model: an index that answers the calls of the stored list.

Nothing is shared with the crates. Pieces and blocks are lists, the tree is made of Python objects, and the loader reads fields from bytes. A call is a list of
words and its answer a text, as in the list of the oracle, with kinds: `open E KINDS PIECES SCRATCH BLOCKS STORE NODES ENTRIES`, `record KIND TICK FIRST HEX`,
`finish`, `load AT BLOCKS STORE NODES ENTRIES HEX`, `block NUMBER`, `find KIND TICK START END ROOM`, `cells KIND TICK START END BYTEROOM HELDROOM`, `write ROOM`,
`clock CELL`. What is lent is counted in rows, the scratch in numbers; a table of -1 rows cannot hold its head. KINDS are numbers with commas between them, `-`
for none.

Of the requests: `touching KIND TICK START END ROOM`, whose answer is the count and the numbers, and `next KIND TICK CELL` and `last KIND TICK CELL`, with a
number or `missing`; record answers `read`, or `update` with the lowest cell that was unknown or had another byte, and is refused 2 with a scratch of fewer
than eight numbers; `calendar NUMBERS` and `days NUMBERS` install the calendar and the list of days of these numbers, and answer `installed`; `occupation KIND TICK NUMBERS`
reports on windows, pairs of a start and an end, and answers occupied cells and all cells, reduced, and tenths of a percent. A call that leaves out its KIND, as those of
lists that are older than request 3, means the first kind of the index (`Model.named`).

Two more are our own. `scratch NUMBERS` lends another scratch from there on. `damaged AT BY FROM TO HEX` loads a file into the tables of the load before, once
for each place from FROM up to TO: cut at that place where BY is 0, else with the byte there raised by BY. Its answer is `NUMBER*MANY` for each run of files
that come out alike, refused with that number, or 0 for those that are taken.
"""
import struct

from days_model import Days
from hours_model import Calendar
from reports_model import cells_of, report, unreported, windows_of

WORD = 1 << 64
MOST_END = 1 << 63
MINUTES = 1 << 32
LEAST_SCRATCH = 8
KINDS = 5


class Refused(Exception):
    def __init__(self, number):
        super().__init__(f"refused {number}")
        self.number = number


def refuse(number, condition):
    if condition:
        raise Refused(number)


def hexed(data):
    return data.hex() or "-"


def unhexed(word):
    return b"" if word == "-" else bytes.fromhex(word)


class Piece:
    def __init__(self, kind, first, data, written):
        self.kind, self.first, self.data, self.written = kind, first, data, written

    @property
    def end(self):
        return self.first + len(self.data)

    def part(self, start, end):
        return Piece(self.kind, start, self.data[start - self.first:end - self.first], self.written)

    def settled(self, destroyed):
        return Block(self.kind, self.first, self.data, self.written, destroyed)


class Block:
    def __init__(self, kind, first, data, created, destroyed):
        self.kind, self.first, self.data, self.created, self.destroyed = kind, first, data, created, destroyed

    @property
    def end(self):
        return self.first + len(self.data)

    def live(self, tick):
        return self.created <= tick < self.destroyed

    def covers(self, node):
        return self.created <= node.low and node.high <= self.destroyed


# ── the segment tree ──


class Node:
    def __init__(self, low, high):
        self.low, self.high, self.mid = low, high, (low + high) // 2
        self.entries, self.left, self.right = [], None, None

    def add(self, number, blocks):
        block = blocks[number]
        if block.covers(self):
            self.entries.append(number)
            self.entries.sort(key=lambda n: blocks[n].first)
            return
        if block.created < self.mid:
            self.left = self.left or Node(self.low, self.mid)
            self.left.add(number, blocks)
        if self.mid < block.destroyed:
            self.right = self.right or Node(self.mid, self.high)
            self.right.add(number, blocks)

    def path(self, tick):
        node = self
        while node:
            yield node
            node = node.left if tick < node.mid else node.right


def nodes_of(node):
    """The nodes, root first, left before right."""
    return [] if node is None else [node] + nodes_of(node.left) + nodes_of(node.right)


def entry_count(root):
    return sum(len(node.entries) for node in nodes_of(root))


def roots_of(end, blocks):
    """A tree for each kind that has blocks, by kind code."""
    roots = {}
    for kind in sorted({block.kind for block in blocks}):
        roots[kind] = Node(0, end)
        for number, block in enumerate(blocks):
            if block.kind == kind:
                roots[kind].add(number, blocks)
    return roots


def counts_of(roots):
    """The nodes and entries of all trees together."""
    return sum(len(nodes_of(root)) for root in roots.values()), sum(map(entry_count, roots.values()))


# ── the file ──


def number_bytes(number):
    return struct.pack("<Q", number)


def block_bytes(block):
    head = [block.first, len(block.data), block.created, block.destroyed]
    return bytes([block.kind]) + b"".join(map(number_bytes, head)) + block.data


def node_bytes(node, renumber):
    if node is None:
        return b"\0"
    head = [node.low, node.high, node.mid, len(node.entries)]
    own = b"\1" + b"".join(map(number_bytes, head + [renumber(n) for n in node.entries]))
    return own + node_bytes(node.left, renumber) + node_bytes(node.right, renumber)


def file_bytes(kind, blocks, root):
    """One tree with the blocks that have an entry in it, numbered anew."""
    written = sorted({n for node in nodes_of(root) for n in node.entries})
    own = bytes([kind]) + number_bytes(len(written)) + b"".join(block_bytes(blocks[n]) for n in written)
    return own + node_bytes(root, written.index)


class Fields:
    """Fields one after the other: 17 where the bytes end inside one."""

    def __init__(self, file, at):
        self.file, self.at = file, at

    def bytes(self, count):
        refuse(17, len(self.file) < self.at + count)
        self.at += count
        return self.file[self.at - count:self.at]

    def byte(self):
        return self.bytes(1)[0]

    def number(self):
        return struct.unpack("<Q", self.bytes(8))[0]

    def block(self, kind):
        own = self.byte()
        refuse(18, own != kind)
        first, length, created, destroyed = (self.number() for _ in range(4))
        return Block(own, first, self.bytes(length), created, destroyed)

    def node(self):
        presence = self.byte()
        refuse(19, presence > 1)
        if presence == 0:
            return None
        node = Node(self.number(), self.number())
        node.mid = self.number()
        for _ in range(self.number()):
            node.entries.append(self.number())
        node.left = self.node()
        node.right = self.node()
        return node

    def file_of(self):
        kind = self.byte()
        refuse(18, kind > 4)
        blocks = []
        for _ in range(self.number()):
            blocks.append(self.block(kind))
        return kind, blocks, self.node()


def refuse_places(node, low, high):
    """21: each node is the half that it should be, with its mid; no child of a node of width 1."""
    if node is None:
        return
    refuse(21, (node.low, node.high, node.mid) != (low, high, (low + high) // 2))
    refuse(21, high - low == 1 and (node.left or node.right))
    refuse_places(node.left, low, node.mid)
    refuse_places(node.right, node.mid, high)


def refuse_entries(node, above, blocks):
    """23, without the sum of widths."""
    if node is None:
        return
    for number in node.entries:
        refuse(23, len(blocks) <= number)
        refuse(23, not blocks[number].covers(node))
        refuse(23, above is not None and blocks[number].covers(above))
    firsts = [blocks[number].first for number in node.entries]
    refuse(23, any(b <= a for a, b in zip(firsts, firsts[1:])))
    refuse_entries(node.left, node, blocks)
    refuse_entries(node.right, node, blocks)


def share(a, b):
    """Whether two blocks share a cell at a tick."""
    return max(a.first, b.first) < min(a.end, b.end) and max(a.created, b.created) < min(a.destroyed, b.destroyed)


def refuse_rules(end, blocks, root):
    refuse(21, root is None or root.low != 0 or not 1 <= end <= MOST_END)
    refuse_places(root, 0, end)
    refuse(22, not blocks)
    for block in blocks:
        refuse(22, not block.data or block.end > WORD - 1)
        refuse(22, block.created >= block.destroyed or block.destroyed > end)
    refuse_entries(root, None, blocks)
    widths = [0] * len(blocks)
    for node in nodes_of(root):
        for number in node.entries:
            widths[number] += node.high - node.low
    for block, width in zip(blocks, widths):
        refuse(23, width != block.destroyed - block.created)
    for i, block in enumerate(blocks):
        refuse(24, any(share(block, other) for other in blocks[:i]))


def damaged_at(file, place, by):
    """A file cut at a place, or with the byte there raised."""
    return file[:place] + bytes([(file[place] + by) % 256]) + file[place + 1:] if by else file[:place]


# ── the index ──

# The calls whose last word is bytes, or numbers with commas.
BYTES_LAST = ("record", "load", "damaged", "calendar", "days", "occupation")

# How many words a call has that names a kind: one less where it leaves it out.
NAMES_KIND = {"record": 5, "find": 6, "cells": 7, "touching": 6, "next": 4, "last": 4, "occupation": 4}


def listed(word):
    """The numbers of a word with commas."""
    return [] if word == "-" else list(map(int, word.split(",")))


class Model:
    """One index. `state` is None where there is none, or no room for its heads: then each call but open and load is refused 2."""

    def __init__(self):
        self.state = None
        self.rows = None
        self.kinds = {1}

    def named(self, words):
        """The call with its kind."""
        words = list(map(str, words))
        return words[:1] + [str(min(self.kinds))] + words[1:] if NAMES_KIND.get(words[0], 0) == len(words) + 1 else words

    def answer(self, words):
        call, *numbers = self.named(words)
        tail = [numbers.pop()] if call in BYTES_LAST else []
        front = [int(numbers.pop(0)), listed(numbers.pop(0))] if call == "open" else []
        try:
            return " ".join(map(str, getattr(self, call)(*front, *map(int, numbers), *tail)))
        except Refused as no:
            return f"refused {no.number}"

    def open(self, end, kinds, pieces, scratch, blocks, store, nodes, entries):
        refuse(1, not 1 <= end <= MOST_END or not kinds or max(kinds) >= KINDS)
        self.rows = {"pieces": pieces, "scratch": scratch, "blocks": blocks, "store": store, "nodes": nodes, "entries": entries}
        self.end, self.kinds, self.state = end, set(kinds), self.headed("open")
        self.pieces, self.blocks, self.roots = [], [], {}
        self.last_tick, self.used, self.hours, self.day_list = 0, 0, None, Days([])
        return ["ok"]

    def headed(self, state):
        return None if min(self.rows.values()) < 0 else state

    def scratch(self, numbers):
        self.rows["scratch"] = numbers
        return ["lent"]

    def first_change(self, kind, first, data):
        """The lowest cell of an operation that is unknown or has another byte; none of a read."""
        known = {}
        for piece in self.overlapped(kind, first, data):
            for cell in range(max(piece.first, first), min(piece.end, first + len(data))):
                known[cell] = piece.data[cell - piece.first]
        return next((first + i for i, byte in enumerate(data) if known.get(first + i) != byte), None)

    def overlapped(self, kind, first, data):
        """The pieces of its kind that an operation has a cell in common with, ascending."""
        return [p for p in self.pieces if p.kind == kind and p.first < first + len(data) and first < p.end]

    def is_read(self, kind, first, data):
        return self.first_change(kind, first, data) is None

    def updated(self, kind, tick, first, data):
        """The pieces, by kind and then by cell, and the new blocks of an update."""
        end, over = first + len(data), self.overlapped(kind, first, data)
        pieces, blocks = [p for p in self.pieces if p not in over] + [Piece(kind, first, data, tick)], []
        for piece in over:
            blocks.append(piece.part(max(piece.first, first), min(piece.end, end)).settled(tick))
            if piece.first < first:
                pieces.append(piece.part(piece.first, first))
            if end < piece.end:
                pieces.append(piece.part(end, piece.end))
        return sorted(pieces, key=lambda p: (p.kind, p.first)), blocks

    def record(self, kind, tick, first, word):
        data = unhexed(word)
        refuse(2, self.state is None or self.rows["scratch"] < LEAST_SCRATCH)
        refuse(3, self.state != "open")
        refuse(25, kind not in self.kinds)
        refuse(5, not data)
        refuse(6, first + len(data) > WORD - 1)
        refuse(7, tick >= self.end)
        refuse(8, tick < self.last_tick)
        refuse(26, self.hours is not None and any(byte and not self.hours.is_open(*self.day_list.place(first + i)) for i, byte in enumerate(data)))
        cell = self.first_change(kind, first, data)
        if cell is None:
            self.last_tick = tick
            return ["read"]
        pieces, blocks = self.updated(kind, tick, first, data)
        refuse(9, len(pieces) > self.rows["pieces"])
        refuse(10, len(self.blocks) + len(blocks) + len(pieces) > self.rows["blocks"])
        refuse(11, self.used + len(data) > self.rows["store"])
        self.pieces, self.last_tick, self.used = pieces, tick, self.used + len(data)
        self.blocks = self.blocks + blocks
        return ["update", cell]

    def finish(self):
        refuse(2, self.state is None)
        refuse(3, self.state != "open")
        blocks = self.blocks + [piece.settled(self.end) for piece in self.pieces]
        roots = roots_of(self.end, blocks)
        nodes, entries = counts_of(roots)
        refuse(12, nodes > self.rows["nodes"])
        refuse(13, entries > self.rows["entries"])
        self.blocks, self.pieces, self.roots, self.state = blocks, [], roots, "closed"
        return [len(blocks), nodes, entries]

    def calendar(self, word):
        hours = Calendar(listed(word))
        refuse(2, self.state is None)
        refuse(3, self.state != "open")
        refuse(27, not hours.taken())
        self.hours = hours
        return ["installed"]

    def days(self, word):
        """Of an open or a closed index."""
        days = Days(listed(word))
        refuse(2, self.state is None)
        refuse(28, not days.taken())
        self.day_list = days
        return ["installed"]

    def load(self, at, blocks, store, nodes, entries, word):
        rows = {"blocks": blocks, "store": store, "nodes": nodes, "entries": entries}
        if self.rows is None or self.rows | rows != self.rows:
            self.state = None
        self.rows = (self.rows or {"scratch": LEAST_SCRATCH}) | rows
        return self.take(unhexed(word), at)

    def take(self, file, at):
        """Loads a file into the tables that are lent."""
        fields = Fields(file, at)
        kind, found, root = fields.file_of()
        refuse(20, len(found) > self.rows["blocks"] or sum(len(b.data) for b in found) > self.rows["store"])
        refuse(20, len(nodes_of(root)) > self.rows["nodes"] or entry_count(root) > self.rows["entries"])
        self.state = None
        end = root.high if root else 0
        refuse_rules(end, found, root)
        self.end, self.kinds, self.state = end, {kind}, self.headed("loaded")
        self.pieces, self.blocks, self.roots, self.day_list = [], found, {kind: root}, Days([])
        return [fields.at, end, kind, len(found)]

    def damaged(self, at, by, start, end, word):
        file, runs = unhexed(word), []
        for place in range(start, end):
            number = self.refusal(damaged_at(file, place, by), at)
            if not runs or runs[-1][0] != number:
                runs.append([number, 0])
            runs[-1][1] += 1
        return [f"{number}*{many}" for number, many in runs]

    def refusal(self, file, at):
        """The number of what comes of a file, 0 where it is taken."""
        try:
            self.take(file, at)
        except Refused as no:
            return no.number
        return 0

    def refuse_open(self):
        refuse(2, self.state is None)
        refuse(4, self.state == "open")

    def block(self, number):
        self.refuse_open()
        refuse(15, len(self.blocks) <= number)
        b = self.blocks[number]
        return [b.kind, b.first, len(b.data), b.created, b.destroyed, hexed(b.data)]

    def refuse_tick(self, kind, tick):
        self.refuse_open()
        refuse(25, kind not in self.kinds)
        refuse(14, tick >= self.end)

    def refuse_window(self, kind, tick, start, end):
        self.refuse_tick(kind, tick)
        refuse(15, start > end)

    def find(self, kind, tick, start, end, room):
        self.refuse_window(kind, tick, start, end)
        path = list(self.roots[kind].path(tick)) if kind in self.roots else []
        listed = [n for node in path for n in node.entries if start <= self.blocks[n].first < end]
        refuse(16, len(listed) > room)
        return [len(listed), len(path)] + listed

    def cells(self, kind, tick, start, end, byte_room, held_room):
        self.refuse_window(kind, tick, start, end)
        refuse(16, end - start > byte_room or end - start > held_room)
        data, held = bytearray(end - start), bytearray(end - start)
        for block in self.blocks:
            if block.kind == kind and block.live(tick):
                for cell in range(max(start, block.first), min(end, block.end)):
                    data[cell - start], held[cell - start] = block.data[cell - block.first], 1
        return [hexed(data), hexed(held)]

    def in_order(self, kind, tick, asked):
        """The numbers of the live blocks of a kind of which something holds, ascending by first cell. No look at the tree."""
        numbers = [n for n, block in enumerate(self.blocks) if block.kind == kind and block.live(tick) and asked(block)]
        return sorted(numbers, key=lambda n: self.blocks[n].first)

    def touching(self, kind, tick, start, end, room):
        self.refuse_window(kind, tick, start, end)
        listed = self.in_order(kind, tick, lambda block: max(start, block.first) < min(end, block.end))
        refuse(16, len(listed) > room)
        return [len(listed)] + listed

    def next(self, kind, tick, cell):
        self.refuse_tick(kind, tick)
        return (self.in_order(kind, tick, lambda block: cell <= block.first) or ["missing"])[:1]

    def last(self, kind, tick, cell):
        self.refuse_tick(kind, tick)
        return (["missing"] + self.in_order(kind, tick, lambda block: block.end <= cell))[-1:]

    def busy(self, kind, tick):
        """The cells of a kind that hold a byte other than 0 at a tick."""
        live = [block for block in self.blocks if block.kind == kind and block.live(tick)]
        return [cell for block in live for cell, byte in enumerate(block.data, block.first) if byte]

    def occupation(self, kind, tick, word):
        """Cell by cell of those that hold something, as a window may have 2^32."""
        windows = windows_of(listed(word))
        self.refuse_tick(kind, tick)
        refuse(15, any(start > end for start, end in windows))
        refuse(37, unreported(windows))
        busy = self.busy(kind, tick)
        return report(sum(start <= cell < end for start, end in windows for cell in busy), cells_of(windows))

    def file(self):
        """The trees one after the other, by kind code."""
        return b"".join(file_bytes(kind, self.blocks, root) for kind, root in sorted(self.roots.items()))

    def write(self, room):
        self.refuse_open()
        file = self.file()
        refuse(16, len(file) > room)
        return [hexed(file)]

    def clock(self, cell):
        """Of an open or a closed index."""
        refuse(2, self.state is None)
        _, minute = self.day_list.place(cell)
        return [minute // 60 * 100 + minute % 60]
