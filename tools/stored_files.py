"""Files at the edges of refusals 17 to 24, made by hand, for the stored list (stored_cases.py): each group gives names and bytes."""
from board_model import MOST_END, WORD, Block, block_bytes, number_bytes


def node(low, high, entries, left=b"\0", right=b"\0", mid=None, count=None, presence=1):
    mid = (low + high) // 2 if mid is None else mid
    count = len(entries) if count is None else count
    return bytes([presence]) + b"".join(number_bytes(n % WORD) for n in [low, high, mid, count] + list(entries)) + left + right


def block(first, data, created, destroyed, kind=1, length=None):
    whole = bytearray(block_bytes(Block(kind, first, data, created, destroyed)))
    if length is not None:
        whole[9:17] = number_bytes(length)
    return bytes(whole)


def file(blocks, nodes, kind=1, count=None):
    return bytes([kind]) + number_bytes(len(blocks) if count is None else count) + b"".join(blocks) + nodes


TEN = block(10, b"abc", 0, 4)  # block 0 of the small file, in its root
TWENTY = block(20, b"de", 2, 4)  # block 1, in [2, 4)
RIGHT = node(2, 4, [1])
SMALL = file([TEN, TWENTY], node(0, 4, [0], right=RIGHT))


def one(life, end, first=10, data=b"x", nodes=None, **more):
    """A file of one block."""
    return file([block(first, data, *life, **more)], node(0, end, [0]) if nodes is None else nodes)


def fields_of(blocks, nodes):
    """The widths of the fields of a file: so many blocks of so many bytes, nodes as entry counts or None where one is absent."""
    widths = [1, 8]
    for length in blocks:
        widths += [1, 8, 8, 8, 8, length]
    for entries in nodes:
        widths += [1] if entries is None else [1, 8, 8, 8, 8] + [8] * entries
    return widths


def cuts():
    """17: the small file cut in front of each field, behind its first byte and in front of its last."""
    start = 0
    for width in fields_of([3, 2], [1, None, 1, None, None]):
        for cut in sorted({start, start + 1, start + width - 1} - {start + width}):
            yield f"cut-{cut}", SMALL[:cut]
        start += width
    assert start == len(SMALL)


def counts():
    """17: counts and lengths whose bytes would be past the end, or wrap."""
    for many in [WORD - 1, WORD - 2, 1 << 63, 1 << 61, (1 << 61) - 1, 1 << 60, WORD // 33 + 1, 3]:
        yield f"block-count-{many}", file([TEN, TWENTY], node(0, 4, [0], right=RIGHT), count=many)
        yield f"entry-count-{many}", file([TEN, TWENTY], node(0, 4, [0], right=node(2, 4, [1], count=many)))
        yield f"length-{many}", file([block(10, b"abc", 0, 4, length=many), TWENTY], node(0, 4, [0], right=RIGHT))
    here = len(SMALL) - len(RIGHT)
    for back in [42, 43, here]:
        yield f"length-wraps-{back}", file([block(10, b"abc", 0, 4, length=WORD - back), TWENTY], node(0, 4, [0], right=RIGHT))


def kinds():
    """18, against 17 and 19 by position."""
    for kind in range(5):
        yield f"kind-{kind}", file([block(10, b"abc", 0, 4, kind=kind)], node(0, 4, [0]), kind=kind)
    for kind in [5, 6, 128, 255]:
        yield f"kind-{kind}", file([block(10, b"abc", 0, 4, kind=kind)], node(0, 4, [0]), kind=kind)
        yield f"kind-{kind}-alone", bytes([kind])
        yield f"block-kind-{kind}", file([block(10, b"abc", 0, 4, kind=kind)], node(0, 4, [0]))
    for own, other in [(0, 1), (1, 0), (4, 3), (3, 4), (1, 255)]:
        yield f"kind-{own}-unlike-{other}", file([block(10, b"abc", 0, 4, kind=own), block(20, b"de", 2, 4, kind=other)], node(0, 4, [0], right=RIGHT), kind=own)
    unlike = file([TEN, block(20, b"de", 2, 4, kind=2)], node(0, 4, [0], right=RIGHT, presence=2))
    place = 9 + len(TEN)
    yield "kind-before-presence", unlike
    yield "kind-then-cut", unlike[:place + 1]
    yield "cut-before-kind", unlike[:place]
    yield "length-before-kind", file([block(10, b"abc", 0, 4, length=WORD - 1), block(20, b"de", 2, 4, kind=2)], RIGHT)


def presences():
    """19, against 17 by position."""
    for presence in [2, 3, 127, 128, 255]:
        absent = bytes([presence])
        yield f"presence-{presence}", file([TEN, TWENTY], node(0, 4, [0], right=RIGHT, presence=presence))
        yield f"presence-{presence}-alone", file([TEN, TWENTY], absent)
        yield f"presence-{presence}-left", file([TEN, TWENTY], node(0, 4, [0], left=absent, right=RIGHT))
        yield f"presence-{presence}-last", file([TEN, TWENTY], node(0, 4, [0], right=node(2, 4, [1], right=absent)))
    spoiled = file([TEN, TWENTY], node(0, 4, [0], left=b"\2", right=RIGHT))
    place = len(SMALL) - len(RIGHT) - 1
    yield "presence-then-cut", spoiled[:place + 1]
    yield "cut-before-presence", spoiled[:place]
    yield "presence-before-block-rule", file([block(10, b"", 4, 4)], node(1, 4, [7], left=b"\2"))


def shapes():
    """21."""
    yield "no-root", file([TEN, TWENTY], b"\0")
    yield "no-root-no-block", file([], b"\0")
    yield "no-root-no-block-kind-4", file([], b"\0", kind=4)
    for low in [1, 2, 3, 4, WORD - 1]:
        yield f"root-min-{low}", one((low % 4, 4), 4, nodes=node(low, 4, [0]))
    for end in [0, 1, 2, 3, MOST_END - 1, MOST_END, MOST_END + 1, WORD - 1]:
        yield f"end-{end}", one((0, end), end)
    yield "end-0-life-1", one((0, 1), 0)
    for step in [-1, 1, 2, -2]:
        yield f"root-mid-{step}", file([TEN, TWENTY], node(0, 4, [0], right=RIGHT, mid=2 + step))
        yield f"child-mid-{step}", file([TEN, TWENTY], node(0, 4, [0], right=node(2, 4, [1], mid=3 + step)))
    yield "mid-of-odd", one((0, 3), 3, nodes=node(0, 3, [0], mid=2))
    yield "mid-wraps", one((0, MOST_END), MOST_END, nodes=node(0, MOST_END, [0], mid=0))
    for low, high in [(1, 4), (2, 3), (3, 4), (2, 5), (0, 2), (0, 4), (2, 2), (4, 2)]:
        yield f"right-{low}-{high}", file([TEN, TWENTY], node(0, 4, [0], right=node(low, high, [1])))
    for low, high in [(0, 1), (1, 2), (2, 4), (0, 3), (0, 0)]:
        yield f"left-{low}-{high}", file([TEN, block(20, b"de", 0, 2)], node(0, 4, [0], left=node(low, high, [1])))
    yield "left-0-2", file([TEN, block(20, b"de", 0, 2)], node(0, 4, [0], left=node(0, 2, [1])))
    yield "width-1-left", one((0, 1), 1, nodes=node(0, 1, [0], left=node(0, 0, [])))
    yield "width-1-right", one((0, 1), 1, nodes=node(0, 1, [0], right=node(0, 1, [])))
    yield "width-1-below", one((0, 1), 2, nodes=node(0, 2, [], left=node(0, 1, [0], right=node(0, 1, []))))
    yield "width-2-both", one((0, 2), 2, nodes=node(0, 2, [0], left=node(0, 1, []), right=node(1, 2, [])))
    for many, name in [(200, "left"), (120, "right")]:
        chain = b""
        for _ in range(many):
            chain = node(0, 4, [], left=chain or b"\0") if name == "left" else node(0, 4, [], right=chain or b"\0")
        yield f"chain-{name}-{many}", file([TEN], chain)


def deep():
    """Trees of 64 levels, and one level more."""
    nodes = node(0, 1, [0])
    for level in range(1, 64):
        nodes = node(0, 1 << level, [], left=nodes)
    yield "deep-left", one((0, 1), MOST_END, nodes=nodes)
    right = node(MOST_END - 1, MOST_END, [0])
    for level in range(1, 64):
        right = node(MOST_END - (1 << level), MOST_END, [], right=right)
    yield "deep-right", one((MOST_END - 1, MOST_END), MOST_END, nodes=right)
    nodes = node(0, 1, [0], left=node(0, 0, []))
    for level in range(1, 64):
        nodes = node(0, 1 << level, [], left=nodes)
    yield "deep-65", one((0, 1), MOST_END, nodes=nodes)


def blocks():
    """22."""
    yield "no-block", file([], node(0, 4, []))
    yield "no-block-kind-0", file([], node(0, 4, []), kind=0)
    yield "no-cells", one((0, 4), 4, data=b"")
    yield "no-cells-last", file([TEN, block(20, b"", 2, 4)], node(0, 4, [0], right=RIGHT))
    for first, length in [(WORD - 2, 1), (WORD - 1, 1), (WORD - 2, 2), (WORD - 3, 2), (WORD - 4, 3), (WORD - 4, 4), (0, 1), (WORD - 1, 2)]:
        yield f"end-{first}-{length}", one((0, 4), 4, first=first, data=b"z" * length)
    for created, destroyed in [(4, 4), (0, 0), (3, 3), (3, 2), (4, 0), (0, 5), (4, 5), (0, WORD - 1), (WORD - 1, WORD - 1), (5, 4), (3, 4)]:
        yield f"life-{created}-{destroyed}", one((created, destroyed), 4)
    yield "life-3-4-placed", one((3, 4), 4, nodes=node(0, 4, [], right=node(2, 4, [], right=node(3, 4, [0]))))
    yield "second-life", file([TEN, block(20, b"de", 4, 4)], node(0, 4, [0]))
    yield "second-above", file([TEN, block(20, b"de", 2, 5)], node(0, 4, [0], right=RIGHT))


def entries():
    """23."""
    for number in [1, 2, 255, 1 << 32, MOST_END, WORD - 1]:
        yield f"number-{number}", one((0, 4), 4, nodes=node(0, 4, [number]))
        yield f"number-{number}-second", one((0, 4), 4, nodes=node(0, 4, [0, number]))
    halves = node(0, 4, [], left=node(0, 2, [0]), right=node(2, 4, [0]))
    yield "covers-parent", one((0, 4), 4, nodes=halves)
    yield "covers-half", one((0, 2), 4, nodes=node(0, 4, [], left=node(0, 2, [0])))
    yield "covers-half-parent", one((0, 2), 4, nodes=node(0, 4, [], left=node(0, 2, [], left=node(0, 1, [0]), right=node(1, 2, [0]))))
    yield "not-covering", one((0, 3), 4)
    yield "not-covering-1", one((1, 4), 4)
    yield "three-quarters", one((0, 3), 4, nodes=node(0, 4, [], left=node(0, 2, [0]), right=node(2, 4, [], left=node(2, 3, [0]))))
    yield "three-quarters-cut", one((0, 3), 4, nodes=node(0, 4, [], left=node(0, 2, [0]), right=node(2, 4, [])))
    yield "other-quarter", one((0, 3), 4, nodes=node(0, 4, [], left=node(0, 2, [0]), right=node(2, 4, [], right=node(3, 4, [0]))))
    both = [TEN, block(20, b"de", 0, 4)]
    yield "ascending", file(both, node(0, 4, [0, 1]))
    yield "descending", file(both, node(0, 4, [1, 0]))
    yield "swapped", file(both[::-1], node(0, 4, [1, 0]))
    yield "equal", file([TEN, block(10, b"abc", 0, 4)], node(0, 4, [0, 1]))
    yield "next-cell", file([TEN, block(13, b"abc", 0, 4)], node(0, 4, [0, 1]))
    yield "twice", file([TEN], node(0, 4, [0, 0]))
    yield "missing", file(both, node(0, 4, [0]))
    yield "none", file(both, node(0, 4, []))
    three = [block(30 - 10 * i, b"q", 0, 4) for i in range(3)]
    yield "three-up", file(three, node(0, 4, [2, 1, 0]))
    yield "three-last-down", file(three, node(0, 4, [2, 0, 1]))
    yield "three-first-down", file(three, node(0, 4, [1, 2, 0]))
    yield "in-both-halves", file([TEN, block(20, b"de", 1, 3)], node(0, 4, [0], left=node(0, 2, [], right=node(1, 2, [1])), right=node(2, 4, [], left=node(2, 3, [1]))))
    yield "in-one-half", file([TEN, block(20, b"de", 1, 3)], node(0, 4, [0], left=node(0, 2, [], right=node(1, 2, [1]))))


def pairs():
    """24: two blocks that share one cell at one tick, and two that only touch."""
    left, right = node(0, 2, [0]), node(2, 4, [1])
    for first in [6, 7, 8, 9, 11, 12, 13, 14]:
        yield f"cells-10-and-{first}", file([TEN, block(first, b"wxy", 0, 4)], node(0, 4, [0, 1] if first > 10 else [1, 0]))
    yield "one-tick", file([block(10, b"a", 0, 3), block(10, b"b", 2, 4)], node(0, 4, [], left=left, right=node(2, 4, [1], left=node(2, 3, [0]))))
    yield "next-tick", file([block(10, b"a", 0, 2), block(10, b"b", 2, 4)], node(0, 4, [], left=left, right=right))
    yield "one-cell-one-tick", file([block(10, b"abc", 0, 3), block(12, b"de", 2, 4)], node(0, 4, [], left=left, right=node(2, 4, [1], left=node(2, 3, [0]))))
    yield "next-cell-one-tick", file([block(10, b"abc", 0, 3), block(13, b"de", 2, 4)], node(0, 4, [], left=left, right=node(2, 4, [1], left=node(2, 3, [0]))))
    yield "inside", file([block(10, b"abcdef", 0, 4), block(12, b"d", 2, 4)], node(0, 4, [0], right=RIGHT))
    yield "inside-later-first", file([block(12, b"d", 2, 4), block(10, b"abcdef", 0, 4)], node(0, 4, [1], right=node(2, 4, [0])))
    yield "around-other", file([block(10, b"abc", 0, 4), block(20, b"d", 0, 4), block(12, b"e", 2, 4)], node(0, 4, [0, 1], right=node(2, 4, [2])))
    yield "long-over-two", file([block(10, b"a" * 12, 0, 2), block(12, b"d", 2, 4), block(21, b"e", 0, 2)], node(0, 4, [], left=node(0, 2, [0, 2]), right=right))
    yield "long-beside-two", file([block(10, b"a" * 11, 0, 2), block(12, b"d", 2, 4), block(21, b"e", 0, 2)], node(0, 4, [], left=node(0, 2, [0, 2]), right=right))
    yield "last-cells", file([block(WORD - 3, b"ab", 0, 4), block(WORD - 2, b"c", 2, 4)], node(0, 4, [0], right=RIGHT))
    yield "last-cells-apart", file([block(WORD - 3, b"a", 0, 4), block(WORD - 2, b"c", 2, 4)], node(0, 4, [0], right=RIGHT))


def orders():
    """Two rules broken: the lower number comes."""
    yield "21-and-22", file([block(10, b"", 0, 4)], node(1, 4, [0]))
    yield "21-and-23", file([TEN], node(0, 4, [7], mid=1))
    yield "21-and-24", file([TEN, block(12, b"d", 2, 4)], node(0, 4, [0], right=node(2, 4, [1], mid=2)))
    yield "22-and-23", file([block(10, b"a", 4, 4)], node(0, 4, [9]))
    yield "22-and-24", file([TEN, block(12, b"d", 2, 5)], node(0, 4, [0], right=RIGHT))
    yield "23-and-24", file([TEN, block(12, b"d", 2, 4)], node(0, 4, [0, 1]))


GROUPS = [cuts, counts, kinds, presences, shapes, deep, blocks, entries, pairs, orders]
