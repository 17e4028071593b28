"""Own cases of what record answers for the stored list (stored.py): a read, or an update with the lowest cell that was unknown or had another byte. Boards at
the edges of pieces, every stretch of cells around three pieces, pieces in many rows of their tree, and drawn boards.

As in stored_cases.py a case is a name and a list of calls in words; what they answer is left to the model.
"""
from board_model import MINUTES, MOST_END, WORD, hexed
from stored_cases import WIDE, Dice

TOP = WORD - 1  # the cell behind the last one that can be booked


def board(*bookings, end=8, rows=WIDE):
    """A board with its bookings, each a tick, a first cell and bytes; at last its finish."""
    return [["open", end, 1, *rows]] + [["record", *booking] for booking in bookings] + [["finish"]]


# ── boards ──


def one_piece():
    """A piece said again, in whole and in part; run past; changed in its first cell, inside, in its last cell."""
    yield "again", board((0, 10, "050607"), (1, 10, "050607"), (1, 10, "05"), (2, 11, "06"), (2, 11, "0607"))
    yield "past-the-end", board((0, 10, "0505"), (1, 11, "0505"), (2, 11, "050505"))
    yield "before-the-start", board((0, 10, "0505"), (1, 9, "0505"), (2, 7, "050505050505"))
    yield "around", board((0, 10, "05"), (1, 9, "050505"), (2, 9, "050505"), (3, 8, "0505050505"))
    yield "first-cell", board((0, 10, "050607"), (1, 10, "060607"), (2, 10, "08"))
    yield "inside", board((0, 10, "05060708"), (1, 10, "05060908"), (2, 11, "0607"))
    yield "last-cell", board((0, 10, "050607"), (1, 10, "050608"), (2, 12, "07"))
    yield "same-tick", board((3, 50, "01"), (3, 50, "02"), (3, 50, "02"), (3, 50, "0203"), (3, 50, "0204"))


def pieces():
    """A gap, before and behind a difference; a difference in the second or third piece alone; pieces that have no cell in common."""
    yield "gap", board((0, 10, "05"), (0, 12, "05"), (1, 10, "050505"), (2, 10, "050505"))
    yield "behind-a-gap", board((0, 10, "05"), (0, 12, "06"), (1, 10, "050507"), (2, 10, "050508"))
    yield "before-a-gap", board((0, 10, "0505"), (0, 13, "05"), (1, 10, "05060505"))
    yield "second-piece", board((0, 10, "0101"), (0, 12, "0202"), (1, 10, "01010203"), (2, 10, "01010203"))
    yield "third-piece", board((0, 10, "01"), (0, 11, "02"), (0, 12, "03"), (1, 10, "010204"), (2, 10, "010204"))
    yield "behind-the-third", board((0, 10, "01"), (0, 11, "02"), (0, 12, "03"), (1, 10, "01020303"))
    yield "beside", board((0, 10, "05"), (0, 20, "06"), (1, 11, "05"), (1, 19, "06"), (2, 12, "06060606060606"), (3, 12, "06"), (3, 18, "0606"))


def zeros():
    """A held 0 is known and an unknown cell is not; cell 0, whose number a read has too."""
    yield "held-0", board((0, 20, "00"), (1, 20, "00"), (2, 20, "0000"), (3, 19, "000000"), (4, 19, "000000"), (5, 19, "000100"), (6, 19, "000000"))
    yield "cell-0", board((0, 0, "00"), (1, 0, "00"), (2, 0, "01"), (3, 0, "0101"), (4, 0, "0202"), (5, 1, "02"))


def far():
    """Both sides of a platform's end, and cells up to 2^64 - 2, which is the last."""
    yield "platform", board((0, MINUTES - 2, "0303"), (1, MINUTES - 2, "03030303"), (2, MINUTES - 2, "03030304"), (3, MINUTES - 1, "0303"))
    longer = ((0, TOP - 3, "01"), (1, TOP - 3, "0101"), (2, TOP - 3, "010101"))
    yield "top", board(*longer, (3, TOP - 1, "01"), (4, TOP - 2, "0102"), (5, TOP - 1, "0202"), (5, TOP - 1, "02"))
    yield "late", board((MOST_END - 2, TOP - 1, "01"), (MOST_END - 1, TOP - 1, "02"), (MOST_END - 1, TOP - 1, "02"), end=MOST_END)


def refused():
    """A refusal changes nothing: what is asked after it is told as if it had not been. A read needs no room."""
    spent = ((0, 10, "05"), (1, 12, "05"), (1, 10, "05"), (1, 10, "0505"), (1, 9, "-"), (0, 11, "06"), (8, 11, "06"), (1, TOP, "05"), (2, 10, "0506"))
    yield "no-piece", board(*spent, rows=(1, 9, 9, 9, 9, 9))
    yield "no-block", board(*spent, rows=(9, 9, 2, 9, 9, 9))
    yield "no-byte", board(*spent, rows=(9, 9, 9, 3, 9, 9))
    yield "no-head", board(*spent, rows=(-1, 9, 9, 9, 9, 9))
    yield "finished", board(*spent) + [["record", 7, 10, "05"], ["record", 7, 30, "05"]]


# ── every stretch ──

BASE = [["record", 0, 10, "0505"], ["record", 0, 13, "0506"], ["record", 1, 15, "0700"]]  # 12 is a gap
HELD = {10: 5, 11: 5, 13: 5, 14: 6, 15: 7, 16: 0}


def asked(base, start, held):
    """An operation with the bytes that are held, and with each of them another; each on the board anew."""
    calls = []
    for place in range(len(held) + 1):
        data = bytes(byte + (place == i) for i, byte in enumerate(held))
        calls += [["open", 8, 1, *WIDE]] + base + [["record", 2, start, hexed(data)]]
    return calls


def stretches():
    """Every stretch from the cell before three pieces to the cell behind them; bytes of unknown cells are 0."""
    for start in range(9, 18):
        held = bytes(HELD.get(cell, 0) for cell in range(start, 18))
        yield f"stretch-{start}", [call for many in range(1, len(held) + 1) for call in asked(BASE, start, held[:many])]


def many_pieces(dice):
    """Pieces side by side that came in a drawn order, and an operation over all of them."""
    for many in (7, 12):
        order, base = list(range(many)), []
        while order:
            place = order.pop(dice.below(len(order)))
            base.append(["record", 0, 30 + 2 * place, hexed(bytes([place, place]))])
        yield f"pieces-{many}", asked(base, 30, bytes(place // 2 for place in range(2 * many)))


def drawn(dice):
    """Short bookings of few cells and two bytes, of which many say what is known."""
    for number in range(8):
        base = dice.pick([0, 100, MINUTES - 6, TOP - 12])
        bookings = []
        for tick in range(40):
            start = dice.below(12)
            data = bytes(dice.below(4) // 3 for _ in range(dice.among(1, min(6, 12 - start))))
            bookings.append((tick, base + start, hexed(data)))
        shown = [["cells", tick, base, base + 12, 12, 12] for tick in (0, 9, 19, 39)]
        yield f"drawn-{number}", board(*bookings, end=64) + shown


def change_cases():
    dice = Dice(2)
    groups = [one_piece(), pieces(), zeros(), far(), refused(), stretches(), many_pieces(dice), drawn(dice)]
    return [(f"changes-{name}", calls) for group in groups for name, calls in group]
