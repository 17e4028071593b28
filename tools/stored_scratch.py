"""Own cases of the scratch for the stored list (stored.py): record does with eight numbers, a shorter scratch is 2 before all else, and 9 goes by the piece
table alone (request 9).

As in stored_cases.py a case is a name and a list of calls in words; what they answer is left to the model.
"""
from board_model import LEAST_SCRATCH, WORD, hexed
from stored_cases import Dice, load
from stored_files import SMALL

LONGEST = 8 * 64  # as many rows as the longest piece table
LENGTHS = (0, 7, LEAST_SCRATCH, 9, LONGEST)
SHORT = (7, 0)
READS = [["block", 0], ["find", 2, 0, 99, 9], ["cells", 2, 0, 32, 32, 32], ["touching", 2, 0, 99, 9], ["next", 2, 0], ["last", 2, 99], ["write", 16384]]


def opened(pieces=64, blocks=256, store=4096, numbers=LEAST_SCRATCH):
    return ["open", 8, 1, pieces, numbers, blocks, store, 4096, 8192]


def with_scratch(numbers, *record):
    return [["scratch", numbers], ["record", *record]]


def asked(*record):
    """A call with each scratch that is too short, then with one that is not."""
    return [call for numbers in (*SHORT, LEAST_SCRATCH) for call in with_scratch(numbers, *record)]


# ── lengths ──


def lengths():
    """Each length from the opening on; a read with it; then eight numbers, a finish, and the length again. Finish and the reads are lent none."""
    for numbers in LENGTHS:
        front = [opened(numbers=numbers), ["record", 0, 10, "0505"], ["record", 1, 10, "05"], ["record", 1, 20, "06"]]
        rest = with_scratch(LEAST_SCRATCH, 1, 10, "0505") + with_scratch(numbers, 2, 10, "05") + with_scratch(numbers, 2, 11, "07")
        yield f"length-{numbers}", front + rest + [["finish"]] + READS + [["record", 3, 10, "05"], ["finish"]]


def by_turns():
    """One length after the other on one board: what was lent before does not matter."""
    calls = [opened()]
    for place, first in enumerate(LENGTHS):
        for second in LENGTHS:
            calls += with_scratch(first, place, 10 * place, f"{place:02x}") + with_scratch(second, place, 10 * place, f"{place + 1:02x}")
    yield "by-turns", calls + [["finish"]] + READS


# ── the order of refusals ──


def first_of_all():
    """2 where 5 to 11 would be told, and of a read; then the same of a finished index, where 3 would be."""
    spent = [(2, 10, "-"), (2, WORD - 1, "05"), (8, 10, "05"), (1, 10, "05"), (2, 14, "05"), (3, 10, "0606"), (2, 12, "05")]
    calls = [opened(pieces=2, blocks=3, store=3), ["record", 2, 10, "05"], ["record", 2, 12, "05"]]
    for record in spent:
        calls += asked(*record)
    calls += [["record", 3, 10, "06"]] + asked(4, 10, "07") + [["finish"]]
    for record in spent:
        calls += asked(*record)
    yield "first-of-all", calls + READS


def no_tables():
    """2 with any scratch: a table without its head, no index."""
    for table in range(4):
        rows = [-1 if place == table else 9 for place in range(4)]
        yield f"no-head-{table}", [["open", 8, 1, rows[0], LEAST_SCRATCH, rows[1], 9, *rows[2:]]] + asked(0, 10, "05") + [["finish"]]
    yield "no-index", [load(SMALL[:-1])] + asked(0, 10, "05") + [["finish"], ["block", 0]]


def loaded():
    """2 before 3 of a loaded index, which stays."""
    yield "loaded", [load(SMALL), ["record", 0, 0, "01"]] + asked(0, 0, "01") + asked(0, 0, "-") + READS + [["finish"]]


def kept():
    """A call refused for its scratch moves no tick, takes no byte and leaves no piece."""
    front = [opened(pieces=2, blocks=3, store=3), ["record", 1, 10, "05"]]
    late = [call for numbers in SHORT for call in with_scratch(numbers, 7, 12, "0606")]
    yield "kept", front + late + with_scratch(LEAST_SCRATCH, 1, 12, "06") + late + with_scratch(LEAST_SCRATCH, 1, 12, "06") + [["finish"]] + READS


# ── 9 by the table alone ──


def spent_tables():
    """As many pieces as the table has rows, with eight numbers; one more is 9 with any scratch; an update over all of them is taken."""
    for rows in (1, 2, 3, 9, 10, 63, 64):
        calls = [opened(pieces=rows)] + [["record", 0, 2 * place, "07"] for place in range(rows + 1)]
        for numbers in (9, 8 * rows, LONGEST):
            calls += with_scratch(numbers, 1, 2 * rows, "07")
        calls += with_scratch(7, 1, 0, hexed(b"\7" * 2 * rows)) + with_scratch(LEAST_SCRATCH, 1, 0, hexed(b"\7" * 2 * rows))
        yield f"rows-{rows}", calls + [["record", 1, 2 * rows + 1, "07"], ["finish"]] + READS


def inside():
    """An update inside a piece makes three of it: 9 where the table has two rows, with any scratch."""
    for rows in (2, 3):
        calls = [opened(pieces=rows), ["record", 0, 10, "050505"]]
        yield f"inside-{rows}", calls + [call for numbers in LENGTHS for call in with_scratch(numbers, 1, 11, "06")] + [["finish"]] + READS


# ── drawn ──


def drawn(dice):
    """Short bookings in tables that run full, each with a drawn scratch."""
    for number in range(6):
        calls = [opened(pieces=dice.among(2, 6), blocks=dice.among(12, 40), store=dice.among(30, 80))]
        for step in range(40):
            start = dice.below(12)
            data = bytes(dice.below(3) for _ in range(dice.among(1, 4)))
            calls += with_scratch(dice.pick([*LENGTHS, LEAST_SCRATCH, LEAST_SCRATCH]), min(7, step // 5), start, hexed(data))
        yield f"drawn-{number}", calls + [["finish"]] + READS


def scratch_cases():
    groups = [lengths(), by_turns(), first_of_all(), no_tables(), loaded(), kept(), spent_tables(), inside(), drawn(Dice(9))]
    return [(f"scratch-{name}", calls) for group in groups for name, calls in group]
