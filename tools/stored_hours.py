"""Own cases of station hours for the stored list (stored.py): windows, weekdays and special days at each edge, each fault of 27, the order of refusals, and drawn
calendars.

As in stored_cases.py a case is a name and a list of calls in words; what they answer is left to the model.
"""
from board_model import MINUTES, WORD, hexed
from hours_model import DAY, HOURS, MOST_SPECIAL, MOST_WINDOWS, WEEK
from stored_cases import WIDE, Dice, load
from stored_files import SMALL
from stored_scratch import READS

LONG = HOURS * WEEK + 1 + (1 + HOURS) * MOST_SPECIAL  # the numbers of a calendar


def word(numbers):
    return ",".join(map(str, numbers)) or "-"


def hours(windows, count=None):
    """A count and eight pairs; the count may be another than there are."""
    pairs = [x for window in windows[:MOST_WINDOWS] for x in window]
    return [len(windows) if count is None else count] + pairs + [0] * (2 * MOST_WINDOWS - len(pairs))


def calendar(week=(), special=(), count=None):
    """Weekdays from Monday on; special days and their windows."""
    numbers = [x for weekday in range(WEEK) for x in hours(list(week[weekday]) if weekday < len(week) else [])]
    numbers += [len(special) if count is None else count]
    return numbers + [x for day, windows in special for x in [day] + hours(windows)]


def install(numbers):
    return ["calendar", word(numbers)]


def opened(end=8):
    return ["open", end, 1, *WIDE]


def train(tick, first, many=1, byte=7):
    return ["record", tick, first, hexed(bytes([byte]) * many)]


# ── open and closed ──


def mondays():
    """480 to 1200: both edges, on three platforms and a week later; through both edges; zero bytes; known bookings."""
    cells = [479, 480, 1199, 1200, 480 + DAY, 480 + 6 * DAY, 479 + 7 * DAY, 480 + 7 * DAY, 1199 + 7 * DAY]
    calls = [opened(), train(0, 470, 20), install(calendar([[(480, 1200)]]))]
    calls += [train(1, platform * MINUTES + cell) for platform in (0, 1, 3) for cell in cells]
    calls += [train(2, 470, 20), train(2, 480, 720), train(2, 480, 721), train(2, 479, 721), train(3, 470, 20, 0), train(3, 478, 2)]
    calls += [["record", 4, 479, "0007"], ["record", 4, 479, "0700"], ["record", 4, 1198, "070700"], ["record", 4, 1198, "000007"]]
    yield "mondays", calls + [["finish"]] + READS


def no_calendar():
    """All cells are open before the first calendar, and none with an empty one."""
    yield "empty", [opened(), train(0, 5), install([]), train(0, 5), train(0, 6), train(0, 6, 1, 0), train(0, WORD - 2), install(calendar([[(0, DAY)]] * WEEK)), train(1, 5, 40), train(1, WORD - 2), ["finish"]]


def midnight():
    """Each cell by its own day: through midnight, through a Sunday's end, through a platform's end."""
    night = calendar([[(1437, DAY)], [(0, 2)]])
    calls = [opened(), install(night)]
    calls += [train(0, first, many) for first in (1435, 1436, 1437, 1438, 1439) for many in (1, 2, 3, 4, 5)]
    yield "midnight", calls
    week = calendar([[(0, 3)], [], [], [], [], [], [(1438, DAY)]])
    yield "sunday", [opened(), install(week)] + [train(0, 7 * DAY - back, many) for back in (1, 2, 3) for many in (1, 3, 5, 6)]
    ends = [([(254, 256), (0, 1)], 3), ([(254, 258)], 3), ([(0, DAY)], 3), ([(0, 1)], 2), ([(0, 256)], 2)]
    for place, (monday, many) in enumerate(ends):
        calls = [opened(), install(calendar([monday]))]
        yield f"platform-{place}", calls + [train(0, platform * MINUTES - back, many) for platform in (1, 2, 1 << 31) for back in (1, 2, 3)]


def special_days():
    """A special day has its own windows in place of its weekday's, and no other day has them; without windows it is closed, also where a slice ends behind a count
    of one; the last day of a platform; days of any number; the weekday again."""
    days = [(0, [(60, 120)]), (1, [(0, 10)]), (7, []), (2982616, [(0, 1), (255, 256)]), (WORD - 1, [(0, DAY)])]
    cells = [59, 60, 119, 120, 480, DAY, DAY + 9, DAY + 10, DAY + 480, 7 * DAY + 60, 7 * DAY + 480, 8 * DAY + 5, 14 * DAY + 480, MINUTES - 257, MINUTES - 256, MINUTES - 255, MINUTES - 1]
    calls = [opened(), install(calendar([[(480, 1200)]], days))]
    yield "special", calls + [train(0, platform * MINUTES + cell) for platform in (0, 9) for cell in cells]
    week = [[(0, DAY)]] * WEEK
    spots = [(3 * DAY - 2, 4), (3 * DAY, 10), (3 * DAY + 9, 2), (4 * DAY - 1, 1), (4 * DAY - 1, 2), (4 * DAY, 20), (10 * DAY, 20)]
    for place, special in enumerate(([], [(0, 10)], [(0, DAY)], [(5, 10), (0, 6)])):
        calls = [opened(), install(calendar(week)), train(0, 3 * DAY - 5, DAY + 10), install(calendar(week, [(3, special)]))]
        calls += [train(1, first, many) for first, many in spots] + [["record", 1, 3 * DAY - 2, "0707000007"], ["record", 1, 3 * DAY - 2, "07070000"]]
        yield f"prevails-{place}", calls + [install(calendar(week)), train(2, 3 * DAY - 5, DAY + 10), ["finish"]] + READS
    yield "special-cut", [opened(), install(calendar([[(0, 10)]], count=1)), train(0, 5), train(0, 7 * DAY + 5), train(0, 5, 1, 0)]


def windows():
    """Windows that overlap, repeat, stand in any order; pairs and days past a count."""
    many = [(700, 800), (100, 200), (150, 300), (100, 200), (800, 801), (0, 1), (1439, DAY), (300, 301)]
    spots = [0, 1, 99, 100, 199, 250, 300, 301, 699, 700, 799, 800, 801, 1438, 1439]
    yield "eight", [opened(), install(calendar([many]))] + [train(0, spot) for spot in spots] + [train(0, 100, 201), train(0, 100, 202)]
    past = hours([(0, 10), (20, 30)], count=1)
    yield "past-a-count", [opened(), install(past), train(0, 9), train(0, 25), install(calendar([], [(0, [(60, 70)]), (1, [(0, 10)])], count=1)), train(0, 60), train(0, DAY)]


# ── 27 ──


def faults():
    """Each fault of 27 at its edge, first a calendar that is taken and last that it still stands; slices cut anywhere."""
    taken = calendar([[(0, 10)]])
    offers = {
        "from-to": [calendar([[(480, 480)]]), calendar([[(481, 480)]]), calendar([[(480, 481)]])],
        "to": [calendar([[(0, DAY)]]), calendar([[(0, DAY + 1)]]), calendar([[(0, WORD - 1)]]), calendar([[]] * 6 + [[(5, 5)]])],
        "counts": [hours([], count=n) for n in (1, 9, WORD - 1)] + [hours([(0, 1)] * 8, count=n) for n in (8, 9, WORD - 1)],
        "order": [calendar([], [(day, []) for day in days]) for days in ((3, 4), (3, 3), (4, 3), (3, 5, 4), (0, WORD - 1), (WORD - 1, 0))],
        "special": [calendar([], [(3, []), (4, [w])]) for w in ((0, DAY), (0, DAY + 1), (7, 7))] + [calendar([], [(3, [(0, 1)] * 9)])],
        "days": [calendar([], [(day, []) for day in range(min(n, MOST_SPECIAL))], count=n) for n in (63, 64, 65, WORD - 1)],
        "cut": [[1, 0], [1, 0, 5], calendar([], [], count=1), calendar([], [], count=2), [0] * LONG, [0] * LONG + [9] * 20],
    }
    for name, numbers in offers.items():
        for place, offer in enumerate(numbers):
            yield f"{name}-{place}", [opened(), install(taken), install(offer), train(0, 5), train(0, 15), install(offer), train(0, 15)]


def replaced():
    """What was there before leaves nothing: a full calendar, then shorter ones."""
    full = calendar([[(0, DAY)]] * WEEK, [(day, [(0, DAY)]) for day in range(MOST_SPECIAL)])
    short = [[], calendar([], [(5, [(0, 1)])]), calendar([[(0, 1)]]), calendar([], [(day, []) for day in range(9)])]
    for place, numbers in enumerate(short):
        yield f"replaced-{place}", [opened(), install(full), train(0, 0, 4000), install(numbers)] + [train(1, day * DAY + 1) for day in (0, 5, 8, 63, 64)] + [train(1, 5 * DAY)]


# ── the order of refusals ──


def order():
    """5 to 8 before 26 before 9 to 11; 2 and 3 before 27, also of a loaded index; tables without heads."""
    closed = [["record", 2, 20, "-"], ["record", 2, WORD - 1, "07"], train(8, 20), train(1, 20), train(2, 20), train(2, 5), train(2, 20, 1, 0)]
    narrow = ["open", 8, 1, 1, 8, 2, 3, 99, 99]
    bad = [1, 5, 5]
    yield "order", [narrow, install(calendar([[(0, 10)]])), train(2, 0)] + closed + [["finish"], install(bad), install([])] + READS
    yield "no-head", [["open", 8, 1, -1, 8, 9, 9, 9, 9], install(bad), install([])]
    yield "loaded", [load(SMALL), install(bad), install([]), train(0, 0)] + READS
    yield "opened-anew", [opened(), install([]), train(0, 5), opened(), train(0, 5), install([1, 0, 10]), train(0, 6), ["finish"], opened(), train(0, 700)]


# ── drawn ──


def drawn_windows(dice, most):
    windows = [sorted((dice.below(DAY), dice.below(DAY + 1))) for _ in range(dice.below(most + 1))]
    return [(a, b) for a, b in windows if a < b or dice.below(30) == 0]


def drawn(dice):
    """Calendars of a few days, and short and long operations around the edges of their windows and days."""
    for number in range(14):
        calls = [opened(40)]
        for tick in range(30):
            if tick % 6 == 0:
                week = [drawn_windows(dice, 3) for _ in range(WEEK)]
                days = sorted({dice.below(21) for _ in range(dice.below(6))})
                special = [(day, drawn_windows(dice, 8)) for day in days]
                calls.append(install(calendar(week, special)[:dice.pick([LONG, LONG, LONG, 40, 130])]))
                edges = [x + dice.among(-2, 2) for windows in week + [w for _, w in special] for window in windows for x in window] + [0, DAY]
            for _ in range(3):
                first = dice.pick([0, 0, 5, 1 << 31]) * MINUTES + max(0, dice.below(21) * DAY + dice.pick(edges))
                many = dice.pick([1, 1, 2, 3, 9, 40])
                data = bytes(dice.pick([0, 7, 7, 7]) for _ in range(many))
                calls.append(["record", tick, first, hexed(data)])
        yield f"drawn-{number}", calls + [["finish"]] + READS


def hours_cases():
    groups = [mondays(), no_calendar(), midnight(), special_days(), windows(), faults(), replaced(), order(), drawn(Dice(5))]
    return [(f"hours-{name}", calls) for group in groups for name, calls in group]
