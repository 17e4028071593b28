"""Own cases of days of 23 and 25 hours for the stored list (stored.py): the clock changes of some years, short and long days at each edge, lists on indices of every
state, each fault of 28, hours that go by the list, days that no minute reaches, and drawn lists with calendars.

A caller makes the list for the rule of Directive 2000/84/EC by `changes`: day numbers count from a Monday that is day 0, which the operator chooses, here
EPOCH; the last Sunday of March has 1,380 minutes and the last of October 1,500. Minute 0 is that Monday's 00:00, and minutes count elapsed time from there on.

As in stored_cases.py a case is a name and a list of calls in words; what they answer is left to the model.
"""
from datetime import date, timedelta

from board_model import MINUTES, WORD
from days_model import DAY, LONG, MOST_DAYS, SHORT, Days
from hours_model import WEEK
from stored_cases import WIDE, Dice, load
from stored_files import SMALL
from stored_hours import calendar, drawn_windows, install, opened, train, word
from stored_scratch import READS

EPOCH = date(2024, 1, 1)  # a Monday

# Minutes of a day at which something changes on a short, a long or any other day: its edges, the jumps of the label.
EDGES = [0, 1, 59, 60, 118, 119, 120, 121, 178, 179, 180, 181, 238, 239, 240, 241, 1378, 1379, 1380, 1381, 1438, 1439, 1440, 1441, 1498, 1499, 1500, 1501]

LAST_DAY = MINUTES // DAY  # of a platform, with an empty list


def last_sunday(year, month):
    """Of a month of 31 days."""
    last = date(year, month, 31)
    return last - timedelta((last.weekday() + 1) % WEEK)


def changes(years):
    """The numbers of the list for some years, ascending."""
    days = [(last_sunday(year, month), minutes) for year in years for month, minutes in ((3, SHORT), (10, LONG))]
    return [number for day, minutes in days for number in ((day - EPOCH).days, minutes)]


def days(numbers):
    return ["days", word(numbers)]


def pairs(*listed):
    return [number for day in listed for number in day]


def clocks(numbers, wanted, platforms=(0,)):
    """The labels at each edge of some days, as a list has them."""
    starts = Days(numbers)
    return [["clock", platform * MINUTES + starts.start(day) + edge] for platform in platforms for day in wanted for edge in EDGES if starts.start(day) + edge < MINUTES]


# ── labels ──


def sundays():
    """Four years and thirty-two, which are 64 days: each change, the days around it, another platform."""
    few, many = changes(range(2024, 2028)), changes(range(2024, 2056))
    yield "sundays", [opened(), days(few)] + clocks(few, few[::2], (0, 7)) + [["finish"]] + clocks(few, [day + 1 for day in few[::2]])
    yield "sundays-64", [opened(), days(many)] + clocks(many, many[:4:2] + many[60::2]) + [["clock", minute] for minute in range(0, 17_000_000, 123_457)]


def alone():
    """One short or long day, in front, second, third, with what comes before and after it; two and three in a row."""
    lists = [[(day, minutes)] for day in (0, 1, 2) for minutes in (SHORT, LONG)]
    lists += [[(0, a), (1, b)] for a in (SHORT, LONG) for b in (SHORT, LONG)] + [[(1, SHORT), (2, LONG), (3, SHORT)], [(0, LONG), (2, LONG)]]
    for place, listed in enumerate(lists):
        numbers = pairs(*listed)
        yield f"alone-{place}", [opened(), days(numbers)] + clocks(numbers, range(5))


def late():
    """Days that no minute reaches change nothing; the last day of a platform, by each list that moves it; its last minute after one short day is 0515."""
    ends = [["clock", cell] for back in range(1, 260, 3) for cell in (MINUTES - back,)] + [["clock", cell] for cell in (MINUTES, 2 * MINUTES - 1, WORD - 1, WORD - 2)]
    lists = [[(0, SHORT)], [(0, LONG)], [(LAST_DAY, SHORT)], [(LAST_DAY, LONG)], [(LAST_DAY - 1, SHORT)], [(LAST_DAY - 1, LONG)], [(LAST_DAY + 1, SHORT)]]
    lists += [[(0, SHORT), (LAST_DAY, LONG)], [(LAST_DAY + 1, LONG), (WORD - 1, SHORT)], [(WORD - 2, LONG), (WORD - 1, SHORT)], [(3, SHORT), (1 << 63, LONG)]]
    lists += [[(day, minutes) for day in range(MOST_DAYS)] for minutes in (SHORT, LONG)]
    lists += [[(LAST_DAY - MOST_DAYS + 1 + day, minutes) for day in range(MOST_DAYS)] for minutes in (SHORT, LONG)]
    for place, listed in enumerate(lists):
        yield f"late-{place}", [opened(), days(pairs(*listed))] + ends


# ── lists on indices of every state ──


def states():
    """Open, finished, loaded: finish and record keep the list, opening and loading leave none, a load that is refused 17 or 18 leaves it."""
    short, long, asked = pairs((0, SHORT)), pairs((0, LONG)), [["clock", cell] for cell in (119, 120, 180, 1379, 1380)]
    yield "open-and-finished", [opened()] + asked + [days(short)] + asked + [train(1, 100, 90)] + asked + [["finish"]] + asked + [days(long)] + asked + [days([])] + asked + READS
    yield "finished", [opened(), train(1, 100, 90), ["finish"], days(short)] + asked + READS + [train(2, 0), ["finish"], install([])] + asked
    yield "loaded", [load(SMALL)] + asked + [days(long)] + asked + READS + [load(SMALL)] + asked
    yield "opened-anew", [opened(), days(short), opened()] + asked + [days(long), ["open", 0, 1, *WIDE]] + asked + [["finish"], opened()] + asked
    loaded = [load(SMALL), days(short), load(SMALL[:-1])] + asked + [load(b"\7" + SMALL)] + asked
    yield "load-refused", loaded + [load(SMALL[:-40] + b"\0" * 40)] + asked + [days([])]
    yield "with-calendar", [opened(), days(short), install(calendar([[(0, 120)]])), train(1, 119), train(1, 120), ["clock", 120], days(long), train(1, 120), train(1, 119, 2), install([]), ["clock", 180]]


def replaced():
    """A list is replaced whole: by an empty one, by shorter and longer ones, by itself."""
    full = pairs(*[(day, LONG if day % 3 else SHORT) for day in range(MOST_DAYS)])
    for place, numbers in enumerate(([], pairs((0, SHORT)), pairs((5, LONG), (63, SHORT)), full, pairs((64, SHORT)))):
        asked = [["clock", cell] for day in (0, 1, 5, 6, 62, 63, 64, 65) for cell in (DAY * day, DAY * day + 120, DAY * day + 200)]
        yield f"replaced-{place}", [opened(), days(full)] + asked + [days(numbers)] + asked + [["finish"], days(full)] + asked + [days(numbers)] + asked


# ── 28 ──


def faults():
    """Each fault of 28 at its edge, first a list that is taken and last that it still stands, on an open and on a finished index; odd lists; the order of refusals."""
    taken, many = pairs((0, SHORT)), [(day, SHORT) for day in range(70)]
    offers = {
        "lengths": [pairs((3, n)) for n in (0, 1, 60, 1379, 1380, 1381, 1439, 1440, 1441, 1499, 1500, 1501, MINUTES + 1380, WORD - 1)],
        "second": [pairs((3, LONG), (4, n)) for n in (0, 1380, 1440, 1500)],
        "order": [pairs(*[(day, SHORT) for day in listed]) for listed in ((3, 4), (3, 3), (4, 3), (3, 5, 4), (3, 5, 5), (0, WORD - 1), (WORD - 1, 0), (WORD - 1, WORD - 1), (0, 0))],
        "many": [pairs(*many[:n]) for n in (1, 63, 64, 65, 70)],
        "odd": [[0], [1380], pairs((3, LONG)) + [4], pairs(*many[:63]) + [63], pairs(*many[:64]) + [64], pairs(*many[:64]) + [0], [WORD - 1]],
    }
    asked = [["clock", cell] for cell in (119, 120, 4200, 4320 + 180)]
    for name, lists in offers.items():
        for place, offer in enumerate(lists):
            yield f"{name}-{place}", [opened(), days(taken), days(offer)] + asked + [train(0, 5), ["finish"], days(taken), days(offer)] + asked
    bad = pairs((3, DAY))
    yield "no-head", [["open", 8, 1, -1, 8, 9, 9, 9, 9], days(bad), days([]), ["clock", 0], ["finish"], days(bad)]
    yield "no-index", [["open", 0, 1, *WIDE], ["clock", 0], days([]), days(bad), load(SMALL[:-40] + b"\0" * 40), ["clock", 0], days([]), load(SMALL), days(bad), days([]), ["clock", WORD - 1]]
    yield "never-3", [opened(), ["finish"], days(bad), install([1, 5, 5]), days(taken), ["clock", 120]]


# ── hours by the list ──


def hours():
    """Windows around the jumps: both passes of the double hour follow the same window; on a short day [120, 180) covers no cell; midnight stands where the day ends."""
    windows = [[(120, 180)], [(0, 120)], [(180, DAY)], [(119, 121)], [(150, 181)], [(0, 60), (179, 180)], [(1439, DAY)], [(1380, 1400)]]
    cells = [0, 59, 60, 118, 119, 120, 149, 150, 178, 179, 180, 209, 210, 239, 240, 299, 1319, 1320, 1339, 1340, 1378, 1379, 1380, 1438, 1439, 1440, 1499, 1500]
    stretches = [(120, 120), (119, 2), (120, 60), (180, 60), (119, 122), (110, 11), (0, 120), (1379, 2), (1439, 2), (1499, 2), (1360, 150)]
    for minutes in (SHORT, LONG):
        for place, monday in enumerate(windows):
            calls = [opened(), install(calendar([monday, monday])), days(pairs((0, minutes)))]
            calls += [train(0, cell) for cell in cells] + [train(1, first, many) for first, many in stretches]
            yield f"hours-{minutes}-{place}", calls + [days([])] + [train(2, cell) for cell in (119, 120, 180, 239, 240, 1380, 1439, 1440)]


def shifted():
    """A listed day moves all later ones: weekdays, special days, midnights, a Sunday's end, the Monday after; bookings of two days and of a week."""
    week, edges = [[(60 * weekday, 60 * weekday + 30)] for weekday in range(WEEK)], (0, 1, 29, 30, 59, 60, 89, 90)
    special = [(1, [(0, 5)]), (3, []), (7, [(0, DAY)]), (8, [(1430, DAY)])]
    for place, listed in enumerate(([(0, SHORT)], [(0, LONG)], [(2, SHORT), (4, LONG)], [(6, LONG)], [(0, LONG), (1, LONG), (6, SHORT), (9, SHORT)])):
        numbers = pairs(*listed)
        starts = [Days(numbers).start(day) for day in (*range(1, 11), 14)]
        spots = sorted({start + edge for start in starts for edge in (*edges, -1, -2)})
        calls = [opened(16), install(calendar(week, special)), days(numbers)] + [train(0, spot) for spot in spots]
        calls += [train(1, start - back, many) for start in starts for back, many in ((0, 5), (1, 2), (5, 10), (10, 10), (10, 11))]
        yield f"shifted-{place}", calls[:230] + [["finish"]] + READS
    whole = [[(0, DAY)]] * WEEK
    calls = [opened(16), install(calendar(whole, [(3, [])])), days(pairs((1, SHORT), (2, LONG)))]
    yield "week", calls + [train(tick, first, many) for tick, (first, many) in enumerate([(400, 3920), (4319, 1), (4320, 1), (4300, 20), (4300, 21), (5759, 2), (5760, 40)])]
    yield "platform-end", [opened(16), install(calendar([[(255, 256), (0, 2), (314, 316)]])), days(pairs((0, SHORT)))] + [
        train(0, platform * MINUTES - back, many) for platform in (1, 2) for back, many in ((1, 1), (2, 1), (3, 1), (1, 3), (2, 4), (2, 5))]
    yield "special-late", [opened(16), install(calendar([], [(LAST_DAY, [(0, DAY)]), (LAST_DAY + 1, [(0, 5)])])), days(pairs((0, SHORT)))] + [
        train(0, MINUTES - back) for back in (1, 2, 200, 256, 257, 315, 316, 317, 318)] + [days(pairs((0, LONG)))] + [train(0, MINUTES - back) for back in (1, 195, 196, 197, 256)]


# ── drawn ──


def drawn(dice):
    """Lists of a few days around the first weeks, now and then with a fault, between calendars; operations and labels around the edges of windows and days."""
    for number in range(16):
        calls, numbers, edges = [opened(40)], [], [0, DAY]
        for tick in range(30):
            if tick % 6 == 0:
                week = [drawn_windows(dice, 3) for _ in range(WEEK)]
                special = [(day, drawn_windows(dice, 8)) for day in sorted({dice.below(21) for _ in range(dice.below(6))})]
                calls.append(install(calendar(week, special)))
                edges = [x + dice.among(-2, 2) for windows in week + [w for _, w in special] for window in windows for x in window] + [0, 120, 180, 240, DAY]
            if tick % 5 == 0:
                listed = sorted({dice.pick([0, dice.below(21), dice.below(21), LAST_DAY - 1]) for _ in range(dice.below(9))})
                offer = [x for day in listed for x in (day, dice.pick([SHORT, LONG]))] + [dice.below(30)] * (dice.below(12) == 0)
                numbers = offer if Days(offer).taken() else numbers
                calls.append(days(offer))
            for _ in range(3):
                minute = max(0, Days(numbers).start(dice.below(21)) + dice.pick(edges) + dice.pick([0, 0, -60, 60]))
                first = dice.pick([0, 0, 5, 1 << 31]) * MINUTES + minute
                data = "".join(dice.pick(["00", "07", "07", "07"]) for _ in range(dice.pick([1, 1, 2, 3, 9, 40])))
                calls += [["record", tick, first, data], ["clock", first]]
        yield f"drawn-{number}", calls + [["finish"]] + READS + [days(numbers[:4]), ["clock", 9 * DAY + 150]]


def days_cases():
    groups = [sundays(), alone(), late(), states(), replaced(), faults(), hours(), shifted(), drawn(Dice(6))]
    return [(f"days-{name}", calls) for group in groups for name, calls in group]
