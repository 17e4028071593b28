"""Days of 23 and 25 hours (docs/RULES.md) as a plain model: a list of days made of the numbers that install takes, pairs of a day and its minutes.

The day of a minute is the one that starts at it or before and ends behind it, where a day starts after the lengths of all earlier ones. What the clock shows is
written out minute by minute.
"""
MINUTES = 1 << 32
DAY, SHORT, LONG = 1440, 1380, 1500
MOST_DAYS = 64

# By how many days the list can move a minute: 64 times an hour.
FURTHEST = 3

# What the clock shows in each minute of a day of so many, as a minute of 24 hours: a short day goes from 01:59 to 03:00, a long one has 02:00 to 02:59 twice.
SHOWN = {DAY: [*range(1440)], SHORT: [*range(120), *range(180, 1440)], LONG: [*range(180), *range(120, 1440)]}


class Days:
    def __init__(self, numbers):
        """A last day without its minutes has 0 of them."""
        self.listed = list(zip(numbers[::2], numbers[1::2] + [0] * (len(numbers) % 2)))
        self.lengths = dict(self.listed)
        self.starts = {}

    def taken(self):
        """Whether it can be installed."""
        days = [day for day, _ in self.listed]
        return len(days) <= MOST_DAYS and all(minutes in (SHORT, LONG) for _, minutes in self.listed) and all(a < b for a, b in zip(days, days[1:]))

    def start(self, day):
        """The first minute of a day."""
        if day not in self.starts:
            self.starts[day] = DAY * day + sum(minutes - DAY for listed, minutes in self.listed if listed < day)
        return self.starts[day]

    def place(self, cell):
        """The day of a cell, and the minute that the clock shows then."""
        minute = cell % MINUTES
        near = minute // DAY
        day = next(day for day in range(max(0, near - FURTHEST), near + FURTHEST + 1) if self.start(day) <= minute < self.start(day + 1))
        return day, SHOWN[self.lengths.get(day, DAY)][minute - self.start(day)]
