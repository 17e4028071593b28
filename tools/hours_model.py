"""Station hours (docs/RULES.md) as a plain model: a calendar made of the numbers that install takes.

Seven times a count and eight pairs from, to, Monday first; a count; as many times a day, a count and eight pairs. A number past the end is 0. Which day and minute
a cell has is days_model.py's.
"""
DAY = 1440
WEEK = 7
MOST_WINDOWS, MOST_SPECIAL = 8, 64
HOURS = 1 + 2 * MOST_WINDOWS


class Calendar:
    def __init__(self, numbers):
        self.numbers = numbers
        self.week = [self.hours(HOURS * weekday) for weekday in range(WEEK)]
        count = self.number(HOURS * WEEK)
        places = [HOURS * WEEK + 1 + (1 + HOURS) * k for k in range(min(count, MOST_SPECIAL))]
        self.special = [(self.number(place), self.hours(place + 1)) for place in places]
        self.many = count > MOST_SPECIAL or any(self.number(at) > MOST_WINDOWS for at in [HOURS * d for d in range(WEEK)] + [place + 1 for place in places])

    def number(self, place):
        return self.numbers[place] if place < len(self.numbers) else 0

    def hours(self, at):
        return [(self.number(at + 1 + 2 * j), self.number(at + 2 + 2 * j)) for j in range(min(self.number(at), MOST_WINDOWS))]

    def taken(self):
        """Whether it can be installed."""
        windows = [w for day in self.week for w in day] + [w for _, day in self.special for w in day]
        days = [day for day, _ in self.special]
        return not self.many and all(a < b <= DAY for a, b in windows) and all(a < b for a, b in zip(days, days[1:]))

    def is_open(self, day, minute):
        """Whether a day is open at the minute that its label shows."""
        special = [hours for number, hours in self.special if number == day]
        windows = special[0] if special else self.week[day % WEEK]
        return any(start <= minute < end for start, end in windows)
