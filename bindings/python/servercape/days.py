"""How long the days are: days of 23 and 25 hours, and what the clock shows."""
from array import array
from collections.abc import Iterable, Iterator
from datetime import date, timedelta

from .boardfile import DAY, DAYS, Fault
from .refusal import Refused

SHORT, LONG = 1380, 1500

# The most days that may be listed. More can be said, and are refused.
MOST_DAYS = 64

WRONG_DAYS = 28


class Days:
    """How long the days are: every day has 1,440 minutes but for those of a list, which have 1,380 or 1,500.

    Minutes count elapsed time, so a listed day moves all later ones. On a short day the clock goes from 01:59 to 03:00, on a long one it shows 02:00 to 02:59
    twice. An index has a list of its own, which `Index.install_days` takes; this class works days and times out once more, without an index.
    """

    def __init__(self, listed: Iterable[tuple[int, int]] = ()) -> None:
        """Pairs of a day's number and its minutes, ascending by day. Refusal 28, as installing them is."""
        self.listed = [(day, minutes) for day, minutes in listed]
        ascend = all(a < b for (a, _), (b, _) in zip(self.listed, self.listed[1:]))
        if len(self.listed) > MOST_DAYS or not ascend or any(minutes not in (SHORT, LONG) for _, minutes in self.listed):
            raise Refused(WRONG_DAYS)

    @classmethod
    def central_european(cls, monday: date, years: Iterable[int]) -> "Days":
        """The clock changes of some years in Central European Time, by Directive 2000/84/EC of the European Union: the last Sunday of March is short, the last of
        October long. `monday` is the date of day 0; changes before it are left out. Refusal 28 where there are more than 64."""
        if monday.weekday() != 0:
            raise ValueError(f"{monday} is no Monday")
        listed = []
        for year in sorted(set(years)):
            for month, minutes in ((3, SHORT), (10, LONG)):
                last = date(year, month, 31)
                sunday = last - timedelta((last.weekday() + 1) % 7)
                if sunday >= monday:
                    listed.append(((sunday - monday).days, minutes))
        return cls(listed)

    def __iter__(self) -> Iterator[tuple[int, int]]:
        """The pairs, as `Index.install_days` takes them."""
        return iter(self.listed)

    def __eq__(self, other: object) -> bool:
        return isinstance(other, Days) and other.listed == self.listed

    def __hash__(self) -> int:
        return hash(tuple(self.listed))

    def __repr__(self) -> str:
        return f"Days({self.listed})"

    def start(self, day: int) -> int:
        """The first minute of a day."""
        return DAY * day + sum(minutes - DAY for listed, minutes in self.listed if listed < day)

    def place(self, minute: int) -> tuple[int, int]:
        """The day of a minute, and what the clock shows then, as a minute of 24 hours."""
        start, left = 0, minute
        for day, minutes in self.listed:
            if left // DAY < day - start:
                break
            left -= (day - start) * DAY
            if left < minutes:
                return day, left + 60 if minutes == SHORT and left >= 120 else left - 60 if minutes == LONG and left >= 180 else left
            start, left = day + 1, left - minutes
        return start + left // DAY, left % DAY

    def minute(self, day: int, shown: int) -> int:
        """The first minute of a day at which the clock shows that. Raises `Fault` where there is none: a short day has no 02:00 to 02:59."""
        length, start = dict(self.listed).get(day, DAY), self.start(day)
        if length == SHORT and 120 <= shown < 180:
            raise Fault(f"{shown // 60:02}:{shown % 60:02} is no time of day {day}: the clock goes from 01:59 to 03:00 then")
        return start + shown + (0 if length == DAY or shown < 180 else length - DAY)

    def time(self, minute: int) -> str:
        """Day and clock time of a minute, as `tuesday+1 01:42`."""
        day, shown = self.place(minute)
        week, weekday = divmod(day, 7)
        return f"{DAYS[weekday]}{f'+{week}' if week else ''} {shown // 60:02}:{shown % 60:02}"


REGULAR = Days()


def numbers(listed: Iterable[tuple[int, int]]) -> "array[int]":
    """The pairs one behind the other."""
    try:
        return array("Q", [number for day, minutes in listed for number in (day, minutes)])
    except OverflowError:
        raise ValueError("a number of the list of days is not from 0 to 2^64 - 1") from None
