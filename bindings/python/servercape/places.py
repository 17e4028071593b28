"""Cells as platforms and minutes, minutes as days and clock times."""
from typing import NamedTuple

from .boardfile import DAY, Fault, minute_of
from .days import REGULAR, Days

MINUTES = 1 << 32
MOST_CELL = (1 << 64) - 1


class Place(NamedTuple):
    """A cell, taken apart. Minute 0 is a Monday 00:00. Days and clock times go by a list of days; without one every day has 1,440 minutes."""

    platform: int
    minute: int

    @classmethod
    def of(cls, cell: int) -> "Place":
        return cls(*divmod(cell, MINUTES))

    @classmethod
    def at(cls, platform: int, day: str, time: str, days: Days = REGULAR) -> "Place":
        """The place of a day, as `monday` or `tuesday+1`, and a clock time, as `01:42`; of a time that comes twice the first."""
        return cls(platform, minute_of(day, time)).moved(days)

    def moved(self, days: Days) -> "Place":
        """The place of the day and clock time that this one has without a list."""
        minute = days.minute(*divmod(self.minute, DAY))
        if minute >= MINUTES:
            raise Fault(f"'{self.time}' is too late: a platform has 2^32 minutes")
        return Place(self.platform, minute)

    @property
    def cell(self) -> int:
        return self.platform * MINUTES + self.minute

    @property
    def time(self) -> str:
        """Day and clock time, as `tuesday+1 01:42`."""
        return self.time_by(REGULAR)

    def time_by(self, days: Days) -> str:
        """The same by a list of days."""
        return days.time(self.minute)


def minutes_on(platform: int, start: str | None, end: str | None, days: Days) -> tuple[int, int]:
    """The cells of a platform from a day and clock time up to another; what is left out is its
    first minute, or its end."""

    def cell(text: str | None, minute: int) -> int:
        if text is None:
            return Place(platform, minute).cell
        if len(words := text.split()) != 2:
            raise Fault(f"'{text}' is no time: of a platform, write a day and a clock time, "
                        "as 'monday 23:50'")
        return Place.at(platform, words[0], words[1], days).cell

    return cell(start, 0), min(cell(end, MINUTES), MOST_CELL)
