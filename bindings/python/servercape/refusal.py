"""The refusals of the calls; words.py has what they say."""
from .words import ADVICE, CALLS, WORDS

__all__ = ["ADVICE", "CALLS", "WORDS", "Refused", "accepted"]


class Refused(Exception):
    """A call was refused: nothing has changed. `number` is one of `WORDS`, `words` say the
    condition, and `advice` what to do. A number with two conditions has a `meaning`, 0 or 1."""

    def __init__(self, number: int, meaning: int = 0) -> None:
        super().__init__(number, meaning)
        self.number = number
        self.words = WORDS[number][meaning] if number in WORDS else "a reason that this package does not know"
        self.advice = ADVICE[number][meaning] if number in ADVICE else "take the package of the library that is loaded"

    def __str__(self) -> str:
        return f"refused {self.number}: {self.words}"

    def __eq__(self, other: object) -> bool:
        return isinstance(other, Refused) and other.number == self.number

    def __hash__(self) -> int:
        return hash(self.number)


def accepted(number: int, meaning: int = 0) -> None:
    """Raises the refusal of that number; 0 is none."""
    if number:
        raise Refused(number, meaning)
