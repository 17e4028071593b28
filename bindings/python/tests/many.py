#!/usr/bin/env python3
"""Prints a readable list of so many bookings, always the same:  many.py BOOKINGS [PLATFORMS].

Each booking has its own tick: a stay of 5 to 40 minutes on one of the platforms, somewhere in a day; one in twenty sets the minutes free. With 64 platforms
the board has about 4,096 pieces.
"""
import random
import sys


def bookings(count: int, platforms: int, seed: int = 24):
    """Tick, first cell, length and train code of each."""
    dice = random.Random(seed)
    for tick in range(count):
        cell = (dice.randrange(platforms) << 32) + dice.randrange(1440)
        yield tick, cell, dice.randrange(5, 41), 0 if dice.randrange(20) == 0 else dice.randrange(1, 256)


def main(count: int, platforms: int = 64) -> None:
    print(f"end {max(count, 1)}\nkind memory")
    sys.stdout.writelines(f"at {tick} cell {cell} bytes {code:02x}*{length}\n" for tick, cell, length, code in bookings(count, platforms))


if __name__ == "__main__":
    main(*map(int, sys.argv[1:]))
