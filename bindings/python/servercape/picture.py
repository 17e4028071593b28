"""A board as one page for a browser, with everything in it."""
import json
from collections.abc import Iterable
from importlib.resources import files
from typing import Any, NamedTuple

from .boardfile import DAYS
from .days import SHORT
from .index import Block, Index
from .places import MINUTES
from .stays import Run, runs

DATA = "/* the board */ null"


class Part(NamedTuple):
    """A run of a block, over the block's life."""

    run: Run
    created: int
    destroyed: int
    block: int


def picture(index: Index, blocks: Iterable[Block], start: int, end: int, name: str) -> str:
    """The page of an index and its blocks: of every stay, and every stretch that was set free, that holds a cell of [start, end).

    Of the listed days those are left out that no minute reaches.
    """
    board = {
        "name": name,
        "end": str(index.end_tick),
        "days": DAYS,
        "listed": [listed for listed in index.days if listed[0] <= MINUTES // SHORT],
        **columns(shown(blocks, start, end)),
    }
    page = files(__package__).joinpath("picture.html").read_text("utf-8")
    return page.replace(DATA, json.dumps(board, separators=(",", ":")).replace("</", "<\\/"))


def shown(blocks: Iterable[Block], start: int, end: int) -> list[Part]:
    """The runs of blocks that hold a cell of [start, end), and those beside them that may be of the same stay, ascending by first cell. What no tick shows is left
    out."""
    parts = [Part(run, block.created, block.destroyed, number)
             for number, block in enumerate(blocks) if block.created < block.destroyed for run in runs(block)]
    parts.sort(key=lambda part: (part.created, part.run.train, part.run.first))
    held: list[Part] = []
    chain: list[Part] = []
    for part in parts:
        if not (chain and follows(chain[-1], part)):
            held += chosen(chain, start, end)
            chain = []
        chain.append(part)
    return sorted(held + chosen(chain, start, end))


def follows(before: Part, part: Part) -> bool:
    """Whether a part goes on with the one before, of the same tick and train, on the same platform."""
    return ((before.created, before.run.train, before.run.end) == (part.created, part.run.train, part.run.first)
            and part.run.first % MINUTES != 0)


def chosen(chain: list[Part], start: int, end: int) -> list[Part]:
    """A chain of parts side by side, where it holds a cell of [start, end)."""
    return chain if chain and chain[0].run.first < end and start < chain[-1].run.end else []


def columns(parts: list[Part]) -> dict[str, Any]:
    """The parts by columns. Ticks can be larger than a browser's numbers: so they are handed over as text, those at which the board changes, ascending, and lives
    as places among them."""
    ticks = sorted({0}.union(*((part.created, part.destroyed) for part in parts)))
    places = {tick: place for place, tick in enumerate(ticks)}
    return {
        "ticks": list(map(str, ticks)),
        "platform": [part.run.first // MINUTES for part in parts],
        "minute": [part.run.first % MINUTES for part in parts],
        "length": [part.run.end - part.run.first for part in parts],
        "train": [part.run.train for part in parts],
        "created": [places[part.created] for part in parts],
        "destroyed": [places[part.destroyed] for part in parts],
        "block": [part.block for part in parts],
    }
