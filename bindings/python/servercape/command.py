"""The command `servercape`."""
import argparse
import json
import os
import sys
from collections.abc import Callable, Iterable, Iterator, Sequence
from contextlib import suppress
from dataclasses import dataclass
from datetime import date, timedelta
from functools import cache, partial
from io import TextIOWrapper
from pathlib import Path
from typing import NamedTuple

from .boardfile import DAY, KINDS, Fault, number
from .bookings import Bookings, read_bookings
from .days import REGULAR, Days
from .files import check_target, file_blocks, read_file, write_file
from .index import Block, Index, Kind
from .library import VERSION
from .listing import Row, block_listing, cell_listing, same, show, stay_listing
from .picture import picture
from .places import MINUTES, MOST_CELL, Place, minutes_on
from .refusal import ADVICE, CALLS, WORDS, Refused
from .report_lines import Window, occupation_listing, occupied, windows_of
from .stays import FREE, stays

DONE, REFUSED, USAGE, BROKEN = range(4)
INTERRUPTED = 130  # as a shell tells it

# What `conflicts` says of a window; what is refused has a status of its own there.
CLEAR, TAKEN, NOT_ASKED = 0, 1, 4

WINDOW_REFUSED = 15

# How many bookings are recorded with one test of the tables, and how many cells are read at once; how many bytes make a list long.
MANY = 1 << 16
LONG = 1 << 20

STATUS = "Exit status: 0 done, 1 refused, 2 wrong usage, 3 reading or writing failed."
CONFLICT_STATUS = "Exit status: 0 the window is free, 1 it is taken, 2 wrong usage, 3 reading or writing\nfailed, 4 refused."
WINDOW = """The window has the cells from --from up to, and not including, --to: numbers
of cells, or with --platform a day and a clock time, as 'monday 23:50', or
'tuesday+1 00:10' for one week later; of a time that comes twice the first is
meant. What is left out is the first cell, or the end."""
TICK = "Without --tick the board is read at its last tick."
AT_TICK = f"{WINDOW}\n{TICK}"
OF_KIND = """A file of several kinds has a board for each, one behind the other; --kind chooses the
first of its kind. Without it the board at --at is read."""
KINDED = """A readable list may have several kinds: 'kind memory other' names them, and
'at 3 kind other cell 102 bytes 09' is a booking of one; one that names none is of
the first. The file has a board for each kind that has bookings."""
REPLACED = """The file is written whole or not at all: what stood there stays until the new one is
on the disk, and its mode is kept. A file that is read-only is not replaced."""
LISTED = """Days and clock times go by the list that --days names; a file holds none, and
without it every day has 1,440 minutes."""
NAMED = """A train is written as in lists of bookings, in hexadecimal digits, and 'free' stands
for byte 00. A time that ends something is the first minute behind it."""
OCCUPIED = """A stay is what one train holds without a gap, booked at one tick. It is cut off at the
edges of the window, and free minutes are left out."""
AROUND = "A block without a train, which only sets minutes free, is passed over."
CALENDAR = """it must be JSON, {"week": DAYS, "special": SPECIAL}: DAYS are seven lists of windows, Monday first, SPECIAL is a list of [DAY, WINDOWS], and a \
window is [FROM, TO], in minutes of the day"""
LIST = "it must be JSON, a list of [DAY, MINUTES], ascending by day"
WINDOWS = """A window is FROM..TO: the cells from FROM up to, and not including, TO. With a
platform in front FROM and TO are a day and a clock time, and what is left out is the
platform's first minute, or its end: '2:monday 06:00..monday 22:00'. With the first
and the last of some platforms it is a window on each: '1-4:monday 06:00..monday 22:00'.
A cell in two windows counts twice. The most are 256 windows and 2^32 cells in all."""
SHARE = """A cell is occupied where a train stands: a minute that was set free is not. Percents are
rounded to one digit, and the fraction is exact."""


def complain(words: str) -> None:
    with suppress(OSError):  # there is nobody to be told
        print(f"servercape: {words}", file=sys.stderr)


class Progress:
    """What is being done, on a terminal, for long lists: each line over the one before."""

    def __init__(self, size: int) -> None:
        self.wanted = size > LONG and sys.stderr.isatty()

    def say(self, words: str) -> None:
        if self.wanted:
            print(f"{words:40}", end="\r", file=sys.stderr, flush=True)


# ── files ──


@cache
def read_days(name: str | None) -> Days:
    """The list of days of a file."""
    if name is None:
        return REGULAR
    try:
        return Days(json.loads(read_file(name)))
    except Refused as refused:
        raise Fault(f"the days {name}: {refused}") from None
    except (TypeError, ValueError):
        raise Fault(f"the days {name}: {LIST}") from None


def install_days(index: Index, name: str | None) -> None:
    """Installs the list of days of a file."""
    try:
        index.install_days(read_days(name))
    except (TypeError, ValueError):
        raise Fault(f"the days {name}: {LIST}") from None


@dataclass(frozen=True)
class Board:
    """A board of a file: the bytes of the file, the positions at which it starts and after it, and its index."""

    data: bytes
    at: int
    end: int
    index: Index

    def blocks(self) -> Iterator[Block]:
        return file_blocks(self.data, self.at)


def boards(data: bytes, at: int = 0) -> Iterator[Board]:
    """The boards that stand in a file from a position on, one behind the other."""
    first = at
    while at == first or at < len(data):
        index, end = Index.load(data, at)
        yield Board(data, at, end, index)
        at = end


def loaded(options: argparse.Namespace) -> Board:
    of_kind = (board for board in boards(read_file(options.file), options.at) if options.kind in (None, board.index.kind))
    board = next(of_kind, None)
    if board is None:
        raise Fault(f"there is no board of kind {options.kind.name.lower()}")
    install_days(board.index, options.days)
    return board


# ── windows ──


def window(options: argparse.Namespace) -> tuple[int, int]:
    """The cells of a window; what cannot be read is wrong usage."""
    days = read_days(options.days)

    def cell(text: str | None, otherwise: int) -> int:
        return otherwise if text is None else int(number(text, 64, "the cell"))

    parser: argparse.ArgumentParser = options.parser
    try:
        if options.platform is not None:
            return minutes_on(options.platform, options.start, options.end, days)
        return cell(options.start, 0), cell(options.end, MOST_CELL)
    except Fault as fault:
        parser.error(str(fault))


def tick(options: argparse.Namespace, index: Index) -> int:
    return index.end_tick - 1 if options.tick is None else int(options.tick)


# ── the commands ──


def install(index: Index, name: str) -> None:
    """Installs the station hours of a file."""
    data = read_file(name)
    try:
        hours = json.loads(data)
        index.install_calendar(hours["week"], hours.get("special", ()))
    except Refused as refused:
        raise Fault(f"the calendar {name}: {refused}") from None
    except (AttributeError, KeyError, TypeError, ValueError):
        raise Fault(f"the calendar {name}: {CALENDAR}") from None


def record_part(bookings: Bookings, index: Index, start: int) -> Iterator[int | None | Refused]:
    """Records a part of a list: where all is of one kind with one test of the tables, else one by one."""
    operations, kinds = bookings.operations[start:start + MANY], bookings.kinds_of[start:start + MANY]
    if len(set(kinds)) == 1:
        yield from index.record_all(operations, kind=kinds[0])
        return
    for operation, kind in zip(operations, kinds):
        try:
            yield index.record(*operation, kind=kind)
        except Refused as refused:
            yield refused


def record(bookings: Bookings, index: Index, name: str, progress: Progress) -> int:
    """Records a list, and tells each refusal with its place: how many there are."""
    count, refused = len(bookings.operations), 0
    for start in range(0, count, MANY):
        for at, answer in enumerate(record_part(bookings, index, start), start):
            if isinstance(answer, Refused):
                refused += 1
                complain(f"{name}: {bookings.place(at)}: {answer}")
        progress.say(f"{min(start + MANY, count):,} of {count:,} bookings")
    return refused


def build(options: argparse.Namespace) -> int:
    check_target(options.output)
    data = read_file(options.file)
    progress = Progress(len(data))
    progress.say("reading the list")
    bookings = read_bookings(data, read_days(options.days))
    index = Index.open(bookings.end_tick, bookings.kinds)
    install_days(index, options.days)
    if options.calendar is not None:
        install(index, options.calendar)
    refused = record(bookings, index, options.file, progress)
    if refused and not options.skip_refused:
        complain(f"{options.file}: {refused} of {len(bookings.operations)} bookings refused: nothing is written; --skip-refused writes the others")
        return REFUSED
    del data, bookings  # they take as much memory as the board's tables
    progress.say("finishing")
    index.finish()
    if index.block_count == 0:
        complain(f"{options.file}: no booking is accepted: there is nothing to write")
        return REFUSED
    progress.say("writing")
    write_file(options.output, index.write_view())
    progress.say("")
    return REFUSED if refused else DONE


def list_blocks(index: Index, numbers: Iterable[int], options: argparse.Namespace) -> int:
    show(((number, index.block(number)) for number in numbers), block_listing(index.days), options.form, sys.stdout)
    return DONE


def blocks(options: argparse.Namespace) -> int:
    board = loaded(options)
    show(enumerate(board.blocks()), block_listing(board.index.days), options.form, sys.stdout)
    return DONE


def find(options: argparse.Namespace) -> int:
    cells, index = window(options), loaded(options).index
    return list_blocks(index, index.find(tick(options, index), *cells).numbers, options)


def touching(options: argparse.Namespace) -> int:
    cells, index = window(options), loaded(options).index
    return list_blocks(index, index.touching(tick(options, index), *cells), options)


def conflicts(options: argparse.Namespace) -> int:
    cells, index = window(options), loaded(options).index
    at_tick = tick(options, index)
    taken = list(stays(map(index.block, index.touching(at_tick, *cells)), *cells))
    if options.form == "human" and not taken:
        print(f"free at tick {at_tick}")
    else:
        show(taken, stay_listing(index.days), options.form, sys.stdout)
    return TAKEN if taken else CLEAR


def near(options: argparse.Namespace, forward: bool) -> int:
    """The first block with a train from the window's start on, or the last one before its end."""
    (start, end), index = ordered(window(options)), loaded(options).index
    at_tick, ask = tick(options, index), index.next if forward else index.last
    found = ask(at_tick, start if forward else end)
    while found is not None and no_train(block := index.block(found)):
        found = ask(at_tick, block.end if forward else block.first)
    if found is None or not start <= index.block(found).first < end:
        return list_blocks(index, [], options)
    return list_blocks(index, [found], options)


def ordered(cells: tuple[int, int]) -> tuple[int, int]:
    """A window whose start is not above its end; the calls next and last have no window, and do not refuse one."""
    if cells[0] > cells[1]:
        raise Refused(WINDOW_REFUSED)
    return cells


def no_train(block: Block) -> bool:
    return block.bytes.count(FREE) == len(block.bytes)


def cells(options: argparse.Namespace) -> int:
    if options.end is None:
        options.parser.error("give --to: a board has more cells than can be printed")
    (start, end), index = window(options), loaded(options).index
    at_tick = tick(options, index)
    index.cells(at_tick, start, min(end, start))  # a window that is refused prints nothing

    def held() -> Iterator[tuple[int, int | None]]:
        for part in range(start, end, MANY):
            yield from zip(range(part, end), index.cells(at_tick, part, min(part + MANY, end)))

    show(held(), cell_listing(index.days, index.kind), options.form, sys.stdout)
    return DONE


def report_windows(options: argparse.Namespace) -> list[Window]:
    """The windows of a report; what cannot be read is wrong usage."""
    days = read_days(options.days)
    parser: argparse.ArgumentParser = options.parser
    try:
        return [window for text in options.windows for window in windows_of(text, days)]
    except Fault as fault:
        parser.error(str(fault))


def occupation(options: argparse.Namespace) -> int:
    windows, index = report_windows(options), loaded(options).index
    told = list(occupied(index, tick(options, index), windows, options.each_window))
    show(told, occupation_listing(index.days, index.kind), options.form, sys.stdout)
    return DONE


INFO_COLUMNS = ("at", "size", "kind", "end", "blocks", "bytes", "nodes", "entries", "platforms")


def info_row(board: Board) -> Row:
    index, platforms = board.index, {block.first // MINUTES for block in board.blocks()}
    return (board.at, board.end - board.at, KINDS[index.kind], index.end_tick, index.block_count, index.byte_count, index.node_count,
            index.entry_count, len(platforms))


def info_words(board: Board) -> str:
    at, size, kind, end, count, stored, nodes, entries, platforms = info_row(board)
    return (f"at byte {at}, {size} bytes: a board of kind {kind}, ticks 0 up to {end}; {count} blocks "
            f"with {stored} bytes on {platforms} platforms; {nodes} nodes, {entries} entries")


def info(options: argparse.Namespace) -> int:
    show(list(boards(read_file(options.file))), same(INFO_COLUMNS, info_row, info_words), options.form, sys.stdout)
    return DONE


class Tested(NamedTuple):
    """What came of the test of a board: a refusal, or none."""

    at: int
    end: int | None
    blocks: int | None
    refused: int | None


def tested(data: bytes) -> Iterator[Tested]:
    """The boards of a file as they are tested, up to the first that is refused."""
    at = 0
    try:
        for board in boards(data):
            yield Tested(board.at, board.end, board.index.block_count, None)
            at = board.end
    except Refused as refused:
        yield Tested(at, None, None, refused.number)


def verify(options: argparse.Namespace) -> int:
    results = list(tested(read_file(options.file)))

    def words(board: Tested) -> str:
        return f"{options.file}: good up to byte {board.end}, {board.blocks} blocks"

    refused = results[-1].refused
    in_words = options.form in ("plain", "human")
    show(results[:-1] if refused and in_words else results, same(Tested._fields, tuple, words), "human" if in_words else options.form, sys.stdout)
    if refused is None:
        return DONE
    sys.stdout.flush()
    complain(f"{options.file}: the board at byte {results[-1].at} is {Refused(refused)}")
    return REFUSED


def explain(options: argparse.Namespace) -> int:
    if options.number is not None and options.number not in WORDS:
        options.parser.error(f"there is no refusal {options.number}: they go from {min(WORDS)} to {max(WORDS)}, and not all are in use")
    listed: list[Row] = [(each, *told) for each in WORDS if options.number in (None, each)
                         for told in zip(CALLS[each], WORDS[each], ADVICE[each])]
    form = "human" if options.form == "plain" else options.form
    show(listed, same(("number", "calls", "words", "advice"), tuple, lambda row: "{}, {}: {}\n    {}".format(*row)), form, sys.stdout)
    return DONE


def days(options: argparse.Namespace) -> int:
    if options.monday.weekday() != 0:
        options.parser.error(f"{options.monday} is no Monday")
    if options.first > options.last:
        options.parser.error(f"the years go from {options.first} to {options.last}: write the first one first")
    listed = Days.central_european(options.monday, range(options.first, options.last + 1))
    if options.form in ("plain", "json"):
        print("[" + ",".join(f"\n  [{day}, {minutes}]" for day, minutes in listed) + "\n]")
        return DONE

    def row(pair: tuple[int, int]) -> Row:
        day, minutes = pair
        return day, (options.monday + timedelta(day)).isoformat(), REGULAR.time(day * DAY).partition(" ")[0], minutes

    def words(pair: tuple[int, int]) -> str:
        day, on, name, minutes = row(pair)
        return f"day {day}, {name}, is {on} and has {pair[1] // 60} hours"

    show(listed, same(("day", "date", "name", "minutes"), row, words), options.form, sys.stdout)
    return DONE


def draw(options: argparse.Namespace) -> int:
    cells, board = window(options), loaded(options)
    sys.stdout.write(picture(board.index, board.blocks(), *cells, Path(options.file).name))
    return DONE


# ── usage ──


def natural(word: str) -> int:
    try:
        return int(number(word, 64, "it"))
    except Fault as fault:
        raise argparse.ArgumentTypeError(str(fault)) from None


def platform(word: str) -> int:
    if natural(word) >= MINUTES:
        raise argparse.ArgumentTypeError("a platform is below 2^32")
    return natural(word)


def kind_named(word: str) -> Kind:
    if word.lower() not in KINDS:
        raise argparse.ArgumentTypeError(f"'{word}' is no kind: it is {', '.join(KINDS)}")
    return Kind(KINDS.index(word.lower()))


def day_zero(word: str) -> date:
    try:
        return date.fromisoformat(word)
    except ValueError:
        raise argparse.ArgumentTypeError(f"'{word}' is no date: write it as 2024-01-01") from None


def year(word: str) -> int:
    if not 1 <= natural(word) <= 9999:
        raise argparse.ArgumentTypeError("a year is from 1 to 9999")
    return natural(word)


def add_days(parser: argparse.ArgumentParser) -> None:
    parser.add_argument("--days", metavar="LIST", help="days of 23 and 25 hours, as `servercape days` makes them")


def add_window(parser: argparse.ArgumentParser) -> None:
    parser.add_argument("--platform", type=platform, metavar="P", help="the platform of --from and --to")
    parser.add_argument("--from", dest="start", metavar="WHERE", help="a cell, or a day and a clock time")
    parser.add_argument("--to", dest="end", metavar="WHERE", help="the cell behind the window, or its day and clock time")


def add_tick(parser: argparse.ArgumentParser) -> None:
    parser.add_argument("--tick", type=natural, metavar="T", help="the tick to read the board at")


def add_windows(parser: argparse.ArgumentParser) -> None:
    parser.add_argument("--window", dest="windows", action="append", required=True, metavar="WINDOW",
                        help="a window, or one on each of some platforms; several may be given")
    parser.add_argument("--each-window", action="store_true", help="tell each window by itself too")


def add_form(parser: argparse.ArgumentParser) -> None:
    forms = parser.add_mutually_exclusive_group()
    for form, words in (("human", "in words"), ("csv", "for a spreadsheet"), ("json", "for a program")):
        forms.add_argument(f"--{form}", dest="form", action="store_const", const=form, default="plain", help=words)


def add_at(parser: argparse.ArgumentParser) -> None:
    parser.add_argument("--at", type=natural, default=0, metavar="BYTE", help="where the board starts in the file")
    parser.add_argument("--kind", type=kind_named, metavar="KIND", help=f"{', '.join(KINDS)}: the first board of that kind from there on")


def add_file(parser: argparse.ArgumentParser) -> None:
    parser.add_argument("file", metavar="FILE", help="a file that build made, or - for standard input")


def add_build(parser: argparse.ArgumentParser) -> None:
    parser.add_argument("file", metavar="BOOKINGS", help="a list of bookings, or - for standard input")
    parser.add_argument("-o", "--output", required=True, metavar="FILE", help="the file to write, or - for standard output")
    parser.add_argument("--calendar", metavar="HOURS", help="station hours to install first, as examples/hours.json has them")
    parser.add_argument("--skip-refused", action="store_true", help="write the file without the bookings that are refused; the status stays 1")


def add_number(parser: argparse.ArgumentParser) -> None:
    parser.add_argument("number", type=natural, nargs="?", metavar="NUMBER", help=f"from {min(WORDS)} to {max(WORDS)}")


def add_years(parser: argparse.ArgumentParser) -> None:
    parser.add_argument("monday", type=day_zero, metavar="MONDAY", help="the date of day 0, as 2024-01-01")
    parser.add_argument("first", type=year, metavar="FIRST", help="the first year")
    parser.add_argument("last", type=year, metavar="LAST", help="the last year; 32 are 64 days, the most of a list")


class Command(NamedTuple):
    """What a command does, an example, what runs it, its options, and more of its help."""

    words: str
    example: str
    run: Callable[[argparse.Namespace], int]
    options: Sequence[Callable[[argparse.ArgumentParser], None]]
    notes: Sequence[str] = ()
    status: str = STATUS

    def about(self) -> str:
        return "\n\n".join([f"{self.words[0].upper()}{self.words[1:]}.", *self.notes])


READ = (add_file, add_at, add_tick, add_window, add_days, add_form)
ABOUT_READ = (AT_TICK, NAMED, OF_KIND, LISTED)

COMMANDS = {
    "build": Command("make the file of a board from a list of bookings, readable or binary", "build examples/midnight.txt -o midnight.index", build,
                     (add_build, add_days), (KINDED, REPLACED, LISTED)),
    "blocks": Command("list all blocks, in recorded order", "blocks midnight.index --human", blocks, (add_file, add_at, add_days, add_form),
                      (NAMED, OF_KIND, LISTED)),
    "find": Command("list the blocks that are live at a tick and start in a window", "find midnight.index --tick 3 --from 0 --to 1440", find, READ, ABOUT_READ),
    "touching": Command("list the blocks that are live at a tick and hold a cell of a window, also those that set it free",
                        "touching midnight.index --tick 3 --platform 0 --from 'tuesday 00:00' --to 'tuesday 00:10'", touching, READ, ABOUT_READ),
    "conflicts": Command("list the stays that occupy a window at a tick, and say by the status whether it is free",
                         "conflicts midnight.index --platform 0 --from 'tuesday 00:00' --to 'tuesday 00:10' --human", conflicts, READ, (OCCUPIED, *ABOUT_READ),
                         CONFLICT_STATUS),
    "next": Command("list the first block with a train that starts in a window, live at a tick",
                    "next midnight.index --platform 1 --from 'monday 22:00' --human", partial(near, forward=True), READ, (AROUND, *ABOUT_READ)),
    "last": Command("list the last block with a train that starts and ends in a window, live at a tick",
                    "last midnight.index --platform 1 --to 'tuesday 01:00' --human", partial(near, forward=False), READ, (AROUND, *ABOUT_READ)),
    "cells": Command("read each cell of a window at a tick", "cells midnight.index --platform 1 --from 'monday 23:50' --to 'tuesday 00:10' --human", cells, READ,
                     ABOUT_READ),
    "occupation": Command("tell how much of some windows is occupied at a tick, as a fraction and in percent",
                          "occupation midnight.index --window '0-1:monday 23:00..tuesday 01:00' --each-window --human", occupation,
                          (add_file, add_at, add_tick, add_windows, add_days, add_form),
                          (f"{WINDOWS}\n{TICK}", SHARE, OF_KIND, LISTED)),
    "info": Command("say what stands in a file", "info midnight.index --human", info, (add_file, add_form)),
    "verify": Command("test a file whole, with the loader's rules", "verify midnight.index", verify, (add_file, add_form)),
    "explain": Command("say what a refusal's number means, or all of them", "explain 8", explain, (add_number, add_form)),
    "days": Command("list the days of 23 and 25 hours of some years, by the clock changes of Central European Time", "days 2024-01-01 2024 2055 > days.json", days,
                    (add_years, add_form), ("What is printed without a form, or by --json, is the list that --days of the other commands takes.",)),
    "picture": Command("draw the board as a page for a browser", "picture midnight.index > board.html", draw, (add_file, add_at, add_window, add_days),
                       (WINDOW, OF_KIND, LISTED)),
}


def make_parser() -> argparse.ArgumentParser:
    parser = argparse.ArgumentParser(prog="servercape", description="The history of a planning board, by calls that are proved.", epilog=STATUS,
                                     allow_abbrev=False)
    parser.add_argument("--version", action="version", version=f"servercape {VERSION}")
    commands = parser.add_subparsers(required=True, metavar="COMMAND")
    for name, command in COMMANDS.items():
        added = commands.add_parser(name, help=command.words, description=command.about(), allow_abbrev=False,
                                    epilog=f"Example: servercape {command.example}\n\n{command.status}",
                                    formatter_class=argparse.RawDescriptionHelpFormatter)
        added.set_defaults(run=command.run, parser=added, file=name)
        for add in command.options:
            add(added)
    return parser


# ── the start and the end ──


def open_streams() -> None:
    """Puts a stream where the shell has closed one: reading and writing fail then as they do on any other that cannot be used, and complaints go nowhere."""
    if sys.stdin is None:
        sys.stdin = open(os.open(os.devnull, os.O_WRONLY), "r")
    if sys.stdout is None:
        sys.stdout = open(os.open(os.devnull, os.O_RDONLY), "w")
    if sys.stderr is None:
        sys.stderr = open(os.devnull, "w")
    if isinstance(sys.stdout, TextIOWrapper):
        sys.stdout.reconfigure(encoding="utf-8", errors="backslashreplace")


def silence() -> None:
    """What is left of the output goes nowhere: Python would try again to write it at its end."""
    os.dup2(os.open(os.devnull, os.O_WRONLY), sys.stdout.fileno())


def main(arguments: list[str] | None = None) -> int:
    open_streams()
    try:
        try:
            options = make_parser().parse_args(arguments)
        finally:
            sys.stdout.flush()  # what --help writes
        return run(options)
    except OSError as error:
        silence()
        if not isinstance(error, BrokenPipeError):
            complain(f"{error.filename or 'standard output'}: {error.strerror}")
        return BROKEN
    except KeyboardInterrupt:
        silence()
        return INTERRUPTED


def run(options: argparse.Namespace) -> int:
    """Runs a command, and tells why it is refused."""
    try:
        status: int = options.run(options)
        sys.stdout.flush()
        return status
    except (Refused, Fault) as refused:
        complain(f"{options.file}: {refused}")
        return NOT_ASKED if options.run is conflicts else REFUSED
    except MemoryError:
        complain(f"{options.file}: there is not enough memory")
        return BROKEN
