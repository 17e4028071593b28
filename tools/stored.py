#!/usr/bin/env python3
"""Makes the stored list that the program `replay` plays: calls with their answers, as its standard input.

  stored.py make VECTORS FILE [ORACLE]   from the oracle's list, the boards of marked.txt and the own cases (stored_cases.py, _touching, _changes, _scratch,
                                         _hours, _days, _kinds, _occupation)
  stored.py show FILE [CASE]             the list, or one case of it, in words; cases count from 1
  stored.py spoil VECTORS FILE           the same cases, each up to a call whose answer is changed: replay must say that one of each differs
  stored.py --test                       tries itself: the model gives every answer of marked.txt, and rows are read as they were written

Before anything is written, the model of the rules (board_model.py) must give every answer of the oracle's list and of marked.txt; the answers of the other
cases are the model's. With the program ORACLE they are compared with the Rust too (board_oracle.py). The same VECTORS give the same bytes.
"""
import collections
import os
import sys

from board_model import BYTES_LAST, LEAST_SCRATCH, NAMES_KIND, WORD, Model, hexed, listed, unhexed
from board_oracle import compare
from stored_cases import Dice, own_cases
from stored_changes import change_cases
from stored_rows import (
    BLOCK, CALENDAR, CASE, CELLS, CLOCK, DAMAGED, DAYS, FIND, FINISH, KIND, LAST, LOAD, NEXT, OCCUPATION, OPEN, OWN, PART, RECORD, SCRATCH, TOUCHING, WRITE, Part, line,
    number, read_number, row, rows_of
)
from stored_days import days_cases
from stored_hours import hours_cases
from stored_kinds import kinds_cases
from stored_occupation import occupation_cases
from stored_scratch import scratch_cases
from stored_touching import touching_cases

HERE = os.path.dirname(os.path.abspath(__file__))
MARKED = os.path.join(HERE, "marked.txt")
sys.path.append(os.path.join(HERE, "..", "bindings", "python"))

from servercape.library import library

# The tables, as `servercape_length` counts them.
PIECE_TABLE, BLOCK_TABLE, STORE_TABLE, NODE_TABLE, ENTRY_TABLE = range(5)

# What the program has room for: rows of each table, bytes of store, numbers of a scratch, places of an answer, cells, bytes of a file, numbers of a calendar,
# of a list of days or of windows. A kind is a byte.
PIECES, BLOCKS, STORE, NODES, ENTRIES = 64, 256, 4103, 4096, 8195
SCRATCH_MOST = 8 * PIECES + 7
ANSWER, WINDOW, FILE = 64, 64, 16384
NUMBERS = 1300


# An index of which clock labels are asked alone.
CLOCK_OPENS = "open 8 1 1 8 1 1 1 1".split()


class LeftOut(Exception):
    """The program cannot make this call: a number of 65 bits, or more than it has room for."""


# ── a case as rows ──


def run_of(word):
    """A run of damaged files: the number of what comes, and how many they are."""
    return tuple(map(int, word.split("*")))


def fits(value, most):
    if not -1 <= value <= most:
        raise LeftOut
    return value


class Case:
    """Its tables are some numbers longer than their rows take, by its place in the list: a part of a row is no row. The scratch is as long as a call says."""

    def __init__(self, part, place):
        self.part, self.slack, self.pieces, self.numbers = part, place % 8, 8 + place % 8, LEAST_SCRATCH

    def table(self, which, rows, most):
        """The length of a table; with -1 rows it cannot hold its head."""
        fits(int(rows), most)
        (head,), (one,) = library.length(which, 0), library.length(which, 1)
        return head + (one - head) * int(rows) + self.slack % (one - head)

    def lent(self, blocks, store, nodes, entries):
        tables = [self.table(BLOCK_TABLE, blocks, BLOCKS), self.table(NODE_TABLE, nodes, NODES), self.table(ENTRY_TABLE, entries, ENTRIES)]
        return tables[:1] + [fits(int(store), STORE)] + tables[1:]

    def bytes(self, word):
        data = unhexed(word)
        return [self.part.place(data), len(data)]

    def rows(self, call, answer):
        """The rows of a call and its answer, each as numbers."""
        refusal = int(answer[1]) if answer[0] == "refused" else 0
        words = call[1:]
        for word in words[:-1] if call[0] in BYTES_LAST else words[:1] + words[2:] if call[0] == "open" else words:
            fits(int(word), WORD - 1)
        if call[0] == "damaged":
            return self.damaged(words, answer)
        kind = [fits(int(words.pop(0)), 255)] if call[0] in NAMES_KIND else []
        code, numbers = getattr(self, call[0])(words, [] if refusal else answer)
        front = [code, refusal] + numbers
        return [front + [0] * (KIND - len(front)) + kind if kind else front]

    def damaged(self, words, answer):
        """A row for each run of places."""
        at, by, place = map(int, words[:3])
        rows, file = [], self.bytes(words[-1])
        for number, many in map(run_of, answer):
            rows.append([DAMAGED, number, at] + file + [by, place, many])
            place += many
        return rows

    def open(self, words, answer):
        self.pieces, self.numbers = self.table(PIECE_TABLE, words[2], PIECES), fits(int(words[3]), SCRATCH_MOST)
        kinds = bytes(listed(words[1]))
        return OPEN, [int(words[0]), self.part.place(kinds), len(kinds)] + [0] * 5 + [self.pieces, self.numbers] + self.lent(*words[4:])

    def scratch(self, words, answer):
        self.numbers = fits(int(words[0]), SCRATCH_MOST)
        return SCRATCH, [0] * 9 + [self.numbers]

    def record(self, words, answer):
        start, length = self.bytes(words[2])
        return RECORD, [int(words[0]), int(words[1]), start, length] + ([1, int(answer[1])] if answer[:1] == ["update"] else [])

    def numbers_of(self, word):
        """Numbers in the pool, and how many they are."""
        numbers = listed(word)
        fits(len(numbers), NUMBERS)
        data = b"".join(map(number, numbers))
        return [self.part.place(data), len(data), len(numbers)]

    def calendar(self, words, answer):
        return CALENDAR, self.numbers_of(words[0])

    def days(self, words, answer):
        return DAYS, self.numbers_of(words[0])

    def occupation(self, words, answer):
        return OCCUPATION, [int(words[0])] + self.numbers_of(words[1]) + list(map(int, answer))

    def finish(self, words, answer):
        return FINISH, list(map(int, answer))

    def block(self, words, answer):
        given = list(map(int, answer[:5])) + self.bytes(answer[5])[:1] if answer else []
        return BLOCK, [int(words[0])] + given

    def listed(self, words, counts, numbers):
        """A window, the room of the answer, two counts, and where the block numbers stand."""
        fits(max([0] + numbers), 255)
        said = counts + [self.part.place(bytes(numbers))] if counts else []
        return list(map(int, words[:3])) + [fits(int(words[3]), ANSWER)] + said

    def find(self, words, answer):
        numbers = list(map(int, answer))
        return FIND, self.listed(words, numbers[:2], numbers[2:])

    def touching(self, words, answer):
        numbers = list(map(int, answer))
        return TOUCHING, self.listed(words, numbers[:1] + [0] if answer else [], numbers[1:])

    def neighbour(self, words, answer):
        return list(map(int, words)) + ([] if answer in ([], ["missing"]) else [1, int(answer[0])])

    def next(self, words, answer):
        return NEXT, self.neighbour(words, answer)

    def last(self, words, answer):
        return LAST, self.neighbour(words, answer)

    def cells(self, words, answer):
        rooms = [fits(int(word), WINDOW) for word in words[3:]]
        return CELLS, list(map(int, words[:3])) + rooms + [self.bytes(word)[0] for word in answer]

    def write(self, words, answer):
        """A slice longer than the program's, of which the answer needs no more, is lent as long as that."""
        start, length = self.bytes(answer[0]) if answer else (0, 0)
        return WRITE, [min(int(words[0]), FILE), start, fits(length, FILE)]

    def load(self, words, answer):
        behind, end, kind, count = map(int, answer or [0] * 4)
        said = [behind, end, 1 << kind if answer else 0, count]
        return LOAD, [int(words[0])] + self.bytes(words[5]) + said + [0, self.pieces, self.numbers] + self.lent(*words[1:5])

    def clock(self, words, answer):
        return CLOCK, [int(words[0]), *map(int, answer)]


class List:
    """The stored list as it grows, with what is counted."""

    def __init__(self):
        self.parts, self.cases, self.left_out = [Part()], 0, 0
        self.count = collections.Counter()

    def add(self, code, calls):
        self.cases += 1
        part = self.parts[-1]
        pool, rows = len(part.pool), part.rows
        kept = self.put(part, code, calls)
        if len(part.bytes()) > PART:
            del part.pool[pool:]
            part.rows = rows
            self.parts.append(Part())
            kept = self.put(self.parts[-1], code, calls)
            assert len(self.parts[-1].bytes()) <= PART
        self.left_out += len(calls) - len(kept)
        for call, answer in kept:
            self.tell(call[0], answer)

    def tell(self, call, answer):
        """Counts an answer, or those of each run. A scratch that is lent is none."""
        if call == "damaged":
            for number, many in map(run_of, answer):
                self.count[call, str(number or "")] += many
        elif call != "scratch":
            self.count[call, answer[1] if answer[0] == "refused" else ""] += 1

    def put(self, part, code, calls):
        """Puts the rows of a case into a part; gives the calls that the program can make."""
        case, kept = Case(part, self.cases), []
        part.rows += row([code])
        for call, answer in calls:
            try:
                part.rows += b"".join(map(row, case.rows(call, answer)))
            except LeftOut:
                assert call[0] in ("block", "find", "cells", "write"), call
                continue
            kept.append((call, answer))
        return kept

    def bytes(self):
        return b"".join(part.bytes().ljust(PART, b"\0") for part in self.parts[:-1]) + self.parts[-1].bytes()


# ── making the list ──


def vector_cases(path):
    """The cases of the oracle's list, each a list of calls with their answers."""
    cases = []
    for line in open(path, encoding="ascii"):
        if line.startswith("case "):
            cases.append([])
        elif line.strip() and not line.startswith("#"):
            call, answer = line.rstrip("\n").split(" = ")
            cases[-1].append((call.split(), answer.split()))
    return cases


def modelled(calls):
    """The calls, each with its kind, and the model's answers."""
    model = Model()
    return [(model.named(call), model.answer(call).split()) for call in calls]


def lent_now(call):
    """A call of the oracle's list, which is older than request 9: by it the scratch's rows bound the pieces too. So the piece table is lent with as few rows as
    that, and the scratch with eight numbers: every answer stays."""
    if call[0] != "open":
        return call
    return call[:3] + [str(min(int(call[3]), int(call[4]))), str(LEAST_SCRATCH)] + call[5:]


def opened_now(case):
    """A case of the oracle's list, which is older than request 6: by it a label was asked of no index. So one is opened first, and every answer stays."""
    (first, *_), _ = case[0]
    return ([(CLOCK_OPENS, ["ok"])] if first == "clock" else []) + case


def oracle_cases(path):
    """The cases of the oracle's list with the model's cells: the list says of an update only that it is one. It is older than request 3, and its calls name no
    kind: each has that of its index."""
    cases = []
    for listed in vector_cases(path):
        case = [(lent_now(call), answer) for call, answer in opened_now(listed)]
        own = modelled([call for call, _ in case])
        cases.append([(call, said if answer == ["update"] == said[:1] else answer) for (_, answer), (call, said) in zip(case, own)])
    return cases


def check(cases):
    """The model gives every answer of these cases."""
    for place, case in enumerate(cases):
        for (call, answer), (_, own) in zip(case, modelled([call for call, _ in case])):
            if answer != own:
                sys.exit(f"case {place + 1}: {' '.join(call)[:200]}: {' '.join(answer)[:200]}, but the model says {' '.join(own)[:200]}")


def tell(stored, vectors, whole):
    """Prints what the list has."""
    calls = collections.Counter()
    for (call, _), count in stored.count.items():
        calls[call] += count
    print(f"{vectors} cases of the oracle's list, {stored.cases - vectors} more: {sum(calls.values())} answers, {stored.left_out} left out; {len(whole)} bytes")
    for call, count in sorted(calls.items()):
        refusals = sorted((int(n), many) for (c, n), many in stored.count.items() if c == call and n)
        print(f"{count} {call}" + "".join(f", {many} refused {n}" for n, many in refusals))


def own_lists():
    return [(name, [list(map(str, call)) for call in calls]) for name, calls in own_cases() + touching_cases() + change_cases() + scratch_cases() + hours_cases() + days_cases() + kinds_cases() + occupation_cases()]


def put_out(vectors, own, out):
    """Writes the list of both kinds of cases."""
    stored = List()
    for case in vectors:
        stored.add(CASE, case)
    for case in own:
        stored.add(OWN, case)
    with open(out, "wb") as file:
        file.write(stored.bytes())
    tell(stored, len(vectors), stored.bytes())


def make(path, out, oracle=None):
    vectors, marked, own = oracle_cases(path), vector_cases(MARKED), own_lists()
    check(vectors)
    check(marked)
    if oracle:
        lists, files, differ = compare(oracle, own)
        print(f"{lists} lists and {files} files compared with the Rust, {len(differ)} differ", *differ)
    put_out(vectors, [modelled(calls) for _, calls in own] + marked, out)


# ── a list that is wrong once in each case ──

# The words of an answer that are bytes; those from which on they are block numbers, which are bytes of the list.
BYTES = {("block", 5), ("cells", 0), ("cells", 1), ("write", 0)}
LISTS = {"find": 2, "touching": 1}


def broken(dice, runs):
    """Runs of which one file comes out otherwise."""
    place = dice.below(len(runs))
    number, many = run_of(runs[place])
    before = dice.below(many)
    parts = [f"{number}*{before}", f"{17 + (number + 1) % 8}*1", f"{number}*{many - before - 1}"]
    return runs[:place] + [part for part in parts if not part.endswith("*0")] + runs[place + 1:]


def changed(dice, call, answer):
    """Another answer: another refusal, or one word changed."""
    if call == "damaged":
        return broken(dice, answer)
    other = ["refused", str(1 + (int(answer[1]) + dice.below(23)) % 24 if answer[0] == "refused" else dice.among(1, 24))]
    place = dice.below(len(answer))
    word, words = answer[place], list(answer)
    if answer[0] == "refused" or word in ("ok", "installed", "-") or dice.below(5) == 0:
        return other
    if call in ("next", "last") and (word == "missing" or dice.below(2)):
        return ["0" if word == "missing" else "missing"]
    if (call, place) in BYTES:
        data = bytearray(unhexed(word))
        data[dice.below(len(data))] ^= 1 << dice.below(8)
        words[place] = hexed(data)
    elif word in ("read", "update"):
        # cell 0 is one that an update may have
        words = ["read"] if word == "update" else ["update", "0"]
    else:
        words[place] = str((int(word) + 1) % (256 if call in LISTS and place >= LISTS[call] else WORD))
    return words


def spoiled(dice, case):
    """A case up to a call whose answer is changed."""
    sayable = [n for n, (call, _) in enumerate(case) if str(WORD) not in call and call[0] != "scratch"]
    last = dice.pick(sayable)
    call, answer = case[last]
    return case[:last] + [(call, changed(dice, call[0], answer))]


def spoil(path, out):
    dice = Dice(1)
    vectors = [spoiled(dice, case) for case in oracle_cases(path)]
    own = [spoiled(dice, modelled(calls)) for _, calls in own_lists()] + [spoiled(dice, case) for case in vector_cases(MARKED)]
    put_out(vectors, own, out)


# ── showing it ──


def show(path, only=None):
    data = open(path, "rb").read()
    case = 0
    for start in range(0, len(data), PART):
        for numbers, pool in rows_of(data[start:start + PART]):
            case += numbers[0] in (CASE, OWN)
            if only is None or case == int(only):
                print(f"{case}: {line(numbers, pool)}")


# ── tests ──


def test():
    """The model gives every answer of marked.txt, and rows are read as they were written."""
    marked = vector_cases(MARKED)
    check(marked)
    for value in (0, 247, 248, 255, 256, 1 << 32, WORD - 1):
        assert read_number(number(value), 0) == (value, len(number(value)))
    stored = List()
    for case in marked:
        stored.add(OWN, case)
    lines = [line(*r) for start in range(0, len(stored.bytes()), PART) for r in rows_of(stored.bytes()[start:start + PART])]
    assert lines.count("own case") == len(marked) and len(lines) == len(marked) + sum(map(len, marked))
    said = {n for case in marked for _, answer in case for n in answer[1:] if answer[0] == "refused"}
    assert said == set(map(str, (*range(1, 29), 37))), "marked.txt has the edge of each refusal"
    assert [run_of(word) for word in broken(Dice(1), ["17*5"])] != [(17, 5)]
    print("stored: ok")


def main(arguments):
    sys.setrecursionlimit(10000)
    commands = {"make": (make, (2, 3)), "spoil": (spoil, (2,)), "show": (show, (1, 2)), "--test": (test, (0,)), "--help": (lambda: print(__doc__), (0,))}
    run, counts = commands.get(arguments[0] if arguments else "", (None, ()))
    if len(arguments) - 1 not in counts:
        sys.exit(__doc__)
    run(*arguments[1:])


if __name__ == "__main__":
    main(sys.argv[1:])
