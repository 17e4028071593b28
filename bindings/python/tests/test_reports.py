"""The reports of a closed index: against the plain model (tools/board_model.py), and by the command."""
import csv
import io
import json
import random
import subprocess
import tempfile
import unittest
from pathlib import Path

from support import EXAMPLES, ROOT

import board_model
from servercape import WORDS, Days, Index, Kind, Occupation, Refused
from servercape.boardfile import Fault
from servercape.report_lines import platforms_of, windows_of

DONE, REFUSED, USAGE, BROKEN = range(4)

ROOM = 1 << 40
KINDS = (Kind.MEMORY, Kind.OTHER)
END = 12
MOST_CELLS = 1 << 32


def answer(run):
    """What a call gives, or its refusal."""
    try:
        return run()
    except Refused as refused:
        return refused


def word(numbers) -> str:
    return ",".join(map(str, numbers)) or "-"


class Both:
    """An index and the model, which are given the same."""

    def __init__(self, dice: random.Random) -> None:
        self.index, self.model = Index.open(END, KINDS), board_model.Model()
        self.model.open(END, KINDS, ROOM, ROOM, ROOM, ROOM, ROOM, ROOM)
        for tick in range(END):
            for _ in range(dice.randrange(4)):
                kind, first, data = dice.choice(KINDS), self.place(dice), bytes(dice.choice([0, 7, 9]) for _ in range(dice.randrange(1, 30)))
                self.index.record(tick, first, data, kind=kind)
                self.model.record(kind, tick, first, board_model.hexed(data))
        self.index.finish()
        self.model.finish()

    @staticmethod
    def place(dice: random.Random) -> int:
        """Around the start of a platform."""
        return max(0, (dice.randrange(3) << 32) + dice.randrange(-30, 60))

    def window(self, dice: random.Random) -> tuple[int, int]:
        """Now and then one that is turned round, that is empty, or that is long."""
        start, end = self.place(dice), self.place(dice)
        return dice.choice([(start, end), (start, start + dice.randrange(80)), (start, start + dice.randrange(80)), (start, start)])

    def asked(self, name: str, *arguments):
        try:
            return getattr(self.model, name)(*arguments)
        except board_model.Refused as refused:
            return Refused(refused.number)


def listing() -> Index:
    """Three of the cells 100 to 103 are occupied from tick 0 on, and one is set free."""
    index = Index.open(8)
    index.record(0, 100, b"\7\7\0\7")
    index.finish()
    return index


class Occupied(unittest.TestCase):
    def test_model(self):
        dice = random.Random(13)
        for _ in range(25):
            both = Both(dice)
            for _ in range(60):
                kind, tick = dice.choice([*KINDS, *KINDS, *KINDS, 0, 255]), dice.randrange(END + 1)
                windows = [both.window(dice) for _ in range(dice.choice([0, 1, 1, 2, 5]))]
                given = answer(lambda: both.index.occupation(tick, windows, kind=kind))
                want = both.asked("occupation", kind, tick, word(cell for window in windows for cell in window))
                self.assertEqual(given if isinstance(given, Refused) else list(given), want, windows)

    def test_values(self):
        index = listing()
        report = index.occupation(5, [(100, 104)])
        self.assertEqual((report, str(report), report.fraction, report.percent), (Occupation(3, 4, 750), "3/4 (75.0 %)", 3 / 4, 75.0))
        self.assertEqual(index.occupation(5, iter([(100, 104), (103, 104)])), (4, 5, 800))
        self.assertEqual(str(index.occupation(5, [(102, 103)])), "0/1 (0.0 %)")
        self.assertEqual(index.occupation(5, [(100, 101)] * 256, kind=Kind.MEMORY).tenths, 1000)
        self.assertEqual(index.occupation(5, [(5, MOST_CELLS + 5)]), (3, MOST_CELLS, 0))

    def test_refusals(self):
        index, fresh = listing(), Index.open(8)
        cases = [(4, fresh, 8, [(5, 4)]), (14, index, 8, [(5, 4)]), (15, index, 7, [(100, 104)] * 300 + [(5, 4)]), (37, index, 7, []), (37, index, 7, [(5, 5)] * 9), (37, index, 7, [(100, 101)] * 257),
                 (37, index, 7, [(5, MOST_CELLS + 6)]), (37, index, 7, [(0, (1 << 64) - 1)] * 3)]
        for number, board, tick, windows in cases:
            self.assertEqual(answer(lambda: board.occupation(tick, windows)), Refused(number), windows[:3])
        self.assertEqual(answer(lambda: index.occupation(8, [(5, 4)], kind=Kind.OTHER)), Refused(25))
        for windows in ([(0, 1 << 64)], [(-1, 5)], [(1, 2, 3)]):
            self.assertRaises(ValueError, index.occupation, 5, windows)
        for windows in ([5], 5, [("0", "9")]):
            self.assertRaises(TypeError, index.occupation, 5, windows)


class Windows(unittest.TestCase):
    def test_windows(self):
        days, platform = Days(), lambda number, minute: (number << 32) + minute
        for text, want in (("100..104", [(100, 104)]), ("2:monday 06:00..monday 22:00", [(platform(2, 360), platform(2, 1320))]), ("7:..", [(platform(7, 0), platform(8, 0))]),
                           ("0-2:tuesday 00:00..", [(platform(p, 1440), platform(p + 1, 0)) for p in range(3)]), ("3: .. monday 00:05", [(platform(3, 0), platform(3, 5))]), ("9..8", [(9, 8)]),
                           (f"{(1 << 32) - 1}:sunday 23:59..", [(platform((1 << 32) - 1, 10079), (1 << 64) - 1)])):
            self.assertEqual(windows_of(text, days), want, text)
        short = Days([(0, 1380)])
        self.assertEqual(windows_of("1:monday 01:59..monday 03:00", short), [(platform(1, 119), platform(1, 120))])
        for text, words in (("100", "is no window: write FROM"), ("100-104", "is no window"), ("a..104", "the window's first cell must be a number"), ("100..", "the cell behind the window must be a number"),
                            ("2:100..104", "is no time"), ("2:monday..tuesday", "is no time"), ("2:moonday 06:00..", "is no day"), ("monday 06:00..monday 07:00", "must be a number"), ("3-:..", "the last platform must be a number"),
                            ("3-2:..", "are no platforms"), (f"{1 << 32}:..", "are no platforms"), (f"0..{1 << 64}", "is too large")):
            with self.assertRaisesRegex(Fault, words, msg=text):
                windows_of(text, days)
        self.assertRaisesRegex(Fault, "02:30 is no time of day 0", windows_of, "1:monday 02:30..", short)
        self.assertEqual((platforms_of("2"), platforms_of("2-4")), (range(2, 3), range(2, 5)))


class Command(unittest.TestCase):
    def setUp(self):
        folder = tempfile.TemporaryDirectory()
        self.addCleanup(folder.cleanup)
        self.folder = Path(folder.name)
        self.midnight = self.folder / "midnight.index"
        self.assertEqual(self.run_command("build", EXAMPLES / "midnight.txt", "-o", self.midnight), (DONE, "", ""))

    def run_command(self, *words):
        """Status, output and complaints."""
        done = subprocess.run([ROOT / "servercape", *map(str, words)], capture_output=True, cwd=self.folder)
        return done.returncode, done.stdout.decode(), done.stderr.decode()


class OccupationCommand(Command):
    def occupation(self, *words):
        return self.run_command("occupation", self.midnight, *words)

    def test_forms(self):
        windows = ("--window", "0-1:monday 23:00..tuesday 01:00")
        self.assertEqual(self.occupation(*windows), (DONE, "start end occupied cells percent\n- - 1 10 10.0\n", ""))
        first, second = 1380, (1 << 32) + 1380
        plain = f"start end occupied cells percent\n{first} {first + 120} 1 15 6.7\n{second} {second + 120} 2 15 13.3\n- - 1 10 10.0\n"
        self.assertEqual(self.occupation(*windows, "--each-window")[1], plain)
        rows = json.loads(self.occupation(*windows, "--each-window", "--json")[1])
        self.assertEqual(rows[0], {"platform": 0, "minute": first, "day": "monday", "clock": "23:00", "length": 120, "kind": "memory", "occupied": 1, "cells": 15, "percent": 6.7})
        self.assertEqual((len(rows), rows[2]), (3, {"platform": None, "minute": None, "day": None, "clock": None, "length": 240, "kind": "memory", "occupied": 1, "cells": 10, "percent": 10.0}))
        rows = list(csv.DictReader(io.StringIO(self.occupation(*windows, "--each-window", "--csv")[1])))
        self.assertEqual([(row["platform"], row["length"], row["cells"], row["percent"]) for row in rows], [("0", "120", "15", "6.7"), ("1", "120", "15", "13.3"), ("", "240", "10", "10.0")])
        words = ["platform 0 from monday 23:00 to tuesday 01:00, 120 min: 1/15 occupied, 6.7 %", "platform 1 from monday 23:00 to tuesday 01:00, 120 min: 2/15 occupied, 13.3 %",
                 "all windows together: 1/10 occupied, 10.0 %"]
        self.assertEqual(self.occupation(*windows, "--each-window", "--human")[1].splitlines(), words)

    def test_windows(self):
        human = lambda *words: self.occupation(*words, "--each-window", "--human")[1].splitlines()
        self.assertEqual(human("--window", "1432..1440", "--window", "1440..1440", "--tick", 8), [
            "platform 0 from monday 23:52 to tuesday 00:00, 8 min: 1/1 occupied, 100.0 %", "platform 0 at tuesday 00:00, 0 min: no cell", "all windows together: 1/1 occupied, 100.0 %"])
        empty = json.loads(self.occupation("--window", "1432..1440", "--window", "0..0", "--each-window", "--json")[1])[1]
        self.assertEqual((empty["length"], empty["occupied"], empty["cells"], empty["percent"]), (0, 0, 0, None))
        self.assertRegex(human("--window", "2:..", "--tick", 5)[0], f"^platform 2 from monday 00:00 to .*, {1 << 32} min: 5/{1 << 31} occupied, 0.0 %$")
        self.assertEqual(human("--window", f"{(1 << 32) - 8}..{(1 << 32) + 8}")[0].partition(" to ")[2], "platform 1 monday 00:08, 16 min: 0/1 occupied, 0.0 %")
        # by a list of days midnight comes an hour earlier
        days = self.folder / "days.json"
        days.write_text("[[0, 1380]]")
        self.assertEqual(human("--window", "0:monday 23:52..tuesday 00:00", "--days", days)[0], "platform 0 from monday 23:52 to tuesday 00:00, 8 min: 0/1 occupied, 0.0 %")
        self.assertEqual(human("--window", "0:tuesday 00:52..tuesday 01:00", "--days", days)[0], "platform 0 from tuesday 00:52 to tuesday 01:00, 8 min: 1/1 occupied, 100.0 %")

    def test_kinds(self):
        made = self.folder / "crews.index"
        self.assertEqual(self.run_command("build", EXAMPLES / "crews.txt", "-o", made)[0], DONE)
        window = ("--window", "2:monday 23:40..tuesday 00:40")
        percents = [self.run_command("occupation", made, *window, *kind)[1].split()[-1] for kind in ((), ("--kind", "memory"), ("--kind", "other"))]
        cells = [json.loads(self.run_command("cells", made, "--platform", 2, "--from", "monday 23:40", "--to", "tuesday 00:40", "--json", *kind)[1]) for kind in ((), ("--kind", "memory"), ("--kind", "other"))]
        self.assertEqual(percents, [str(round(1000 * sum(row["train"] not in (None, "free") for row in rows) / 60) / 10) for rows in cells])
        self.assertEqual(self.run_command("occupation", made, *window, "--kind", "unique")[:2], (REFUSED, ""))

    def test_refused(self):
        wide = [word for k in range(257) for word in ("--window", f"{k}..{k + 1}")]
        for words, number in ((("--window", "5..5"), 37), (("--window", "9..8"), 15), (("--window", "0-1:.."), 37), (("--window", "0..9", "--tick", 16), 14), (wide, 37), (wide + ["--window", "9..8"], 15)):
            self.assertEqual(self.occupation(*words, "--each-window"), (REFUSED, "", f"servercape: {self.midnight}: refused {number}: {WORDS[number][0]}\n"))
        for words in ((), ("--window", "5"), ("--window", "2:5..9"), ("--window", "0..9", "--tick", "x")):
            status, output, errors = self.occupation(*words)
            self.assertEqual((status, output), (USAGE, ""), words)
            self.assertIn("servercape occupation: error: ", errors)
        self.assertEqual(self.run_command("occupation", self.folder / "none", "--window", "0..9")[0], BROKEN)


if __name__ == "__main__":
    unittest.main()
