"""The command as a user runs it: ./servercape, on good and bad input, with its exit status."""
import csv
import io
import json
import os
import pty
import shutil
import stat
import subprocess
import tempfile
import unittest
from pathlib import Path
from unittest import mock

from support import EXAMPLES, PACKAGE, ROOT

from servercape import boardfile
import many
from servercape import WORDS, Index
from servercape.command import COMMANDS
from servercape.files import file_blocks, write_file

COMMAND = str(ROOT / "servercape")
DONE, REFUSED, USAGE, BROKEN, NOT_ASKED = range(5)
CLEAR, TAKEN = range(2)
NOBODY = 65534


def run(*words, given=b"", cwd=None, **more):
    """Status, output and complaints."""
    done = subprocess.run([COMMAND, *map(str, words)], input=given, capture_output=True, cwd=cwd, **more)
    return done.returncode, done.stdout.decode(), done.stderr.decode()


class Command(unittest.TestCase):
    def setUp(self):
        folder = tempfile.TemporaryDirectory()
        self.addCleanup(folder.cleanup)
        self.folder = Path(folder.name)
        self.listing, self.midnight = self.folder / "listing.index", self.folder / "midnight.index"

    def build(self, text, *more):
        """Builds a list given as text."""
        return run("build", "-", "-o", self.folder / "made", *more, given=text if isinstance(text, bytes) else text.encode())

    def examples(self):
        self.assertEqual(run("build", EXAMPLES / "listing.txt", "-o", self.listing), (DONE, "", ""))
        self.assertEqual(run("build", EXAMPLES / "midnight.txt", "-o", self.midnight), (DONE, "", ""))


class Build(Command):
    def test_text_and_binary_make_the_same(self):
        self.examples()
        for name in ("listing", "midnight"):
            status, _, errors = run("build", EXAMPLES / f"{name}.board", "-o", self.folder / "binary")
            self.assertEqual((status, errors), (DONE, ""))
            self.assertEqual((self.folder / "binary").read_bytes(), (self.folder / f"{name}.index").read_bytes())

    def test_standard_input_and_output(self):
        text = (EXAMPLES / "listing.txt").read_bytes()
        made = subprocess.run([COMMAND, "build", "-", "-o", "-"], input=text, capture_output=True, check=True).stdout
        self.assertEqual(Index.load(made)[1], len(made))

    def test_each_refusal_with_its_line(self):
        text = "end 8\nkind memory\nat 3 cell 1 bytes 07\n\nat 2 cell 1 bytes 08\nat 9 cell 1 bytes 08\nat 4 cell 2 bytes\nat 5 cell 3 bytes 09\n"
        status, output, errors = self.build(text)
        self.assertEqual((status, output), (REFUSED, ""))
        self.assertEqual(errors.splitlines()[:3], [
            f"servercape: -: line {line}: refused {number}: {WORDS[number][0]}" for line, number in ((5, 8), (6, 7), (7, 5))])
        self.assertIn("3 of 5 bookings refused: nothing is written", errors)
        self.assertFalse((self.folder / "made").exists())
        status, _, errors = self.build(text, "--skip-refused")
        self.assertEqual((status, len(errors.splitlines())), (REFUSED, 3))
        self.assertEqual(Index.load((self.folder / "made").read_bytes())[0].find(5, 0, 9).numbers, [0, 1])

    def test_calendar(self):
        """Trains in the night are refused, each with its line, but on the special day."""
        hours = json.loads((EXAMPLES / "hours.json").read_text("utf-8"))
        made, other = self.folder / "made", self.folder / "hours.json"
        self.assertEqual(run("build", EXAMPLES / "evening.txt", "--calendar", EXAMPLES / "hours.json", "-o", made), (DONE, "", ""))
        del hours["special"]
        other.write_text(json.dumps(hours), "utf-8")
        status, output, errors = run("build", EXAMPLES / "evening.txt", "--calendar", other, "-o", made)
        self.assertEqual((status, output), (REFUSED, ""))
        self.assertEqual([line.split(": ")[2:4] for line in errors.splitlines()[:-1]], [[f"line {line}", "refused 26"] for line in (17, 20, 22, 33)])

    def test_bad_calendars(self):
        hours = self.folder / "hours.json"
        week = '"week": [[], [], [], [], [], [], []]'
        for text, words in (("{", "it must be JSON"), ("[]", "it must be JSON"), ("{}", "it must be JSON"), ('{"week": []}', "it must be JSON"), ("{%s, \"special\": [5]}" % week, "it must be JSON"),
                            (week, "it must be JSON"), ("\udcff", "it must be JSON"), ("{%s, \"special\": [[1, [[5, 5]]]]}" % week, "refused 27: the calendar is wrong"),
                            ("{%s, \"special\": [[2, []], [1, []]]}" % week, "refused 27: the calendar is wrong")):
            hours.write_text(text, "utf-8", "surrogateescape")
            status, output, errors = self.build("end 8\nkind memory\nat 1 cell 2 bytes 00\n", "--calendar", hours)
            self.assertEqual((status, output), (REFUSED, ""), text)
            self.assertIn(f"-: the calendar {hours}: {words}", errors)
        self.assertEqual(self.build("end 8\nkind memory\n", "--calendar", self.folder / "none")[0], BROKEN)

    def test_days(self):
        """Times of the list and labels of the board go by the days, hours too; the file holds no list."""
        days, made = EXAMPLES / "days.json", self.folder / "made"
        self.assertEqual(run("days", "2024-01-01", 2024, 2055)[:2], (DONE, days.read_text("utf-8")))
        self.assertEqual(run("build", EXAMPLES / "night.txt", "--days", days, "-o", made), (DONE, "", ""))
        lines = [line.split(", live")[0] for line in run("blocks", made, "--days", days, "--human")[1].splitlines()]
        self.assertEqual(lines, [
            "block 0: train 07 at platform 2 from sunday+12 01:50 to sunday+12 03:10, 20 min",
            "block 1: train 08 at platform 2 from sunday+42 02:50 to sunday+42 03:10, 80 min",
            "block 2: train 09 at platform 3 from monday+43 00:10 to monday+43 00:20, 10 min",
        ])
        labels = lambda *more: [line.split()[5] for line in run("blocks", made, *more)[1].splitlines()[1:]]
        self.assertEqual((labels("--days", days), labels()), (["0150", "0250", "0010"], ["0150", "0150", "0010"]))
        window = ("--platform", 2, "--from", "sunday+42 02:00", "--to", "sunday+42 03:00", "--json")
        self.assertEqual(len(json.loads(run("cells", made, *window, "--days", days)[1])), 120)
        self.assertEqual([row["block"] for row in json.loads(run("touching", made, *window, "--days", days)[1])], [1])
        status, _, errors = run("cells", made, "--platform", 2, "--from", "sunday+12 02:30", "--to", "sunday+12 03:00", "--days", days)
        self.assertEqual(status, USAGE)
        self.assertIn("02:30 is no time of day 90: the clock goes from 01:59 to 03:00 then", errors)
        status, _, errors = self.build("end 8\nkind memory\nat 1 platform 2 sunday+12 02:30 bytes 07\n", "--days", days)
        self.assertEqual((status, "-: line 3: 02:30 is no time of day 90" in errors), (REFUSED, True))
        # every day is open from 02:00 to 03:00: on the long day that is both passes
        hours = self.folder / "hours.json"
        hours.write_text(json.dumps({"week": [[[120, 180]]] * 7}), "utf-8")
        long = "end 8\nkind memory\nat 1 platform 2 sunday+42 02:00 bytes 07*120\n"
        self.assertEqual(self.build(long, "--days", days, "--calendar", hours), (DONE, "", ""))
        self.assertIn("line 3: refused 26", self.build(long, "--calendar", hours)[2])

    def test_kinds(self):
        """A list of several kinds makes a board for each, one behind the other; --kind chooses one."""
        text = ("end 8\nkind other memory\nat 1 cell 5 bytes 07*3\nat 1 kind memory cell 5 bytes 08*3\nat 2 kind unique cell 5 bytes 09\n"
                "at 3 kind memory platform 0 monday 00:06 bytes 09\nat 2 cell 5 bytes 07\n")
        status, output, errors = self.build(text, "--skip-refused")
        self.assertEqual((status, output), (REFUSED, ""))
        self.assertEqual(errors.splitlines(), [f"servercape: -: line {line}: refused {number}: {WORDS[number][0]}" for line, number in ((5, 25), (7, 8))])
        made = self.folder / "made"
        rows = json.loads(run("info", made, "--json")[1])
        self.assertEqual([(row["kind"], row["blocks"]) for row in rows], [("memory", 4), ("other", 1)])
        cells = lambda *more: [row["train"] for row in json.loads(run("cells", made, "--tick", 4, "--from", 5, "--to", 8, "--json", *more)[1])]
        self.assertEqual((cells(), cells("--kind", "memory"), cells("--kind", "OTHER"), cells("--at", rows[1]["at"])), (["08", "09", "08"], ["08", "09", "08"], ["07"] * 3, ["07"] * 3))
        self.assertEqual(run("verify", made)[0], DONE)
        status, output, errors = run("blocks", made, "--kind", "unique")
        self.assertEqual((status, output, errors), (REFUSED, "", f"servercape: {made}: there is no board of kind unique\n"))
        self.assertEqual(self.build("end 8\nkind memory\nat 1 kind\n")[2], "servercape: -: line 3: write: at TICK kind KIND cell CELL bytes .. or: at TICK kind KIND platform P DAY HH:MM bytes ..\n")
        self.assertIn("line 2: the kind must be a number, not 'crews'", self.build("end 8\nkind memory crews\n")[2])
        self.assertEqual(run("build", EXAMPLES / "crews.txt", "-o", made), (DONE, "", ""))
        crews = [line.split(", live")[0] for line in run("blocks", made, "--kind", "other", "--human")[1].splitlines()]
        self.assertEqual(crews, ["block 0: train 31 at platform 2 from tuesday 00:10 to tuesday 00:20, 10 min", "block 1: train 31 at platform 2 from monday 23:40 to tuesday 00:10, 30 min",
                                 "block 2: train 32 at platform 2 from tuesday 00:10 to tuesday 00:40, 30 min"])
        # as many bookings as one call takes, of two kinds by turns
        lines = "".join(f"at {tick} kind {('memory', 'other')[tick % 2]} cell {tick % 97} bytes {tick % 250:02x}\n" for tick in range(3000))
        self.assertEqual(self.build(f"end 3000\nkind memory other\n{lines}"), (DONE, "", ""))
        index = Index.open(3000, [1, 4])
        for tick in range(3000):
            index.record(tick, tick % 97, bytes([tick % 250]), kind=(1, 4)[tick % 2])
        index.finish()
        self.assertEqual(made.read_bytes(), index.write())

    def test_bad_days(self):
        days = self.folder / "days.json"
        for text, words in (("{", "it must be JSON"), ("{}]", "it must be JSON"), ("[5]", "it must be JSON"), ("[[1]]", "it must be JSON"), ("5", "it must be JSON"), ("\udcff", "it must be JSON"),
                            ("[[-1, 1380]]", "it must be JSON"), ("[[1, 1440]]", "refused 28: the list of days is wrong"), ("[[1, 1380], [1, 1500]]", "refused 28: the list of days is wrong")):
            days.write_text(text, "utf-8", "surrogateescape")
            status, output, errors = self.build("end 8\nkind memory\nat 1 cell 2 bytes 00\n", "--days", days)
            self.assertEqual((status, output), (REFUSED, ""), text)
            self.assertIn(f"-: the days {days}: {words}", errors)
        self.assertEqual(self.build("end 8\nkind memory\n", "--days", self.folder / "none")[0], BROKEN)
        self.assertIn("refused 28", run("days", "2024-01-01", 2024, 2056)[2])
        status, output, errors = run("days", "2024-01-01", 2025, 2024)
        self.assertEqual((status, output), (USAGE, ""))
        self.assertIn("the years go from 2025 to 2024", errors)

    def test_records_of_a_binary_list(self):
        bookings = [(3, 1, b"\7"), (2, 1, b"\7")]
        status, _, errors = self.build(boardfile.write_input({"end": 8, "kind": 1, "bookings": bookings}))
        self.assertEqual(status, REFUSED)
        self.assertIn("-: record 2: refused 8", errors)

    def test_bad_lists(self):
        cases = [("end 8\nkind memory\nat 1 cell 0 bytes 7\n", "-: line 3: '7' is no bytes"), (b"end 8\nkind \xff\n", "-: line 2: this is no text in UTF-8"),
                 ("end 8\n", "-: there is no kind"), ("", "-: there is no end"), (b"\0\0", "-: record 0 is cut"),
                 ((EXAMPLES / "bad.board").read_bytes(), "-: record 2, at byte 32: its mark is b7 4e"),
                 ((EXAMPLES / "listing.board").read_bytes()[:-1], "record 4, at byte 77, is cut"), ("end 0\nkind memory\n", "-: refused 1:"),
                 ("end 8\nkind 5\n", "-: refused 1:"), ("end 8\nkind memory\n", "-: no booking is accepted")]
        for given, words in cases:
            with self.subTest(words=words):
                status, output, errors = self.build(given)
                self.assertEqual((status, output), (REFUSED, ""))
                self.assertIn(words, errors)
                self.assertNotIn("Traceback", errors)
                self.assertFalse((self.folder / "made").exists())

    def test_byte_order_mark_and_line_ends(self):
        self.assertEqual(self.build(b"\xef\xbb\xbfend 8\r\nkind memory\r\nat 1 cell 2 bytes 07\r\n"), (DONE, "", ""))

    def test_larger_than_board_reads(self):
        """A list past the 65,536 bytes of the program `board`, whose bookings go over more than one call."""
        bookings = [(tick, cell, bytes([code]) * length) for tick, cell, length, code in many.bookings(70000, 8)]
        lines = "".join(f"at {tick} cell {cell} bytes {data.hex()}\n" for tick, cell, data in bookings)
        self.assertEqual(self.build(f"end 70000\nkind memory\n{lines}"), (DONE, "", ""))
        index = Index.open(70000)
        index.record_all(bookings)
        index.finish()
        self.assertEqual((self.folder / "made").read_bytes(), index.write())

    def test_progress_on_a_terminal_alone(self):
        text = self.folder / "long.txt"
        text.write_text("end 70000\nkind memory\n" + "".join(f"at {tick} cell {tick % 99} bytes 07\n" for tick in range(70000)))
        self.assertGreater(text.stat().st_size, 1 << 20)
        self.assertEqual(run("build", text, "-o", self.folder / "made"), (DONE, "", ""))
        ours, theirs = pty.openpty()
        subprocess.run([COMMAND, "build", text, "-o", self.folder / "made"], stderr=theirs, check=True)
        os.close(theirs)
        self.assertIn(b"\r70,000 of 70,000 bookings ", os.read(ours, 4096))
        os.close(ours)

    def test_what_cannot_be_read_or_written(self):
        for words, name in ((("build", self.folder / "none", "-o", "x"), "none"), (("build", self.folder, "-o", "x"), str(self.folder)),
                            (("build", EXAMPLES / "listing.txt", "-o", self.folder / "no" / "x"), "x"), (("blocks", self.folder / "none"), "none")):
            status, output, errors = run(*words)
            self.assertEqual((status, output), (BROKEN, ""), errors)
            self.assertIn(name, errors)
            self.assertNotIn("Traceback", errors)

    def test_full_device(self):
        self.examples()
        with open("/dev/full", "wb") as full:
            for words in (("blocks", self.listing), ("build", EXAMPLES / "listing.txt", "-o", "-"), ("picture", self.listing)):
                done = subprocess.run([COMMAND, *map(str, words)], stdout=full, stderr=subprocess.PIPE)
                self.assertEqual((done.returncode, done.stderr), (BROKEN, b"servercape: standard output: No space left on device\n"))
        self.assertEqual(run("build", EXAMPLES / "listing.txt", "-o", "/dev/full")[0], BROKEN)
        self.assertTrue(stat.S_ISCHR(os.stat("/dev/full").st_mode))

        # the file that could not be written is named, and what stood there stays
        done = subprocess.run(["bash", "-c", f"ulimit -f 0; trap '' XFSZ; exec {COMMAND} build {EXAMPLES}/listing.txt -o {self.listing}"], capture_output=True)
        self.assertEqual((done.returncode, done.stderr), (BROKEN, f"servercape: {self.listing}: File too large\n".encode()))
        self.assertEqual(Index.load(self.listing.read_bytes())[1], 651)
        self.assertEqual(sorted(os.listdir(self.folder)), ["listing.index", "midnight.index"])
        self.assertEqual(run("build", EXAMPLES / "listing.txt", "-o", "/dev/full"), (BROKEN, "", "servercape: /dev/full: No space left on device\n"))

    def test_closed_streams(self):
        """As a shell closes them: no traceback, and what needs no stream is done."""
        self.examples()
        given = lambda words: subprocess.run(["bash", "-c", f"{COMMAND} {words}"], capture_output=True)
        for words, status, errors in ((f"blocks {self.listing} >&-", BROKEN, b"servercape: standard output: Bad file descriptor\n"),
                                      (f"picture {self.listing} >&-", BROKEN, b"servercape: standard output: Bad file descriptor\n"),
                                      ("--help >&-", BROKEN, b"servercape: standard output: Bad file descriptor\n"),
                                      ("build - -o x <&-", BROKEN, b"servercape: standard input: Bad file descriptor\n"),
                                      (f"build {EXAMPLES}/listing.txt -o {self.folder}/made >&-", DONE, b""),
                                      (f"build {EXAMPLES}/listing.txt -o {self.folder}/made <&- >&-", DONE, b"")):
            done = given(words)
            self.assertEqual((done.returncode, done.stdout, done.stderr), (status, b"", errors), words)
        self.assertEqual((self.folder / "made").read_bytes(), self.listing.read_bytes())
        done = subprocess.run(["bash", "-c", f"PYTHONPATH={PACKAGE} python3 -m servercape explain 99 2>&-"], capture_output=True)
        self.assertEqual((done.returncode, done.stdout), (USAGE, b""))

    def test_mode_of_the_old_file_is_kept(self):
        made = self.folder / "made"
        text = "end 8\nkind memory\nat 1 cell 2 bytes 07\n"
        old = os.umask(0o027)
        self.addCleanup(os.umask, old)
        self.assertEqual(self.build(text)[0], DONE)
        self.assertEqual(stat.S_IMODE(made.stat().st_mode), 0o640)
        for mode in (0o600, 0o664, 0o200):
            made.chmod(mode)
            self.assertEqual(self.build(text), (DONE, "", ""))
            self.assertEqual(stat.S_IMODE(made.stat().st_mode), mode)

    def test_read_only_file_is_not_replaced(self):
        made = self.folder / "made"
        made.write_bytes(b"kept")
        made.chmod(0o444)
        self.assertEqual(self.build("end 8\nkind memory\nat 1 cell 2 bytes 07\n"), (BROKEN, "", f"servercape: {made}: it is read-only\n"))
        self.assertEqual((made.read_bytes(), os.listdir(self.folder)), (b"kept", ["made"]))

    def test_link_is_kept(self):
        link = self.folder / "made"
        link.symlink_to("real")
        for _ in range(2):
            self.assertEqual(self.build("end 8\nkind memory\nat 1 cell 2 bytes 07\n"), (DONE, "", ""))
            self.assertTrue(link.is_symlink())
        self.assertTrue((self.folder / "real").is_file())

    def test_what_another_left_does_no_harm(self):
        """Neither a part of a file nor a lock of another user, or of another run, is in the way."""
        (self.folder / "made.part").mkdir()
        self.assertEqual(self.build("end 8\nkind memory\nat 1 cell 2 bytes 07\n"), (DONE, "", ""))
        self.assertEqual(sorted(os.listdir(self.folder)), ["made", "made.part"])
        runs = [subprocess.Popen([COMMAND, "build", str(EXAMPLES / "listing.txt"), "-o", str(self.folder / "made")]) for _ in range(6)]
        self.assertEqual([each.wait() for each in runs], [DONE] * 6)
        self.assertEqual(Index.load((self.folder / "made").read_bytes())[1], 651)
        self.assertEqual(sorted(os.listdir(self.folder)), ["made", "made.part"])

    def test_file_is_on_the_disk_before_it_takes_the_name(self):
        calls = []
        watched = lambda name: mock.patch.object(os, name, side_effect=lambda *words, real=getattr(os, name): (calls.append(name), real(*words))[1])
        with watched("fsync"), watched("replace"), mock.patch.object(Path, "replace", lambda path, to: os.replace(path, to)):
            write_file(str(self.folder / "made"), b"x")
        self.assertEqual(calls, ["fsync", "replace", "fsync"])

    def test_wide_text(self):
        """A list that an editor saved as UTF-16."""
        text = "end 8\nkind memory\nat 1 cell 2 bytes 07\n"
        for wide in ("utf-16", "utf-16-le", "utf-16-be"):
            self.assertEqual(self.build(text.encode(wide)), (REFUSED, "", "servercape: -: this is text in UTF-16: save the list as UTF-8\n"))
        # an end tick may look like the mark in front
        for end in (0xFEFF, 0xFFFE, 0x0A00640065006E00):
            self.assertEqual(self.build(boardfile.write_input({"end": end, "kind": 1, "bookings": [(1, 2, b"\7")]})), (DONE, "", ""), end)
        self.assertIn("no booking is accepted", self.build(boardfile.write_input({"end": 0xFEFF, "kind": 1, "bookings": []}))[2])

    def test_reader_that_goes(self):
        self.examples()
        done = subprocess.run(f"{COMMAND} cells {self.listing} --to 300000 | head -1", shell=True, capture_output=True)
        self.assertEqual((done.stdout, done.stderr), (b"cell clock byte\n", b""))


class Reads(Command):
    def setUp(self):
        super().setUp()
        self.examples()

    def rows(self, *words, status=DONE):
        found, output, errors = run(*words, "--json")
        self.assertEqual((found, errors), (status, ""))
        return json.loads(output)

    def numbers(self, *words):
        return [row["block"] for row in self.rows(*words)]

    def test_blocks_are_those_of_the_program(self):
        """The lines of the README, which the program `board` prints."""
        lines = ["102 1 1 3 0142 07", "103 1 3 6 0143 09", "100 2 1 8 0140 0707", "102 1 3 8 0142 09", "103 1 6 8 0143 04", "104 1 3 8 0144 09"]
        listed = "block cell n from to clock bytes train\n" + "".join(f"{number} {line} {line[-2:]}\n" for number, line in enumerate(lines))
        self.assertEqual(run("blocks", self.listing), (DONE, listed, ""))

    def test_forms(self):
        window = ("--platform", 0, "--from", "monday 23:50", "--to", "tuesday 00:10")
        for words in (("blocks", self.midnight), ("find", self.midnight), ("touching", self.midnight, "--tick", 9), ("conflicts", self.midnight), ("next", self.midnight),
                      ("last", self.midnight), ("cells", self.midnight, *window), ("info", self.midnight), ("verify", self.midnight), ("explain",)):
            _, text, errors = run(*words, "--json")
            rows = json.loads(text)
            self.assertEqual((errors, bool(rows)), ("", True), words)
            listed = list(csv.DictReader(io.StringIO(run(*words, "--csv")[1])))
            self.assertEqual([{key: "" if value is None else str(value) for key, value in row.items()} for row in rows], listed, words)
            # explain says on a second line what to do
            lines = 2 if words == ("explain",) else 1
            self.assertEqual(len(run(*words, "--human")[1].splitlines()), lines * len(rows), words)
        self.assertEqual(self.rows("blocks", self.midnight)[2], {"block": 2, "platform": 0, "minute": 1432, "day": "monday", "clock": "23:52", "length": 8,
                                                                  "kind": "memory", "train": "07", "created": 1, "destroyed": 16})
        self.assertIn("block 2: train 07 at platform 0 from monday 23:52 to tuesday 00:00, 8 min, live from tick 1 up to 16\n",
                      run("blocks", self.midnight, "--human")[1])
        self.assertEqual(run("find", self.midnight, "--to", 0, "--json")[1], "[]\n")

    def test_all_blocks_are_those_of_the_calls(self):
        """`blocks` reads them out of the file at once."""
        data = self.midnight.read_bytes() + self.listing.read_bytes()
        for at in (0, len(self.midnight.read_bytes())):
            index = Index.load(data, at)[0]
            self.assertEqual(list(file_blocks(data, at)), list(index.blocks()))

    def test_numbers_that_json_programs_round(self):
        """Above 2^53 they are text; a cell is a platform and a minute."""
        late = 1 << 60
        self.assertEqual(self.build(f"end {1 << 63}\nkind memory\nat {late} platform 4294967295 monday 00:05 bytes 07\n"), (DONE, "", ""))
        row, = self.rows("blocks", self.folder / "made")
        self.assertEqual((row["platform"], row["minute"], row["created"], row["destroyed"]), (4294967295, 5, str(late), str(1 << 63)))
        self.assertEqual(self.rows("info", self.folder / "made")[0]["end"], str(1 << 63))
        self.assertEqual(self.rows("conflicts", self.folder / "made", status=TAKEN)[0]["destroyed"], str(1 << 63))

    def test_find_and_touching(self):
        self.assertEqual(self.numbers("find", self.listing, "--tick", 6, "--from", 100, "--to", 104), [2, 3, 4])
        window = ("--tick", 3, "--platform", 0, "--from", "tuesday 00:00", "--to", "tuesday 00:10")
        self.assertEqual(self.numbers("find", self.midnight, *window), [1])
        self.assertEqual(self.numbers("touching", self.midnight, "--platform", 1, "--from", "tuesday 00:00", "--to", "tuesday 00:10"), [4])
        self.assertEqual(self.numbers("find", self.midnight, "--platform", 1, "--from", "tuesday 00:00", "--to", "tuesday 00:10"), [])
        self.assertEqual(self.numbers("find", self.midnight, "--platform", 2), [5])
        self.assertEqual(sorted(self.numbers("touching", self.midnight)), [2, 3, 4, 5])

    def test_touching_says_free(self):
        window = ("--platform", 0, "--from", "tuesday 00:00", "--to", "tuesday 00:06")
        self.assertEqual(run("touching", self.midnight, *window)[1].splitlines()[1:], ["3 1440 6 9 16 0000 000000000000 free"])
        self.assertEqual(run("touching", self.midnight, *window, "--human")[1],
                         "block 3: free at platform 0 from tuesday 00:00 to tuesday 00:06, 6 min, live from tick 9 up to 16\n")
        self.assertEqual([row["train"] for row in self.rows("touching", self.midnight, *window)], ["free"])
        self.assertEqual(self.build("end 8\nkind memory\nat 1 cell 5 bytes 00*2 51*3 07\n")[0], DONE)
        self.assertEqual([row["train"] for row in self.rows("touching", self.folder / "made")], ["free*2 51*3 07"])

    def test_conflicts(self):
        """The trains that stand in a window, and a status that says whether there are any."""
        made = self.folder / "made"
        self.assertEqual(run("build", EXAMPLES / "evening.txt", "-o", made)[0], DONE)
        ask = lambda start, end, *more: run("conflicts", made, "--platform", 5, "--from", start, "--to", end, *more)
        # from 22:45 on platform 5 was booked 00*10 51*40, and from 23:50 it was set free
        self.assertEqual(ask("monday 22:40", "monday 22:55"), (CLEAR, "cell n from to clock train\n", ""))
        self.assertEqual(ask("monday 22:40", "monday 22:55", "--human"), (CLEAR, "free at tick 19\n", ""))
        self.assertEqual(ask("monday 23:50", "tuesday 00:20", "--json"), (CLEAR, "[]\n", ""))
        self.assertEqual(ask("monday 22:00", "monday 23:00", "--human"),
                         (TAKEN, "train 51 at platform 5 from monday 22:55 to monday 23:00, 5 min, booked at tick 14, stands so up to 20\n", ""))
        self.assertEqual(ask("monday 23:35", "monday 23:50")[0], CLEAR)
        self.assertEqual(ask("monday 23:34", "monday 23:35", "--csv"), (TAKEN, "platform,minute,day,clock,length,kind,train,created,destroyed\n"
                                                                          "5,1414,monday,23:34,1,memory,51,14,20\n", ""))
        self.assertEqual(ask("monday 23:50", "tuesday 00:20", "--tick", 17)[0], TAKEN)

    def test_conflicts_are_joined(self):
        """A later edit cuts a block and not the stay of an earlier tick."""
        self.assertEqual(self.build("end 8\nkind memory\nat 1 cell 100 bytes 07*14\nat 1 cell 200 bytes 07 08\nat 3 cell 104 bytes 09*2\nat 4 cell 201 bytes 08\n")[0], DONE)
        taken = lambda *words: [(row["minute"], row["length"], row["train"], row["created"], row["destroyed"])
                                for row in self.rows("conflicts", self.folder / "made", *words, status=TAKEN)]
        self.assertEqual(taken("--tick", 1, "--to", 200), [(100, 14, "07", 1, 3)])
        self.assertEqual(taken("--tick", 2, "--from", 102, "--to", 110), [(102, 8, "07", 1, 3)])
        self.assertEqual(taken("--tick", 3, "--to", 200), [(100, 4, "07", 1, 8), (104, 2, "09", 3, 8), (106, 8, "07", 1, 8)])
        self.assertEqual(taken("--from", 200), [(200, 1, "07", 1, 8), (201, 1, "08", 1, 8)])

    def test_conflicts_that_cannot_be_asked(self):
        """Neither free nor taken: a script must not take one for the other."""
        broken = self.folder / "broken"
        broken.write_bytes(self.listing.read_bytes()[:-1])
        for words, status in (((broken,), NOT_ASKED), ((self.listing, "--tick", 8), NOT_ASKED), ((self.listing, "--from", 2, "--to", 1), NOT_ASKED),
                              ((self.listing, "--kind", "other"), NOT_ASKED), ((self.folder / "none",), BROKEN), ((self.listing, "--from", "x"), USAGE)):
            found, output, errors = run("conflicts", *words)
            self.assertEqual((found, output), (status, ""), words)
            self.assertNotIn("Traceback", errors)

    def test_next_and_last(self):
        """The trains around a place; what only sets minutes free is passed over."""
        made = self.folder / "made"
        self.assertEqual(run("build", EXAMPLES / "evening.txt", "-o", made)[0], DONE)

        def found(call, platform, *words):
            return [(row["train"], row["platform"], row["clock"]) for row in self.rows(call, made, "--platform", platform, *words)]

        # on platform 1 train 13 was taken back from 23:05 on
        self.assertEqual(found("next", 1, "--from", "monday 22:00"), [("12", 1, "22:15")])
        self.assertEqual(found("next", 1, "--from", "monday 22:16"), [("14", 1, "00:10")])
        self.assertEqual(found("next", 1, "--from", "monday 22:16", "--tick", 11), [("13", 1, "23:05")])
        self.assertEqual(found("next", 1, "--from", "monday 22:16", "--to", "tuesday 00:10"), [])
        self.assertEqual(found("next", 1, "--from", "tuesday 00:11"), [])
        self.assertEqual(found("last", 1, "--to", "tuesday 00:10"), [("12", 1, "22:15")])
        self.assertEqual(found("last", 1, "--to", "monday 22:35"), [("12", 1, "22:15")])
        self.assertEqual(found("last", 1, "--to", "monday 22:34"), [("11", 1, "21:40")])
        self.assertEqual(found("last", 2, "--to", "monday 21:40"), [])
        self.assertEqual(found("last", 1, "--from", "monday 22:16", "--to", "tuesday 00:10"), [])
        self.assertEqual(run("next", made, "--from", 2, "--to", 1)[0], REFUSED)

    def test_last_platform(self):
        self.assertEqual(self.build("end 2\nkind memory\nat 1 platform 4294967295 monday 00:05 bytes 07\n"), (DONE, "", ""))
        self.assertEqual(self.numbers("touching", self.folder / "made", "--platform", 4294967295), [0])

    def test_cells(self):
        rows = self.rows("cells", self.midnight, "--platform", 0, "--from", "monday 23:51", "--to", "tuesday 00:01")
        self.assertEqual([row["train"] for row in rows], [None, *["07"] * 8, "free"])
        self.assertEqual(run("cells", self.midnight, "--from", 1431, "--to", 1433)[1], "cell clock byte\n1431 2351 -\n1432 2352 07\n")
        self.assertEqual(run("cells", self.midnight, "--from", 1439, "--to", 1441, "--human")[1],
                         "platform 0 monday 23:59: train 07\nplatform 0 tuesday 00:00: free\n")
        self.assertEqual(len(self.rows("cells", self.midnight, "--to", 70000)), 70000)

    def test_info_and_verify(self):
        row, = self.rows("info", self.listing)
        self.assertEqual(row, {"at": 0, "size": 651, "kind": "memory", "end": 8, "blocks": 6, "bytes": 7, "nodes": 10, "entries": 12, "platforms": 1})
        self.assertEqual(run("verify", self.listing), (DONE, f"{self.listing}: good up to byte 651, 6 blocks\n", ""))

    def test_several_boards_in_a_file(self):
        both = self.folder / "both"
        both.write_bytes(self.listing.read_bytes() + self.midnight.read_bytes())
        self.assertEqual([row["end"] for row in self.rows("info", both)], [8, 16])
        self.assertEqual(self.rows("blocks", both, "--at", 651), self.rows("blocks", self.midnight))
        self.assertEqual(run("verify", both)[0], DONE)
        both.write_bytes(both.read_bytes()[:-1])
        status, output, errors = run("verify", both)
        self.assertEqual((status, len(output.splitlines())), (REFUSED, 1))
        self.assertIn("the board at byte 651 is refused 17", errors)

    def test_refused(self):
        broken = self.folder / "broken"
        broken.write_bytes(b"\5" + self.listing.read_bytes()[1:])
        for words, number in ((("blocks", broken), 18), (("verify", broken), 18), (("info", broken), 18), (("picture", broken), 18),
                              (("find", self.listing, "--tick", 8), 14), (("cells", self.listing, "--tick", 8, "--to", 1 << 46), 14),
                              (("touching", self.listing, "--from", 2, "--to", 1), 15), (("cells", self.listing, "--from", 2, "--to", 1), 15),
                              (("blocks", self.listing, "--at", 651), 17)):
            status, output, errors = run(*words)
            self.assertEqual((status, output), (REFUSED, ""), words)
            self.assertIn(f"refused {number}: {WORDS[number][0]}", errors)

    def test_explain(self):
        self.assertEqual(run("explain", 8), (DONE, "8, record: the booking's tick is below the last accepted one\n    give edits in order; several may have the same tick\n", ""))
        self.assertEqual(run("explain", 26)[1], "26, record: the booking has a byte other than 0 in a minute at which the station is closed\n"
                         "    book within the hours, or install other hours first: those that were installed last count\n")
        self.assertEqual(len(run("explain")[1].splitlines()), 2 * sum(map(len, WORDS.values())))


class Usage(Command):
    def test_wrong(self):
        for words in ((), ("check",), ("explain", 0), ("explain", max(WORDS) + 1), ("build", "x"), ("find", "x", "--kind", "crews"), ("cells", "x", "--to", 5, "--kind", 1), ("find", "x", "--tick", "-1"), ("find", "x", "--tick", 1 << 64),
                      ("find", "x", "--from", "monday 23:50"), ("find", "x", "--platform", 1, "--from", "someday 00:00"), ("cells", "x"),
                      ("find", "x", "--platform", 1 << 32), ("find", "x", "--platform", 1, "--to", 7), ("blocks", "x", "--csv", "--json"), ("blocks", "x", "y"),
                      ("conflicts", "x", "--from", "monday"), ("next", "x", "--tick", "x"),
                      ("days",), ("days", "2024-01-01", 2025, 2024), ("days", "2024-01-02", 2024, 2025), ("days", "2024-01", 2024, 2025), ("days", "2024-01-01", 0, 2025), ("days", "2024-01-01", 2024)):
            status, output, errors = run(*words)
            self.assertEqual((status, output), (USAGE, ""), words)
            self.assertIn("usage: servercape", errors)

    def test_help(self):
        status, output, _ = run("--help")
        self.assertEqual(status, DONE)
        for name in COMMANDS:
            self.assertRegex(output, rf"(?m)^    {name}\b")
            status, text, _ = run(name, "--help")
            self.assertEqual(status, DONE)
            example = next(line for line in text.splitlines() if line.startswith("Example: servercape "))
            self.assertTrue(example.startswith(f"Example: servercape {name} "))

    def test_examples_of_help_run(self):
        (self.folder / "examples").symlink_to(EXAMPLES)
        for name in COMMANDS:
            text = run(name, "--help")[1]
            example = next(line for line in text.splitlines() if line.startswith("Example: ")).removeprefix("Example: servercape")
            done = subprocess.run(COMMAND + example, shell=True, cwd=self.folder, capture_output=True)
            self.assertEqual((done.returncode, done.stderr), (DONE, b""), example)
            self.assertEqual(bool(done.stdout), name != "build" and ">" not in example, example)

    def test_through_a_link_and_from_elsewhere(self):
        link = self.folder / "link"
        link.symlink_to(COMMAND)
        done = subprocess.run([link, "explain", "3"], cwd="/", capture_output=True, check=True)
        self.assertEqual(done.stdout.splitlines()[0], b"3, record, finish, install of a calendar: the index is finished or loaded, and takes no more bookings")


class Lock(Command):
    @unittest.skipUnless(os.geteuid() == 0, "only root can be another user")
    def test_lock_of_another_user(self):
        """A lock that may be neither written nor read keeps nobody from libraries that are there."""
        self.folder.chmod(0o755)
        tools, built = self.folder / "tools", self.folder / "target" / "dist"
        for folder in (tools, built):
            folder.mkdir(parents=True)
        for name in ("built", "dist"):
            shutil.copy(ROOT / "tools" / name, tools)
        (self.folder / "crates.txt").write_text("servercape_c staticlib:\nservercape_tested_c staticlib:\nboard:\n")
        os.utime(self.folder / "crates.txt", (0, 0))
        (built / "SOURCES").touch()
        lock = self.folder / "target" / "dist.lock"
        lock.touch(0o600)
        environment = {name: value for name, value in os.environ.items() if name != "SERVERCAPE_LIB"} | {"SERVERCAPE_FROM_SOURCE": "1"}
        done = subprocess.run([tools / "built"], capture_output=True, cwd="/", user=NOBODY, env=environment)
        self.assertEqual((done.returncode, done.stdout, done.stderr), (DONE, f"{built}\n".encode(), b""))


class Installed(Command):
    def test_pip_install(self):
        """`pip install` makes a package with its library and the command, which needs no checkout."""
        place = self.folder / "place"
        made = subprocess.run(["python3", "-m", "pip", "install", "--quiet", "--no-index", "--target", place, PACKAGE],
                              capture_output=True, text=True)
        self.assertEqual(made.returncode, 0, made.stderr)
        alone = {name: value for name, value in os.environ.items() if name != "SERVERCAPE_LIB"} | {"PYTHONPATH": str(place)}
        done = subprocess.run([place / "bin" / "servercape", "build", EXAMPLES / "listing.txt", "-o", "-"], cwd="/", capture_output=True, env=alone)
        self.assertEqual((done.returncode, done.stderr), (DONE, b""))
        self.assertEqual(len(done.stdout), 651)


if __name__ == "__main__":
    unittest.main()
