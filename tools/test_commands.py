#!/usr/bin/env python3
"""Tests ./board and boardfile.py as they are called from a shell: what they print, where, and their status. And that README's examples are what it says."""
import os
import shutil
import subprocess
import sys
import tempfile
import time
import unittest

ROOT = os.path.dirname(os.path.dirname(os.path.abspath(__file__)))
BOARD = os.path.join(ROOT, "board")
BOARDFILE = [sys.executable, os.path.join(ROOT, "tools", "boardfile.py")]
HEADER = b"cell n from to clock bytes\n"


def example(name):
    return os.path.join(ROOT, "examples", name)


def content(name):
    with open(name, "rb") as file:
        return file.read()


def run(command, given=b"", **more):
    """Status, standard output, standard error."""
    done = subprocess.run(command, input=given, stdout=more.pop("stdout", subprocess.PIPE), stderr=subprocess.PIPE, **more)
    return done.returncode, done.stdout, done.stderr.decode()


def record(tick, cell, data):
    return b"\xb7\x4f" + tick.to_bytes(8, "little") + cell.to_bytes(8, "little") + len(data).to_bytes(2, "little") + data


def start(end, kind=1):
    return end.to_bytes(8, "little") + bytes([kind])


class Board(unittest.TestCase):
    def test_blocks(self):
        status, out, err = run([BOARD, example("listing.board")])
        self.assertEqual((status, out.count(b"\n"), err), (0, 7, ""))
        self.assertTrue(out.startswith(HEADER + b"102 1 1 3 0142 07\n") and out.endswith(b"104 1 3 8 0144 09\n"))
        for command in ([BOARD], [BOARD, "-"]):
            self.assertEqual(run(command, content(example("listing.board"))), (0, out, ""))

    def test_no_blocks(self):
        self.assertEqual(run([BOARD], start(8)), (0, HEADER, ""))

    def test_bad_record(self):
        self.assertEqual(run([BOARD, example("bad.board")]), (1, b"bad record 2\n", ""))
        self.assertEqual(run([BOARD], b""), (1, b"bad record 0\n", ""))

    def test_open_refused(self):
        self.assertEqual(run([BOARD], start(0)), (1, b"open refused 1\n", ""))
        self.assertEqual(run([BOARD], start(8, 5)), (1, b"open refused 1\n", ""))

    def test_finish_refused(self):
        # two lives at each of 700 ticks, far apart: more nodes than the program has
        far = b"".join(record(k << 40, k % 2, bytes([k % 251])) for k in range(700))
        status, out, err = run([BOARD], start(1 << 63) + record(0, 0, b"") + far)
        self.assertEqual((status, out, err), (1, HEADER + b"op 1 refused 5\nfinish refused 12\n", ""))

    def test_refused_booking(self):
        # the blocks are printed all the same
        self.assertEqual(run([BOARD], start(8) + record(8, 0, b"\7")), (0, HEADER + b"op 1 refused 7\n", ""))

    def test_long_input(self):
        whole = start(8) + record(1, 0, b"\7" * 65507)
        self.assertEqual(len(whole), 65536)
        status, out, err = run([BOARD], whole)
        self.assertEqual((status, err), (0, ""))
        more = run([BOARD], whole + record(2, 70000, b"\t"))
        self.assertEqual(more[:2], (0, out))
        self.assertIn("longer than 65536 bytes", more[2])

    def test_reading_fails(self):
        for name in (ROOT, example("nothing.board"), ""):
            status, out, err = run([BOARD, name])
            self.assertEqual((status, out), (3, b""))
            self.assertTrue(err.startswith("board: "), err)
        with open(os.devnull) as nothing:
            self.assertEqual(run(["bash", "-c", f"'{BOARD}' <&-"])[:2], (3, b""))
            self.assertEqual(subprocess.run(["bash", "-c", f"'{BOARD}' <'{ROOT}'"], stdin=nothing, capture_output=True).returncode, 3)

    @unittest.skipUnless(os.path.exists("/dev/full"), "there is no /dev/full")
    def test_writing_fails(self):
        for arguments in ([BOARD, example("listing.board")], [BOARD, example("bad.board")], [BOARD, "--help"]):
            with open("/dev/full", "wb") as full:
                status, _, err = run(arguments, stdout=full)
            self.assertEqual(status, 3)
            self.assertIn("could not be written", err)

    def test_arguments(self):
        for arguments in (["--helo"], ["-x"], ["a", "b"]):
            status, out, err = run([BOARD, *arguments])
            self.assertEqual((status, out), (2, b""))
            self.assertIn("--help", err)
        status, out, err = run([BOARD, "--help"])
        self.assertEqual((status, err), (0, ""))
        self.assertTrue(out.startswith(b"usage: ./board [--from-source] [FILE]\n"))

    def test_symbolic_link(self):
        with tempfile.TemporaryDirectory() as folder:
            link, again = os.path.join(folder, "one"), os.path.join(folder, "two")
            os.symlink(BOARD, link)
            os.symlink("one", again)
            for name in (link, again):
                self.assertEqual(run([name, example("bad.board")], cwd=folder), (1, b"bad record 2\n", ""))


class Boardfile(unittest.TestCase):
    def test_make_and_show(self):
        made = content(example("listing.board"))
        self.assertEqual(run([*BOARDFILE, "make", example("listing.txt")]), (0, made, ""))
        self.assertEqual(run([*BOARDFILE, "make", "-", "-"], content(example("listing.txt"))), (0, made, ""))
        status, text, _ = run([*BOARDFILE, "show", "-"], made)
        self.assertEqual((status, run([*BOARDFILE, "make", "-"], text)[1]), (0, made))

    def test_help(self):
        for arguments in (["--help"], ["-h"], ["make", "--help"]):
            status, out, err = run([*BOARDFILE, *arguments])
            self.assertEqual((status, err), (0, ""))
            self.assertIn(b"at 3 cell 102 bytes 090909", out)

    def test_byte_order_mark(self):
        self.assertEqual(run([*BOARDFILE, "make", "-"], b"\xef\xbb\xbf" + content(example("listing.txt"))), (0, content(example("listing.board")), ""))

    def test_no_text(self):
        status, out, err = run([*BOARDFILE, "make", "-"], b"end 8\nkind 1\n# Z\xfcrich\n")
        self.assertEqual((status, out), (1, b""))
        self.assertIn("-: line 3: byte fc is no UTF-8 text", err)

    def test_statuses(self):
        self.assertEqual(run([*BOARDFILE, "make", "-"], b"end 8\n")[::2], (1, "boardfile: -: there is no kind\n"))
        self.assertEqual(run([*BOARDFILE, "show", example("bad.board")])[0], 1)
        for arguments in ([], ["make"], ["made", "x"], ["make", "a", "b", "c"]):
            self.assertEqual(run([*BOARDFILE, *arguments])[:2], (2, b""))
        self.assertEqual(run([*BOARDFILE, "make", example("nothing.txt")])[0], 3)
        self.assertEqual(run(["bash", "-c", " ".join(BOARDFILE) + f" make '{example('listing.txt')}' >&-"])[0], 3)

    @unittest.skipUnless(os.path.exists("/dev/full"), "there is no /dev/full")
    def test_writing_fails(self):
        for arguments in (["make", example("listing.txt")], ["--help"]):
            with open("/dev/full", "wb") as full:
                status, _, err = run([*BOARDFILE, *arguments], stdout=full)
            self.assertEqual((status, err), (3, "boardfile: standard input or output: No space left on device\n"))

    def test_itself(self):
        self.assertEqual(run([*BOARDFILE, "--test"]), (0, b"boardfile: ok\n", ""))


class Copies(unittest.TestCase):
    def test_copies(self):
        """The package for Rust carries the notice itself, since the check takes no links."""
        self.assertEqual(content(os.path.join(ROOT, "bindings/rust/NOTICE")), content(os.path.join(ROOT, "NOTICE")))


class Readme(unittest.TestCase):
    def setUp(self):
        self.lines = content(os.path.join(ROOT, "README.md")).decode().split("\n")

    def behind(self, line):
        """The indented lines behind one, up to the next that is not."""
        rest = self.lines[self.lines.index(line) + 1 :]
        end = next(k for k, text in enumerate(rest) if not text.startswith("    ") or text.startswith("    $"))
        return "".join(text[4:] + "\n" for text in rest[:end])

    def fenced(self, language):
        start = self.lines.index("```" + language) + 1
        return self.lines[start : self.lines.index("```", start)]

    def test_shell(self):
        self.assertEqual(run([BOARD, example("listing.board")])[1].decode(), self.behind("    $ ./board examples/listing.board"))
        bookings = [line.strip() for line in self.lines if line.startswith("    at ")]
        self.assertEqual(bookings, [line for line in content(example("listing.txt")).decode().split("\n") if line.startswith("at ")])

    def test_rust(self):
        # the crate's own page is compiled and run by cargo test
        self.assertIn("\n".join(self.fenced("rust")), content(os.path.join(ROOT, "bindings", "rust", "README.md")).decode())

    def test_c(self):
        first = [line.strip() for line in content(os.path.join(ROOT, "bindings", "c", "first.c")).decode().split("\n")]
        start = first.index(self.fenced("c")[0])
        self.assertEqual(first[start : start + len(self.fenced("c"))], self.fenced("c"))


def without_rattle():
    """The path without the folders that have the command of the Rattle toolchain."""
    folders = os.environ["PATH"].split(os.pathsep)
    return os.pathsep.join(folder for folder in folders if not os.path.exists(os.path.join(folder, "rt")))


class FreshClone(unittest.TestCase):
    """README's first commands, in a clone and without the Rattle toolchain."""

    SECONDS = 20

    def setUp(self):
        self.room = tempfile.TemporaryDirectory()
        self.addCleanup(self.room.cleanup)
        self.clone = os.path.join(self.room.name, "clone")
        run(["git", "clone", "--quiet", "--local", ROOT, self.clone])
        if not os.path.exists(os.path.join(self.clone, "dist", "SHA256SUMS")):
            # dist/ is committed last: until then it is that of the libraries under test
            built = run([os.path.join(ROOT, "tools", "built")])[1].decode().strip()
            shutil.copytree(built, os.path.join(self.clone, "dist"))
        self.own = {"PATH": without_rattle(), "HOME": self.room.name}

    def command(self, line):
        began = time.monotonic()
        done = run(["bash", "-c", line], cwd=self.clone, env=self.own)
        self.assertLess(time.monotonic() - began, self.SECONDS, line)
        return done

    def test_first_commands(self):
        lines = content(os.path.join(ROOT, "README.md")).decode().split("\n")
        commands = [line[6:] for line in lines if line.startswith("    $ ")][:3]
        for line in commands[:2]:
            status, _, err = self.command(line)
            self.assertEqual((status, err), (0, ""), line)
        self.assertEqual(self.command(commands[1])[1], run([BOARD, example("listing.board")])[1])
        # the third proves it all, for which it needs the toolchain
        status, out, err = self.command(commands[2])
        self.assertEqual((status, out), (4, b""), err)
        self.assertIn("rt is not on the path", err)

    def test_command_and_installation(self):
        for line in ("./servercape --version", "./servercape build examples/evening.txt -o evening.index", "bindings/install ../prefix", "../prefix/bin/servercape info evening.index"):
            status, _, err = self.command(line)
            self.assertEqual((status, err), (0, ""), line)


if __name__ == "__main__":
    unittest.main()
