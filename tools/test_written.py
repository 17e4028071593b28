#!/usr/bin/env python3
"""Tests what is written from one source: tools/bindings on copies that differ, and how tools/dist compares."""
import importlib.machinery
import importlib.util
import shutil
import subprocess
import tempfile
import tomllib
import unittest
from pathlib import Path

ROOT = Path(__file__).resolve().parents[1]
ROW = """
[[refusal]]
number = {number}
name = "TooManyTrains"
calls = "record"
words = "there are more trains than {number}"
advice = "send one home"
"""


def module(name):
    """A tool without a suffix, as a module."""
    loader = importlib.machinery.SourceFileLoader(name, str(ROOT / "tools" / name))
    made = importlib.util.module_from_spec(importlib.util.spec_from_loader(name, loader))
    loader.exec_module(made)
    return made


class Copied(unittest.TestCase):
    """A copy of what tools/bindings reads and writes."""

    def setUp(self):
        room = tempfile.TemporaryDirectory()
        self.addCleanup(room.cleanup)
        self.root = Path(room.name)
        ignored = shutil.ignore_patterns("target", "__pycache__")
        for name in ("tools", "bindings"):
            shutil.copytree(ROOT / name, self.root / name, ignore=ignored)
        for name in ("servercape_c", "servercape_tested_c"):
            shutil.copytree(ROOT / "crates" / name / "src", self.root / "crates" / name / "src")
        for name in ("compare", "bench"):
            (self.root / name).mkdir()
            shutil.copy(ROOT / name / "Cargo.lock", self.root / name)
        shutil.copy(ROOT / "README.md", self.root)

    def change(self, name, old, new):
        path = self.root / name
        text = path.read_text("utf-8")
        self.assertIn(old, text)
        path.write_text(text.replace(old, new, 1), "utf-8")

    def read(self, name):
        return (self.root / name).read_text("utf-8")

    def bindings(self, *words):
        done = subprocess.run([self.root / "tools/bindings", *words], capture_output=True, text=True)
        return done.returncode, done.stdout, done.stderr

    def expect_difference(self, *said):
        status, out, err = self.bindings("--check")
        self.assertEqual((status, out), (1, ""))
        for each in said:
            self.assertIn(each, err)

    def test_as_it_stands(self):
        self.assertEqual(self.bindings("--check")[::2], (0, ""))
        self.assertEqual(self.bindings(), (0, "", ""))

    def test_a_parameter_is_renamed(self):
        old = "uint8_t kind, uint64_t tick, uint64_t cell,\n    uint64_t *found"
        self.change("bindings/servercape.h", old, old.replace("tick", "moment"))
        self.expect_difference("+        kind: u8, moment: u64, cell: u64,", "crates/servercape_c/src/lib.rt", "+    moment: u64,")

    def test_a_slice_is_written_to(self):
        self.change("bindings/servercape_tested.h", "uint64_t state,\n    const uint64_t *blocks", "uint64_t state,\n    uint64_t *blocks")
        self.expect_difference("+        blocks: *mut u64, blocks_length: usize,", "+    blocks: &mut [u64],")

    def test_a_written_file_is_changed(self):
        self.change("bindings/rust/src/raw.rs", "entries: *mut u64", "entries: *const u64")
        self.change("bindings/python/servercape/words.py", "leave it out", "take it out")
        self.expect_difference("bindings/rust/src/raw.rs", "bindings/python/servercape/words.py")
        self.assertEqual(self.bindings()[0], 0)
        self.assertEqual(self.bindings("--check")[0], 0)

    def test_an_export_is_missing(self):
        self.change("crates/servercape_tested_c/src/lib.rt", "fn servercape_state(", "fn servercape_status(")
        self.expect_difference("does not export servercape_state", "exports servercape_status, which no header has")

    def test_the_version(self):
        self.change("bindings/servercape.h", '"0.2.0"', '"0.3.1"')
        self.assertEqual(self.bindings()[0], 1, "the number is another")
        self.change("bindings/servercape.h", "NUMBER 2000", "NUMBER 3001")
        self.assertEqual(self.bindings()[0], 0)
        in_bindings = ("rust/Cargo.toml", "rust/Cargo.lock", "python/pyproject.toml", "servercape.pc")
        for name in ("compare/Cargo.lock", "bench/Cargo.lock", *(f"bindings/{name}" for name in in_bindings)):
            self.assertIn("0.3.1", self.read(name), name)

    def test_a_row_more(self):
        """A new refusal is one entry in the table and one run."""
        number = 1 + tomllib.loads(self.read("bindings/refusals.toml"))["refusal"][-1]["number"]
        with (self.root / "bindings/refusals.toml").open("a", encoding="utf-8") as table:
            table.write(ROW.format(number=number))
        self.expect_difference("SERVERCAPE_REFUSED_TOO_MANY_TRAINS")
        self.assertEqual(self.bindings()[0], 0)
        self.assertEqual(self.bindings("--check")[0], 0)
        words = f"there are more trains than {number}"
        for name in ("bindings/servercape_refusals.h", "bindings/rust/src/refusals.rs", "bindings/python/servercape/words.py", "README.md"):
            self.assertIn(words, self.read(name), name)
            self.assertIn("send one home", self.read(name), name)
        self.assertIn(f"| {number} | record: {words} | send one home |", self.read("README.md"))

    def test_a_number_is_left_out(self):
        with (self.root / "bindings/refusals.toml").open("a", encoding="utf-8") as table:
            table.write(ROW.format(number=77))
        self.assertEqual(self.bindings()[0], 0)
        rust = " ".join(self.read("bindings/rust/src/refusals.rs").split())
        self.assertIn("[Refusal; 77]", rust)
        self.assertIn("Refusal::Other(76), Refusal::TooManyTrains", rust)

    def test_a_number_goes_back(self):
        with (self.root / "bindings/refusals.toml").open("a", encoding="utf-8") as table:
            table.write(ROW.format(number=3))
        status, _, err = self.bindings()
        self.assertEqual((status, err), (1, "tools/bindings: refusals.toml: numbers ascend from 1\n"))


class Dist(unittest.TestCase):
    def setUp(self):
        self.dist = module("dist")

    def test_order(self):
        """Each crate stands behind those that it uses."""
        order, used = self.dist.all_crates(), self.dist.uses()
        self.assertEqual(len(order), len(set(order)))
        for name in order:
            self.assertEqual([each for each in used[name] if order.index(each) > order.index(name)], [])
        self.assertLessEqual({"servercape_c", "servercape_tested_c", "board"}, set(order))

    def test_differences(self):
        with tempfile.TemporaryDirectory() as room:
            one, other = Path(room, "one"), Path(room, "other")
            self.assertEqual(self.dist.difference("board", one, other), "dist/board is not there")
            one.write_bytes(b"abcd")
            other.write_bytes(b"abcd")
            self.assertIsNone(self.dist.difference("board", one, other))
            other.write_bytes(b"abxd!")
            self.assertEqual(self.dist.difference("board", one, other), "dist/board has 4 bytes, and what the crates give 5; they differ first at byte 3")
            self.assertEqual(self.dist.difference("KIT", one, other), "dist/ is of another kit: abcd, and not abxd!")

    def test_arguments(self):
        done = subprocess.run([ROOT / "tools/dist", "--chek"], capture_output=True, text=True)
        self.assertEqual((done.returncode, done.stdout), (2, ""))


if __name__ == "__main__":
    unittest.main()
