#!/usr/bin/env python3
"""Counts the must-fail edits by what they change: src/, specs/ or proofs/.

An edit of src/ that is refused shows that a contract is strong. One of specs/ shows something
else: that boards and laws pin a definition, or that a statement could not be stronger. So they are
counted apart, and a definition is to have two of them at most.

    edits.py             the sums, and the crates that have edits of specs/ or proofs/
    edits.py --crates    every crate
    edits.py --specs     each definition with its edits

The status is 1 where a definition has more than two, or where the text that an edit replaces does
not stand just once in its file.
"""
import argparse
import re
import sys
from collections import Counter, defaultdict
from dataclasses import dataclass
from pathlib import Path

CRATES = Path(__file__).resolve().parent.parent / "crates"
AREAS = ("src", "specs", "proofs")
MOST = 2
# The head of a definition, at the margin or in a module: a field has no word before its name.
DEFINITION = re.compile(
    r"^ {0,2}(?:(?:unfoldable|abbrev)(?: pub)?|(?:pub )?(?:record|data)) (?P<name>\S+)"
)


@dataclass(frozen=True)
class Change:
    """A text that stands once in a file of a crate, and what takes its place."""

    file: str
    old: str
    new: str


@dataclass(frozen=True)
class Edit:
    """A must-fail edit: its changes apply one after the other."""

    crate: str
    name: str
    changes: tuple[Change, ...]

    @property
    def area(self) -> str:
        """What it changes; of several the one that says least of the contracts."""
        touched = {change.file.split("/", 1)[0] for change in self.changes}
        return max(touched, key=AREAS.index)

    def definitions(self) -> set[str]:
        """The definitions of specs/ that it changes; an import is none."""
        found: set[str] = set()
        texts: dict[str, str] = {}
        for file, old, new in ((c.file, c.old, c.new) for c in self.changes):
            text = texts.get(file) or (CRATES / self.crate / file).read_text()
            if text.count(old) != 1:
                raise ValueError(f"{self.crate}/{self.name}: {text.count(old)} times: {old}")
            head = definition(text[: text.index(old) + len(old)])
            if head and file.startswith("specs/"):
                found.add(f"{self.crate}/{file.removesuffix('.antt')}: {head}")
            texts[file] = text.replace(old, new)
        return found


def definition(text: str) -> str:
    """The definition that a text ends in, or nothing where it has none."""
    heads = [head for row in text.split("\n") if (head := DEFINITION.match(row))]
    return heads[-1]["name"] if heads else ""


def read(path: Path) -> Edit:
    """The edit that a file holds."""
    given = [line.partition(": ")[::2] for line in path.read_text().split("\n")]
    file, old, changes = "", "", []
    for word, rest in given:
        if word == "file":
            file = rest
        elif word == "old":
            old = rest
        elif word == "new":
            changes.append(Change(file, old, rest))
    if not changes or any(change.file.split("/", 1)[0] not in AREAS for change in changes):
        raise ValueError(f"{path}: changes nothing in {', '.join(AREAS)}")
    return Edit(path.parent.parent.name, path.stem, tuple(changes))


def line(name: str, counts: Counter[str]) -> str:
    return f"{name:<20}" + "".join(f"{counts[area]:>9}" for area in AREAS)


def table(edits: list[Edit], every: bool) -> None:
    """A line for each crate, and the sums."""
    counts: dict[str, Counter[str]] = defaultdict(Counter)
    for edit in edits:
        counts[edit.crate][edit.area] += 1
    print(f"{'must-fail edits of':<20}" + "".join(f"{area + '/':>9}" for area in AREAS))
    for crate, by_area in sorted(counts.items()):
        if every or by_area["specs"] or by_area["proofs"]:
            print(line(crate, by_area))
    print(line(f"all {len(counts)} crates", Counter(edit.area for edit in edits)))


def asked() -> argparse.Namespace:
    parser = argparse.ArgumentParser(
        description=__doc__, formatter_class=argparse.RawDescriptionHelpFormatter
    )
    shown = parser.add_mutually_exclusive_group()
    shown.add_argument("--crates", action="store_true", help="a line for every crate")
    shown.add_argument("--specs", action="store_true", help="each definition with its edits")
    return parser.parse_args()


def main() -> int:
    show = asked()
    edits = [read(path) for path in sorted(CRATES.glob("*/must-fail/*.edit"))]
    pinned: dict[str, list[str]] = defaultdict(list)
    for edit in edits:
        for name in edit.definitions():
            pinned[name].append(edit.name)
    if show.specs:
        for name, names in sorted(pinned.items()):
            print(f"{name}: {', '.join(names)}")
    else:
        table(edits, show.crates)
    many = {name: names for name, names in pinned.items() if len(names) > MOST}
    for name, names in sorted(many.items()):
        print(f"more than {MOST} edits of {name}: {', '.join(names)}", file=sys.stderr)
    return 1 if many else 0


if __name__ == "__main__":
    try:
        sys.exit(main())
    except ValueError as fault:
        sys.exit(str(fault))
