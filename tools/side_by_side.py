#!/usr/bin/env python3
"""side_by_side.py < JSON: what the kit's port/contracts.py OLD NEW --json found changed, old and new side by side, as the last part of docs/DESIGN-PASS.md."""
import json
import re
import sys


def squeeze(text):
    return re.sub(r"\s+", " ", text).strip()


def clauses(kind, rows):
    return [f"{kind}{' ' + name if name else ''} {{ {squeeze(text)} }}" for name, text in rows]


def pair(lines, old, new):
    """The two texts, each in a line of its own."""
    lines.append(f"  - old: `{old}`" if old else "  - old: none")
    lines.append(f"  - new: `{new}`" if new else "  - new: none")


def main():
    found = json.load(sys.stdin)
    crates = {}

    def at(crate, title):
        lines = crates.setdefault(crate, [])
        lines.append(f"- {title}")
        return lines

    signed = {}
    for place, old, new in found["signatures changed"]:
        signed[place] = (squeeze(old), squeeze(new))
    for row in found["contracts changed"]:
        place, old_requires, old_ensures, new_requires, new_ensures = row
        crate, path, *name = place.split(" ")
        lines = at(crate, f"`{' '.join(name)}` ({path})")
        if place in signed:
            pair(lines, *signed.pop(place))
        pair(lines, "; ".join(clauses("requires", old_requires) + clauses("ensures", old_ensures)), "; ".join(clauses("requires", new_requires) + clauses("ensures", new_ensures)))
    for place, (old, new) in signed.items():
        crate, path, *name = place.split(" ")
        pair(at(crate, f"`{' '.join(name)}` ({path}), the same clauses"), old, new)
    gone = {}
    for row in found["functions not found again"]:
        crate, path, name = row.split(" ")[:3]
        gone.setdefault(crate, []).append(f"`{name}` ({path})")
    for crate, names in gone.items():
        at(crate, "functions gone or renamed: " + ", ".join(names))
    for title in ("ghost items and constants", "definitions"):
        part = found[title]
        for row in part["changed"]:
            crate, *name, old, new = row
            lines = at(crate, f"{'definition' if title == 'definitions' else 'item'} `{' '.join(name)}`")
            pair(lines, "; ".join(squeeze(x) for x in old), "; ".join(squeeze(x) for x in new))
        names = {}
        for row in part["gone"]:
            crate, *name = row
            names.setdefault(crate, []).append(f"`{' '.join(name)}`")
        for crate, rows in names.items():
            at(crate, f"{title} gone: " + ", ".join(rows))
    for crate in sorted(crates):
        print(f"\n### {crate}\n")
        print("\n".join(crates[crate]))


main()
