#!/usr/bin/env python3
"""Turns a readable list of bookings into the input of the program `board`, and back; `boardfile.py --help` says how. It is the module of the Python package of
that name, run by itself."""
import runpy
from pathlib import Path

PACKAGE = Path(__file__).resolve().parents[1] / "bindings/python/servercape"

if __name__ == "__main__":
    runpy.run_path(str(PACKAGE / "boardfile.py"), run_name="__main__")
