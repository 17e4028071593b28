"""What the tests share: where things are, with the library found and the package and the tools to be imported.

    python3 -m unittest discover -s bindings/python/tests
"""
import os
import subprocess
import sys
from pathlib import Path

TESTS = Path(__file__).resolve().parent
PACKAGE = TESTS.parent
ROOT = PACKAGE.parents[1]
EXAMPLES = ROOT / "examples"

if "SERVERCAPE_LIB" not in os.environ:
    built = subprocess.run([ROOT / "tools/built"], stdout=subprocess.PIPE, text=True, check=True)
    os.environ["SERVERCAPE_LIB"] = built.stdout.strip()
sys.path[:0] = [str(PACKAGE), str(ROOT / "tools")]
