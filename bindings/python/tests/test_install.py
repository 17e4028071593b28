"""The package as pip installs it: from the checkout, from a source archive, and editable."""
import os
import subprocess
import sys
import tarfile
import tempfile
import unittest
from pathlib import Path
from zipfile import ZipFile

from support import EXAMPLES, PACKAGE, ROOT

sys.path.insert(0, str(PACKAGE))
import backend
from servercape.library import VERSION

ALONE = {name: value for name, value in os.environ.items() if not name.startswith(("SERVERCAPE_", "PYTHON"))}


class Installation(unittest.TestCase):
    def setUp(self):
        room = tempfile.TemporaryDirectory()
        self.addCleanup(room.cleanup)
        self.folder = Path(room.name)

    def pip(self, *words, env=None):
        command = [sys.executable, "-m", "pip", "install", "--quiet", "--no-index", *words]
        made = subprocess.run(command, capture_output=True, text=True, env=env, cwd="/")
        self.assertEqual(made.returncode, 0, made.stderr)

    def try_command(self, place, command):
        """The command runs without the checkout's path and variables."""
        env = ALONE | {"PYTHONPATH": str(place)}
        done = subprocess.run([command, "--version"], capture_output=True, text=True, env=env, cwd="/")
        self.assertEqual((done.returncode, done.stdout, done.stderr), (0, f"servercape {VERSION}\n", ""))
        built = subprocess.run([command, "build", EXAMPLES / "listing.txt", "-o", "-"], capture_output=True, env=env, cwd="/")
        self.assertEqual((built.returncode, len(built.stdout)), (0, 651))

    def test_wheel(self):
        wheel = self.folder / backend.build_wheel(str(self.folder))
        with ZipFile(wheel) as files:
            names = files.namelist()
            notice = files.read(f"{backend.INFO}/NOTICE")
            record = files.read(f"{backend.INFO}/RECORD").decode()
        self.assertEqual(notice, (ROOT / "NOTICE").read_bytes())
        self.assertEqual(sorted(line.split(",")[0] for line in record.splitlines()), sorted(names))
        self.assertIn("servercape/libservercape.so", names)
        self.pip("--target", self.folder / "place", wheel)
        self.try_command(self.folder / "place", self.folder / "place/bin/servercape")

    def test_source_archive(self):
        """It has the library too, so that it is installed where there is no checkout."""
        archive = self.folder / backend.build_sdist(str(self.folder))
        with tarfile.open(archive) as files:
            self.assertIn(f"{backend.RELEASE}/NOTICE", files.getnames())
        self.pip("--target", self.folder / "place", archive, env=ALONE)
        self.try_command(self.folder / "place", self.folder / "place/bin/servercape")

    def test_editable(self):
        subprocess.run([sys.executable, "-m", "venv", self.folder / "own"], check=True)
        own = self.folder / "own/bin"
        command = [own / "python", "-m", "pip", "install", "--quiet", "--no-index", "--editable", PACKAGE]
        made = subprocess.run(command, capture_output=True, text=True, cwd="/")
        self.assertEqual(made.returncode, 0, made.stderr)
        where = [own / "python", "-c", "import servercape; print(servercape.__file__)"]
        done = subprocess.run(where, capture_output=True, text=True, cwd="/")
        self.assertEqual(Path(done.stdout.strip()), PACKAGE / "servercape/__init__.py", done.stderr)


class Pages(unittest.TestCase):
    """The man page and the completion name each command, and are well formed."""

    def made(self, kind):
        command = [sys.executable, "-m", "servercape.manual", kind]
        return subprocess.run(command, capture_output=True, text=True, check=True, cwd=PACKAGE).stdout

    def test_man_page(self):
        page = self.made("man")
        self.assertTrue(page.startswith('.TH SERVERCAPE 1 "" "servercape ' + VERSION))
        for name in ("build", "blocks", "touching", "explain"):
            self.assertIn(f"\n.SS {name}\n", page)
        self.assertIn("\\-\\-calendar HOURS", page)

    def test_completion(self):
        script = f"""{self.made('bash')}
COMP_WORDS=(servercape to) COMP_CWORD=1; _servercape; echo "${{COMPREPLY[*]}}"
COMP_WORDS=(servercape build --ca) COMP_CWORD=2; _servercape; echo "${{COMPREPLY[*]}}"
COMP_WORDS=(servercape build x {PACKAGE}/pypr) COMP_CWORD=3; _servercape; echo "${{COMPREPLY[*]}}"
"""
        done = subprocess.run(["bash", "-c", script], capture_output=True, text=True)
        self.assertEqual(done.stdout.splitlines(), ["touching", "--calendar", f"{PACKAGE}/pyproject.toml"], done.stderr)


if __name__ == "__main__":
    unittest.main()
