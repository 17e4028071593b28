"""What pip asks to build the package (PEP 517 and 660), by the standard library alone: so
`pip install` needs no network and no other package.

A wheel is an archive of the package's files, with its library, and of what pyproject.toml says. A
source archive has the library too: it is proved, and what compiles it is not on every machine. An
editable install is a wheel with the path of this folder alone.
"""
import base64
import hashlib
import io
import os
import subprocess
import sysconfig
import tarfile
import tomllib
from collections.abc import Mapping
from pathlib import Path
from typing import Any
from zipfile import ZIP_DEFLATED, ZipFile, ZipInfo

HERE = Path(__file__).resolve().parent
PACKAGE = HERE / "servercape"
LIBRARY = "libservercape.so"
NOTICE = "NOTICE"
PROJECT: dict[str, Any] = tomllib.loads((HERE / "pyproject.toml").read_text("utf-8"))["project"]
RELEASE = f"{PROJECT['name']}-{PROJECT['version']}"
INFO = f"{RELEASE}.dist-info"
TAG = f"py3-none-{sysconfig.get_platform().replace('-', '_').replace('.', '_')}"
WHEEL = f"{RELEASE}-{TAG}.whl"

Settings = Mapping[str, Any] | None


# ── what goes into it ──


def metadata() -> str:
    """The package as PKG-INFO and METADATA describe it."""
    fields = {
        "Metadata-Version": "2.1",
        "Name": PROJECT["name"],
        "Version": PROJECT["version"],
        "Summary": PROJECT["description"],
        "License": PROJECT["license"]["text"],
        "License-File": NOTICE,
        "Requires-Python": PROJECT["requires-python"],
        "Description-Content-Type": "text/markdown",
    }
    head = "".join(f"{name}: {value}\n" for name, value in fields.items())
    return f"{head}\n{(HERE / PROJECT['readme']).read_text('utf-8')}"


def described() -> dict[str, bytes]:
    """The files that describe a wheel, but for the list of all."""
    commands = "".join(f"{name} = {function}\n" for name, function in PROJECT["scripts"].items())
    texts = {
        "METADATA": metadata(),
        "WHEEL": f"Wheel-Version: 1.0\nGenerator: servercape\nRoot-Is-Purelib: false\nTag: {TAG}\n",
        "entry_points.txt": f"[console_scripts]\n{commands}",
    }
    files = {f"{INFO}/{name}": text.encode() for name, text in texts.items()}
    return files | {f"{INFO}/{NOTICE}": notice()}


def in_checkout(name: str) -> Path | None:
    """A file of the repository, where this folder stands in a checkout of it."""
    path = HERE.parents[1] / name if len(HERE.parents) > 1 else None
    return path if path and (HERE.parent / "servercape.h").exists() and path.exists() else None


def notice() -> bytes:
    """The origin and the licences: of the repository, or as a source archive brings it along."""
    return (in_checkout(NOTICE) or HERE / NOTICE).read_bytes()


def library() -> bytes:
    """The shared library: of the folder that SERVERCAPE_LIB names, or as a source archive brings it
    along, or of the folder that `tools/built` of the repository names."""
    if "SERVERCAPE_LIB" not in os.environ and (PACKAGE / LIBRARY).exists():
        return (PACKAGE / LIBRARY).read_bytes()
    built = in_checkout("tools/built")
    if built:
        said = subprocess.run([built], stdout=subprocess.PIPE, text=True, check=True)
        return Path(said.stdout.strip(), LIBRARY).read_bytes()
    return Path(os.environ["SERVERCAPE_LIB"], LIBRARY).read_bytes()


def packaged() -> dict[str, bytes]:
    """The package's files by name, with the library as one of them."""
    kinds = (".py", ".html", ".typed")
    sources = [path for path in sorted(PACKAGE.iterdir()) if path.suffix in kinds]
    files = {f"servercape/{path.name}": path.read_bytes() for path in sources}
    return files | {f"servercape/{LIBRARY}": library()}


# ── what pip calls ──


def wheel_of(directory: str, files: dict[str, bytes]) -> str:
    """Writes a wheel of some files, and of what describes it."""
    files = files | described()
    record = f"{INFO}/RECORD"
    rows = [f"{name},sha256={digest(data)},{len(data)}\n" for name, data in files.items()]
    files[record] = "".join([*rows, f"{record},,\n"]).encode()
    with ZipFile(Path(directory, WHEEL), "w", ZIP_DEFLATED) as wheel:
        for name, data in files.items():
            wheel.writestr(ZipInfo(name), data, ZIP_DEFLATED)
    return WHEEL


def digest(data: bytes) -> str:
    return base64.urlsafe_b64encode(hashlib.sha256(data).digest()).rstrip(b"=").decode()


def build_wheel(
    wheel_directory: str, config_settings: Settings = None, metadata_directory: str | None = None
) -> str:
    return wheel_of(wheel_directory, packaged())


def build_editable(
    wheel_directory: str, config_settings: Settings = None, metadata_directory: str | None = None
) -> str:
    return wheel_of(wheel_directory, {f"{PROJECT['name']}.pth": f"{HERE}\n".encode()})


def build_sdist(sdist_directory: str, config_settings: Settings = None) -> str:
    name = f"{RELEASE}.tar.gz"
    own = ("pyproject.toml", "backend.py", PROJECT["readme"])
    files = {each: (HERE / each).read_bytes() for each in own}
    files |= packaged() | {NOTICE: notice(), "PKG-INFO": metadata().encode()}
    with tarfile.open(Path(sdist_directory, name), "w:gz") as archive:
        for each, data in files.items():
            entry = tarfile.TarInfo(f"{RELEASE}/{each}")
            entry.size, entry.mode = len(data), 0o644
            archive.addfile(entry, io.BytesIO(data))
    return name
