"""The shared library of the proved calls: where it is, and its calls with Python's types."""
from __future__ import annotations

import os
from collections.abc import Callable
from ctypes import CDLL, addressof, c_char_p, c_size_t, c_uint8, c_uint64, c_void_p
from pathlib import Path
from typing import Any

from .signatures import SIGNATURES, VERSION, Info

__all__ = ["Info", "Library", "VERSION", "find_library", "library"]

NAME = "libservercape.so"

# The types of a letter of a signature. What is handed out stands in a row of numbers behind the
# other arguments, and is passed by address.
TYPES: dict[str, list[type]] = {
    "s": [c_void_p, c_size_t],
    "b": [c_char_p, c_size_t],
    "n": [c_uint64],
    "k": [c_uint8],
    "o": [c_void_p],
    "i": [c_void_p],
}
MOST = {"n": (1 << 64) - 1, "k": 255}
WIDTHS = {"o": 1, "i": len(Info._fields)}

# A slice without elements has an address too.
_nowhere = c_uint64()


def folders() -> list[Path]:
    """Where the library is looked for: in the folder that SERVERCAPE_LIB names, or else in the
    package as installed, and in what a checkout has built or brings along."""
    here = Path(__file__).resolve().parent
    named = os.environ.get("SERVERCAPE_LIB")
    if named:
        return [Path(named)]
    if not (here.parent / "pyproject.toml").exists():
        return [here]
    checkout = here.parents[2]
    from_source = os.environ.get("SERVERCAPE_FROM_SOURCE") == "1"
    return [checkout / "target" / "dist" if from_source else checkout / "dist"]


def find_library() -> Path:
    """The library in the first of these folders that has it."""
    for folder in folders():
        if (folder / NAME).exists():
            return folder / NAME
    raise ImportError(f"{NAME} is not in {' or '.join(map(str, folders()))}")


def _call(library: CDLL, name: str, signature: str) -> Callable[..., tuple[int, ...]]:
    """A call as a function of numbers, bytes and arrays, which gives its result and then the values
    that it hands out."""
    function = getattr(library, f"servercape_{name}")
    function.restype = c_uint64
    function.argtypes = [part for letter in signature for part in TYPES[letter]]
    widths = [WIDTHS[letter] for letter in signature if letter in WIDTHS]
    places = [8 * sum(widths[:number]) for number in range(len(widths))]
    row = c_uint64 * sum(widths)

    def call(*arguments: Any) -> tuple[int, ...]:
        flat: list[object] = []
        for letter, argument in zip(signature, arguments):
            if letter in MOST:
                if not 0 <= argument <= MOST[letter]:
                    raise ValueError(f"{argument} is not from 0 to {MOST[letter]}")
                flat.append(argument)
            elif letter == "b":
                flat += (argument, len(argument))
            else:
                address, length = argument.buffer_info()
                flat += (address or addressof(_nowhere), length)
        values = row()
        start = addressof(values)
        flat += [start + place for place in places]
        return function(*flat), *values

    return call


class Library:
    """The calls by name, as `library.find_tested(..)`."""

    def __init__(self, path: Path) -> None:
        loaded = CDLL(str(path))
        for name, signature in SIGNATURES.items():
            setattr(self, name, _call(loaded, name, signature))

    def __getattr__(self, name: str) -> Callable[..., tuple[int, ...]]:
        raise AttributeError(f"the library has no call {name}")


library = Library(find_library())
