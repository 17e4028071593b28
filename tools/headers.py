"""The C headers of bindings/, read: their calls, structs, enums and numbers.

The headers are written in a few fixed forms, and what is in none of them is an error: a comment
stands right in front of what it is about, a call returns uint64_t, and a parameter is a number, a
slice (a pointer, and its length behind it under the same name and `_length`), or a pointer to what
is handed out.
"""
import re
from dataclasses import dataclass
from pathlib import Path

COMMENT = r"/\*((?:(?!\*/).)*)\*/\s*"
CALL = re.compile(COMMENT + r"uint64_t (servercape_\w+)\(([^)]*)\);", re.DOTALL)
ENUM = re.compile(COMMENT + r"enum (\w+) \{([^}]*)\};", re.DOTALL)
STRUCT = re.compile(COMMENT + r"struct (\w+) \{([^}]*)\};", re.DOTALL)
NUMBER = re.compile(COMMENT + r"#define (SERVERCAPE_\w+) ([^\n]+)", re.DOTALL)
CONSTANT = re.compile(r"(SERVERCAPE_\w+) = (\d+),?\s*/\* (.*?) \*/")
FIELD = re.compile(r"uint64_t (\w+);\s*/\* (.*?) \*/")
PARAMETER = re.compile(r"(const )?(uint64_t|uint8_t|size_t|struct \w+) (\*?)(\w+)")

LENGTH = "_length"
TABLES = ("pieces", "blocks", "store", "nodes", "entries")


@dataclass(frozen=True)
class Parameter:
    """One parameter, as it stands in the header."""

    name: str
    type: str
    is_pointer: bool
    is_const: bool
    is_slice: bool

    @property
    def struct(self) -> str | None:
        """The name of the struct that it points to, if it does."""
        return self.type.removeprefix("struct ") if self.type.startswith("struct ") else None

    @property
    def is_length(self) -> bool:
        return self.type == "size_t"


@dataclass(frozen=True)
class Call:
    """A call: its comment, and its parameters line by line."""

    name: str
    comment: str
    lines: tuple[tuple[Parameter, ...], ...]
    is_one_line: bool

    @property
    def parameters(self) -> list[Parameter]:
        return [parameter for line in self.lines for parameter in line]

    @property
    def arguments(self) -> list[Parameter]:
        """The parameters without the lengths: a slice counts as one."""
        return [parameter for parameter in self.parameters if not parameter.is_length]


@dataclass(frozen=True)
class Constant:
    name: str
    value: str
    comment: str


@dataclass(frozen=True)
class Group:
    """An enum with its constants, or a struct with its fields, which have no value."""

    name: str
    comment: str
    members: tuple[Constant, ...]


@dataclass(frozen=True)
class Header:
    calls: tuple[Call, ...]
    enums: tuple[Group, ...]
    structs: tuple[Group, ...]
    numbers: tuple[Constant, ...]


def plain(comment: str) -> str:
    """A comment on one line."""
    return " ".join(comment.split())


def sentence(comment: str) -> str:
    """Its first sentence."""
    return re.split(r"(?<=\.) ", plain(comment))[0]


def parameter_of(text: str, lengths: set[str]) -> Parameter:
    found = PARAMETER.fullmatch(text)
    if not found:
        raise ValueError(f"a parameter in no form that is known: {text}")
    const, type_, star, name = found.groups()
    return Parameter(name, type_, bool(star), bool(const), name + LENGTH in lengths)


def call_of(comment: str, name: str, text: str) -> Call:
    texts = [] if text == "void" else text.strip().split("\n")
    lines = [line.strip().rstrip(",").split(", ") for line in texts]
    lengths = set(re.findall(rf"\w+{LENGTH}\b", text))
    parsed = tuple(tuple(parameter_of(part, lengths) for part in line) for line in lines)
    return Call(name, comment.strip(), parsed, "\n" not in text)


def group_of(found: re.Match[str], member: re.Pattern[str]) -> Group:
    comment, name, body = found.groups()
    members = [each.groups() for each in member.finditer(body)]
    if len(members) != len(re.findall("[=;]", re.sub(r"/\*.*?\*/", "", body))):
        raise ValueError(f"{name}: each of its lines has a comment of its own")
    if member is FIELD:
        members = [(field, "", said) for field, said in members]
    return Group(name, plain(comment), tuple(Constant(*each) for each in members))


def read_header(path: Path) -> Header:
    text = path.read_text("utf-8")
    calls = tuple(call_of(*found.groups()) for found in CALL.finditer(text))
    if len(calls) != text.count("uint64_t servercape_"):
        raise ValueError(f"{path.name}: a call has no comment, or is in no form that is known")
    numbers = [Constant(name, value, plain(said)) for said, name, value in NUMBER.findall(text)]
    return Header(
        calls,
        tuple(group_of(found, CONSTANT) for found in ENUM.finditer(text)),
        tuple(group_of(found, FIELD) for found in STRUCT.finditer(text)),
        tuple(numbers),
    )
