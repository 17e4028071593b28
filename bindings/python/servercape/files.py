"""Files read whole, and written whole or not at all."""
import errno
import os
import secrets
import stat
import struct
import sys
from collections.abc import Iterator
from contextlib import suppress
from pathlib import Path

from .index import Block, Kind

# docs/RULES.md, "Files": the kind of a board and the number of its blocks; of a block its kind, first cell, length, created, destroyed, and then its bytes.
BOARD_HEAD = struct.Struct("<BQ")
BLOCK_HEAD = struct.Struct("<BQQQQ")
KINDS = tuple(Kind)

# What a folder says that cannot be brought to the disk by itself.
NOT_SYNCED = (errno.EACCES, errno.EINVAL, errno.ENOTSUP)


def read_file(name: str) -> bytes:
    """A file's bytes; `-` is standard input. An error names the file."""
    try:
        return sys.stdin.buffer.read() if name == "-" else Path(name).read_bytes()
    except OSError as error:
        raise OSError(error.errno, error.strerror, "standard input" if name == "-" else name) from None


def file_blocks(data: bytes, at: int) -> Iterator[Block]:
    """The blocks of a board whose file starts at a position, and which was loaded from there: those of `Index.blocks`, without a call for each."""
    unpack, size, make = BLOCK_HEAD.unpack_from, BLOCK_HEAD.size, Block._make
    _, count = BOARD_HEAD.unpack_from(data, at)
    at += BOARD_HEAD.size
    for _ in range(count):
        kind, first, length, created, destroyed = unpack(data, at)
        start = at + size
        at = start + length
        yield make((KINDS[kind], first, created, destroyed, data[start:at]))


def check_target(name: str) -> None:
    """Raises what `write_file` would raise of a file that may not be written, or of a folder that is not there."""
    path = Path(name)
    if name == "-":
        return
    if path.is_dir():
        raise IsADirectoryError(errno.EISDIR, os.strerror(errno.EISDIR), name)
    if not path.exists():
        if not path.resolve().parent.is_dir():
            raise FileNotFoundError(errno.ENOENT, "its folder is not there", name)
    # who is root may write what nobody may, and did not mean to
    elif not (stat.S_IMODE(path.stat().st_mode) & 0o222 and os.access(path, os.W_OK)):
        raise PermissionError(errno.EACCES, "it is read-only", name)


def write_file(name: str, data: bytes | memoryview) -> None:
    """Writes a file whole or not at all: what stood there stays until the new file is on the disk. `-` is standard output; what is no plain file, as a pipe, is
    written as it is. An error names the file."""
    if name == "-":
        sys.stdout.buffer.write(data)
        return
    check_target(name)
    path = Path(name)
    try:
        if path.exists() and not path.is_file():
            path.write_bytes(data)
        else:
            replace(path.resolve(), data)
    except OSError as error:
        raise OSError(error.errno, error.strerror, name) from None


def replace(path: Path, data: bytes) -> None:
    """Puts a file in the place of the one before, whose owner and mode it takes over."""
    part = path.with_name(f".servercape-{secrets.token_hex(8)}.part")
    descriptor = os.open(part, os.O_WRONLY | os.O_CREAT | os.O_EXCL | os.O_CLOEXEC, 0o666)
    try:
        with open(descriptor, "wb") as file:
            file.write(data)
            file.flush()
            with suppress(FileNotFoundError):
                take_over(path.stat(), descriptor)
            os.fsync(descriptor)
        part.replace(path)
    finally:
        part.unlink(missing_ok=True)
    sync_folder(path.parent)


def take_over(old: os.stat_result, descriptor: int) -> None:
    """Gives a file the owner, where that is allowed, and the mode of another."""
    with suppress(PermissionError):
        os.fchown(descriptor, old.st_uid, old.st_gid)
    os.fchmod(descriptor, stat.S_IMODE(old.st_mode))


def sync_folder(folder: Path) -> None:
    """Brings a folder's names to the disk, where the system can."""
    try:
        descriptor = os.open(folder, os.O_RDONLY | os.O_DIRECTORY | os.O_CLOEXEC)
        try:
            os.fsync(descriptor)
        finally:
            os.close(descriptor)
    except OSError as error:
        if error.errno not in NOT_SYNCED:
            raise
