"""Files, compressed or not."""
from __future__ import annotations

import contextlib
import errno
import importlib
import os
import shutil
import stat
import subprocess
import tempfile
from io import BufferedReader, FileIO
from typing import IO, Any, Iterator, Tuple, Union

from ._answers import InputTooLong

Path = Union[str, bytes, "os.PathLike[Any]"]

# the longest input, in bytes, and how much of one is read at a time
LIMIT, _PIECE = 4_294_967_296, 1 << 20
# how a compressed file begins, and the module or the program that decompresses it
_PROGRAM = "zstd"
_COMPRESSED = ((b"\x1f\x8b", "gzip"), (b"BZh", "bz2"), (b"\xfd7zXZ\x00", "lzma"), (b"\x28\xb5\x2f\xfd", _PROGRAM))


class NotDecompressed(OSError):
    """A compressed file is damaged, or what decompresses it isn't there."""


def read(path: Path, max_bytes: int = LIMIT) -> bytearray:
    """Returns what a file holds. It is decompressed if it begins as one of gzip, bzip2, xz or zstd.

    Raises:
        OSError: The file can't be opened or read, a compressed file is damaged, or there is no program `zstd` for one of zstd.
        InputTooLong: It has more than `max_bytes` bytes, decompressed. No more than that is held in memory.
    """
    with open(path, "rb", buffering=0) as file:
        return content_of(file, os.fstat(file.fileno()), path, max_bytes)


def open_ordinary(path: Path) -> Tuple[FileIO, os.stat_result]:
    """Opens a file that has to be an ordinary one, and returns what is known of it. Another, such as a pipe, isn't waited for.

    Raises:
        OSError: The file can't be opened, or isn't an ordinary one.
    """
    number = os.open(path, os.O_RDONLY | os.O_CLOEXEC | os.O_NONBLOCK | os.O_NOCTTY)
    about = os.fstat(number)
    if stat.S_ISREG(about.st_mode):
        return FileIO(number), about
    os.close(number)
    raise OSError(errno.EINVAL, "not an ordinary file", path)


def content_of(file: FileIO, about: os.stat_result, path: Path, max_bytes: int = LIMIT) -> bytearray:
    """Returns what an open file holds, as `read` does."""
    if stat.S_ISREG(about.st_mode):
        start, first = file.tell(), file.read(min(about.st_size + 1, _PIECE)) or b""
        tool = _tool_of(first)
        if tool:
            file.seek(start)
            return _decompressed(tool, file, path, max_bytes)
        if about.st_size > max_bytes:
            raise InputTooLong("sas: input too long")
        return _all_of(file, max_bytes, first)
    stream = BufferedReader(file)
    tool = _tool_of(stream.peek(6))
    return _decompressed(tool, stream, path, max_bytes) if tool else _all_of(stream, max_bytes)


def _tool_of(first: bytes) -> str:
    """Returns what decompresses a file that begins so, if it is compressed."""
    return next((tool for begin, tool in _COMPRESSED if first.startswith(begin)), "")


def _decompressed(tool: str, file: IO[bytes], path: Path, max_bytes: int) -> bytearray:
    """Returns what a compressed file holds."""
    if tool == _PROGRAM:
        return _by_program(file, path, max_bytes)
    try:
        with importlib.import_module(tool).open(file) as opened:
            return _all_of(opened, max_bytes)
    except (MemoryError, InputTooLong):
        raise
    except Exception as fault:  # each of the modules has exceptions of its own
        raise _damaged(path, str(fault)) from fault


def _damaged(path: Path, how: str) -> NotDecompressed:
    return NotDecompressed(errno.EIO, f"the compressed file is damaged: {how}", path)


def _all_of(file: Union[FileIO, IO[bytes]], max_bytes: int, first: bytes = b"") -> bytearray:
    """Returns what of a file was read, and what is left."""
    held = bytearray(first)
    while len(held) <= max_bytes:
        piece = file.read(_PIECE)
        if not piece:
            return held
        held += piece
    raise InputTooLong("sas: input too long")


def _by_program(file: IO[bytes], path: Path, max_bytes: int) -> bytearray:
    """Returns what a file of zstd holds."""
    with _from_start(file) as source:
        try:
            tool = subprocess.Popen([_PROGRAM, "-dcq"], stdin=source, stdout=subprocess.PIPE, stderr=subprocess.DEVNULL)
        except FileNotFoundError:
            raise NotDecompressed(errno.ENOENT, "there is no program zstd", path) from None
        with tool:
            try:
                assert tool.stdout
                held = _all_of(tool.stdout, max_bytes)
            except BaseException:
                tool.kill()
                raise
    if tool.returncode:
        raise _damaged(path, f"zstd ended with status {tool.returncode}")
    return held


@contextlib.contextmanager
def _from_start(file: IO[bytes]) -> Iterator[IO[bytes]]:
    """Gives a file that a program reads from its start: a pipe, which can't go back there, as a copy."""
    if file.seekable():
        yield file
        return
    with tempfile.TemporaryFile() as copy:
        shutil.copyfileobj(file, copy)
        copy.flush()
        copy.seek(0)
        yield copy
