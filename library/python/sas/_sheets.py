"""Rows of tables, as CSV or as JSON lines: written, and read again."""
from __future__ import annotations

import csv
import errno
import fcntl
import io
import json
import os
import stat
import sys
from typing import IO, Any, Dict, Iterator, List, Optional, Sequence

from ._streams import FAULT, INVALID_ARGUMENTS, Stopped, said, write_all, write_out

Row = Dict[str, Any]

# the columns of a table of plans; those of a pattern or a list stand between
BEFORE, BEHIND = ("task", "plan"), ("verdict", "refused_file", "steps", "cost", "sum", "bytes", "modified", "reason")
REASONS = "reasons"


def csv_line(columns: Sequence[str], row: Row) -> bytes:
    """Returns a row as CSV."""
    text = io.StringIO()
    # before Python 3.13 the end of a line decides whether a CR is quoted
    csv.writer(text, lineterminator="\r\n").writerow([row.get(name) for name in columns])
    return f"{text.getvalue()[:-2]}\n".encode(errors="surrogateescape")


def json_line(columns: Sequence[str], row: Row) -> bytes:
    """Returns a row as a JSON line."""
    return (json.dumps({name: row.get(name) for name in columns}) + "\n").encode()


class Records:
    """The records of a CSV file, one after another.

    Attributes:
        count: How many were read.
        size: How many bytes of the file these have.
        is_whole: Whether the last line that was read has an end.
        is_at_end: Whether the file was read to its end.
    """

    def __init__(self, file: IO[bytes], is_strict: bool = False) -> None:
        """Begins to read a file. Strictly read, a record that the end of the file cuts off within quotes is an error."""
        self.count, self.size, self.is_whole, self.is_at_end = 0, 0, True, False
        self._file = file
        # reasons may be long
        csv.field_size_limit(sys.maxsize)
        self._records = csv.reader(self._lines(), strict=is_strict)

    def __iter__(self) -> Iterator[List[str]]:
        return self

    def __next__(self) -> List[str]:
        """Returns the next record. Raises csv.Error if that isn't CSV; the one behind it can be read."""
        self.count += 1
        return next(self._records)

    def _lines(self) -> Iterator[str]:
        for line in self._file:
            text = line.decode(errors="surrogateescape")
            # some programs put a mark before the first line
            text = text if self.size else text.lstrip("\ufeff")
            self.size += len(line)
            self.is_whole = line.endswith(b"\n")
            yield text
        self.is_at_end = True


class Sheet:
    """A table that is written, on standard output or to a file.

    Attributes:
        moment: When the file was written before, in ns since 1970.
    """

    def __init__(self, columns: Sequence[str], is_json: bool, path: Optional[str] = None, is_resumed: bool = False) -> None:
        """Begins a table. A file is emptied, unless the table is to be resumed."""
        self._columns, self._is_json, self._path = columns, is_json, path
        self._has_head = is_json
        self._file: Optional[IO[bytes]] = None
        self.moment = 0
        if path is not None:
            try:
                self._file = open(path, "rb", opener=_opened)
                about = os.fstat(self._file.fileno())
                self.moment = about.st_mtime_ns
                if stat.S_ISREG(about.st_mode) and not is_resumed:
                    os.truncate(self._file.fileno(), 0)
            except OSError as fault:
                raise self._failed(fault) from None

    def earlier(self) -> Iterator[Row]:
        """Yields the rows that the file has. What is behind the last whole one is cut off, and rows that are written then follow."""
        assert self._file
        size = 0
        try:
            for row in self._json_rows(self._file) if self._is_json else self._csv_rows(self._file):
                size = row.pop("")
                if not self._has_head:
                    self._has_head = True
                    continue
                yield row
            if not size:
                self._check_front(self._file)
            os.truncate(self._file.fileno(), size)
            os.lseek(self._file.fileno(), size, os.SEEK_SET)
        except OSError as fault:
            raise self._failed(fault) from None

    def _check_front(self, file: IO[bytes]) -> None:
        """Raises Stopped if a file without a whole row isn't empty, and not the front of a table either."""
        front = b'{"task": ' if self._is_json else self._head()
        file.seek(0)
        if not front.startswith(file.read(len(front))):
            raise self._other(1)

    def _head(self) -> bytes:
        return csv_line(self._columns, dict(zip(self._columns, self._columns)))

    def _csv_rows(self, file: IO[bytes]) -> Iterator[Row]:
        """Yields the rows of a table, the first of which are the names of the columns. Each has the number of bytes up to its end."""
        records = Records(file, is_strict=True)
        try:
            for record in records:
                if not records.is_whole:
                    return
                if len(record) != len(self._columns) or (records.count == 1 and record != list(self._columns)):
                    raise self._other(records.count)
                yield {**dict(zip(self._columns, record)), "": records.size}
        except csv.Error:
            if not records.is_at_end:
                raise self._other(records.count) from None

    def _json_rows(self, file: IO[bytes]) -> Iterator[Row]:
        size = 0
        for count, line in enumerate(file, 1):
            if not line.endswith(b"\n"):
                return
            size += len(line)
            try:
                row = json.loads(line)
            except ValueError:
                raise self._other(count) from None
            if not isinstance(row, dict) or list(row) != list(self._columns):
                raise self._other(count)
            yield {**row, "": size}

    def write(self, row: Row) -> None:
        """Writes a row, and before the first one the names of the columns."""
        if not self._has_head:
            self._has_head = True
            self._write(self._head())
        self._write((json_line if self._is_json else csv_line)(self._columns, row))

    def _write(self, text: bytes) -> None:
        if self._file is None:
            write_out(text)
            return
        try:
            write_all(self._file.fileno(), text)
        except OSError as fault:
            raise self._failed(fault) from None

    def close(self) -> None:
        """Closes the file."""
        if self._file:
            self._file.close()

    def _other(self, count: int) -> Stopped:
        return Stopped(INVALID_ARGUMENTS, f"python -m sas table: line {count} of {self._path} isn't of a table with these columns")

    def _failed(self, fault: OSError) -> Stopped:
        return Stopped(FAULT, f"python -m sas table: {self._path}: {said(fault)}")


def _opened(path: str, _: int) -> int:
    """Opens a file to be written. Where the file system can, it is locked against another run."""
    file = os.open(path, os.O_RDWR | os.O_CREAT | os.O_CLOEXEC, 0o666)
    try:
        # processes that are forked don't share this lock, and may end later
        fcntl.lockf(file, fcntl.LOCK_EX | fcntl.LOCK_NB)
    except (BlockingIOError, PermissionError):
        os.close(file)
        raise OSError(errno.EBUSY, "another run writes it") from None
    except OSError:
        pass
    return file
