"""Tables in files: their rows by blocks, and outputs that appear when they are whole."""
import array
import codecs
import contextlib
import csv
import io
import itertools
import marshal
import os
import secrets
import stat
import sys
import tempfile
from types import SimpleNamespace
from typing import Any, BinaryIO, Dict, Iterable, Iterator, List, Optional, Sequence

from ._errors import printable

BLOCK = 1 << 21  # So many characters of a file are held as rows at a time.
PARTS = 256
Row = List[str]
csv.field_size_limit(sys.maxsize)


class Failure(Exception):
    """What ends a run: its words say where and why."""


class Source:
    """A file of rows. Bytes that aren't UTF-8 go through as they are; a row without a field is passed over."""

    def __init__(self, path: str, delimiter: str, header: bool, opened: contextlib.ExitStack) -> None:
        self.path = path
        self.name = "standard input" if path == "-" else printable(path)
        self.file = opened.enter_context(open(0 if path == "-" else path, "rb"))
        if self.file.peek(2)[:2] in (codecs.BOM_UTF16_LE, codecs.BOM_UTF16_BE):
            raise Failure("%s: it is UTF-16: iconv -f UTF-16 -t UTF-8 gives what is read here" % self.name)
        self.size = os.fstat(self.file.fileno()).st_size
        self.taken = 0
        self.line = 0  # the last of the row before
        self.end = "\n"
        self.reader = csv.reader(self._lines(), delimiter=delimiter, strict=True)
        self.ahead = next(self._rows(), None)
        if self.ahead is None:
            raise Failure("%s: it is empty" % self.name)
        self.width = len(self.ahead)
        self.header: Row = []
        if header:
            self.header, self.ahead = self.ahead, None

    def _lines(self) -> Iterator[str]:
        with io.TextIOWrapper(self.file, "utf-8-sig", "surrogateescape", newline="") as text:
            first = text.readline()
            if first.endswith("\r\n"):
                self.end = "\r\n"
            for line in itertools.chain([first], text):
                self.taken += len(line)
                yield line

    def _rows(self) -> Iterator[Row]:
        try:
            for row in self.reader:
                self.line = self.reader.line_num
                if row:
                    yield row
        except csv.Error as error:
            words = str(error)
            if words == "unexpected end of data":
                words = "a quote that is opened in this row isn't closed"
            raise Failure("%s:%d: %s" % (self.name, self.line + 1, words)) from None

    def blocks(self) -> Iterator[List[Row]]:
        """The rows behind the header, some at a time."""
        rows = [] if self.ahead is None else [self.ahead]
        goal = self.taken + BLOCK
        for row in self._rows():
            rows.append(row)
            if self.taken >= goal:
                yield rows
                rows, goal = [], self.taken + BLOCK
        yield rows

    def column(self, name: str) -> int:
        """Which field has a name; without a header the name is its number, from 1 on."""
        if not self.header:
            if name.isdecimal() and 1 <= int(name) <= self.width:
                return int(name) - 1
            raise Failure("%s: without a header a column is a number, 1 to %d" % (self.name, self.width))
        if self.header.count(name) == 1:
            return self.header.index(name)
        has = "two columns" if name in self.header else "no column"
        more = "; --delimiter names what separates them" if self.width == 1 else ""
        names = ", ".join(map(printable, self.header))
        raise Failure("%s: it has %s %s, but %s%s" % (self.name, has, printable(name), names, more))


def on_disk(path: str, standard: int) -> object:
    """What is one for all paths to a file on a disk, and for nothing else; `-` is a standard stream."""
    try:
        found = os.stat(standard if path == "-" else path)
    except OSError:
        return object()
    return (found.st_dev, found.st_ino) if stat.S_ISREG(found.st_mode) else object()


def lines_of(rows: Iterable[Row], delimiter: str) -> List[str]:
    """Rows as lines of a file, without their ends."""
    made: List[str] = []
    # Python before 3.13 puts quotes around an end of a line only where it is one of this end.
    csv.writer(SimpleNamespace(write=made.append), delimiter=delimiter, lineterminator="\r\n").writerows(rows)
    return [line[:-2] for line in made]


class Output:
    """A file that appears when it is whole: it is written beside its place, and renamed. `-` is standard output."""

    def __init__(self, path: str) -> None:
        self.path = path
        self.beside: Optional[str] = None
        self.end = "\n"
        self.rows = 0
        self.text = io.TextIOWrapper(self._opened(), "utf-8", "surrogateescape", newline="")

    def _opened(self) -> BinaryIO:
        if self.path == "-":
            return open(1, "wb", closefd=False)
        mode = os.stat(self.path).st_mode if os.path.exists(self.path) else None
        if mode is not None and not stat.S_ISREG(mode):
            return open(self.path, "wb")  # a pipe, a device: what /dev/stdout leads to may have no path
        self.path = os.path.realpath(self.path)  # a link stays one
        self.beside = "%s.%s.part" % (self.path, secrets.token_hex(4))
        descriptor = os.open(self.beside, os.O_WRONLY | os.O_CREAT | os.O_EXCL, 0o666)
        if mode is not None:
            os.fchmod(descriptor, stat.S_IMODE(mode))
        return open(descriptor, "wb")

    def write(self, lines: Sequence[str]) -> None:
        if lines:
            self.rows += len(lines)
            self.text.write(self.end.join(lines) + self.end)

    def finish(self) -> None:
        """Writes what is held, so that an output that can't be written is known before another one appears."""
        self.text.flush()
        if self.beside is not None:
            os.fsync(self.text.fileno())

    def __enter__(self) -> "Output":
        return self

    def __exit__(self, error: Any, *rest: Any) -> None:
        try:
            if error is None:
                self.finish()
                if self.beside is not None:
                    os.replace(self.beside, self.path)
                    self.beside = None
        finally:
            if self.beside is not None:
                os.unlink(self.beside)
            with contextlib.suppress(OSError):
                self.text.close()


class Parts:
    """Rows in a temporary file, in parts of which each fits into memory."""

    def __init__(self, opened: contextlib.ExitStack) -> None:
        self.file = opened.enter_context(tempfile.TemporaryFile())
        self.end = 0
        self.chunks = [array.array("q") for _ in range(PARTS)]

    def add(self, parts: Iterable[int], *columns: Sequence[Any]) -> None:
        """Adds rows, which are given as columns, each to its part."""
        found: Dict[int, List[int]] = {}
        for row, part in enumerate(parts):
            found.setdefault(part, []).append(row)
        for part, rows in found.items():
            data = marshal.dumps([[column[row] for row in rows] for column in columns])
            self.chunks[part].extend((self.end, len(data)))
            self.end += self.file.write(data)

    def of(self, part: int) -> Iterator[List[Any]]:
        """The rows of a part, as columns, in the order in which they were added."""
        chunks = self.chunks[part]
        for place, length in zip(chunks[::2], chunks[1::2]):
            self.file.seek(place)
            yield marshal.loads(self.file.read(length))
