"""Files with a column of texts: their rows with keys, joined or deduplicated by them, and what is refused."""
import argparse
import contextlib
import os
import signal
import sys
from typing import Any, Dict, Iterator, List, NamedTuple, NoReturn, Optional, Sequence, Tuple

from ._calls import canonical_column
from ._errors import printable
from ._explain import why
from ._files import PARTS, Failure, Output, Parts, Row, Source, lines_of, on_disk
from ._names import NULL
from ._values import MOST_PLACES, dialects_of, places_of

REJECTS = ["file", "row", "column", "cause", "hint", "text"]
SHOWN = 10  # So many refusals are shown where they go to no file.
END = """Rows that have a key are written to --out, with the key first. A text that is refused has none, nor has an
empty field. Status 0: each text was read; 1: some were refused; 2: wrong usage, or a file can't be read or written.
docs/FILES.md has a nightly job."""


class Keyed(NamedTuple):
    """Some rows of a file, and their keys; a row without a key has None."""

    rows: List[Row]
    keys: List[Optional[str]]


class Run:
    """What a run was asked for, and what it has found."""

    def __init__(self, asked: Any, opened: contextlib.ExitStack) -> None:
        self.asked, self.opened = asked, opened
        # A signal waits until whatever it ends is known to be taken away.
        held = signal.pthread_sigmask(signal.SIG_BLOCK, (signal.SIGINT, signal.SIGTERM, signal.SIGHUP))
        try:
            self.rejects = opened.enter_context(Output(asked.rejects)) if asked.rejects else None
            self.out = opened.enter_context(Output(asked.out))
        finally:
            signal.pthread_sigmask(signal.SIG_SETMASK, held)
        self.places = places_of(asked.places, True, asked.dialect)
        self.refused = 0
        self.quiet = asked.quiet or sys.stderr is None
        self.shows = not self.quiet and sys.stderr.isatty()

    def say(self, words: str) -> None:
        if not self.quiet:
            print(words, file=sys.stderr)

    def progress(self, name: str, done: int = 0, of: int = 1) -> None:
        """Shows on a terminal how far a run is, over what it showed before."""
        if self.shows:
            words = "%s: %d %%" % (name, 100 * done // of) if name else ""
            sys.stderr.write("\r\x1b[K" + words)
            sys.stderr.flush()

    def source(self, path: str) -> Source:
        return Source(path, self.asked.delimiter, not self.asked.no_header, self.opened)

    def keyed(self, source: Source, at: int) -> Iterator[Keyed]:
        """The rows of a file by blocks, with their keys; what is refused is written down."""
        number = refused = without = 0
        for rows in source.blocks():
            cells = [(row[at] or None) if len(row) == source.width else None for row in rows]
            keys, statuses = canonical_column(cells, self.asked.places, dialect=self.asked.dialect)
            for i, status in enumerate(statuses):
                if status == NULL and len(rows[i]) == source.width:
                    without += 1
                elif status:
                    refused += 1
                    self.refuse(source, number + i + 1, rows[i], at)
            number += len(rows)
            yield Keyed(rows, keys)
            if source.size:
                self.progress(source.name, source.taken, source.size)
        self.progress("")
        self.say("%s: %d rows, %d refused, %d without a text" % (source.name, number, refused, without))

    def refuse(self, source: Source, number: int, row: Row, at: int) -> None:
        self.refused += 1
        text = row[at] if at < len(row) else ""
        if len(row) != source.width:
            place, cause = "", "fields"
            hint = "the row has %d fields, and not %d; a text with commas stands in quotes" % (len(row), source.width)
        else:
            found = why(text, self.places)
            place, cause, hint = str(found.place or ""), found.cause, found.hint
        if self.rejects is not None:
            row = [source.path, str(number), place, cause, hint, text]
            self.rejects.write(lines_of([row], self.asked.delimiter))
        elif self.refused <= SHOWN:
            self.say("%s: row %d: %s%s" % (source.name, number, "at %s: " % place if place else "", hint))

    def files(self, more: Sequence[str] = ()) -> Iterator[Tuple[Source, int]]:
        """The files, each opened in turn, with the place of their column; writes their header, which is one."""
        first: Optional[Source] = None
        for path in self.asked.files:
            source = self.source(path)
            at = source.column(self.asked.column)
            if first is None:
                first = source
                self.begin(source, more)
            elif (source.header, source.width) != (first.header, first.width):
                raise Failure("%s: it has another header than %s" % (source.name, first.name))
            yield source, at

    def begin(self, source: Source, more: Sequence[str]) -> None:
        """Writes the header, with the names of what is joined; lines end as in the first file."""
        self.out.end = source.end
        if source.header:
            if self.asked.key in source.header:
                raise Failure("%s: it has a column %s; --key names that of the keys" % (source.name, self.asked.key))
            names = [self.asked.key, *source.header]
            for name in more:
                while name in names:
                    name += "_other"
                names.append(name)
            self.out.write(lines_of([names], self.asked.delimiter))
            self.out.rows = 0

    def add_keys(self) -> None:
        """Writes each row behind its key."""
        for source, at in self.files():
            for block in self.keyed(source, at):
                self.out.write(self.lines(block)[1])

    def lines(self, block: Keyed) -> Tuple[List[Optional[str]], List[str]]:
        """The keys of the rows that are to be written, and their lines."""
        rows = [(key, row) for key, row in zip(block.keys, block.rows) if key is not None or self.asked.all]
        return [key for key, _ in rows], lines_of([[key or "", *row] for key, row in rows], self.asked.delimiter)

    def others(self) -> Tuple[Parts, Source]:
        """The rows of the other file, each as what follows a row in its line."""
        source, parts = self.source(self.asked.join), Parts(self.opened)
        at = source.column(self.asked.other_column or self.asked.column)
        for block in self.keyed(source, at):
            keys = [key for key in block.keys if key is not None]
            rows = [["", *row] for key, row in zip(block.keys, block.rows) if key is not None]
            parts.add([hash(key) % PARTS for key in keys], keys, lines_of(rows, self.asked.delimiter))
        return parts, source

    def by_key(self) -> None:
        """Deduplicates or joins: rows of one key meet in one part on disk, and are put back into their order."""
        others, other = self.others() if self.asked.join else (None, None)
        mine, ordered, count = Parts(self.opened), Parts(self.opened), 0
        for source, at in self.files(other.header if other else ()):
            for block in self.keyed(source, at):
                keys, lines = self.lines(block)
                numbers = range(count, count + len(lines))
                mine.add([hash(key) % PARTS for key in keys], keys, numbers, lines)
                count += len(lines)
        for part in range(PARTS):
            self.progress("by key", part, PARTS)
            for found in met(mine, others, part, self.asked.dedup):
                ordered.add([number * PARTS // count for number in found.numbers], *found)
        for part in range(PARTS):
            self.progress("writing", part, PARTS)
            for _, line, tails in sorted(row for columns in ordered.of(part) for row in zip(*columns)):
                self.out.write([line + tail for tail in tails])
        self.progress("")


class Met(NamedTuple):
    """Rows that are to be written: their numbers, their lines, and what follows each line, once or more."""

    numbers: List[int]
    lines: List[str]
    tails: List[List[str]]


def met(mine: Parts, others: Optional[Parts], part: int, once: bool) -> Iterator[Met]:
    """The rows of a part that are to be written.

    Keys are compared, not hashes alone. With `once` a key counts once in each file.
    """
    tails: Dict[str, List[str]] = {}
    for keys, lines in others.of(part) if others else ():
        for key, line in zip(keys, lines):
            held = tails.setdefault(key, [])
            if not (once and held):
                held.append(line)
    seen = set()
    for keys, numbers, lines in mine.of(part):
        rows = []
        for row, key in enumerate(keys):
            if (others and key not in tails) or (once and key in seen):
                continue
            rows.append(row)
            if once and key is not None:
                seen.add(key)
        ends = [tails[keys[row]] if others else [""] for row in rows]
        yield Met([numbers[row] for row in rows], [lines[row] for row in rows], ends)


def options(words: Sequence[str]) -> Any:
    """What the words of a call ask for."""
    parser = argparse.ArgumentParser(
        prog="python -m wkt.table", allow_abbrev=False, epilog=END,
        description="Adds to each row of files the key of its text: the canonical text of its geometry.",
    )  # fmt: skip
    add = parser.add_argument
    add("files", nargs="+", metavar="FILE", help="a file of comma-separated rows, with a header; - is standard input")
    add("--column", required=True, metavar="NAME", help="the column with the texts; its number without a header")
    add("--places", type=int, default=18, metavar="N", help="digits that may stand after the point, 0 to 36 (18)")
    add("--dialect", default="", metavar="NAMES", help="what is read beyond the grammar, such as ewkt,exponents")
    add("--out", default="-", metavar="FILE", help="where the rows go, each after its key (standard output)")
    add("--rejects", metavar="FILE", help="where refused texts go: " + ", ".join(REJECTS))
    add("--dedup", action="store_true", help="of rows with one key only the first")
    add("--join", metavar="OTHER", help="each row with each row of OTHER that has its key")
    add("--other-column", metavar="NAME", help="the column with the texts in OTHER (that of --column)")
    add("--all", action="store_true", help="rows without a key too: their key is empty. Not with --join")
    add("--key", default="key", metavar="NAME", help="the name of the new column (key)")
    add("--delimiter", default=",", metavar="C", help="what separates fields: a character, or the word tab")
    add("--no-header", action="store_true", help="the first row is a row like the others")
    add("-q", "--quiet", action="store_true", help="says nothing on standard error but why a run fails")
    asked = parser.parse_args(words)
    asked.delimiter = "\t" if asked.delimiter == "tab" else asked.delimiter
    if len(asked.delimiter) != 1 or asked.delimiter in '"\r\n\0':
        parser.error("--delimiter is one character, or the word tab")
    if not 0 <= asked.places <= MOST_PLACES:
        parser.error("--places is 0 to %d" % MOST_PLACES)
    try:
        dialects_of(asked.dialect)
    except ValueError as error:
        parser.error("--dialect: " + printable(str(error)))
    if asked.all and asked.join:
        parser.error("--all is not for --join: a row without a key joins no row")
    if [*asked.files, asked.join].count("-") > 1:
        parser.error("standard input is read once")
    if asked.rejects and os.path.realpath(asked.rejects) == os.path.realpath(asked.out):
        parser.error("--out and --rejects are two files")
    read = [on_disk(path, 0) for path in (*asked.files, asked.join) if path]
    if asked.rejects and on_disk(asked.rejects, 1) in read:
        parser.error("--rejects is a file that is read: its rows would be lost")
    if asked.out == "-" and on_disk("-", 1) in read:
        parser.error("standard output is a file that is read")  # as by >>, which --all would follow for ever
    return asked


def run(asked: Any) -> int:
    """The status of a run."""
    with contextlib.ExitStack() as opened:
        it = Run(asked, opened)
        if it.rejects:
            it.rejects.write(lines_of([REJECTS], asked.delimiter))
        if asked.dedup or asked.join:
            it.by_key()
        else:
            it.add_keys()
        if it.refused > SHOWN and not it.rejects:
            it.say("%d of %d refusals are shown; --rejects FILE takes all" % (SHOWN, it.refused))
        for output in (it.rejects, it.out):
            if output is not None:
                output.finish()
        it.say("%s: %d rows" % ("standard output" if asked.out == "-" else printable(asked.out), it.out.rows))
    return 1 if it.refused else 0


def ended(number: int, _: Any) -> NoReturn:
    """So that what was begun is taken away."""
    sys.exit(128 + number)


def main(words: Sequence[str]) -> int:
    try:
        asked = options(words)
        for number in (signal.SIGTERM, signal.SIGHUP):
            if signal.getsignal(number) == signal.SIG_DFL:  # nohup has one ignored
                signal.signal(number, ended)
        return run(asked)
    except KeyboardInterrupt:
        return 128 + signal.SIGINT
    except BrokenPipeError:  # as before head
        return 2
    except MemoryError:
        said = "out of memory"
    except (Failure, OSError) as error:
        said = printable(str(error))
    with contextlib.suppress(OSError):  # where nobody can be told, the status still says it
        print("wkt.table:", said, file=sys.stderr)
    return 2


if __name__ == "__main__":
    try:
        sys.exit(main(sys.argv[1:]))
    finally:
        # Python flushes it at its end, and has the status 120 where that fails.
        try:
            print(end="", file=sys.stderr, flush=True)
        except OSError:
            sys.stderr = None  # type: ignore[assignment]
