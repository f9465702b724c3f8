"""Columns as buffers, with no object for a row: those that Arrow lends, and NumPy's arrays of bytes. It needs NumPy."""
import os
from typing import Any, Callable, Iterator, List, NamedTuple, Optional, Tuple

from ._names import NOT_UTF8, NULL
from ._native import calls
from ._progress import Progress, shown
from ._slow import Packed
from ._values import array_of, numpy

_KEY = os.urandom(16)  # of the hashes by which texts are told apart


class Texts(NamedTuple):
    """Answers as buffers: the bytes, where each text begins, with the end of the last, and a status of each row.

    indices: which text each row has, where some have the same; 0 of a row without one.
    """

    data: Any
    offsets: Any
    statuses: Any
    indices: Any = None


class Chunk(NamedTuple):
    """A part of a column. indices: which text each row has, and -1 of a null one; None where each has its own.

    texts: Packed, or a sequence of wkt._fast: of bytes and None, which the calls read where Arrow has them.
    """

    texts: Any
    indices: Any = None

    @property
    def rows(self) -> int:
        return self.size if self.indices is None else len(self.indices)

    @property
    def size(self) -> int:
        """How many texts there are."""
        return int(self.texts.rows if isinstance(self.texts, Packed) else len(self.texts))

    @property
    def given(self) -> Any:
        """The texts as the calls take them."""
        return tuple(self.texts) if isinstance(self.texts, Packed) else self.texts

    def packed(self) -> Packed:
        """The texts as one piece."""
        if isinstance(self.texts, Packed):
            return self.texts
        ends = numpy.cumsum([0, *(len(it or b"") for it in self.texts)])
        bits = numpy.packbits(numpy.array([it is not None for it in self.texts], bool), bitorder="little")
        data = b"".join(it or b"" for it in self.texts)
        return Packed(_bytes(data), ends.astype(numpy.int64), bits, len(self.texts))

    def text(self, at: int) -> bytes:
        held = self.texts
        if isinstance(held, Packed):
            held = [held.data[held.offsets[at] : held.offsets[at + 1]].tobytes()]
            at = 0
        return bytes(held[at])


class Buffers(NamedTuple):
    """A column as its chunks. rows: how many they have; None: only the end tells. metadata: that of Arrow's type.

    indexed: whether the chunks have indices.
    """

    chunks: Iterator[Chunk]
    rows: Optional[int]
    metadata: bytes = b""
    indexed: bool = False


def is_fixed(values: Any) -> bool:
    """Whether it is an array of bytes, which have one width. One that is masked has nulls, so it is taken by rows."""
    if not isinstance(values, numpy.ndarray) or isinstance(values, numpy.ma.MaskedArray):
        return False
    return bool(values.dtype.kind == "S" and values.ndim > 0 and values.itemsize > 0)


def fixed_packed(values: Any) -> Packed:
    """The buffers of an array of bytes: a text is what stands before the zeros at its end."""
    rows = numpy.array(values, order="C").reshape(-1)
    lengths = numpy.char.str_len(rows)
    used = numpy.arange(rows.itemsize) < lengths[:, None]
    data = rows.view(numpy.uint8).reshape(len(rows), rows.itemsize)[used]
    offsets = numpy.concatenate([[0], numpy.cumsum(lengths)]).astype(numpy.int64)
    return Packed(data, offsets, numpy.empty(0, numpy.uint8), len(rows))


def fixed_array(texts: Texts, shape: Any) -> Any:
    """Texts as an array of bytes, as wide as the longest."""
    lengths = numpy.diff(texts.offsets)
    width = max(int(lengths.max(initial=0)), 1)
    made = numpy.zeros((len(lengths), width), numpy.uint8)
    made[numpy.arange(width) < lengths[:, None]] = texts.data
    return made.view("S%d" % width).reshape(shape)


def whole(held: Buffers) -> Chunk:
    """All rows as one chunk."""
    chunks = list(held.chunks)
    if len(chunks) == 1:
        return chunks[0]
    chunks = [Chunk(chunk.packed(), chunk.indices) for chunk in chunks]
    valid, indices, before = [numpy.empty(0, numpy.uint8)], [numpy.empty(0, numpy.int32)], 0
    for texts, chosen in chunks:
        bits = (
            numpy.unpackbits(texts.bits, bitorder="little")[: texts.rows]
            if len(texts.bits)
            else numpy.ones(texts.rows, numpy.uint8)
        )
        valid.append(bits)
        if chosen is not None:
            indices.append(numpy.where(chosen < 0, -1, chosen.astype(numpy.int64) + before))
        before += texts.rows
    data = numpy.concatenate([numpy.empty(0, numpy.uint8), *(chunk.texts.data for chunk in chunks)])
    ends, all_valid = _ends([chunk.texts.offsets for chunk in chunks]), numpy.concatenate(valid)
    packed = Packed(data, ends, numpy.packbits(all_valid, bitorder="little"), len(all_valid))
    return Chunk(packed, numpy.concatenate(indices) if held.indexed else None)


def _ends(offsets: List[Any]) -> Any:
    """The offsets of chunks, each of which begins at 0, as those of all."""
    before, parts = 0, [numpy.zeros(1, numpy.int64)]
    for each in offsets:
        parts.append(each[1:] + before)
        before += int(each[-1])
    return numpy.concatenate(parts)


def canonical_chunk(chunk: Chunk, places: int, report: Optional[Callable[[int], None]]) -> Texts:
    """The canonical texts of a chunk."""
    made = calls.canonical_buffers(chunk.given, places, report)
    return Texts(_bytes(made[0]), array_of("q", made[1]), array_of("I", made[2]))


def distinct(texts: Any, places: Optional[int], keeps: bool, report: Optional[Callable[[int], None]]) -> Texts:
    """The canonical texts of some texts, or with no places these themselves, of which each is there once.

    indices: which of them each has, and -1 where it has none. keeps: a refused text has itself, if it is UTF-8.
    """
    made = calls.keys(texts, places, keeps, report, _KEY)
    return Texts(
        _bytes(made[0]), array_of("q", made[1]), array_of("I", made[2]), numpy.frombuffer(made[3], numpy.int32)
    )


def chosen(texts: Texts, indices: Any) -> Texts:
    """The rows that have some of such texts; -1: none."""
    numbers = numpy.append(texts.indices, numpy.int32(-1))[indices]
    statuses = numpy.append(texts.statuses, numpy.uint32(NULL))[indices]
    return texts._replace(statuses=statuses, indices=numpy.maximum(numbers, 0))


def _bytes(buffer: Any) -> Any:
    return numpy.frombuffer(buffer, numpy.uint8)


def refused(texts: Texts) -> Any:
    """The rows that are neither answered nor null."""
    return numpy.flatnonzero((texts.statuses != 0) & (texts.statuses != NULL))


def kept(held: Packed, texts: Texts, bytes_too: bool) -> Texts:
    """The same, with each refused row as it was given; without `bytes_too` one that isn't UTF-8 has no text still."""
    rows = refused(texts)
    if not bytes_too:
        rows = rows[texts.statuses[rows] != NOT_UTF8]
    if not len(rows):
        return texts
    parts: List[Any] = []
    done = 0
    for row in rows.tolist():
        parts += [texts.data[done : texts.offsets[row]], held.data[held.offsets[row] : held.offsets[row + 1]]]
        done = int(texts.offsets[row])
    lengths = numpy.diff(texts.offsets)
    lengths[rows] = numpy.diff(held.offsets)[rows]
    ends = numpy.concatenate([[0], numpy.cumsum(lengths)])
    statuses = texts.statuses.copy()
    statuses[rows] = 0
    return Texts(numpy.concatenate([*parts, texts.data[done:]]), ends, statuses)


def raise_first(chunk: Chunk, texts: Texts, places: int, first: int) -> None:
    """Raises the error of the first refused row of a chunk that begins at row `first`."""
    from ._explain import refusal

    for at in refused(texts)[:1].tolist():  # texts are in the order of the first row that has each
        row = at if chunk.indices is None else int(numpy.argmax(chunk.indices == at))
        raise refusal(int(texts.statuses[at]), shown_text(chunk.text(at)), places, first + row)


def shown_text(text: bytes) -> Any:
    """A text as a str, where it is UTF-8."""
    try:
        return text.decode("utf-8")
    except UnicodeDecodeError:
        return text


def _from(report: Callable[[int], None], first: int) -> Callable[[int], None]:
    return lambda done: report(first + done)


def _each(held: Buffers, progress: Progress, call: Callable[[Chunk, int, Any], Any]) -> Iterator[Any]:
    """What a call answers of each chunk, once it is asked for. It gets the chunk's first row, and what to tell rows."""
    first = 0
    with shown(progress, held.rows) as report:
        for chunk in held.chunks:
            made = call(chunk, first, None if report is None or held.indexed else _from(report, first))
            first += chunk.rows
            if held.indexed and report is not None:
                report(first)
            yield made


def answered(held: Buffers, places: int, invalid: str, progress: Progress, bytes_too: bool = False) -> Iterator[Texts]:
    """The canonical texts of each chunk: each text that rows share is answered once."""

    def call(chunk: Chunk, first: int, report: Any) -> Texts:
        keeps, is_shared = invalid == "keep", chunk.indices is not None
        texts = distinct(chunk.given, places, keeps, report) if is_shared else canonical_chunk(chunk, places, report)
        if invalid == "raise":
            raise_first(chunk, texts, places, first)
        if is_shared:
            return chosen(texts, chunk.indices)
        return kept(chunk.packed(), texts, bytes_too) if keeps else texts

    return _each(held, progress, call)


def statuses_of(held: Buffers, places: int, progress: Progress) -> Iterator[Any]:
    """The statuses of each chunk. No text is written."""

    def call(chunk: Chunk, first: int, report: Any) -> Any:
        made = array_of("I", calls.statuses(chunk.given, places, report, True))
        return made if chunk.indices is None else numpy.append(made, numpy.uint32(NULL))[chunk.indices]

    return _each(held, progress, call)


def joined(parts: List[Texts], indexed: bool = False) -> Texts:
    """The texts of chunks as one."""
    if len(parts) == 1:
        return parts[0]
    data = numpy.concatenate([numpy.empty(0, numpy.uint8), *(texts.data for texts in parts)])
    statuses = numpy.concatenate([numpy.empty(0, numpy.uint32), *(texts.statuses for texts in parts)])
    ends = _ends([texts.offsets for texts in parts])
    if not indexed:
        return Texts(data, ends, statuses)
    before = numpy.cumsum([0] + [len(texts.offsets) - 1 for texts in parts])
    indices = numpy.concatenate([numpy.empty(0, int), *(texts.indices + at for texts, at in zip(parts, before))])
    made = distinct((data, ends, b"", len(ends) - 1), None, False, None)
    return chosen(made, numpy.where(statuses, -1, indices))._replace(statuses=statuses)


def rows_in(held: Buffers) -> List[Any]:
    """The rows as str (bytes where one isn't UTF-8), and None of a null one. Rows of one text have one object."""
    rows: List[Any] = []
    for chunk in held.chunks:
        packed, indices = chunk.packed(), chunk.indices
        data, ends = packed.data.tobytes(), packed.offsets.tolist()
        texts: List[Any] = [shown_text(data[start:end]) for start, end in zip(ends, ends[1:])]
        if len(packed.bits):
            nulls = numpy.flatnonzero(numpy.unpackbits(packed.bits, bitorder="little")[: packed.rows] == 0)
            for row in nulls.tolist():
                texts[row] = None
        texts.append(None)
        rows += texts[:-1] if indices is None else [texts[i] for i in indices.tolist()]
    return rows


def bounds(texts: Texts) -> Iterator[Tuple[int, int, int]]:
    """The status of each text, and where it begins and ends."""
    return zip(texts.statuses.tolist(), texts.offsets.tolist(), texts.offsets[1:].tolist())
