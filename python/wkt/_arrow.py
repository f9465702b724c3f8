"""Columns that Arrow's C data interface and C stream interface lend, in and out, with no object for a row.

What has `__arrow_c_array__` or `__arrow_c_stream__` lends its buffers, with no import of pyarrow. wkt/_fast takes and
checks them, and lends what comes back. The bytes of the texts are not copied: they must not change during a call, as
Arrow has it.
"""
import struct
from collections.abc import Sequence
from typing import Any, Dict, Iterator, List, Optional, Tuple

from ._buffers import (
    Buffers, Chunk, Texts, answered, bounds, fixed_array, fixed_packed, is_fixed, joined, rows_in, shown_text,
    statuses_of,
)  # fmt: skip
from ._errors import printable
from ._names import NOT_UTF8
from ._native import _fast
from ._progress import Progress
from ._slow import Packed
from ._values import numpy

_NULLABLE = 2
LACKING = (
    "Arrow columns need NumPy and wkt._fast, the module in C that a wheel for Python 3.11 and later has; "
    "a list works without"
)


def lends(values: Any) -> bool:
    """Whether it lends buffers by Arrow's interfaces. A Series of pandas may, and is a Series first."""
    return hasattr(values, "__arrow_c_array__") or hasattr(values, "__arrow_c_stream__")


def is_texts(values: Any) -> bool:
    """Whether its texts are taken as buffers."""
    if numpy is None:
        return False
    from ._columns import is_series

    return is_fixed(values) or (_fast is not None and lends(values) and not is_series(values))


def _chunk(parts: Any) -> Chunk:
    data, offsets, bits, rows, indices = parts
    if offsets is None:
        return Chunk(data, None if indices is None else numpy.frombuffer(indices, numpy.int32))
    packed = Packed(
        numpy.frombuffer(data, numpy.uint8),
        numpy.frombuffer(offsets, numpy.int64),
        numpy.frombuffer(bits, numpy.uint8),
        rows,
    )
    return Chunk(packed)


def _rest(stream: Any) -> Iterator[Any]:
    while True:
        parts = _asked(_fast.arrow_next, stream)
        if parts is None:
            return
        yield parts


def _asked(call: Any, *given: Any) -> Any:
    """What a call of wkt._fast returns. What a producer says stands in its errors as it is shown."""
    try:
        return call(*given)
    except OSError as error:
        error.strerror = printable(str(error.strerror))
        raise
    except TypeError as error:
        error.args = tuple(printable(str(it)) for it in error.args)
        raise


def parts_of(column: Any, is_geo: bool) -> Tuple[Any, Iterator[Any], Optional[Any]]:
    """What wkt._fast says of the type of a column, its chunks, and the only one, where it is no stream."""
    if hasattr(column, "__arrow_c_array__"):
        about, parts = _asked(_fast.arrow_array, *column.__arrow_c_array__(), is_geo)
        return about, iter([parts]), parts
    stream, about = _asked(_fast.arrow_stream, column.__arrow_c_stream__(), is_geo)
    return about, _rest(stream), None


def taken(column: Any) -> Buffers:
    """The buffers of a column of texts, each chunk of which keeps what lends it."""
    if is_fixed(column):
        packed = fixed_packed(column)
        return Buffers(iter([Chunk(packed)]), packed.rows)
    (indexed, metadata), parts, only = parts_of(column, False)
    refuse_binary(pairs_of(metadata))
    rows = None if only is None else _chunk(only).rows
    return Buffers(map(_chunk, parts), rows, metadata, bool(indexed))


def rows_of(column: Any) -> List[Any]:
    """The rows as a list."""
    return rows_in(taken(column))


def refuse_binary(pairs: Dict[str, str]) -> None:
    """A TypeError of a column of well-known binary, which GeoPandas lends unless it is told otherwise."""
    if pairs.get("ARROW:extension:name") in ("geoarrow.wkb", "ogc.wkb"):
        raise TypeError(
            "well-known binary isn't read: wkt.keys takes a GeoSeries itself, or what its "
            "to_arrow(geometry_encoding='geoarrow') gives; in SQL, ST_AsText gives texts"
        )


def pairs_of(metadata: bytes) -> Dict[str, str]:
    """The metadata of a type, such as `ARROW:extension:name`."""
    found, at = [], 4
    for _ in range(2 * struct.unpack_from("=i", metadata)[0] if metadata else 0):
        (length,) = struct.unpack_from("=i", metadata, at)
        found.append(metadata[at + 4 : at + 4 + length].decode("utf-8", "replace"))
        at += 4 + length
    return dict(zip(found[::2], found[1::2]))


def metadata_of(pairs: Dict[str, str]) -> bytes:
    """The same as Arrow has it."""
    words = [word.encode() for pair in pairs.items() for word in pair]
    return struct.pack("=i", len(pairs)) + b"".join(struct.pack("=i", len(word)) + word for word in words)


def _copy(values: Any, kind: str, what: str) -> Any:
    copy = numpy.array(values) if isinstance(values, numpy.ndarray) else None
    if copy is None or copy.dtype != kind or copy.ndim != 1:
        raise TypeError("%s is an array of %s in one dimension" % (what, kind))
    return copy


def _checked(data: Any, offsets: Any, statuses: Any, indices: Any) -> Texts:
    """Copies of buffers that somebody made, each of its type, and in order. A row that isn't UTF-8 has status 20."""
    data, offsets = _copy(data, "uint8", "data"), _copy(offsets, "int64", "offsets")
    statuses = _copy(statuses, "uint32", "statuses")
    if indices is None and len(offsets) != len(statuses) + 1:
        raise ValueError("there is one offset more than statuses, and not %d of %d" % (len(offsets), len(statuses)))
    if not len(offsets) or offsets[0] < 0 or offsets[-1] > len(data) or (offsets[1:] < offsets[:-1]).any():
        raise ValueError("the offsets are 0 to %d, each not below the one before it" % len(data))
    if indices is not None:
        indices = _copy(indices, "int32", "indices")
        if len(indices) != len(statuses):
            raise ValueError("there is an index for each status, and not %d of %d" % (len(indices), len(statuses)))
        if ((indices < 0) | (indices >= len(offsets) - 1))[statuses == 0].any():
            raise ValueError("the indices of rows without a status are 0 to %d" % (len(offsets) - 2))
        indices[statuses != 0] = 0
    if (data > 127).any():
        text, ends = data.tobytes(), offsets.tolist()
        its = [shown_text(text[start:end]) for start, end in zip(ends, ends[1:])]
        wrong = [i for i, it in enumerate(its) if not isinstance(it, str)]
        has = numpy.arange(len(statuses)) if indices is None else indices
        statuses[(statuses == 0) & numpy.isin(has, wrong)] = NOT_UTF8
    return Texts(data, offsets, statuses, indices)


def _tree(metadata: bytes, rows: int, nulls: int, buffers: Any, known: Any) -> Tuple[Any, ...]:
    """A column as wkt._fast lends it: of large_utf8, or a dictionary of such texts that are known."""
    if known is None:
        return ("U", "", metadata, _NULLABLE, rows, nulls, buffers, ())
    count = max(len(known[0]) - 1, 0) if known else 0
    texts = ("U", "", b"", 0, count, 0, (None, *known) if known else (), ())
    return ("i", "", metadata, _NULLABLE, rows, nulls, buffers, (), texts)


class ArrowTexts(Sequence):  # type: ignore[type-arg]
    """Texts as an Arrow column of large_utf8: a sequence of str and None, which lends its buffers.

    It has `__arrow_c_array__` and `__arrow_c_stream__`: `pyarrow.array(column)` and `polars.Series(column)` take it.
    `data`, `offsets` and `statuses` are NumPy arrays that can't be written: the bytes of all texts, where each row's
    begin, with the end of the last, and the status of each row, which is 0 unless the row is null (28: it was null
    before; else why the text of the row is refused). `metadata` is that of its type, such as `ARROW:extension:name`.
    `indices` is None, or an array of int32: then the column is a dictionary, each of whose texts is there once, and row
    i has the text `indices[i]`.
    """

    def __init__(
        self, data: Any, offsets: Any, statuses: Any, metadata: Optional[Dict[str, str]] = None, indices: Any = None
    ) -> None:
        if _fast is None or numpy is None:
            raise ImportError(LACKING)
        self._set(_checked(data, offsets, statuses, indices), metadata_of(metadata) if metadata else b"")

    @classmethod
    def _of(cls, texts: Texts, metadata: bytes) -> "ArrowTexts":
        """Of buffers that are in order."""
        made = cls.__new__(cls)
        made._set(texts, metadata)
        return made

    def _set(self, texts: Texts, metadata: bytes) -> None:
        for values in texts:
            while isinstance(values, numpy.ndarray):
                values.flags.writeable = False
                values = values.base
        # A view of what can't be written can't be made writable again.
        self._texts = Texts(*(values if values is None else values[:] for values in texts))
        self._metadata = metadata

    def __reduce__(self) -> Tuple[Any, ...]:
        """Copies, and those of pickle, are made anew: checked, and as little writable."""
        data, offsets, statuses, indices = self._texts
        return type(self), (data, offsets, statuses, None, indices), {"_metadata": self._metadata}

    @property
    def data(self) -> Any:
        """The bytes of all texts, as an array of uint8."""
        return self._texts.data

    @property
    def offsets(self) -> Any:
        """Where each text begins in `data`, and the end of the last: int64."""
        return self._texts.offsets

    @property
    def statuses(self) -> Any:
        """The status of each row, 0 unless it is null: uint32."""
        return self._texts.statuses

    @property
    def indices(self) -> Any:
        """Which text each row of a dictionary has: int32; else None."""
        return self._texts.indices

    @property
    def metadata(self) -> Dict[str, str]:
        """What the type of the column says, such as `ARROW:extension:name`."""
        return pairs_of(self._metadata)

    def __len__(self) -> int:
        return len(self.statuses)

    def __getitem__(self, index: Any) -> Any:
        if isinstance(index, slice):
            start, stop, step = index.indices(len(self))
            if step != 1:
                return self.to_pylist()[index]
            data, offsets, statuses, indices = self._texts
            if indices is not None:
                texts = Texts(data, offsets, statuses[start:stop], indices[start:stop])
                return ArrowTexts._of(texts, self._metadata)
            ends = offsets[start : max(start, stop) + 1]
            texts = Texts(data[ends[0] : ends[-1]], ends - ends[0], statuses[start : max(start, stop)])
            return ArrowTexts._of(texts, self._metadata)
        if self.statuses[index]:
            return None
        index = range(len(self))[index] if self.indices is None else self.indices[index]
        return self.data[self.offsets[index] : self.offsets[index + 1]].tobytes().decode("utf-8")

    def __repr__(self) -> str:
        shown = [text if text is None or len(text) < 60 else text[:57] + "..." for text in self[:5].to_pylist()]
        more = ", ..." if len(self) > 5 else ""
        return "<wkt.ArrowTexts: %d rows, %d null: [%s%s]>" % (
            len(self),
            self._nulls(),
            ", ".join(map(repr, shown)),
            more,
        )

    def to_pylist(self) -> List[Optional[str]]:
        """The texts as a list of str and None."""
        data, offsets, statuses, indices = self._texts
        text, codes = data.tobytes(), statuses if indices is None else offsets[1:] * 0
        texts = [
            None if status else text[start:end].decode("utf-8", "replace")
            for status, start, end in bounds(Texts(data, offsets, codes))
        ]
        if indices is None:
            return texts
        return [None if status else texts[i] for status, i in zip(statuses.tolist(), indices.tolist())]

    def _nulls(self) -> int:
        return int(numpy.count_nonzero(self._texts.statuses))

    def _tree(self) -> Tuple[Any, ...]:
        """The column as wkt._fast lends it: what its buffers have, and not what a subclass says."""
        data, offsets, statuses, indices = self._texts
        bits, rows = numpy.packbits(statuses == 0, bitorder="little"), len(statuses)
        buffers = (bits, offsets, data) if indices is None else (bits, indices)
        return _tree(self._metadata, rows, self._nulls(), buffers, None if indices is None else (offsets, data))

    def __arrow_c_schema__(self) -> Any:
        return _fast.export_schema(self._tree())

    def __arrow_c_array__(self, requested_schema: Any = None) -> Tuple[Any, Any]:
        lent: Tuple[Any, Any] = _fast.export(self._tree())
        return lent

    def __arrow_c_stream__(self, requested_schema: Any = None) -> Any:
        tree = self._tree()
        return _fast.export_stream(tree, iter([tree]))


class Batches:
    """Canonical texts of an Arrow stream, batch by batch: an iterator of `ArrowTexts`, which is a stream itself.

    One batch is held at a time. What it is made of is read once, and so is this: by `for` or by a consumer.
    """

    def __init__(self, held: Buffers, places: int, invalid: str, progress: Progress) -> None:
        self._metadata, self._indexed = held.metadata, held.indexed
        self._answers = answered(held, places, invalid, progress)

    def __iter__(self) -> "Batches":
        return self

    def __next__(self) -> ArrowTexts:
        return ArrowTexts._of(next(self._answers), self._metadata)

    def _type(self) -> Tuple[Any, ...]:
        return _tree(self._metadata, 0, 0, (), () if self._indexed else None)

    def __arrow_c_schema__(self) -> Any:
        return _fast.export_schema(self._type())

    def __arrow_c_stream__(self, requested_schema: Any = None) -> Any:
        return _fast.export_stream(self._type(), (batch._tree() for batch in self))


def canonical(column: Any, places: int, invalid: str, progress: Progress) -> Any:
    """The canonical texts of an Arrow column as another, or of an array of bytes as another."""
    held, fixed = taken(column), is_fixed(column)
    texts = joined(list(answered(held, places, invalid, progress, fixed)), held.indexed)
    return fixed_array(texts, column.shape) if fixed else ArrowTexts._of(texts, held.metadata)


def statuses(column: Any, places: int, progress: Progress = None) -> Any:
    """The status of each row, as an array of the column's shape."""
    result = numpy.concatenate([numpy.empty(0, numpy.uint32), *statuses_of(taken(column), places, progress)])
    return result.reshape(column.shape) if is_fixed(column) else result
