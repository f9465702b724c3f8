"""Geometries as flat arrays of numbers, or as events and numbers, one by one and as columns."""
import operator
from typing import Any, List, NamedTuple, Optional, Tuple

from . import _arrow, _buffers, _library
from ._calls import canonical
from ._columns import INVALID, check_invalid, column_of, is_column, or_null, rows_of
from ._errors import WktError, check, words_of
from ._names import DIMENSIONS, KINDS, NOT_COLUMN, NULL, TOO_SMALL
from ._native import bind, calls
from ._progress import Progress, shown
from ._room import Room, pointer
from ._values import WHOLE, array_of, integers, is_null, lent, numpy, places_of

CODES = dict(
    kinds="I", dimensions="I", numbers="q", number_offsets="q",
    rings="Q", ring_offsets="q", polygons="Q", polygon_offsets="q", statuses="I",
)  # fmt: skip


class Arrays(NamedTuple):
    """A geometry as flat arrays, as `wkt_arrays` in include/wkt.h gives them.

    kind: one of KINDS. dimension: one of DIMENSIONS; a coordinate has 2, 3, 3 or 4 numbers.
    numbers: shape (coordinates x width,), int64, whole units of ten to the minus `places`, coordinate after coordinate.
    rings: shape (rings + 1,), uint64: where each ring begins among the coordinates, and the end of the last. A line
    string, a line and a point count as a ring.
    polygons: shape (polygons + 1,), uint64: where each polygon begins among the rings, and the end of the last. The
    rings of each kind but MultiPolygon count as one polygon.
    places: digits after the point that `numbers` have; None where that isn't said.

    They are NumPy arrays where NumPy is installed, and else of Python's `array`.
    """

    kind: str
    dimension: str
    numbers: Any
    rings: Any
    polygons: Any
    places: Optional[int] = None


class ColumnArrays(NamedTuple):
    """The arrays of a column of texts, as `wkt_column_arrays` in include/wkt.h gives them.

    kinds, dimensions: shape (rows,), uint32: indices of KINDS and DIMENSIONS.
    numbers, rings, polygons: what `Arrays` has of each row, one row's after the other's.
    number_offsets, ring_offsets, polygon_offsets: shape (rows + 1,), int64: where each row's begin in these three, and
    the end of the last.
    statuses: shape (rows,), uint32: 0 of a row that has arrays, 28 of a null one, and else why the row has none.
    places: digits after the point that `numbers` have; None where that isn't said.

    They are NumPy arrays where NumPy is installed, and else of Python's `array`.
    """

    kinds: Any
    dimensions: Any
    numbers: Any
    number_offsets: Any
    rings: Any
    ring_offsets: Any
    polygons: Any
    polygon_offsets: Any
    statuses: Any
    places: Optional[int] = None

    def row(self, i: int) -> Arrays:
        """The arrays of a row, which are parts of the column's. Indices are those of a list: -1 is the last row.

        A row that is null or refused has arrays without numbers. IndexError: there is no such row.
        """
        rows = len(self.kinds)
        i = operator.index(i)
        if not -rows <= i < rows:
            raise IndexError("row %d of a column of %d rows" % (i, rows))
        i %= rows
        numbers, rings, polygons = (
            values[offsets[i] : offsets[i + 1]] for values, offsets in zip(self[2:8:2], self[3:8:2])
        )
        return Arrays(KINDS[self.kinds[i]], DIMENSIONS[self.dimensions[i]], numbers, rings, polygons, self.places)

    def geoarrow(self, places: Optional[int] = None) -> Any:
        """The rows as GeoArrow has them, with doubles as coordinates: `wkt.GeoArrow`. places: as of `from_arrays`."""
        from ._geoarrow import geoarrow

        return geoarrow(self, _places_in(self, places))


def _places_in(arrays: Any, asked: Optional[int]) -> int:
    """The places that the numbers of arrays have. A ValueError where the places that are asked for don't hold them."""
    has: Any = getattr(arrays, "places", None)
    if has is None:
        return places_of(6 if asked is None else asked)
    has = places_of(has)
    if asked is not None and places_of(asked) < has:
        unit = 10 ** min(has - asked, 19)  # of which 64 bits hold no multiple but 0
        numbers = arrays.numbers
        if _is_ints(numbers):
            exact = not (numbers % numpy.int64(unit) if unit < 2**63 else numbers).any()
        else:
            exact = not any(it % unit for it in numbers)
        if not exact:
            raise ValueError("the numbers have %d places, and %d don't hold them" % (has, asked))
    return int(has)


def _is_ints(numbers: Any) -> bool:
    return numpy is not None and isinstance(numbers, numpy.ndarray) and numbers.dtype == "int64"


class Events(NamedTuple):
    """A geometry of any kind, collections too, as two lists in the order of its text, as `wkt_read_events` gives them.

    events: a pair (kind, dimension), as `infer` gives it, where a geometry begins, and None where it ends. Between them
    is for each point (of none or one coordinate), line string, line and ring how many coordinates it has, which are the
    next of the numbers. The polygons of a MultiPolygon and the members of a GeometryCollection begin and end in turn.
    numbers: each number, as an int of whole units of ten to the minus `places`, coordinate after coordinate. A
    coordinate has 2, 3, 3 or 4, by the dimension.
    places: digits after the point that `numbers` have.
    """

    events: List[Any]
    numbers: List[int]
    places: int


bind("Arrays", Arrays)
bind("Events", Events)


def read_events(
    text: Any, places: int = 18, invalid: str = "raise", progress: Progress = None, whole: bool = True,
    dialect: str = ""
) -> Any:  # fmt: skip
    """The geometry that a text names as `Events`, with each number exact; of a column a list, with None of a null row.

    Each text that `canonical` takes has them. They are of the value as it is read; with a dialect, those of its
    canonical text.
    text: str or bytes, or a column. invalid: "raise" or "null": None of a refused text. places, progress, whole,
    dialect, and errors: as of `canonical`.
    """
    checked = places_of(places, whole)
    check_invalid(invalid, ("raise", "null"))
    if dialect:
        text = canonical(text, places, invalid, None, whole, dialect)
        if text is None:
            return None
    if not is_column(text):
        return or_null(invalid, None, lambda: calls.events(text, checked))
    rows = column_of(text)
    with shown(progress, len(rows)) as report:
        return calls.events_rows(rows, checked, INVALID.index(invalid), report)


def to_arrays(
    text: Any, places: int = 6, invalid: str = "raise", progress: Progress = None, whole: bool = True, dialect: str = ""
) -> Any:
    """The geometry that a text names as `Arrays`; of a column a list of them, with None of a null row.

    places: digits after the point, 0 to 36; a number is whole units of ten to the minus `places`. With 18 they hold up
    to 9.22, with 16 up to 922.3, and with 19 and more no whole number but 0.
    invalid: "raise" or "null": None of a text that has no arrays. progress, whole, dialect: as of `canonical`.
    They are of the value as it is read; for the same arrays of the same key, pass the canonical text. Rows of a column
    may share arrays of rings and polygons, which can't be written.
    WktError: the text is refused (1 to 14, 20, 30), is a collection (24), or has a number that 64 bits don't hold (25).
    """
    checked = places_of(places, whole, dialect)
    check_invalid(invalid, ("raise", "null"))
    if not is_column(text):
        return or_null(invalid, None, lambda: calls.arrays(text, checked))
    rows = column_of(text)
    with shown(progress, len(rows)) as report:
        return calls.arrays_list(rows, checked, INVALID.index(invalid), report, numpy is not None)


def to_arrays_column(
    texts: Any, places: int = 6, progress: Progress = None, whole: bool = True, dialect: str = ""
) -> ColumnArrays:
    """The flat arrays of a column of texts and the status of each row, as `ColumnArrays`: no row raises.

    They are of the values as they are read; for the same arrays of the same key, pass canonical texts.
    texts: a list, a tuple, a NumPy array, a Series, or an Arrow column. places: as of `to_arrays`.
    progress, whole, dialect: as of `canonical`.
    """
    return _column_arrays(texts, places_of(places, whole, dialect), progress)


def _column_arrays(texts: Any, places: int, progress: Progress) -> ColumnArrays:
    are_lent, indices = _arrow.is_texts(texts), None
    if are_lent:
        chunk = _buffers.whole(_arrow.taken(texts))
        indices, column, count = chunk.indices, chunk.given, chunk.size
    else:
        column = column_of(texts)
        count = len(column)
    with shown(progress, count) as report:
        made = calls.arrays_rows(column, places, report, are_lent)
    held = ColumnArrays._make([*map(array_of, CODES.values(), made), places % WHOLE])
    return held if indices is None else _chosen(held, indices)


def _chosen(held: ColumnArrays, indices: Any) -> ColumnArrays:
    """The arrays of rows that have some of the texts, and -1 where they have none."""
    made = []
    for values, offsets in zip(held[2:8:2], held[3:8:2]):
        offsets = numpy.append(offsets, offsets[-1])  # of none
        starts, counts = offsets[indices], numpy.diff(offsets)[indices]
        ends = numpy.concatenate([[0], numpy.cumsum(counts)])
        made += [values[numpy.arange(ends[-1]) + numpy.repeat(starts - ends[:-1], counts)], ends]
    words = [numpy.append(values, numpy.uint32(0))[indices] for values in held[:2]]
    statuses = numpy.append(held.statuses, numpy.uint32(NULL))[indices]
    return ColumnArrays._make([*words, *made, statuses, held.places])


def _index(names: Tuple[str, ...], name: Any, what: str) -> int:
    if not isinstance(name, str):
        raise TypeError("a %s is a str, and not %s" % (what, type(name).__name__))
    if name not in names:
        raise ValueError("a %s is one of %s, and not %r" % (what, ", ".join(names), name))
    return names.index(name)


def _arrays_text(arrays: Any, asked: Optional[int], row: Optional[int] = None) -> str:
    five = list(arrays[:5]) if isinstance(arrays, (list, tuple)) else None
    if five is None or len(five) < 5:
        has = type(arrays).__name__ if five is None else "%d of them" % len(five)
        where = "" if row is None else "row %d: " % row
        raise TypeError("%sArrays are kind, dimension, numbers, rings and polygons, and not %s" % (where, has))
    kind, dimension, *rest = five
    places = _places_in(arrays, asked)
    at, width = _index(KINDS, kind, "kind"), _index(DIMENSIONS, dimension, "dimension")
    three = [integers(c, values, what) for c, values, what in zip("qQQ", rest, ("numbers", "rings", "polygons"))]
    held = [part for values in three for part in (pointer(values.data), values.length)]

    def call(out: Any, length: int, needed: Any) -> int:
        status: int = _library.wkt_from_arrays(at, width, *held, places, out, length, needed)
        if status and status != TOO_SMALL:
            check(status, row=row)
        return status

    return Room(16 * three[0].length + 32).text(call)


def from_arrays(arrays: Any, places: Optional[int] = None) -> Any:
    """The canonical text of the geometry of `Arrays`; of a list of them a list, with None of a None.

    Each of the numbers, rings and polygons is an int: a list of int or an array of integers. They are copied before
    they are looked at. places: digits after the point that the text may have, and that the numbers have where the
    arrays don't say it (None: those of the arrays, or 6).
    ValueError: the arrays have more places, and a number needs them.
    TypeError: one is a float, a bool or another type, or the arrays aren't five. OverflowError: one is out of the range
    of its 64 bits. WktError: the arrays are of no geometry (26); in a list it names the row.
    """
    checked = None if places is None else places_of(places)
    # A tuple is one geometry: Arrays is one, and so is what is given in its place.
    if isinstance(arrays, tuple):
        return calls.from_arrays_rows([arrays], checked, False)[0]
    rows = rows_of(arrays)
    if rows is None:
        raise TypeError("arrays are wkt.Arrays or a list of them, and not %s" % type(arrays).__name__)
    return calls.from_arrays_rows(rows, checked, True)


def _one_text(arrays: Any, places: Optional[int], row: Optional[int]) -> Optional[str]:
    return None if row is not None and is_null(arrays) else _arrays_text(arrays, places, row)


bind("one_text", _one_text)


def from_arrays_column(arrays: ColumnArrays, places: Optional[int] = None) -> Tuple[List[Optional[str]], List[int]]:
    """The canonical texts of `ColumnArrays`, and the status of each row.

    A status is 0, 28 of a row whose status in `arrays` isn't 0, or 26 where a row's arrays are of no geometry; where it
    isn't 0 there is None for a text. The arrays of a row are copied before they are looked at.
    places, ValueError, TypeError, OverflowError: as of `from_arrays`. WktError: the offsets are of no column (27).
    """
    if not all(hasattr(arrays, name) for name in CODES):
        raise TypeError("a column of arrays is wkt.ColumnArrays, and not %s" % type(arrays).__name__)
    places = _places_in(arrays, places)
    made = calls.from_arrays_column(tuple(lent(CODES[name], getattr(arrays, name), name) for name in CODES), places)
    if made is None:
        raise WktError(NOT_COLUMN, words_of(NOT_COLUMN))
    texts, statuses = made
    return texts, statuses
