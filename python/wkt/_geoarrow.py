"""Arrays of a column as GeoArrow has them."""
from typing import Any, NamedTuple, Tuple

from . import _arrow
from ._doubles import nearest
from ._names import DIMENSIONS, KINDS
from ._native import _fast
from ._values import numpy

# The names of the lists of each kind, from the outermost on, as GeoArrow has them.
LISTS = {
    "point": (),
    "linestring": ("vertices",),
    "multipoint": ("points",),
    "polygon": ("rings", "vertices"),
    "multilinestring": ("linestrings", "vertices"),
    "multipolygon": ("polygons", "rings", "vertices"),
}
_NULLABLE = 2


class GeoArrow(NamedTuple):
    """The buffers of a GeoArrow array with interleaved coordinates, as NumPy arrays. It has `__arrow_c_array__`.

    extension: its name, such as "geoarrow.polygon". dimension: one of DIMENSIONS.
    coordinates: shape (coordinates, width), float64: each the nearest to the decimal, and of two the even one. An empty
    point is NaN, in a multipoint too, and so is a null one.
    offsets: int32 arrays, from the outermost on: none of points, one of line strings and multipoints, two of polygons
    and multilinestrings, three of multipolygons.
    valid: shape (rows,), bool: False of a row that is null or refused.
    """

    extension: str
    dimension: str
    coordinates: Any
    offsets: Tuple[Any, ...]
    valid: Any

    def _tree(self) -> Tuple[Any, ...]:
        """The array as wkt._fast lends it: lists of fixed lists of doubles. A ValueError unless they fit together."""
        extension, dimension, coordinates, lists, valid = self
        names = LISTS.get(extension.partition(".")[2])
        coordinates = numpy.ascontiguousarray(coordinates, numpy.float64)
        if names is None or dimension not in DIMENSIONS or coordinates.shape[1:] != (len(dimension),):
            raise ValueError("%s of %s is no GeoArrow array" % (extension, dimension))
        number = ("g", dimension.lower(), b"", 0, coordinates.size, 0, (None, coordinates), ())
        tree: Tuple[Any, ...] = ("+w:%d" % len(dimension), "", b"", 0, len(coordinates), 0, (None,), (number,))
        if len(lists) != len(names):
            raise ValueError("%s has %d lists of offsets, and not %d" % (extension, len(names), len(lists)))
        for name, offsets in reversed(list(zip(names, lists))):
            offsets = _in_order(offsets, tree[4])
            child = (tree[0], name) + tree[2:]
            tree = ("+l", "", b"", 0, len(offsets) - 1, 0, (None, offsets), (child,))
        valid = numpy.array(valid, bool).reshape(-1)
        if len(valid) != tree[4]:
            raise ValueError("%d rows are valid or not, of %d" % (len(valid), tree[4]))
        metadata = _arrow.metadata_of({"ARROW:extension:name": extension})
        nulls = len(valid) - int(numpy.count_nonzero(valid))
        bits = numpy.packbits(valid, bitorder="little")
        return tree[:2] + (metadata, _NULLABLE, tree[4], nulls, (bits,) + tree[6][1:], tree[7])

    def _lent_by(self) -> Any:
        if _fast is None:
            raise ImportError(_arrow.LACKING)
        return _fast

    def __arrow_c_schema__(self) -> Any:
        return self._lent_by().export_schema(self._tree())

    def __arrow_c_array__(self, requested_schema: Any = None) -> Tuple[Any, Any]:
        lent: Tuple[Any, Any] = self._lent_by().export(self._tree())
        return lent


def _in_order(offsets: Any, most: int) -> Any:
    """A copy of offsets, which can be lent: whoever takes them trusts them, and nobody changes them."""
    made = numpy.array(offsets)
    if made.dtype != "int32" or made.ndim != 1 or not len(made):
        raise ValueError("offsets of GeoArrow are an array of int32 in one dimension, one more than there are rows")
    if made[0] < 0 or made[-1] > most or (made[1:] < made[:-1]).any():
        raise ValueError("the offsets are 0 to %d, each not below the one before it" % most)
    return made


def _int32(values: Any) -> Any:
    """Offsets as GeoArrow has them. An OverflowError where one is too large."""
    if len(values) and int(values[-1]) > 2**31 - 1:
        raise OverflowError(
            "GeoArrow's offsets are of 0 to 2147483647, and not %d: give it fewer rows at once" % int(values[-1])
        )
    return values.astype(numpy.int32)


def _joined(values: Any, offsets: Any, before: Any) -> Any:
    """One list of offsets of many: each row's but its first, plus what the rows before it have."""
    counts = numpy.diff(offsets)
    rows = numpy.repeat(numpy.arange(len(counts)), counts)
    kept = numpy.ones(len(values), bool)
    kept[offsets[:-1][counts > 0]] = False
    return _int32(numpy.concatenate([[0], (values.astype(numpy.int64) + before[rows])[kept]]))


def _counted(offsets: Any) -> Any:
    """How many parts the rows before each have, and all, where a row has one offset more than parts."""
    return numpy.concatenate([[0], numpy.cumsum(numpy.maximum(numpy.diff(offsets) - 1, 0))])


def _one(values: Any, what: str) -> int:
    """What all rows have."""
    found = numpy.unique(values)
    if len(found) > 1:
        raise ValueError("a GeoArrow array has rows of one %s, and these have %d" % (what, len(found)))
    return int(found[0]) if len(found) else 0


def _offsets(held: Any, kind: int, rows: Any) -> Tuple[Any, ...]:
    """The offsets of a kind, from the outermost on. `wkt_column_arrays` counts those of each row from 0 on.

    Points have offsets here too, of one coordinate or none: an EMPTY one is in no other offsets.
    """
    if kind in (0, 1):
        return (_int32(rows),) if kind else (rows,)
    _int32(rows)
    rings, ring_rows = _joined(held.rings, held.ring_offsets, rows[:-1]), _counted(held.ring_offsets)
    if kind in (2, 3, 4):
        return (_int32(ring_rows), rings)
    polygons = _joined(held.polygons, held.polygon_offsets, ring_rows[:-1])
    return (_int32(_counted(held.polygon_offsets)), polygons, rings)


def _points(offsets: Any, coordinates: Any) -> Any:
    """A coordinate for each point: NaN for one that has none."""
    counts = numpy.diff(offsets)
    if (counts > 1).any():
        raise ValueError("a point has one coordinate or none, and not %d" % int(counts.max()))
    full = numpy.full((len(counts), coordinates.shape[1]), numpy.nan)
    full[counts == 1] = coordinates
    return full


def geoarrow(held: Any, places: int) -> GeoArrow:
    """`ColumnArrays` of rows of one kind and one dimension as GeoArrow."""
    if numpy is None:
        raise ImportError("GeoArrow needs NumPy")
    valid = numpy.asarray(held.statuses) == 0
    kind, at = _one(held.kinds[valid], "kind"), _one(held.dimensions[valid], "dimension")
    width = len(DIMENSIONS[at])
    rows = held.number_offsets // width
    offsets = _offsets(held, kind, rows)  # before the coordinates, since these take memory
    coordinates = nearest(held.numbers, places).reshape(-1, width)
    if kind in (0, 3):
        offsets, coordinates = offsets[:-1], _points(offsets[-1], coordinates)
    return GeoArrow("geoarrow." + KINDS[kind].lower(), DIMENSIONS[at], coordinates, offsets, valid)
