"""Keys of geometries that are no texts: of Shapely 2 (and GeoPandas) and of GeoArrow; and geometries of arrays."""
import re
import sys
from typing import Any, Dict, Iterator, List, Optional, Tuple

from . import _arrow
from ._arrays import ColumnArrays, from_arrays, from_arrays_column
from ._buffers import Texts, joined
from ._columns import canonical_rows, check_invalid, is_series
from ._doubles import cause_of, decimals, scaled, written
from ._errors import WktError, printable, words_of
from ._geoarrow import LISTS, GeoArrow
from ._names import COLLECTION, DIMENSIONS, KINDS, NULL
from ._native import _fast
from ._values import numpy, places_of

BAD_NUMBER = 13  # WKT_BAD_NUMBER of include/wkt.h
# Shapely's number of each kind. A LinearRing (2) is a LINESTRING, and a GeometryCollection (7) has no arrays.
_KINDS = (0, 1, 3, 4, 5, 6)
_BLOCK = 100_000
_MOST = 1.7e38  # units of 128 bits


def _shapely() -> Any:
    shapely = sys.modules.get("shapely")
    if numpy is None or not hasattr(shapely, "to_ragged_array"):
        raise TypeError("keys of geometries need NumPy and Shapely 2; give texts, as GeoSeries.to_wkt does")
    return shapely


def _inclusive(starts: Any, ends: Any) -> Tuple[Any, Any]:
    """The numbers from each start to its end, that too, one after the other; and where each row's begin."""
    counts = ends - starts + 1
    offsets = numpy.concatenate([[0], numpy.cumsum(counts)])
    return numpy.arange(offsets[-1]) - numpy.repeat(offsets[:-1] - starts, counts), offsets


def _from_zero(values: Any, rows: Any) -> Tuple[Any, Any]:
    """What `values` has from each row's beginning to its end, as counted from the row's beginning on."""
    places, offsets = _inclusive(rows[:-1], rows[1:])
    return values[places] - numpy.repeat(values[rows[:-1]], numpy.diff(offsets)), offsets


def ragged(kind: int, dimension: int, coordinates: Any, lists: Tuple[Any, ...]) -> Dict[str, Any]:
    """What ColumnArrays has but numbers, of rows of one kind: of GeoArrow's lists, from the outermost on.

    A point that is all NaN is EMPTY. numbers: the coordinates without these.
    """
    width = len(DIMENSIONS[dimension])
    lists = tuple(numpy.asarray(each, numpy.int64) for each in lists)
    if kind in (0, 3):  # a ring for each point
        there = ~numpy.isnan(coordinates).all(axis=1)
        ends = numpy.concatenate([[0], numpy.cumsum(there)])
        rings = lists[0] if kind else numpy.arange(len(coordinates) + 1)
        coordinates = coordinates[there]
    elif kind == 1:
        ends, rings = lists[0], numpy.arange(len(lists[0]))
    else:
        ends, rings = lists[-1], lists[1][lists[0]] if kind == 5 else lists[0]
    of_rings, ring_offsets = _from_zero(ends, rings)
    if kind == 5:
        of_polygons, polygon_offsets = _from_zero(lists[1], lists[0])
    else:  # all rings are one polygon
        both = numpy.stack([numpy.zeros(len(rings) - 1, numpy.int64), numpy.diff(rings)], axis=1)
        of_polygons, polygon_offsets = both.reshape(-1), 2 * numpy.arange(len(rings))
    made = dict(kinds=kind, dimensions=dimension, numbers=coordinates.reshape(-1), number_offsets=ends[rings] * width)
    made.update(rings=of_rings, ring_offsets=ring_offsets, polygons=of_polygons, polygon_offsets=polygon_offsets)
    return made


def _some(values: Any, offsets: Any, rows: Any) -> Tuple[Any, Any]:
    """The values of some rows, which a mask says, and their offsets."""
    counts = numpy.diff(offsets)
    return values[numpy.repeat(rows, counts)], numpy.concatenate([[0], numpy.cumsum(counts[rows])])


def _arrays_texts(held: Dict[str, Any], some: Any, units: Any, places: int) -> Tuple[List[Optional[str]], List[int]]:
    """The canonical texts of some rows, which a mask says, with such numbers, and the status of each."""
    count = int(some.sum())
    held = {**held, "numbers": units}
    pairs = [_some(held[name], held[name[:-1] + "_offsets"], some) for name in ("numbers", "rings", "polygons")]
    words = [numpy.full(count, held[name], numpy.uint32) for name in ("kinds", "dimensions")]
    flat = [part for pair in pairs for part in pair]
    return from_arrays_column(ColumnArrays._make([*words, *flat, numpy.zeros(count, numpy.uint32), places]))


def _wide_texts(held: Dict[str, Any], some: Any, places: int) -> Tuple[List[Optional[str]], List[int]]:
    """The same of rows with numbers that 64 bits don't hold, by texts with these. A refused one stays as it is."""
    numbers = held["numbers"]
    texts, codes = _arrays_texts(held, some, numpy.arange(len(numbers)), 0)  # where each number stands
    for i, text in enumerate(texts):
        if text is not None:
            texts[i] = re.sub("[0-9]+", lambda at: written(float(numbers[int(at[0])])), text)
    answers: List[int] = []
    for i, made in enumerate(canonical_rows(texts, places, "null", None, answers)):
        if made is not None:
            texts[i] = made
        elif texts[i] is not None:
            codes[i] = BAD_NUMBER
    return texts, codes


def texts_of(held: Dict[str, Any], places: int) -> Tuple[List[Optional[str]], List[int]]:
    """The canonical texts of such rows, whose numbers are doubles, and the status of each.

    Of a row whose numbers are refused (13) it is the text that `canonical` refuses.
    """
    offsets = held["number_offsets"]
    units, used, has = decimals(held["numbers"], places)
    rows = len(offsets) - 1
    number_rows = numpy.repeat(numpy.arange(rows), numpy.diff(offsets))
    most = numpy.zeros(rows, numpy.int64)
    numpy.maximum.at(most, number_rows, used)
    units, fits = scaled(units, used, most[number_rows])
    fits &= has & (numpy.abs(held["numbers"]) < _MOST / 10.0**places)
    most[number_rows[~fits]] = -1
    texts: List[Optional[str]] = [None] * rows
    statuses = [0] * rows
    for own in numpy.unique(most).tolist():  # a call has numbers of so many places
        some = most == own
        made, codes = _wide_texts(held, some, places) if own < 0 else _arrays_texts(held, some, units, own)
        for row, text, code in zip(numpy.flatnonzero(some).tolist(), made, codes):
            texts[row], statuses[row] = text, code
    return texts, statuses


def _geo_type(about: Any) -> Tuple[int, int, bytes]:
    """The kind and the dimension of a column, as numbers, and the metadata of its texts. -1: it is of collections."""
    lists, axes, metadata = about
    words = _arrow.pairs_of(metadata)
    _arrow.refuse_binary(words)
    name = words.get("ARROW:extension:name", "a column without a name of GeoArrow, nor of a table of several")
    kind, axes = name.partition("geoarrow.")[2], axes.upper()
    made = _arrow.metadata_of({**words, "ARROW:extension:name": "geoarrow.wkt"})
    if kind == "geometrycollection" and lists == 1 and not axes:
        return -1, 0, made
    if kind not in LISTS or len(LISTS[kind]) != lists or axes not in DIMENSIONS:
        raise TypeError(
            "keys are of GeoArrow's points, lines and polygons (geoarrow.point and so on), and not of %s; canonical "
            "takes texts" % printable(name)
        )
    return [it.lower() for it in KINDS].index(kind), DIMENSIONS.index(axes), made


def _blocks(coordinates: Any, lists: Any, rows: int) -> Iterator[Tuple[Any, Any]]:
    """The coordinates and the lists of some rows, and of the next ones: of about a hundred thousand coordinates."""
    ends = numpy.arange(rows + 1)  # where the coordinates of each row begin
    for offsets in lists:
        ends = offsets[ends]
    first = 0
    while first < rows:
        last = int(numpy.searchsorted(ends, ends[first] + _BLOCK, "right")) - 1
        start, last = first, min(max(last, first + 1), first + _BLOCK, rows)
        stop, cut = last, []
        for offsets in lists:
            cut.append(offsets[start : stop + 1] - offsets[start])
            start, stop = offsets[start], offsets[stop]
        yield coordinates[start:stop], tuple(cut)
        first = last


def _geo_texts(kind: int, dimension: int, parts: Any, places: int) -> Tuple[List[Optional[str]], Any]:
    """The texts of a chunk of GeoArrow as of `texts_of`, and the status of each."""
    bits, rows, doubles, lists = parts
    bits = numpy.unpackbits(numpy.frombuffer(bits, numpy.uint8), bitorder="little")[:rows]
    valid = bits if len(bits) else numpy.ones(rows, numpy.uint8)
    texts: List[Optional[str]] = [None] * rows if kind < 0 else []
    statuses: List[int] = [COLLECTION] * rows if kind < 0 else []
    if kind >= 0:
        coordinates = numpy.frombuffer(doubles, numpy.float64).reshape(-1, len(DIMENSIONS[dimension]))
        lists = [numpy.frombuffer(each, numpy.int64) for each in lists]
        for block in _blocks(coordinates, lists, rows):
            made, codes = texts_of(ragged(kind, dimension, *block), places)
            texts += made
            statuses += codes
    return texts, numpy.where(valid, numpy.array(statuses, numpy.uint32), numpy.uint32(NULL))


def _geo_keys(column: Any, places: int, invalid: str) -> Any:
    """The canonical texts of a column of GeoArrow, as another of Arrow."""
    if numpy is None or _fast is None:
        raise TypeError(_arrow.LACKING)
    about, chunks, _ = _arrow.parts_of(column, True)
    kind, dimension, metadata = _geo_type(about)
    made, first = [], 0
    for parts in chunks:
        texts, statuses = _geo_texts(kind, dimension, parts, places)
        _raise_first(texts, statuses, places, invalid, first)
        held = [text if text and status == 0 else "" for text, status in zip(texts, statuses.tolist())]
        data = numpy.frombuffer("".join(held).encode(), numpy.uint8)
        made.append(Texts(data, numpy.cumsum([0, *map(len, held)]), statuses))
        first += len(statuses)
    return _arrow.ArrowTexts._of(joined(made), metadata)


def _raise_first(texts: Any, statuses: Any, places: int, invalid: str, first: int) -> None:
    """Raises the error of the first row that is neither answered nor null, the first of which is `first`."""
    wrong = numpy.flatnonzero((statuses != 0) & (statuses != NULL))
    if invalid == "raise" and len(wrong):
        row = int(wrong[0])
        status = int(statuses[row])
        why = cause_of(texts[row], places) if status == BAD_NUMBER else words_of(status)
        raise WktError(status, why, first + row)


def _coordinates(shapely: Any, kind: int, held: Any, z: bool, m: bool) -> Tuple[Any, Tuple[Any, ...]]:
    """The coordinates of geometries of one kind and dimension, and their lists, from the outermost on."""
    lists: Tuple[Any, ...] = ()
    if kind == 3:  # point by point, since Shapely's arrays of multipoints are without EMPTY ones
        count = len(held)
        held, rows = shapely.get_parts(held, return_index=True)
        lists = (numpy.searchsorted(rows, numpy.arange(count + 1)),)
        if not len(held):
            return numpy.empty((0, 2 + z + m)), lists
    more = dict(include_m=m) if hasattr(shapely, "has_m") else {}
    if kind == 1:  # its arrays of lines are without rings
        coordinates, rows = shapely.get_coordinates(held, include_z=z, return_index=True, **more)
        return coordinates, (numpy.searchsorted(rows, numpy.arange(len(held) + 1)),)
    _, coordinates, offsets = shapely.to_ragged_array(held, include_z=z, **more)
    return coordinates, lists + offsets[::-1]


def _shapely_texts(shapely: Any, held: Any, places: int) -> Tuple[Any, Any]:
    """The canonical texts of an array of geometries, and the status of each."""
    kinds = shapely.get_type_id(held)
    kinds[kinds == 2] = 1
    flags = [shapely.has_z(held), shapely.has_m(held) if hasattr(shapely, "has_m") else numpy.zeros(len(held), bool)]
    texts = numpy.full(len(held), None, object)
    statuses = numpy.where(kinds == -1, NULL, COLLECTION).astype(int)
    for kind, theirs in enumerate(_KINDS):
        for dimension in range(4):
            z, m = dimension in (1, 3), dimension in (2, 3)
            rows = numpy.flatnonzero((kinds == theirs) & (flags[0] == z) & (flags[1] == m))
            if not len(rows):
                continue
            made, codes = texts_of(ragged(kind, dimension, *_coordinates(shapely, kind, held[rows], z, m)), places)
            texts[rows], statuses[rows] = numpy.array(made, object), codes
    return texts, statuses


def keys(geometries: Any, places: int = 18, invalid: str = "raise") -> Any:
    """The canonical texts of geometries, from their coordinates: no text is written in between.

    geometries: a GeoSeries, an array or a list of geometries of Shapely 2 and None; or a column of GeoArrow, which has
    `__arrow_c_array__` or `__arrow_c_stream__`: of points, lines or polygons of one kind, with coordinates side by side
    or in a column for each axis. What comes back is a Series with the index, the name and, in `attrs`, the crs of a
    GeoSeries; of GeoArrow `ArrowTexts`, with its metadata; and else a list; None where there is no geometry.
    A coordinate is the shortest decimal that is the same double, as `repr` writes it. That is tested, and not proved. A
    point whose numbers are all NaN is EMPTY.
    places: a coordinate that has more is refused. invalid: "raise" or "null".
    A row is refused where `canonical` with these places refuses its numbers. WktError: a coordinate has too many
    places, or is too large for these, and it says which places read the row; or one is NaN or infinite (13); or the
    geometry is a collection (24). It names the row. TypeError: there is no Shapely 2, or the column is of something
    else. ValueError: it is wrong.
    """
    places = places_of(places)
    check_invalid(invalid, ("raise", "null"))
    if _arrow.lends(geometries) and not is_series(geometries):
        return _geo_keys(geometries, places, invalid)
    shapely, series = _shapely(), geometries if is_series(geometries) else None
    held = numpy.array(geometries if series is None else list(series), object).reshape(-1)
    texts, statuses = _shapely_texts(shapely, held, places)
    _raise_first(texts, statuses, places, invalid, 0)
    texts[statuses != 0] = None
    if series is None:
        return texts.tolist()
    answer = sys.modules["pandas"].Series(texts, index=series.index, name=series.name, dtype=object)
    answer.attrs.update(series.attrs)
    if getattr(series, "crs", None) is not None:
        answer.attrs["crs"] = series.crs
    return answer


def _with_empty(made: GeoArrow) -> Any:
    """Which rows are EMPTY, or have a part that is."""
    found = numpy.isnan(made.coordinates).all(axis=1)
    for offsets in reversed(made.offsets):
        before = numpy.concatenate([[0], numpy.cumsum(found)])[offsets]
        found = (numpy.diff(before) > 0) | (numpy.diff(offsets) == 0)
    return found


def _taken(made: GeoArrow, rows: Any) -> Tuple[Any, Tuple[Any, ...]]:
    """The coordinates of some rows, which a mask says, and the offsets of their lists."""
    offsets = []
    for each in made.offsets:
        counts = numpy.diff(each)
        offsets.append(numpy.concatenate([[0], numpy.cumsum(counts[rows])]))
        rows = numpy.repeat(rows, counts)
    return made.coordinates[rows], tuple(offsets)


def geometries(arrays: ColumnArrays) -> Any:
    """Geometries of Shapely 2 of a column of arrays, which is of one kind and dimension; None of a null row.

    `geopandas.GeoSeries(wkt.geometries(arrays), crs=crs)` takes them. ValueError: the rows have several kinds, or they
    have M, for which Shapely 2.1 and GEOS 3.12 are needed.
    """
    shapely, made = _shapely(), arrays.geoarrow()
    kind = [name.lower() for name in KINDS].index(made.extension.partition(".")[2])
    measured = made.dimension.endswith("M")
    if measured and (not hasattr(shapely, "has_m") or shapely.geos_version < (3, 12)):
        raise ValueError("geometries with M need Shapely 2.1 and GEOS 3.12")
    answer = numpy.full(len(made.valid), None, object)
    # Shapely takes no arrays with M, and of those with something EMPTY it makes other geometries, or ends the process.
    plain = made.valid & ~_with_empty(made) & (not measured)
    if plain.any():
        known = shapely.GeometryType(_KINDS[kind])
        coordinates, offsets = _taken(made, plain)
        answer[plain] = shapely.from_ragged_array(known, coordinates, offsets[::-1] or None)
    rest = numpy.flatnonzero(made.valid & ~plain)
    if len(rest):
        answer[rest] = shapely.from_wkt(from_arrays([arrays.row(i) for i in rest.tolist()]))
    return answer
