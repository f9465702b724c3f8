"""Calls as a typed program makes them: mypy --strict takes this file, and finds the types that are asserted."""
import io
from typing import Any, List, Optional, Tuple

import numpy
from typing_extensions import assert_type

import wkt
import wkt.dask
import wkt.pandas

text: str = wkt.canonical("point ( 1 2 )", places=6)
assert_type(wkt.canonical(b"point ( 1 2 )"), str)
assert_type(wkt.canonical(["point(1 2)", None], invalid="null"), List[Optional[str]])
assert_type(wkt.canonical_column(["point(1 2)"]), Tuple[List[Optional[str]], List[int]])
assert_type(wkt.front(text), wkt.Front)
assert_type(wkt.front(b"POINT(1 2), POINT(3 4)", places=6).end, int)
assert_type(wkt.front(text, dialect="ewkt").end, int)
assert_type(wkt.canonical("SRID=4326;POINT(1e1 2 3)", dialect="ewkt,exponents"), str)
assert_type(wkt.srid("SRID=4326;POINT(1 2)"), Optional[int])
assert_type(wkt.srid([text, None]), List[Optional[int]])
assert_type(wkt.read_events(text), wkt.Events)
assert_type(wkt.read_events(text, 6, "null", dialect="nan"), Optional[wkt.Events])
assert_type(wkt.read_events([text, None]), List[Optional[wkt.Events]])
assert_type(wkt.read_events(text).numbers, List[int])
assert_type(wkt.same("POINT(1 2)", text), bool)
assert_type(wkt.same(["POINT(1 2)"], [text]), List[Optional[bool]])
assert_type(wkt.same(text, [text]), List[Optional[bool]])
assert_type(wkt.infer(text), Tuple[str, str])
assert_type(wkt.infer([text, None]), List[Optional[Tuple[str, str]]])
assert_type(wkt.reads(text), bool)
assert_type(wkt.reads([text, None]), List[bool])
assert_type(wkt.explain(text), Optional[wkt.Explanation])
assert_type(wkt.explain([text]), List[Optional[wkt.Explanation]])
assert_type(wkt.lines(b"POINT(1 2)\n"), bytes)
assert_type(wkt.stream(io.BytesIO(b"POINT(1 2)\n"), io.BytesIO(), progress=print), int)
assert_type(wkt.infer([text], invalid="null"), List[Optional[Tuple[str, str]]])
assert_type(wkt.infer(text, invalid="null"), Optional[Tuple[str, str]])
assert_type(wkt.same(text, text, invalid="null"), Optional[bool])
assert_type(wkt.explain(text, whole=False), Optional[wkt.Explanation])
arrays = wkt.to_arrays(text)
assert_type(arrays, wkt.Arrays)
assert_type(wkt.from_arrays(arrays), str)
assert_type(wkt.from_arrays([arrays, None]), List[Optional[str]])
assert_type(wkt.from_arrays(("Point", "XY", [1, 2], [0, 1], [0, 1])), str)
assert_type(wkt.from_arrays([("Point", "XY", [1, 2], [0, 1], [0, 1])]), List[Optional[str]])
column = wkt.to_arrays_column([text, None])
assert_type(column, wkt.ColumnArrays)
assert_type(column.row(-2), wkt.Arrays)
assert_type(column.geoarrow(6), wkt.GeoArrow)


def of_arrow(texts: wkt.ArrowTexts) -> None:
    assert_type(wkt.canonical(texts), wkt.ArrowTexts)
    batches = wkt.batches(texts)
    assert_type(next(batches)[0], Optional[str])
    assert_type(wkt.canonical(batches), wkt.ArrowTexts)
    assert_type(wkt.infer(texts), List[Optional[Tuple[str, str]]])
    assert_type(texts.to_pylist(), List[Optional[str]])
    assert_type(wkt.keys(texts), wkt.ArrowTexts)  # of whatever lends GeoArrow
    assert_type(wkt.keys([None]), List[Optional[str]])


Objects = numpy.ndarray[Any, numpy.dtype[numpy.object_]]
Fixed = numpy.ndarray[Any, numpy.dtype[numpy.bytes_]]


def of_numpy(texts: Objects, fixed: Fixed) -> None:
    assert_type(wkt.canonical(texts, places=6), Objects)
    assert_type(wkt.canonical(fixed, invalid="keep"), Fixed)
    assert_type(wkt.canonical_column(texts, whole=False), Tuple[List[Optional[str]], List[int]])
    assert_type(wkt.to_arrays(texts, invalid="null"), List[Optional[wkt.Arrays]])
    assert_type(wkt.to_arrays_column(fixed), wkt.ColumnArrays)
    wkt.same(texts, fixed, dialect="srid"), wkt.reads(texts, dialect="srid"), wkt.srid(fixed)
    wkt.infer(fixed), wkt.explain(texts), wkt.lines(texts), wkt.keys(texts)
    wkt.geometries(wkt.to_arrays_column(texts))


def of_frames(frame: Any) -> None:
    wkt.pandas.merge(frame, wkt.pandas.drop_duplicates(frame, "geometry"), "geometry", key="key", suffixes=("", "_2"))
    wkt.dask.merge(frame, wkt.dask.drop_duplicates(frame, "geometry", split_out=2), "geometry", how="left")


try:
    wkt.canonical("POINT(1")
except wkt.WktError as error:
    assert_type(error.row, Optional[int])
    assert_type(error.explanation, Optional[wkt.Explanation])
