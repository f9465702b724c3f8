"""Well-known text by the proved library: one canonical text for one geometry, exact decimals, exact refusals.

Numbers are decimals of `places` digits after the point, 0 to 36: nothing is rounded, and a text with more digits is
refused. Most functions take one text, or a column of them: a list, a NumPy array, a Series of pandas, or what lends its
buffers by Arrow's C interfaces. A null row stays null. A text that has no answer is a `WktError`. A text is one
geometry: only white space may follow it, or anything with `whole=False`.

    >>> import wkt
    >>> wkt.canonical("point ( 1.0 2 )")
    'POINT(1 2)'
    >>> wkt.canonical(["point(1 2)", None, "POINT(3"], invalid="null")
    ['POINT(1 2)', None, None]
"""
from ._arrays import (
    Arrays, ColumnArrays, Events, from_arrays, from_arrays_column, read_events, to_arrays, to_arrays_column,
)  # fmt: skip
from ._arrow import ArrowTexts, Batches
from ._calls import Front, batches, canonical, canonical_column, explain, front, infer, lines, reads, same, srid
from ._errors import WktError
from ._explain import Explanation
from ._geoarrow import GeoArrow
from ._geometries import geometries, keys
from ._names import DIMENSIONS, KINDS
from ._stream import stream
from ._version import __version__

__all__ = [
    "DIMENSIONS",
    "KINDS",
    "Arrays",
    "ArrowTexts",
    "Batches",
    "ColumnArrays",
    "Events",
    "Explanation",
    "Front",
    "GeoArrow",
    "WktError",
    "__version__",
    "batches",
    "canonical",
    "canonical_column",
    "explain",
    "from_arrays",
    "from_arrays_column",
    "front",
    "geometries",
    "infer",
    "keys",
    "lines",
    "read_events",
    "reads",
    "same",
    "srid",
    "stream",
    "to_arrays",
    "to_arrays_column",
]
