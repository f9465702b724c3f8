"""The functions on texts."""
from typing import Any, List, NamedTuple, Optional, Tuple

from . import _arrow
from ._columns import (
    INVALID, canonical_like, canonical_rows, check_invalid, column_of, is_column, is_series, like, or_null, series_like,
    statuses_of,
)  # fmt: skip
from ._errors import check
from ._explain import explained
from ._names import HEADER_MESSAGES, MESSAGES
from ._native import bind, calls
from ._progress import Progress, shown
from ._values import is_null, numpy, places_of

_canonical, _same, _infer, _reads = calls.canonical, calls.same, calls.infer, calls.reads


def canonical(
    text: Any, places: int = 18, invalid: str = "raise", progress: Progress = None, whole: bool = True,
    dialect: str = ""
) -> Any:  # fmt: skip
    """The one text of the geometry that a text names; of a column a column of the same kind.

    text: str or bytes; or a column: a list or a tuple (a list comes back), a NumPy array of any shape (objects come
    back as objects, bytes as bytes, masked arrays masked), a Series or an Index of pandas (with its index and name), or
    what has `__arrow_c_array__` or `__arrow_c_stream__` (`ArrowTexts` comes back, with no object for a row). A row that
    is None, NaN or pandas.NA is null and stays so: it is None.
    places: digits after the point, 0 to 36: a text with more is refused, since nothing is rounded. With 36 no number
        beyond 170.14 is read.
    invalid: what becomes of a refused text: "raise" (a WktError), "null": None, or "keep": the text as it was given. In
    an Arrow column one that isn't UTF-8 can't be kept, and is null.
    progress: a function that is called with how many rows are done, or True: tqdm's bar above a million rows.
    whole: a text with more than white space behind its geometry is refused. With False anything may follow.
    dialect: what is read beyond the grammar, by name: "srid", "untagged", "exponents", "nan", or several as in
        "ewkt,exponents", where "ewkt" is "srid,untagged" (docs/DIALECTS.md). A text that is read without has the same
        key with it. The SRID is no part of a key: `srid` gives it.

    WktError: the text is refused (1 to 14, or 30: more follows), isn't UTF-8 (20), or there are no such places (23). It
    has the row, and as `explanation` where in the text, and why. TypeError: a text or a row is no text, or places no
    int.
    OverflowError: places is below 0, or too large for 32 bits. ValueError: a dialect of another name.
    """
    if type(text) is str and invalid == "raise" and not dialect:
        return _canonical(text, places, whole)
    checked = places_of(places, whole, dialect)
    if is_column(text):
        return canonical_like(text, checked, invalid, progress)
    check_invalid(invalid)
    return or_null(invalid, text, lambda: _canonical(text, checked))


class Front(NamedTuple):
    """The geometry that a text begins with: its canonical text, and where it ends in the text, as slices count."""

    canonical: str
    end: int


def front(text: Any, places: int = 18, dialect: str = "") -> Front:
    """The geometry that a text begins with, whatever follows it: its canonical text, and where it ends in the text.

    text: str or bytes. places, dialect, and errors: as of `canonical`. A text of several geometries is read by
    `text = text[front.end:].lstrip(", ")`, again and again.
    """
    asked = (places_of(places, False, dialect),) if dialect else (places, False)
    return Front(*calls.front(text, *asked))


def batches(
    column: Any, places: int = 18, invalid: str = "raise", progress: Progress = None, whole: bool = True,
    dialect: str = ""
) -> _arrow.Batches:  # fmt: skip
    """The canonical texts of an Arrow stream, batch by batch: it is read as they are taken, and one batch is held.

    column: what has `__arrow_c_stream__` or `__arrow_c_array__`, such as a reader of Parquet files. What comes back is
    an iterator of `ArrowTexts`, and has `__arrow_c_stream__`. The other arguments, and errors: as of `canonical`; an
    error comes with the batch that it is in.
    """
    places = places_of(places, whole, dialect)
    check_invalid(invalid)
    if not _arrow.is_texts(column) or not _arrow.lends(column):
        raise TypeError(
            _arrow.LACKING
            if _arrow.lends(column)
            else "batches are of an Arrow stream, and not of %s" % type(column).__name__
        )
    return _arrow.Batches(_arrow.taken(column), places, invalid, progress)


def canonical_column(
    texts: Any, places: int = 18, progress: Progress = None, whole: bool = True, dialect: str = ""
) -> Tuple[List[Optional[str]], List[int]]:
    """The canonical texts of a column as a list, and the status of each row: no row raises.

    A status is 0, or 28 of a null row, or why the text is refused; where it isn't 0 there is None for a text.
    places, progress, whole, dialect: as of `canonical`.
    """
    statuses: List[int] = []
    return canonical_rows(column_of(texts), places_of(places, whole, dialect), "null", progress, statuses), statuses


def same(
    one: Any, other: Any, places: int = 18, invalid: str = "raise", progress: Progress = None, whole: bool = True,
    dialect: str = ""
) -> Any:  # fmt: skip
    """Whether two texts name one geometry: whether their canonical texts are equal.

    Of two columns of one length, or a column and a text, a list of bool, and None where a row is null in either. Where
    a column is a Series of pandas, a Series of `boolean`; two Series have one index.
    invalid: "raise" or "null": None where a text is refused in either. places, progress, whole, dialect, errors: as of
    `canonical`; the WktError of a column names the first row that is refused. ValueError: the columns have different
    lengths or indexes. With the dialect "srid", geometries of two SRIDs are the same.
    """
    if type(one) is type(other) is str and invalid == "raise" and not dialect:
        return _same(one, other, places, whole)
    checked = places_of(places, whole, dialect)
    check_invalid(invalid, ("raise", "null"))
    columns = [is_column(one), is_column(other)]
    if not any(columns):
        return or_null(invalid, None, lambda: _same(one, other, checked))
    series = [it for it, column in zip((one, other), columns) if column and is_series(it)]
    if len(series) == 2 and len(one) == len(other) and not series[0].index.equals(series[1].index):
        raise ValueError("two Series with different indexes: align them, or give the rows of one as a list")
    if not columns[0]:
        one, other = other, one
    rows = column_of(one)
    wanted = column_of(other) if all(columns) else None
    if not all(columns) and not is_null(other):
        wanted = or_null(invalid, None, lambda: _canonical(other, checked))
    if wanted is None:
        answers: Any = [None] * len(rows)
    else:
        with shown(progress, len(rows)) as report:
            answers = calls.same_rows(rows, wanted, checked, INVALID.index(invalid), report)
    return series_like(series[0], answers, "boolean") if series else answers


def _refuse_header(status: int, row: Optional[int]) -> None:
    check(status, HEADER_MESSAGES + MESSAGES[len(HEADER_MESSAGES) :], row)


bind("refuse_header", _refuse_header)


def infer(text: Any, invalid: str = "raise") -> Any:
    """The kind and the dimension that the header of a text names, by their names in KINDS and DIMENSIONS.

    The rest isn't read. Of a column a list, and of a Series of pandas a Series, with None of a null row. invalid:
    "raise" or "null": None of a text without a header. WktError: the text begins with no kind word (1), EMPTY comes
    first with no space before it (2), there is neither a parenthesis nor EMPTY (3), or it isn't UTF-8 (20).
    """
    if type(text) is str and invalid == "raise":
        return _infer(text)
    check_invalid(invalid, ("raise", "null"))
    if not is_column(text):
        return or_null(invalid, None, lambda: _infer(text))
    return series_like(text, calls.infer_rows(column_of(text), INVALID.index(invalid)))


def srid(text: Any) -> Any:
    """The SRID in front of a text, as in `SRID=4326;POINT(1 2)`: 4326. None where it has none.

    It has one to nine digits, and nothing stands between these and the `;`: so the dialect "srid" leaves it out. The
    rest isn't read. Of a column a list, and of a Series of pandas a Series of `Int64`, with None of a null row.
    """
    if not is_column(text):
        return calls.srid(text)
    return series_like(text, calls.srid_rows(column_of(text)), "Int64")


def reads(text: Any, places: int = 18, progress: Progress = None, whole: bool = True, dialect: str = "") -> Any:
    """Whether a text is read: whether `canonical` answers it.

    Of a column a bool of each row, as an array or a Series of bool where the column is one, and else a list; of a null
    row False. It says nothing on what Shapely calls valid: a polygon that crosses itself reads. places, progress,
    whole, dialect: as of `canonical`.
    """
    if type(text) is str and not dialect:
        return _reads(text, places, whole)
    checked = places_of(places, whole, dialect)
    if not is_column(text):
        return _reads(text, checked)
    if _arrow.is_texts(text):
        return _arrow.statuses(text, checked, progress) == 0
    statuses = statuses_of(column_of(text), checked, progress)
    return like(text, (statuses == 0).tolist() if numpy is not None else [not it for it in statuses], bool)


def explain(text: Any, places: int = 18, progress: Progress = None, whole: bool = True, dialect: str = "") -> Any:
    """Where and why a text is refused, as an `Explanation`; None where it is read.

    Of a column a list, and of a Series of pandas a Series, with None of a row that is read or null. places, progress,
    whole, dialect: as of `canonical`.
    WktError: the text isn't UTF-8 (20), or a later library refuses it in a way that it can't explain: it has no place
    that could be named. In a column it is a row of None too.
    """
    places = places_of(places, whole, dialect)
    if not is_column(text):
        return explained(text, places)
    rows = column_of(text)
    with shown(progress, len(rows)) as report:
        return series_like(text, calls.explain_rows(rows, places, report))


def lines(data: Any, places: int = 18) -> Any:
    """For each line of some bytes the canonical text of the geometry that it begins with, or `refused`, and a line
    feed.

    What follows a geometry in its line isn't looked at. data: str or bytes; bytes come back. Of a column, none of whose
    texts holds a line feed, a list of the answers, and of a Series of pandas a Series, with None of a null row. places:
    as of `canonical`. ValueError: a text of a column holds a line feed.
    """
    if not is_column(data):
        return calls.lines(data, places, False)
    places = places_of(places)
    return series_like(data, calls.lines_rows(column_of(data), places))
