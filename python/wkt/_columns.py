"""What counts as a column, and how its answers come back in the same kind."""
import sys
from typing import Any, List, Optional, Sequence

from . import _arrow
from ._errors import WktError
from ._names import NULL
from ._native import _fast, calls
from ._progress import Progress, shown
from ._values import TEXTS, array_of, numpy

INVALID = ("raise", "null", "keep")
_AS_THEY_ARE = (tuple,) if _fast is None else (tuple, list)  # the module in C copies lists


def _pandas(name: str) -> Any:
    """A class of pandas; an empty tuple where pandas isn't imported, or has none of this name."""
    return getattr(sys.modules.get("pandas"), name, ())


def is_series(values: Any) -> bool:
    """Whether it is a Series of pandas, or what works as one."""
    return all(hasattr(values, name) for name in ("to_numpy", "index", "name", "dtype"))


def is_index(values: Any) -> bool:
    """Whether it is an Index of pandas."""
    return isinstance(values, _pandas("Index"))


def is_masked(values: Any) -> bool:
    return numpy is not None and isinstance(values, numpy.ma.MaskedArray)


_LISTS = ("to_pylist", "tolist", "to_list")


def is_column(values: Any) -> bool:
    """Whether it is a column, and no single value."""
    if isinstance(values, TEXTS):
        return False
    if isinstance(values, (list, tuple)):
        return True
    if numpy is not None and isinstance(values, numpy.ndarray):
        return bool(values.ndim > 0)
    return _arrow.lends(values) or any(hasattr(values, method) for method in _LISTS)


def rows_of(values: Any) -> Optional[Sequence[Any]]:
    """The rows of a column as a list or a tuple; None of a single value.

    The calls have a copy, since a callback or another thread may change a list during a call. It is of no subclass,
    which may say another length, and other parts, than it has.
    """
    if isinstance(values, TEXTS):
        return None
    if isinstance(values, (list, tuple)):
        return values if type(values) in _AS_THEY_ARE else list(values)
    if numpy is not None and isinstance(values, numpy.ndarray):
        if not is_masked(values):
            values = numpy.asarray(values)  # of no subclass: a matrix is never flat
        return None if values.ndim == 0 else list(values.reshape(-1).tolist())
    if _arrow.is_texts(values):
        return _arrow.rows_of(values)
    for method in _LISTS:
        if hasattr(values, method):
            several = getattr(values, method)()
            return list(several) if isinstance(several, list) else None
    if _arrow.lends(values):
        raise TypeError(_arrow.LACKING)
    return None


def column_of(values: Any) -> Sequence[Any]:
    """The rows of what has to be a column."""
    rows = rows_of(values)
    if rows is None:
        raise TypeError("a column of texts is a list, an array or a Series, and not %s" % type(values).__name__)
    return rows


def _array(answers: List[Any], kind: Any) -> Any:
    """An array of NumPy with the answers."""
    if kind is not None:
        return numpy.array(answers, kind)
    try:
        return numpy.fromiter(answers, object, len(answers))
    except ValueError:  # NumPy before 1.23
        made = numpy.empty(len(answers), object)
        made[:] = answers
        return made


def _texts_type(values: Any) -> Any:
    """The type of a Series or Index of pandas' own strings, by its class: its name is `string`, in pandas 3 `str`."""
    return values.dtype if isinstance(values.dtype, _pandas("StringDtype")) else None


def series_like(values: Any, answers: List[Any], kind: Any = None) -> Any:
    """Answers that are no texts: a Series with index and name of what was given, if that is one; else a list."""
    if not is_series(values):
        return answers
    held = answers if kind else _array(answers, None)
    return _pandas("Series")(held, index=values.index, name=values.name, dtype=kind or object)


def like(values: Any, answers: List[Any], kind: Any = None) -> Any:
    """Answers in the kind of what was given: a Series with its index and name, an array of its shape, or a list."""
    if is_series(values):
        dtype = kind or _texts_type(values) or object
        return type(values)(_array(answers, kind), index=values.index, name=values.name, dtype=dtype)
    if is_index(values):
        dtype = kind or _texts_type(values) or object
        return _pandas("Index")(_array(answers, kind), name=values.name, dtype=dtype)
    if numpy is None or not isinstance(values, numpy.ndarray):
        return answers
    nulls = [answer is None for answer in answers] if is_masked(values) else []
    if kind is None and values.dtype.kind in "SUT":
        # Arrays of a fixed width have no null: its place is an empty text. Those of StringDType may have one.
        null = getattr(values.dtype, "na_object", "")
        answers = [null if answer is None else answer for answer in answers]
        kind = values.dtype if values.dtype.kind == "T" else values.dtype.kind
    made = _array(answers, kind).reshape(values.shape)
    if is_masked(values):
        mask = numpy.ma.getmaskarray(values) | numpy.array(nulls, bool).reshape(values.shape)
        made = numpy.ma.MaskedArray(made, mask)
    return made


def refused_of(statuses: Any) -> Any:
    """The rows that are neither answered nor null, by their number."""
    if numpy is not None:
        codes = numpy.asarray(statuses)
        return numpy.flatnonzero((codes != 0) & (codes != NULL)).tolist()
    return [i for i, status in enumerate(statuses) if status not in (0, NULL)]


def check_invalid(invalid: Any, known: Sequence[str] = INVALID) -> None:
    """A ValueError unless it is one of these words."""
    if invalid not in known:
        raise ValueError("invalid is %s, and not %r" % (" or ".join(map(repr, known)), invalid))


def or_null(invalid: str, text: Any, call: Any) -> Any:
    """What a call answers of one text; where it is refused, what `invalid` names: None, or the text."""
    try:
        return call()
    except WktError:
        if invalid == "raise":
            raise
        return text if invalid == "keep" else None


def canonical_rows(
    rows: Sequence[Any], places: int, invalid: str, progress: Progress, statuses: Optional[List[int]] = None
) -> List[Any]:
    """The canonical texts of some rows; the status of each is put into a list."""
    with shown(progress, len(rows)) as report:
        answers: List[Any] = calls.canonical_rows(rows, places, INVALID.index(invalid), report, statuses)
    return answers


def statuses_of(rows: Sequence[Any], places: int, progress: Progress) -> Any:
    """The status of each row."""
    with shown(progress, len(rows)) as report:
        return array_of("I", calls.statuses(rows, places, report, False))


def canonical_like(values: Any, places: int, invalid: str, progress: Progress) -> Any:
    """The canonical texts of a column, in its kind."""
    check_invalid(invalid)
    if _arrow.is_texts(values):
        return _arrow.canonical(values, places, invalid, progress)
    return like(values, canonical_rows(column_of(values), places, invalid, progress))
