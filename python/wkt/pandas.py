"""The accessor `.wkt` of a Series and an Index of pandas, and what joins, groups and reads tables by their geometry.

    >>> import pandas, wkt.pandas
    >>> pandas.Series(["point(1 2.0)"]).wkt.canonical(places=6)
    0    POINT(1 2)
    dtype: object

A row whose text is null or refused has no key: it is the same as no other row, as null is in SQL. dialect: as of
`wkt.canonical`.
"""
import importlib
from typing import Any, Optional

from . import _calls
from ._arrays import to_arrays_column
from ._columns import check_invalid, column_of, is_series, refused_of, statuses_of
from ._explain import Why, why
from ._values import places_of

pandas: Any = importlib.import_module("pandas")


@pandas.api.extensions.register_series_accessor("wkt")
@pandas.api.extensions.register_index_accessor("wkt")
class Accessor:
    """The calls of `wkt` for this column: they take the other arguments as there, and answer as there."""

    def __init__(self, values: Any) -> None:
        self._values = values

    def canonical(
        self, places: int = 18, invalid: str = "raise", progress: Any = None, whole: bool = True, dialect: str = ""
    ) -> Any:
        """The canonical texts, as a Series or an Index: `wkt.canonical`."""
        return _calls.canonical(self._values, places, invalid, progress, whole, dialect)

    def same(
        self, other: Any, places: int = 18, invalid: str = "raise", progress: Any = None, whole: bool = True,
        dialect: str = ""
    ) -> Any:  # fmt: skip
        """Whether each row names the same geometry as a text, or as the row of another column: `wkt.same`."""
        return _calls.same(self._values, other, places, invalid, progress, whole, dialect)

    def srid(self) -> Any:
        """The SRID in front of each text: `wkt.srid`."""
        return _calls.srid(self._values)

    def reads(self, places: int = 18, progress: Any = None, whole: bool = True, dialect: str = "") -> Any:
        """Whether each text is read: `wkt.reads`."""
        return _calls.reads(self._values, places, progress, whole, dialect)

    def explain(self, places: int = 18, progress: Any = None, whole: bool = True, dialect: str = "") -> Any:
        """Where and why each text is refused: `wkt.explain`."""
        return _calls.explain(self._values, places, progress, whole, dialect)

    def refusals(self, places: int = 18, progress: Any = None, whole: bool = True, dialect: str = "") -> Any:
        """The rows that are refused, as a frame with their index.

        Its columns are `text`, `place` (a character of a str or a byte of bytes, from 1 on; 0 where none is known),
        `expected` (what was expected there), `cause` (one stable word, to group by), `hint` (why, in words) and
        `message` (that of the Rust crate).
        """
        checked, rows = places_of(places, whole, dialect), column_of(self._values)
        found = refused_of(statuses_of(rows, checked, progress))
        index = self._values.index.take(found) if is_series(self._values) else pandas.Index(found)
        held = [(rows[i], *why(rows[i], checked)) for i in found]
        return pandas.DataFrame(held, columns=["text", *Why._fields], index=index)

    def infer(self, invalid: str = "raise") -> Any:
        """The kind and the dimension of each header: `wkt.infer`."""
        return _calls.infer(self._values, invalid)

    def to_arrays_column(self, places: int = 6, progress: Any = None, whole: bool = True, dialect: str = "") -> Any:
        """The flat arrays of all rows: `wkt.to_arrays_column`."""
        return to_arrays_column(self._values, places, progress, whole, dialect)


KEY = "wkt.key"  # a column of ours, while frames are joined


def _keys(frame: Any, column: Any, places: int, whole: bool, dialect: str) -> Any:
    """The key of each row, None where it has none."""
    return _calls.canonical(frame[column].astype(object), places, "null", whole=whole, dialect=dialect)


def keyed(frame: Any, column: Any, side: str, *asked: Any) -> Any:
    """The frame with the key of each row in a column of ours. asked: places, whole and dialect.

    Where it has none there is what is no key of any text, for each row another: pandas would pair nulls.
    """
    if KEY in frame.columns:
        raise ValueError("a frame has the column %r, which is needed here" % KEY)
    keys = _keys(frame, column, *asked)
    alone = pandas.Series(["-%s%d" % (side, i) for i in range(len(frame))], index=keys.index, dtype=object)
    return frame.assign(**{KEY: keys.where(keys.notna(), alone)})


def has_key(frame: Any) -> Any:
    """Whether each row of such a frame has a key."""
    # The methods of `str` take ten times as long.
    return pandas.Series([key[0] != "-" for key in frame[KEY].tolist()], index=frame.index, name=KEY, dtype=bool)


def unkeyed(frame: Any, key: Optional[str]) -> Any:
    """The frame without that column. key: the name of one that gets the keys."""
    made = frame.drop(columns=KEY)
    return made if key is None else made.assign(**{key: frame[KEY].where(has_key(frame), None)})


def drop_duplicates(
    frame: Any, column: Any, places: int = 18, keep: Any = "first", whole: bool = True, dialect: str = ""
) -> Any:
    """The rows of a frame without those whose geometry another row has; each row without a key stays.

    column: the name of the one with the texts. keep: "first", "last" or False, as of pandas' drop_duplicates. Index,
    order, texts and `attrs` stay.
    """
    keys = _keys(frame, column, places, whole, dialect)
    return frame[~(keys.duplicated(keep) & keys.notna()).to_numpy()]


def groupby(
    frame: Any, column: Any, places: int = 18, whole: bool = True, dialect: str = "", **more: Any
) -> Any:
    """`frame.groupby` by the key of a column; rows without a key are in no group.

    The groups are named by their keys. more: what groupby of pandas takes.
    """
    return frame.groupby(_keys(frame, column, places, whole, dialect), dropna=True, **more)


def merge(
    left: Any, right: Any, left_on: Any, right_on: Any = None, how: str = "inner", places: int = 18,
    whole: bool = True, key: Optional[str] = None, dialect: str = "", **more: Any
) -> Any:  # fmt: skip
    """The rows of two frames whose geometries are the same, as `left.merge(right)` gives them; the index is new.

    A row without a key meets none; with how="left", "right" or "outer" it is there alone. left_on, right_on: the names
    of the columns with the texts; right_on is left_on unless it is given. key: the name of a column that gets the keys.
    more: what merge of pandas takes, such as suffixes. `attrs` are those of left.
    """
    sides = [
        keyed(frame, column, side, places, whole, dialect)
        for side, frame, column in (("l", left, left_on), ("r", right, left_on if right_on is None else right_on))
    ]
    made = unkeyed(sides[0].merge(sides[1], how=how, on=KEY, **more), key)
    made.attrs.update(left.attrs)
    return made


def read_csv(
    *given: Any, wkt: Any, places: int = 18, invalid: str = "raise", whole: bool = True, dialect: str = "", **more: Any
) -> Any:
    """`pandas.read_csv`, with the texts of one column made canonical.

    wkt: the name of that column. invalid: what becomes of a refused text, as of `wkt.canonical`. The rest goes to
    pandas. With chunksize an iterator of frames comes back, and the row of an error is that of its chunk.
    """
    check_invalid(invalid)

    def keyed(frame: Any) -> Any:
        frame[wkt] = _calls.canonical(frame[wkt].astype(object), places, invalid, whole=whole, dialect=dialect)
        return frame

    made = pandas.read_csv(*given, **more)
    return keyed(made) if isinstance(made, pandas.DataFrame) else map(keyed, made)
