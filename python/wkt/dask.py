"""Keys of dataframes of Dask, and what deduplicates and joins them by their geometry, on any number of workers.

    >>> import dask.dataframe, pandas, wkt.dask
    >>> frame = dask.dataframe.from_pandas(pandas.DataFrame({"geom": ["point(1 2.0)", "POINT(1 2)"]}), npartitions=2)
    >>> wkt.dask.drop_duplicates(frame, "geom").compute()
               geom
    0  point(1 2.0)

A row whose text is null or refused has no key: it is the same as no other row. A key has the same bytes on each machine
and in any partition. Each worker needs this package, of one version. dialect: as of `wkt.canonical`.
"""
import importlib
from typing import Any, Optional

from . import _calls
from . import pandas as _pandas

dataframe: Any = importlib.import_module("dask.dataframe")


def keys(texts: Any, places: int = 18, whole: bool = True, dialect: str = "") -> Any:
    """The canonical texts of a Series, partition by partition; None of a row that is null or refused.

    A refused row is one of `keys.isna() & texts.notnull()`.
    """
    meta = texts._meta.astype(object)
    return texts.map_partitions(_calls.canonical, places, "null", None, whole, dialect, meta=meta)


def _keyed(frame: Any, column: Any, side: str, drop: bool, *asked: Any) -> Any:
    """A partition with its keys; rows without one have what no row of another side has, or are dropped."""
    made = _pandas.keyed(frame, column, side, *asked)
    return made[_pandas.has_key(made)] if drop else made


def _with_keys(frame: Any, column: Any, side: str, drop: bool, *asked: Any) -> Any:
    meta = _pandas.keyed(frame._meta, column, side, *asked)
    return frame.map_partitions(_keyed, column, side, drop, *asked, meta=meta)


def drop_duplicates(
    frame: Any, column: Any, places: int = 18, whole: bool = True, dialect: str = "", **more: Any
) -> Any:
    """The rows of a frame without those whose geometry another row has; each row without a key stays, behind these.

    column: the name of the one with the texts. The first row of a geometry stays. more: what drop_duplicates of Dask
    takes, such as `split_out`, the number of partitions that the rows with keys come back in.
    """
    made = _with_keys(frame, column, "", False, places, whole, dialect)
    has = made.map_partitions(_pandas.has_key, meta=(_pandas.KEY, bool))
    both = dataframe.concat([made[has].drop_duplicates(subset=[_pandas.KEY], **more), made[~has]])
    return both.map_partitions(_pandas.unkeyed, None, meta=frame._meta)


def merge(
    left: Any, right: Any, left_on: Any, right_on: Any = None, how: str = "inner", places: int = 18,
    whole: bool = True, key: Optional[str] = None, dialect: str = "", **more: Any
) -> Any:  # fmt: skip
    """The rows of two frames whose geometries are the same, as `dask.dataframe.merge` gives them.

    A row without a key meets none; with how="left", "right" or "outer" it is there alone. left_on, right_on: the names
    of the columns with the texts; right_on is left_on unless it is given. key: the name of a column that gets the keys.
    more: what merge of Dask takes, such as suffixes and `npartitions`.
    """
    right_on = left_on if right_on is None else right_on
    sides = [
        _with_keys(left, left_on, "l", how in ("inner", "right"), places, whole, dialect),
        _with_keys(right, right_on, "r", how in ("inner", "left"), places, whole, dialect),
    ]
    made = dataframe.merge(*sides, how=how, on=_pandas.KEY, **more)
    return made.map_partitions(_pandas.unkeyed, key, meta=_pandas.unkeyed(made._meta, key))
