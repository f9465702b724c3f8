"""The calls of the library for one text and for rows: by wkt._fast, the module in C, or else by ctypes."""
import ctypes
from typing import Any

from . import _library, _slow, _values
from ._names import DIMENSIONS, KINDS

_fast: Any = None
try:
    from . import _fast as _compiled

    _fast = _compiled
except ImportError:
    pass
calls: Any = _slow if _fast is None else _fast

BOUND = (
    "canonical", "same", "infer", "explain", "hint", "arrays", "from_arrays", "lines", "srid", "read_events",
)  # fmt: skip
if _fast is not None:
    for _name in BOUND:
        _function = getattr(_library, "wkt_" + _name)
        _fast.bind("wkt_" + _name, ctypes.cast(_function, ctypes.c_void_p).value)


def bind(name: str, value: Any) -> Any:
    """Gives the calls what they need of the package, and returns it."""
    calls.bind(name, value)
    return value


bind("places_of", _values.places_of)
bind("text_of", _values.text_of)
bind("array_of", _values.array_of)
bind("KINDS", KINDS)
bind("DIMENSIONS", DIMENSIONS)
