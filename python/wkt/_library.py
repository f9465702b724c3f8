"""The shared library and the types of its functions, as include/wkt.h declares them."""
import ctypes
import os
import re
from typing import Any, List

from ._version import __version__

size = ctypes.c_size_t
u32 = ctypes.c_uint32
_pointer = ctypes.c_void_p


class Sizes(ctypes.Structure):
    """WktSizes of include/wkt.h."""

    _fields_ = [
        ("kind", u32),
        ("dimension", u32),
        ("numbers", size),
        ("rings", size),
        ("polygons", size),
        ("end", size),
    ]


class ColumnSizes(ctypes.Structure):
    """WktColumnSizes of include/wkt.h."""

    _fields_ = [("numbers", size), ("rings", size), ("polygons", size)]


def _opened(path: str, said: str) -> ctypes.CDLL:
    try:
        return ctypes.CDLL(path)
    except OSError as error:
        raise ImportError("%s %s, which can't be loaded: %s" % (said, path, error)) from None


def _load() -> ctypes.CDLL:
    """The library that the environment names, that of this package, that of a clone of the project, or the system's."""
    for variable, more in (("WKT_LIB", ""), ("WKT_LIB_DIR", "libwkt.so")):
        named = os.environ.get(variable)
        if named:
            return _opened(os.path.join(named, more) if more else named, variable + " names")
    here = os.path.dirname(os.path.abspath(__file__))
    beside = os.path.join(here, "libwkt.so")
    clone = os.path.join(here, os.pardir, os.pardir)
    for path in (beside, *(os.path.join(clone, made, "out", "libwkt.so") for made in ("capi", "dist"))):
        if os.path.exists(path):
            return _opened(path, "the package has")
    for name in ("libwkt.so.0", "libwkt.so"):
        try:
            return ctypes.CDLL(name)
        except OSError:
            pass
    raise ImportError(
        "libwkt.so is missing: capi/build.sh in a clone of wkt makes it, and WKT_LIB_DIR may name its folder"
    )


_library = _load()


def _numbers(version: str) -> List[int]:
    return [int(number) for number in re.findall("[0-9]+", version)[:3]]


def _suits() -> None:
    """An ImportError unless the library is of this version or a later one, and the processor is supported."""
    _library.wkt_version.restype = ctypes.c_char_p
    version = _library.wkt_version().decode()
    if _numbers(version) < _numbers(__version__):
        raise ImportError("%s is of version %s, and this package of %s" % (_library._name, version, __version__))
    if not _library.wkt_supported():
        raise ImportError("libwkt.so needs another processor: x86-64 with SSE4.2 and POPCNT (x86-64-v2)")


def _declared(name: str, *types: Any) -> Any:
    try:
        function = getattr(_library, name)
    except AttributeError:
        raise ImportError("%s has no %s: it is older than this package" % (_library._name, name)) from None
    function.restype, function.argtypes = u32, types
    return function


_suits()
_slice = (_pointer, size)

wkt_message = _declared("wkt_message", u32)
wkt_message.restype = ctypes.c_char_p

wkt_canonical = _declared("wkt_canonical", *_slice, u32, *_slice, _pointer, _pointer)
wkt_same = _declared("wkt_same", *_slice, *_slice, u32, _pointer)
wkt_infer = _declared("wkt_infer", *_slice, _pointer, _pointer)
wkt_explain = _declared("wkt_explain", *_slice, u32, *4 * [_pointer])
wkt_hint = _declared("wkt_hint", *_slice, u32, _pointer)
wkt_srid = _declared("wkt_srid", *_slice, _pointer, _pointer)
wkt_lines = _declared("wkt_lines", *_slice, u32, *_slice, _pointer)
wkt_column_canonical = _declared("wkt_column_canonical", *3 * _slice, u32, *3 * _slice, _pointer)
wkt_column_arrays = _declared("wkt_column_arrays", *3 * _slice, u32, _pointer, *9 * _slice)
wkt_column_from_arrays = _declared("wkt_column_from_arrays", *9 * _slice, u32, *3 * _slice, _pointer)
wkt_arrays = _declared("wkt_arrays", *_slice, u32, _pointer, *3 * _slice)
wkt_read_events = _declared("wkt_read_events", *_slice, u32, *2 * _slice, *3 * [_pointer])
wkt_from_arrays = _declared("wkt_from_arrays", u32, u32, *3 * _slice, u32, *_slice, _pointer)
