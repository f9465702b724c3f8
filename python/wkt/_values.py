"""The arguments of the functions: what each takes, and what it refuses."""
import array
import operator
import struct
from typing import Any, NamedTuple, Optional, Union

from ._errors import WktError, words_of
from ._names import NO_PLACES

numpy: Any
try:
    import numpy
except ImportError:  # The functions then give and take sequences of numbers.
    numpy = None

Text = Union[str, bytes, bytearray, memoryview]
TEXTS = (str, bytes, bytearray, memoryview)
# Of each kind of integers the type of an item in NumPy, the least and the largest.
INTEGERS = {"q": ("int64", -(2**63), 2**63 - 1), "Q": ("uint64", 0, 2**64 - 1), "I": ("uint32", 0, 2**32 - 1)}
# The same types as NumPy has them.
_TYPES = {code: numpy.dtype(name) for code, (name, _, _) in INTEGERS.items()} if numpy is not None else {}
_FORMATS = {"q": ("l", "q"), "Q": ("L", "Q"), "I": ("I", "L")}  # of memoryview, if they have its size
_NULLS = ("NAType", "NaTType")
WHOLE = 256  # WKT_WHOLE of include/wkt.h
DIALECTS = {"srid": 512, "untagged": 1024, "exponents": 2048, "nan": 4096, "ewkt": 512 | 1024}  # its WKT_SRID, ..
MOST_PLACES = 36


def encoded(text: Any, row: Optional[int] = None) -> bytes:
    """The bytes of a text. They are copied, so that nothing changes them during a call.

    They come from the buffer: a subclass may answer `len`, `encode` and the like as it pleases.
    """
    if isinstance(text, str):
        return str.encode(text, "utf-8", "surrogatepass")
    if type(text) is bytes:
        return text
    if isinstance(text, (bytes, bytearray, memoryview)):
        return memoryview(text).tobytes()
    where = "" if row is None else "row %d: " % row
    more = ""
    if hasattr(text, "geom_type"):
        more = "; shapely.to_wkt(geometries, rounding_precision=6, trim=False) gives texts, as GeoSeries.to_wkt does"
    raise TypeError("%sa text is a str or bytes, and not %s%s" % (where, type(text).__name__, more))


def text_of(row: Any, number: Optional[int]) -> Optional[bytes]:
    """The bytes of a row, and None of one that is null; with no number those of a text, which is no row."""
    return None if number is not None and is_null(row) else encoded(row, number)


def is_null(row: Any) -> bool:
    """Whether a row of a column is null: None, NaN, or pandas' NA or NaT."""
    if row is None:
        return True
    if isinstance(row, TEXTS):
        return False
    if isinstance(row, float) or (numpy is not None and isinstance(row, numpy.floating)):
        return bool(row != row)
    return type(row).__name__ in _NULLS


def integer(value: Any, what: str) -> int:
    """A value that is an integer, and no bool."""
    if isinstance(value, bool) or (numpy is not None and isinstance(value, numpy.bool_)):
        raise TypeError("%s is an int, and not bool" % what)
    try:
        return operator.index(value)
    except TypeError:
        raise TypeError("%s is an int, and not %s" % (what, type(value).__name__)) from None


def dialects_of(dialect: Any) -> int:
    """The bits of dialects, which a str names: "ewkt,exponents"."""
    if not isinstance(dialect, str):
        raise TypeError("dialect is a str such as 'ewkt,exponents', and not %s" % type(dialect).__name__)
    bits = 0
    for name in dialect.split(",") if dialect else ():
        known = DIALECTS.get(name.strip())
        if known is None:
            raise ValueError("a dialect is one of %s, and not %r" % (", ".join(DIALECTS), name.strip()))
        bits |= known
    return bits


def places_of(places: Any, whole: Any = False, dialect: Any = "") -> int:
    """The places of a call: a TypeError unless it is an int, an OverflowError unless 32 bits hold it.

    Bits are added: that of `whole`, where each text is to be one geometry as a whole, and one for each dialect.
    """
    if dialect:
        return places_of(places, whole) | dialects_of(dialect)
    if type(places) is int and 0 <= places <= MOST_PLACES and (whole is True or whole is False):
        return places | WHOLE if whole else places
    if not isinstance(whole, bool):
        raise TypeError("whole is a bool, and not %s" % type(whole).__name__)
    places = integer(places, "places")
    if not 0 <= places < 2**32:
        raise OverflowError("places is 0 to %d, and not %d" % (MOST_PLACES, places))
    if places > MOST_PLACES:
        raise WktError(NO_PLACES, words_of(NO_PLACES))
    return int(places) | (WHOLE if whole else 0)


def _too_large(code: str, value: Any, what: str) -> OverflowError:
    least, most = INTEGERS[code][1:]
    return OverflowError("%s are of %d to %d, and not %s" % (what, least, most, value))


class Ints(NamedTuple):
    """A copy of some ints: bytes or an array of `array`, and how many they are."""

    data: Any
    length: int


def _of_numpy(code: str, values: Any, what: str) -> Ints:
    values = numpy.asarray(values)  # of no subclass
    if values.dtype.kind not in "iu":
        raise TypeError("%s are integers, and not of %s" % (what, values.dtype))
    if values.dtype is _TYPES[code]:
        data = values.tobytes()
        return Ints(data, len(data) // values.itemsize)
    # A copy, so that nothing changes them between this check and the end of the call.
    values, (_, least, most) = numpy.array(values), INTEGERS[code]
    if values.size:
        for value in (int(values.min()), int(values.max())):
            if not least <= value <= most:
                raise _too_large(code, value, what)
    return Ints(values.astype(_TYPES[code]).tobytes(), values.size)


def _listed(values: Any, what: str) -> Any:
    """The ints of a list, of an array of `array`, or of another sequence."""
    if isinstance(values, TEXTS[:3]):
        raise TypeError("%s are a sequence of ints, and not %s" % (what, type(values).__name__))
    if isinstance(values, (array.array, memoryview)):
        code = values.typecode if isinstance(values, array.array) else values.format
        if code.lstrip("@=<>!") not in list("bBhHiIlLqQnN"):
            raise TypeError("%s are integers, and not of the type %r" % (what, code))
        if code[0] in "=<>!":  # as ctypes has them; tolist knows none
            return [it for (it,) in struct.iter_unpack(code, values.tobytes())]
    return values.tolist() if hasattr(values, "tolist") else list(values)


def integers(code: str, values: Any, what: str) -> Ints:
    """A copy of some ints, each of the type that a code names.

    A TypeError where one is no int (a float, a bool, a Decimal, a str), an OverflowError where one is out of range.
    """
    if numpy is not None and type(values) is not list:
        if not isinstance(values, numpy.ndarray) and hasattr(values, "to_numpy"):
            values = values.to_numpy()
        if isinstance(values, numpy.ndarray) and values.dtype.kind != "O":
            return _of_numpy(code, values, what)
    if type(values) is not list:
        values = _listed(values, what)
    # Nearly always all are ints; others are looked at one by one.
    if set(map(type, values)) - {int}:
        values = [integer(value, "each of the %s" % what) for value in values]
    try:
        held = array.array(code, values)
    except OverflowError:
        least, most = INTEGERS[code][1:]
        raise _too_large(code, next(it for it in values if not least <= it <= most), what) from None
    return Ints(held, len(held))


def lent(code: str, values: Any, what: str) -> memoryview:
    """Some ints, each of the type that a code names: where they stand, or a copy where they are others.

    Errors are those of `integers`.
    """
    if numpy is not None and isinstance(values, numpy.ndarray):
        values = numpy.asarray(values)  # of no subclass
        if values.dtype == _TYPES[code] and values.flags.c_contiguous:
            return memoryview(values)
    elif isinstance(values, (array.array, memoryview)):
        view = memoryview(values)
        known = view.format.lstrip("@=") in _FORMATS[code] and view.itemsize == array.array(code).itemsize
        if known and view.c_contiguous:
            return view
    return memoryview(integers(code, values, what).data)


def array_of(code: str, buffer: Any) -> Any:
    """An array over the items of a buffer that a call has made."""
    if numpy is not None:
        return numpy.frombuffer(buffer, _TYPES[code])
    if isinstance(buffer, array.array):
        return buffer
    made = array.array(code)
    made.frombytes(buffer)
    return made
