"""Columns over Arrow's C interfaces for the tests of them, made and taken by a peer in C (arrow_peer.c) or Python."""
import ctypes
import itertools
import struct
import typing
import unittest

import wkt
from modules import installed

arrow_peer = installed("arrow_peer")  # wheel.sh compiles it where the fast module is tried
refuse = installed("refuse")  # only in the run under sanitizers
if arrow_peer is not None:
    import numpy

TEXTS = ["point ( 1 2.50 )", None, "POINT(3 4)", "PINT(5 6)", "MultiPoint(1 2)", "", "LINESTRING(1 2,3 4,5 6,7 8)"]
HELD = [None if text is None else text.encode() for text in TEXTS]
ANSWERS = ["POINT(1 2.5)", None, "POINT(3 4)", None, "MULTIPOINT((1 2))", None, "LINESTRING(1 2,3 4,5 6,7 8)"]
PLAIN = ["u", "U", "z", "Z"]
OTHERS = ["vu", "vz", "c:u", "C:U", "s:z", "S:vu", "i:u", "I:u", "l:Z", "L:vz"]
FORMATS = PLAIN + OTHERS + ["+su", "+sU", "+svu", "+si:u"]
NAMED = {"ARROW:extension:name": "geoarrow.wkt", "ARROW:extension:metadata": '{"crs":"EPSG:4326"}'}


class Lent:
    """A column of the producer."""

    def __init__(self, rows=HELD, format="u", first=0, spoil="", metadata=b""):
        self.given = (format, rows, first, spoil, metadata)

    def __arrow_c_array__(self, requested_schema=None):
        return arrow_peer.array(*self.given)


class Streamed:
    """A stream of the producer: rows in chunks."""

    def __init__(self, chunks, format="u", first=0, spoil="", metadata=b""):
        self.given = (format.encode(), chunks, first, spoil.encode(), metadata)

    def __arrow_c_stream__(self, requested_schema=None):
        return arrow_peer.stream(*self.given)


def _structure(name, numbers, pointers):
    """A structure of Arrow's: its 64-bit numbers, and its pointers."""
    fields = [(it, ctypes.c_int64) for it in numbers.split()] + [(it, ctypes.c_void_p) for it in pointers.split()]
    return type(name, (ctypes.Structure,), {"_fields_": fields})


_Schema = _structure("Schema", "format name metadata flags n_children", "children dictionary release private_data")
_Array = _structure(
    "Array", "length null_count offset n_buffers n_children", "buffers children dictionary release private_data"
)
_Stream = _structure("Stream", "", "get_schema get_next get_last_error release private_data")
_capsule = ctypes.pythonapi.PyCapsule_New
_capsule.restype, _capsule.argtypes = ctypes.py_object, [ctypes.c_void_p, ctypes.c_char_p, ctypes.c_void_p]


class Called:
    """A producer whose functions are Python's. `seen` is called with the name of each that is called."""

    def __init__(self, seen, format=b"u", ends=(0, 10), error=0):
        self.seen, self.error, self.left = seen, error, 1
        self.data = ctypes.create_string_buffer(b"point(1 2)"), (ctypes.c_int32 * len(ends))(*ends)
        self.words = ctypes.create_string_buffer(format), ctypes.create_string_buffer(b"gone \x1b[2J \xe2\x80\xae")
        self.buffers = (ctypes.c_void_p * 3)(None, *(ctypes.addressof(it) for it in reversed(self.data)))
        one, two = ctypes.CFUNCTYPE(None, ctypes.c_void_p), ctypes.CFUNCTYPE(ctypes.c_int, *2 * [ctypes.c_void_p])
        said = ctypes.CFUNCTYPE(ctypes.c_void_p, ctypes.c_void_p)
        types = {"schema": _Schema, "array": _Array, "stream": _Stream}
        self.functions = [one(lambda at, it=it: self.release(it, types[it], at)) for it in types]
        self.functions += [two(self.get_schema), two(self.get_next), said(self.get_last_error)]
        self.ends = dict(zip(types, self.functions))

    def release(self, name, structure, at):
        structure.from_address(at).release = None
        self.seen("release " + name)

    def schema(self, at):
        made = _Schema.from_address(at)
        made.format, made.release = ctypes.addressof(self.words[0]), self.address(self.ends["schema"])

    def array(self, at):
        made = _Array.from_address(at)
        made.length, made.n_buffers, made.buffers = len(self.data[1]) - 1, 3, ctypes.addressof(self.buffers)
        made.release = self.address(self.ends["array"])

    def get_schema(self, stream, at):
        self.schema(at)
        self.seen("schema")
        return 0

    def get_next(self, stream, at):
        if self.left and not self.error:
            self.left = 0
            self.array(at)
        self.seen("next")
        return self.error

    def get_last_error(self, stream):
        self.seen("error")
        return ctypes.addressof(self.words[1])

    @staticmethod
    def address(function):
        return ctypes.cast(function, ctypes.c_void_p).value

    def __arrow_c_array__(self, requested_schema=None):
        self.lent = _Schema(), _Array()
        self.schema(ctypes.addressof(self.lent[0]))
        self.array(ctypes.addressof(self.lent[1]))
        names = b"arrow_schema", b"arrow_array"
        return tuple(_capsule(ctypes.addressof(it), name, None) for it, name in zip(self.lent, names))

    def stream(self):
        """The same as a stream."""
        held = self.held = _Stream()
        held.get_schema, held.get_next, held.get_last_error = map(self.address, self.functions[3:])
        held.release = self.address(self.ends["stream"])
        made = _capsule(ctypes.addressof(held), b"arrow_array_stream", None)
        return type("Stream", (), {"__arrow_c_stream__": lambda it, requested_schema=None: made})()


class Node(typing.NamedTuple):
    """A column as its buffers, each of bytes or None. `length` rows begin at `offset`."""

    format: str
    length: int
    buffers: tuple = ()
    columns: tuple = ()
    name: str = ""
    offset: int = 0
    nulls: int = -1
    dictionary: typing.Any = None
    metadata: bytes = b""


def bits_of(rows):
    """A bit for each row, which is 0 of None; no bits where none is None."""
    held = [row is not None for row in rows]
    bits = bytes(sum(bit << i for i, bit in enumerate(held[at : at + 8])) for at in range(0, len(held), 8))
    return None if all(held) else bits


def numbers(format, values, **more):
    """A column of numbers, such as "i" of 32 bits and "g" of doubles."""
    code = "d" if format == "g" else {"c": "b", "C": "B", "s": "h", "S": "H", "l": "q", "L": "Q"}.get(format, format)
    data = struct.pack("<%d%s" % (len(values), code), *(value or 0 for value in values))
    return Node(format, len(values), (bits_of(values), data), **more)


def texts_of(rows, **more):
    """A column of utf8."""
    ends = list(itertools.accumulate((len(row or b"") for row in rows), initial=0))
    buffers = bits_of(rows), struct.pack("<%di" % len(ends), *ends), b"".join(row or b"" for row in rows)
    return Node("u", len(rows), buffers, **more)


class Told:
    """A column as it is told, by a producer in Python. Its buffers have their exact size, until they are released."""

    held, types = {}, {}  # of arrays; and of schemas, which may stay

    def __init__(self, node):
        self.node = node

    @classmethod
    def fill(cls, made, node):
        keep, texts = [], [node.format.encode(), node.name.encode(), node.metadata or None]
        column = type(made)
        columns = [column() for _ in node.columns]
        pointers = (ctypes.c_void_p * len(columns))(*map(ctypes.addressof, columns))
        for each, its in zip(columns, node.columns):
            cls.fill(each, its)
        keep += [columns, pointers]
        if column is _Schema:
            words = [None if text is None else ctypes.create_string_buffer(text) for text in texts]
            made.format, made.name, made.metadata = (0 if it is None else ctypes.addressof(it) for it in words)
            keep.append(words)
        else:
            held = [it if it is None else (ctypes.c_char * len(it)).from_buffer_copy(it) for it in node.buffers]
            buffers = (ctypes.c_void_p * len(held))(*(it if it is None else ctypes.addressof(it) for it in held))
            made.length, made.offset, made.null_count = node.length, node.offset, node.nulls
            made.n_buffers, made.buffers = len(held), ctypes.addressof(buffers)
            keep += [held, buffers]
        made.n_children, made.children = len(columns), ctypes.addressof(pointers)
        if node.dictionary is not None:
            keep.append(column())
            cls.fill(keep[-1], node.dictionary)
            made.dictionary = ctypes.addressof(keep[-1])
        made.private_data = id(keep)
        (cls.types if column is _Schema else cls.held)[id(keep)] = keep
        made.release = Called.address(_releases[column])

    @classmethod
    def release(cls, made):
        made.release = None
        for at in [made.dictionary, *(ctypes.c_void_p * made.n_children).from_address(made.children)]:
            if at is not None:
                cls.release(type(made).from_address(at))
        del (cls.types if type(made) is _Schema else cls.held)[made.private_data]

    def __arrow_c_array__(self, requested_schema=None):
        self.lent = _Schema(), _Array()
        for made in self.lent:
            self.fill(made, self.node)
        names = b"arrow_schema", b"arrow_array"
        return tuple(_capsule(ctypes.addressof(it), name, None) for it, name in zip(self.lent, names))


_releases = {
    it: ctypes.CFUNCTYPE(None, ctypes.c_void_p)(lambda at, it=it: Told.release(it.from_address(at)))
    for it in (_Schema, _Array)
}


class ToldStream:
    """A stream of such columns, the first of which says the type."""

    made = []  # Its functions are called for as long as somebody has the stream, and not this.

    def __init__(self, *nodes):
        self.made.append(self)
        self.nodes, self.left, self.held = nodes, list(nodes), _Stream()
        two = ctypes.CFUNCTYPE(ctypes.c_int, *2 * [ctypes.c_void_p])
        self.functions = [two(self.get_schema), two(self.get_next), ctypes.CFUNCTYPE(None, ctypes.c_void_p)(self.end)]
        self.held.get_schema, self.held.get_next, self.held.release = map(Called.address, self.functions)

    def get_schema(self, stream, at):
        Told.fill(_Schema.from_address(at), self.nodes[0])
        return 0

    def get_next(self, stream, at):
        if self.left:
            Told.fill(_Array.from_address(at), self.left.pop(0))
        else:
            _Array.from_address(at).release = None
        return 0

    def end(self, at):
        _Stream.from_address(at).release = None

    def __arrow_c_stream__(self, requested_schema=None):
        return _capsule(ctypes.addressof(self.held), b"arrow_array_stream", None)


def made(texts, metadata=None):
    """Texts as ArrowTexts."""
    held = [b"" if text is None else text.encode() for text in texts]
    offsets = numpy.cumsum([0] + list(map(len, held))).astype(numpy.int64)
    statuses = numpy.array([0 if text is not None else 28 for text in texts], numpy.uint32)
    return wkt.ArrowTexts(numpy.frombuffer(b"".join(held), numpy.uint8), offsets, statuses, metadata)


def rows_in(taken):
    """The rows of what the consumer took of a column of large_utf8."""
    format, _, _, _, length, nulls, (bits, offsets, data), columns = taken
    assert (format, columns) == ("U", [])
    ends = numpy.frombuffer(offsets, numpy.int64).tolist()
    valid = [bits is None or bits[i // 8] >> i % 8 & 1 for i in range(length)]
    assert nulls == length - sum(valid)
    return [data[start:end].decode() if it else None for it, start, end in zip(valid, ends, ends[1:])]


@unittest.skipIf(arrow_peer is None, "the fast module isn't tried")
class Arrow(unittest.TestCase):
    def setUp(self):
        self.before = arrow_peer.live()

    def tearDown(self):
        self.assertEqual((arrow_peer.live(), Told.held), (self.before, {}), "something wasn't released")
