"""What wkt._fast has, by ctypes: each function takes the same, answers the same and raises the same."""
import array
import bisect
import ctypes
import itertools
from typing import Any, Callable, Dict, Iterable, Iterator, List, NamedTuple, Optional, Sequence, Tuple

from . import _library
from ._library import size, u32
from ._names import DIMENSIONS, KINDS, NO_MEMORY, NULL, OK, TOO_SMALL
from ._room import Room, pointer

_bound: Dict[str, Any] = {}
bind = _bound.__setitem__
BLOCK = 1 << 16
BYTES = 1 << 20
DIALECTS = 512  # from here on places ask for dialects, which the calls for columns don't take
_Report = Optional[Callable[[int], Any]]


class Packed(NamedTuple):
    """Texts as Arrow's large_utf8 has them: the bytes of all, where each begins, with the end of the last, and bits."""

    data: Any
    offsets: Any
    bits: Any
    rows: int


def _encoded(text: Any) -> bytes:
    data: bytes = _bound["text_of"](text, None)
    return data


def _refuse(status: int, text: Any, places: int, row: Optional[int] = None) -> None:
    if status == NO_MEMORY:
        raise MemoryError
    _bound["refuse"](status, text, places, row)


def _places(asked: Sequence[Any]) -> int:
    """Of places and whole, which aren't looked at yet, or of places alone, with their bits."""
    places: int = asked[0] if len(asked) == 1 else _bound["places_of"](*asked)
    return places


def _canonical(data: bytes, places: int) -> Tuple[int, str, int]:
    needed, end = size(), size()
    room = len(data) + 96 & -64
    while True:
        out = (ctypes.c_char * room)()
        status = _library.wkt_canonical(data, len(data), places, out, room, ctypes.byref(needed), ctypes.byref(end))
        if status != TOO_SMALL:
            return status, str(memoryview(out)[: needed.value], "ascii") if status == OK else "", end.value
        room = needed.value


def front(text: Any, *asked: Any) -> Tuple[str, int]:
    places = _places(asked)
    status, answer, end = _canonical(_encoded(text), places)
    if status:
        _refuse(status, text, places)
    return answer, end


def canonical(text: Any, *asked: Any) -> str:
    return front(text, *asked)[0]


def _status(data: bytes, places: int) -> int:
    status: int = _library.wkt_canonical(
        data, len(data), places, None, 0, ctypes.byref(size()), ctypes.byref(size())
    )
    return OK if status == TOO_SMALL else status


def reads(text: Any, *asked: Any) -> bool:
    status = _status(_encoded(text), _places(asked))
    if status == NO_MEMORY:
        raise MemoryError
    return status == OK


def same(one: Any, other: Any, *asked: Any) -> bool:
    places = _places(asked)
    a, b, answer = _encoded(one), _encoded(other), u32()
    status = _library.wkt_same(a, len(a), b, len(b), places, ctypes.byref(answer))
    if status == NO_MEMORY:
        raise MemoryError
    if status:
        _bound["refuse_two"](status, one, other, places, None)
    return answer.value == 1


def _header(data: bytes) -> Tuple[int, Tuple[str, str]]:
    kind, dimension = u32(), u32()
    status = _library.wkt_infer(data, len(data), ctypes.byref(kind), ctypes.byref(dimension))
    return status, (KINDS[kind.value], DIMENSIONS[dimension.value])


def infer(text: Any) -> Tuple[str, str]:
    status, header = _header(_encoded(text))
    if status:
        _bound["refuse_header"](status, None)
    return header


def explain(data: bytes, places: int) -> Tuple[int, int, int, int, int]:
    message, start, stop, expected = u32(), size(), size(), u32()
    status = _library.wkt_explain(data, len(data), places, *map(ctypes.byref, (message, start, stop, expected)))
    return status, message.value, start.value, stop.value, expected.value


def hint(data: bytes, places: int) -> Tuple[int, int]:
    found = u32()
    return _library.wkt_hint(data, len(data), places, ctypes.byref(found)), found.value


def lines(text: Any, *asked: Any) -> bytes:
    data, places = _encoded(text), _places(asked)

    def call(out: Any, length: int, needed: Any) -> int:
        status: int = _library.wkt_lines(data, len(data), places, out, length, needed)
        return status

    return Room(len(data) + len(data) // 4 + 64).bytes(call)


def _bits(rows: Sequence[Any]) -> bytes:
    """A bit for each row, from the lowest on, which is 0 where the row is null."""
    bits = bytearray((len(rows) + 7) // 8)
    for i, row in enumerate(rows):
        bits[i // 8] |= (row is not None) << i % 8
    return bytes(bits)


def pack(rows: Sequence[Any], first: int = 0) -> Packed:
    """The buffers of some rows, of which the first is this one of its column."""
    try:
        joined = "".join(rows)
    except TypeError:
        joined = "\x80"
    if joined.isascii():
        ends = array.array("q", itertools.accumulate(map(str.__len__, rows), initial=0))
        return Packed(joined.encode(), ends, b"", len(rows))
    known = [_bound["text_of"](row, first + i) for i, row in enumerate(rows)]
    held = [text or b"" for text in known]
    ends = array.array("q", itertools.accumulate(map(len, held), initial=0))
    return Packed(b"".join(held), ends, _bits(known), len(rows))


def parts(held: Packed) -> Tuple[Any, ...]:
    """The six arguments of a call that name a column."""
    return (
        pointer(held.data), len(held.data), pointer(held.offsets), held.rows + 1, pointer(held.bits), len(held.bits),
    )  # fmt: skip


def _blocks(rows: Sequence[Any], report: _Report) -> Iterator[Tuple[int, Any, Packed]]:
    """Of each block where it begins, its rows and their buffers: about a megabyte of them."""
    first, step = 0, 1024
    while first < len(rows):
        block = rows[first : first + step]
        held = pack(block, first)
        yield first, block, held
        first += held.rows
        step = max(1, min(BLOCK, step * BYTES // (len(held.data) + 1)))
        if report is not None:
            report(first)


def _answers(rows: Sequence[Any], places: int, report: _Report) -> Iterator[Tuple[int, List[str], Any]]:
    """Of each block where it begins, the canonical texts, and the status of each row."""
    room = Room(1)
    for first, _, held in _blocks(rows, report):
        text, ends, statuses = _block(held, places, room)
        shown = str(text, "ascii")
        yield first, [shown[start:end] for start, end in zip(ends, ends[1:])], statuses


def _block(held: Packed, places: int, room: Room) -> Tuple[Any, Any, Any]:
    """The canonical texts of some rows, one behind the other, where each begins, and the status of each."""
    if places >= DIALECTS:
        found = [(NULL, "", 0) if cell is None else _canonical(cell, places) for cell in _cells(held)]
        if any(status == NO_MEMORY for status, _, _ in found):
            raise MemoryError
        ends = array.array("q", itertools.accumulate((len(text) for _, text, _ in found), initial=0))
        text = "".join(text for _, text, _ in found).encode()
        return text, ends, array.array("I", [status for status, _, _ in found])
    room.holds(len(held.data) + len(held.data) // 8 + 64)
    ends, statuses = array.array("q", bytes(8 * (held.rows + 1))), array.array("I", bytes(4 * held.rows))
    needed = room.call(_column_call(held, places, ends, statuses))
    return memoryview(room.out).cast("B")[:needed], ends, statuses


def _cells(held: Packed) -> Iterator[Optional[bytes]]:
    """The rows one by one."""
    data = memoryview(held.data)
    for row, (start, end) in enumerate(zip(held.offsets, held.offsets[1:])):
        is_valid = not len(held.bits) or held.bits[row // 8] >> row % 8 & 1
        yield bytes(data[start:end]) if is_valid else None


def _column_call(held: Packed, places: int, ends: Any, statuses: Any) -> Callable[[Any, int, Any], int]:
    def call(out: Any, length: int, needed: Any) -> int:
        status: int = _library.wkt_column_canonical(
            *parts(held), places, out, length, pointer(ends), held.rows + 1, pointer(statuses), held.rows, needed
        )
        return status

    return call


def canonical_rows(
    rows: Sequence[Any], places: int, invalid: int, report: _Report, codes: Optional[List[int]]
) -> List[Any]:
    answers: List[Any] = []
    for first, texts, statuses in _answers(rows, places, report):
        made: List[Any] = texts
        for i, status in enumerate(statuses):
            if status:
                made[i] = rows[first + i] if invalid == 2 and status != NULL else None
                if status != NULL and not invalid:
                    _refuse(status, rows[first + i], places, first + i)
        answers += made
        if codes is not None:
            codes.extend(statuses)
    return answers


def statuses(column: Any, places: int, report: _Report, are_buffers: bool) -> Any:
    if are_buffers:
        return canonical_buffers(column, places, report)[2]
    made = array.array("I")
    for _, _, codes in _answers(column, places, report):
        made.extend(codes)
    return made


def explain_rows(rows: Sequence[Any], places: int, report: _Report) -> List[Any]:
    answers: List[Any] = [None] * len(rows)
    for i, status in enumerate(statuses(rows, places, report, False)):
        if status not in (OK, NULL):
            data = _bound["text_of"](rows[i], i)
            answers[i] = _bound["explanation"](rows[i], places, *explain(data, places))
    return answers


def same_rows(ones: Sequence[Any], others: Any, places: int, invalid: int, report: _Report) -> List[Optional[bool]]:
    if isinstance(others, str):
        return [it and it == others for it in canonical_rows(ones, places, invalid, report, None)]
    if len(others) != len(ones):
        raise ValueError("columns of %d and of %d rows" % (len(others), len(ones)))
    mine: List[int] = []
    theirs: List[int] = []
    texts = canonical_rows(ones, places, 1, report, mine), canonical_rows(others, places, 1, None, theirs)
    if not invalid:
        for i, both in enumerate(zip(mine, theirs)):
            if any(both) and NULL not in both:
                _refuse(*((both[0], ones[i]) if both[0] else (both[1], others[i])), places, i)
    return [None if a is None or b is None else a == b for a, b in zip(*texts)]


def infer_rows(rows: Sequence[Any], invalid: int) -> List[Optional[Tuple[str, str]]]:
    answers: List[Optional[Tuple[str, str]]] = []
    for i, row in enumerate(rows):
        data = _bound["text_of"](row, i)
        status, header = (NULL, None) if data is None else _header(data)
        if status not in (OK, NULL) and not invalid:
            _bound["refuse_header"](status, i)
        answers.append(None if status else header)
    return answers


def lines_rows(rows: Sequence[Any], places: int) -> List[Optional[str]]:
    if any(b"\n" in (_bound["text_of"](row, i) or b"") for i, row in enumerate(rows)):
        raise ValueError("a text of a column holds a line feed")
    codes: List[int] = []
    texts = canonical_rows(rows, places, 1, None, codes)
    return [text if status in (OK, NULL) else "refused" for text, status in zip(texts, codes)]


def canonical_buffers(packed: Any, places: int, report: _Report) -> Tuple[Any, Any, Any]:
    held = Packed(*packed)
    made = _block(held, places, Room(1))
    if report is not None:
        report(held.rows)
    return made


def _three(sizes: Any, likely: int, call: Callable[..., int]) -> Tuple[int, Tuple[Any, Any, Any]]:
    """The numbers and the offsets of rings and of polygons that a call fills, which says how many they are."""
    room = (likely, likely, likely)
    while True:
        held = [array.array(code, bytes(8 * length)) for code, length in zip("qQQ", room)]
        status = call(*itertools.chain.from_iterable((pointer(values), len(values)) for values in held))
        if status != TOO_SMALL:
            numbers, rings, polygons = held
            return status, (numbers[: sizes.numbers], rings[: sizes.rings], polygons[: sizes.polygons])
        room = (sizes.numbers, sizes.rings, sizes.polygons)


def _arrays(data: bytes, places: int) -> Tuple[int, Any, Any]:
    sizes = _library.Sizes()

    def call(*three: Any) -> int:
        status: int = _library.wkt_arrays(data, len(data), places, ctypes.byref(sizes), *three)
        return status

    status, three = _three(sizes, len(data) // 2 + 4, call)
    return status, sizes, three


def arrays(text: Any, *asked: Any) -> Any:
    places = _places(asked)
    status, sizes, three = _arrays(_encoded(text), places)
    if status:
        _refuse(status, text, places)
    return _made(sizes.kind, sizes.dimension, map(_bound["array_of"], "qQQ", three), places)


def _made(kind: int, dimension: int, three: Iterable[Any], places: int) -> Any:
    return _bound["Arrays"](KINDS[kind], DIMENSIONS[dimension], *three, places & 255)


def arrays_rows(column: Any, places: int, report: _Report, are_buffers: bool) -> Tuple[Any, ...]:
    held = Packed(*column) if are_buffers else pack(column)
    if places >= DIALECTS:
        return _arrays_one_by_one(held, places, report)
    words = [array.array("I", bytes(4 * held.rows)) for _ in range(3)]  # kinds, dimensions, statuses
    ends = [array.array("q", bytes(8 * (held.rows + 1))) for _ in range(3)]
    sizes = _library.ColumnSizes()

    def both(values: Any) -> Tuple[Any, int]:
        return pointer(values), len(values)

    def call(*three: Any) -> int:
        pairs = zip(three[::2], three[1::2], ends)
        joined = itertools.chain.from_iterable((at, length, *both(end)) for at, length, end in pairs)
        status: int = _library.wkt_column_arrays(
            *parts(held), places, ctypes.byref(sizes), *both(words[0]), *both(words[1]), *joined, *both(words[2])
        )
        return status

    status, three = _three(sizes, len(held.data) // 8 + 2 * held.rows + 8, call)
    if status:
        _refuse(status, "", places)
    if report is not None:
        report(held.rows)
    joined = itertools.chain.from_iterable(zip(three, ends))
    return (words[0], words[1], *joined, words[2])


def _arrays_one_by_one(held: Packed, places: int, report: _Report) -> Tuple[Any, ...]:
    words = [array.array("I") for _ in range(3)]  # kinds, dimensions, statuses
    three, ends = [array.array(code) for code in "qQQ"], [array.array("q", [0]) for _ in range(3)]
    for cell in _cells(held):
        status, sizes, made = (NULL, None, ()) if cell is None else _arrays(cell, places)
        if status == NO_MEMORY:
            raise MemoryError
        for values, part in zip(three, made if status == OK else ()):
            values.extend(part)
        for values, at in zip(three, ends):
            at.append(len(values))
        for word, value in zip(words, (sizes.kind, sizes.dimension, OK) if status == OK else (0, 0, status)):
            word.append(value)
    if report is not None:
        report(held.rows)
    return (words[0], words[1], *itertools.chain.from_iterable(zip(three, ends)), words[2])


def arrays_list(rows: Sequence[Any], places: int, invalid: int, report: _Report, shares: bool) -> List[Any]:
    column = arrays_rows(rows, places, report, False)
    for i, status in enumerate(column[8]):
        if status not in (OK, NULL) and not invalid:
            _refuse(status, rows[i], places, i)
    # What rows can share in the module in C nobody can write here either.
    lent = (memoryview(it).toreadonly() if shares and code == "Q" else it for it, code in zip(column[2:8:2], "qQQ"))
    three = map(_bound["array_of"], "qQQ", lent)
    parts = [[values[start:end] for start, end in zip(ends, ends[1:])] for values, ends in zip(three, column[3:8:2])]
    return [
        None if status else _made(kind, dimension, its, places)
        for status, kind, dimension, *its in zip(column[8], column[0], column[1], *parts)
    ]


def from_arrays_rows(rows: Sequence[Any], places: Optional[int], numbered: bool) -> List[Optional[str]]:
    return [_bound["one_text"](row, places, i if numbered else None) for i, row in enumerate(rows)]


def _end_of_block(first: int, three: Sequence[Any], rows: int) -> int:
    """The end of the block of rows that begins there: about a megabyte of text, but a row at least."""
    ends = (bisect.bisect_right(it, it[first] + BYTES // 12, first + 1, rows + 1) - 1 for it in three)
    return min(max(first + 1, min(ends)), first + BLOCK, rows)


def from_arrays_column(nine: Sequence[Any], places: int) -> Optional[Tuple[List[Optional[str]], List[int]]]:
    held = [array.array(code, bytes(each)) for code, each in zip("IIqqQqQqI", nine)]
    offsets, rows = held[3:8:2], len(held[0])
    if any(len(it) != rows for it in (held[1], held[8])) or any(len(it) != rows + 1 for it in offsets):
        return None
    texts: List[Optional[str]] = []
    codes: List[int] = []
    room, first, last = Room(1), 0, -1
    while last < rows:
        last = _end_of_block(first, offsets, rows)
        *eight, given = (it if i in (2, 4, 6) else it[first : last + (i in (3, 5, 7))] for i, it in enumerate(held))
        valid = _bits([None if status else status for status in given])
        ends, statuses = array.array("q", bytes(8 * (last - first + 1))), array.array("I", bytes(4 * (last - first)))
        room.holds(12 * min(offsets[0][last] - offsets[0][first], len(held[2])) + 24 * (last - first) + 64)
        needed = room.call(_from_arrays_call(eight, valid, places, (ends, statuses)))
        text = str(memoryview(room.out)[:needed], "ascii")
        texts += [None if status else text[start:end] for status, start, end in zip(statuses, ends, ends[1:])]
        codes += statuses
        first = last
    return texts, codes


def _from_arrays_call(
    eight: Iterable[Any], valid: bytes, places: int, answers: Iterable[Any]
) -> Callable[[Any, int, Any], int]:
    given, made = (list(itertools.chain(*((pointer(it), len(it)) for it in its))) for its in (eight, answers))

    def call(out: Any, length: int, needed: Any) -> int:
        status: int = _library.wkt_column_from_arrays(*given, valid, len(valid), places, out, length, *made, needed)
        return status

    return call


class _Units(ctypes.Structure):
    """WktUnits of include/wkt.h."""

    _fields_ = [("low", ctypes.c_uint64), ("high", ctypes.c_int64)]


_BEGIN, _END = 1 << 63, (1 << 64) - 1  # WKT_EVENT_BEGIN, WKT_EVENT_END


def _event(event: int) -> Any:
    if event == _END:
        return None
    return event if event < _BEGIN else (KINDS[event >> 2 & 7], DIMENSIONS[event & 3])


def _events(data: bytes, places: int) -> Tuple[int, Any]:
    room, counts = (len(data) // 16 + 16, len(data) // 4 + 8), (size(), size(), size())
    while True:
        events, numbers = (ctypes.c_uint64 * room[0])(), (_Units * room[1])()
        status = _library.wkt_read_events(
            data, len(data), places, events, room[0], numbers, room[1], *map(ctypes.byref, counts)
        )
        room = counts[0].value, counts[1].value
        if status == OK:
            units = [it.low + (it.high << 64) for it in numbers[: room[1]]]
            return status, _bound["Events"](list(map(_event, events[: room[0]])), units, places & 255)
        if status != TOO_SMALL:
            return status, None


def events(text: Any, *asked: Any) -> Any:
    places = _places(asked)
    status, answer = _events(_encoded(text), places)
    if status:
        _refuse(status, text, places)
    return answer


def events_rows(rows: Sequence[Any], places: int, invalid: int, report: _Report) -> List[Any]:
    answers: List[Any] = []
    for i, row in enumerate(rows):
        data = _bound["text_of"](row, i)
        status, answer = (NULL, None) if data is None else _events(data, places)
        if status not in (OK, NULL) and not (invalid and status != NO_MEMORY):
            _refuse(status, row, places, i)
        answers.append(answer)
    if report is not None:
        report(len(rows))
    return answers


def _srid(data: bytes) -> Optional[int]:
    number, end = u32(), size()
    _library.wkt_srid(data, len(data), ctypes.byref(number), ctypes.byref(end))
    return number.value if end.value else None


def srid(text: Any) -> Optional[int]:
    return _srid(_encoded(text))


def srid_rows(rows: Sequence[Any]) -> List[Optional[int]]:
    held = (_bound["text_of"](row, i) for i, row in enumerate(rows))
    return [None if data is None else _srid(data) for data in held]
