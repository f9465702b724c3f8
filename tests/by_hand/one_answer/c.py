"""The library for C, called from Python by ctypes: c.py ROWS LIBRARY"""
import ctypes
import sys

import faces

size, u32, u64, i64 = ctypes.c_size_t, ctypes.c_uint32, ctypes.c_uint64, ctypes.c_int64
ref = ctypes.byref
ROOM = 1 << 16
BITS = {"": 0, "srid": 512, "untagged": 1024, "exponents": 2048, "nan": 4096, "ewkt": 512 + 1024}
library = ctypes.CDLL(sys.argv[2])
out, numbers, rings, polygons = (ctypes.c_uint8 * ROOM)(), (i64 * ROOM)(), (u64 * ROOM)(), (u64 * ROOM)()


class Sizes(ctypes.Structure):
    _fields_ = [("kind", u32), ("dimension", u32)] + [(name, size) for name in ("numbers", "rings", "polygons", "end")]


class ColumnSizes(ctypes.Structure):
    _fields_ = [("numbers", size), ("rings", size), ("polygons", size)]


def filled(buffer):
    return ref(buffer), size(len(buffer))


def given(text):
    return text, size(len(text))


def canonical(text, asked):
    needed, end = size(), size()
    status = library.wkt_canonical(*given(text), u32(asked), *filled(out), ref(needed), ref(end))
    return status, bytes(out[: needed.value]).decode() if status == 0 else "", end.value


def explain(text, asked):
    """What is said of a refusal; None where there is none."""
    message, start, stop, expected, hint = u32(), size(), size(), u32(), u32()
    places = [ref(it) for it in (message, start, stop, expected)]
    status = library.wkt_explain(*given(text), u32(asked), *places)
    if status not in (0, 30):
        return "-" if status == 29 else f"!{status}"
    hinted = library.wkt_hint(*given(text), u32(asked), ref(hint))
    assert hinted == status, (text, hinted, status)
    words = faces.HINTS[hint.value].replace("%u", str(asked % 256)) if status == 0 else ""
    wanted = faces.EXPECTED[expected.value] if status == 0 else faces.END
    return faces.explanation(message.value if status == 0 else status, start.value, stop.value, wanted, words)


def srid(text):
    number, end = u32(), size()
    assert library.wkt_srid(*given(text), ref(number), ref(end)) == 0
    return number.value if end.value else "null"


def infer(text):
    kind, dimension = u32(), u32()
    status = library.wkt_infer(*given(text), ref(kind), ref(dimension))
    return f"!{status}" if status else f"{faces.KINDS[kind.value]} {faces.DIMENSIONS[dimension.value]}"


def arrays(text, asked):
    sizes = Sizes()
    buffers = [it for part in (numbers, rings, polygons) for it in filled(part)]
    status = library.wkt_arrays(*given(text), u32(asked), ref(sizes), *buffers)
    if status:
        return f"!{status}", None
    parts = numbers[: sizes.numbers], rings[: sizes.rings], polygons[: sizes.polygons]
    needed, lengths = size(), [size(len(part)) for part in parts]
    pairs = [it for pair in zip((ref(numbers), ref(rings), ref(polygons)), lengths) for it in pair]
    kind = u32(sizes.kind), u32(sizes.dimension)
    status = library.wkt_from_arrays(*kind, *pairs, u32(asked % 256), *filled(out), ref(needed))
    back = f"!{status}" if status else bytes(out[: needed.value]).decode()
    return faces.arrays(faces.KINDS[sizes.kind], faces.DIMENSIONS[sizes.dimension], *parts), back


def same(one, other, asked):
    answers = [u32(), size(), size()]
    first = library.wkt_same(*given(one), *given(other), u32(asked), ref(answers[0]))
    alike = answers[0].value
    second = library.wkt_same_ends(*given(one), *given(other), u32(asked), *map(ref, answers))
    assert (first, alike) == (second, answers[0].value), (one, other, asked)
    return "!" if first else "ft"[alike]


def is_value(row):
    """Whether a database's type of so many places takes the text: with some, and its canonical text with as many."""
    read = (text for status, text, _ in (canonical(row.text, 256 + n) for n in range(18, -1, -1)) if status == 0)
    text = next(read, None)
    return text is not None and any(canonical(text.encode(), 256 + n)[0] == 0 for n in range(row.places + 1))


def single(n, row):
    dialects = 0
    for name in row.dialects.split(","):
        dialects |= BITS[name]
    asked = row.places + 256 * row.whole + dialects
    status, text, _ = canonical(row.text, asked)
    faces.say("canonical.one", n, f"!{status}" if status else text)
    status, text, end = canonical(row.text, row.places + dialects)
    faces.say("front.one", n, f"!{status}" if status else f"{end} {text}")
    if row.places <= 18:
        faces.say("cast.one", n, "ft"[is_value(row)])
        taken = any(canonical(row.text, 256 + places)[0] == 0 for places in range(row.places + 1))
        faces.say("taken.one", n, "ft"[taken])
    faces.say("explain.one", n, explain(row.text, asked))
    faces.say("infer.one", n, infer(row.text))
    held, back = arrays(row.text, asked)
    faces.say("arrays.one", n, held)
    if back is not None:
        faces.say("back.one", n, back)
    faces.say("same.one", n, same(row.text, row.other, asked))
    if hasattr(library, "wkt_srid"):
        faces.say("srid.one", n, srid(row.text))


def packed(texts):
    offsets = (i64 * (len(texts) + 1))()
    for i, text in enumerate(texts):
        offsets[i + 1] = offsets[i] + len(text)
    return b"".join(texts), offsets


def texts_of(answer, offsets, statuses):
    for i, status in enumerate(statuses):
        yield f"!{status}" if status else bytes(answer[offsets[i] : offsets[i + 1]]).decode()


def column(numbered, asked):
    joined, offsets = packed([row.text for _, row in numbered])
    rows = len(numbered)
    answer, needed = (ctypes.c_uint8 * (2 * len(joined) + rows))(), size()
    statuses, ends = (u32 * rows)(), (i64 * (rows + 1))()
    front = [*given(joined), *filled(offsets), None, size(0), u32(asked)]
    back = [*filled(answer), *filled(ends), *filled(statuses), ref(needed)]
    assert library.wkt_column_canonical(*front, *back) == 0
    faces.say_all("canonical.column", numbered, texts_of(answer, ends, statuses))
    sizes, room = ColumnSizes(), len(joined) + 8 * rows + 8
    kinds, dimensions = (u32 * rows)(), (u32 * rows)()
    values, starts = [(i64 * room)(), (u64 * room)(), (u64 * room)()], [(i64 * (rows + 1))() for _ in range(3)]
    pairs = [it for value, start in zip(values, starts) for it in (*filled(value), *filled(start))]
    head = [*filled(kinds), *filled(dimensions)]
    assert library.wkt_column_arrays(*front, ref(sizes), *head, *pairs, *filled(statuses)) == 0
    for i, (n, _) in enumerate(numbered):
        parts = [value[start[i] : start[i + 1]] for value, start in zip(values, starts)]
        held = faces.arrays(faces.KINDS[kinds[i]], faces.DIMENSIONS[dimensions[i]], *parts)
        faces.say("arrays.column", n, f"!{statuses[i]}" if statuses[i] else held)
    bits = bytearray((rows + 7) // 8)
    for i, status in enumerate(statuses):
        bits[i // 8] |= (status == 0) << i % 8
    lengths = sizes.numbers, sizes.rings, sizes.polygons
    pairs = [it for value, n, start in zip(values, lengths, starts) for it in (ref(value), size(n), *filled(start))]
    asked_back = [bytes(bits), size(len(bits)), u32(asked % 256)]
    assert library.wkt_column_from_arrays(*head, *pairs, *asked_back, *back) == 0
    for (n, _), text in zip(numbered, texts_of(answer, ends, statuses)):
        if text != "!28":
            faces.say("back.column", n, text)


def lines(numbered, places):
    """All at once, and in pieces of an input that comes by 1,400 bytes."""
    data = faces.lines_of(numbered)
    answer, needed, taken, written = (ctypes.c_uint8 * (2 * len(data) + 8 * len(numbered)))(), size(), size(), size()
    assert library.wkt_lines(*given(data), u32(places), *filled(answer), ref(needed)) == 0
    faces.say_all("line.all", numbered, bytes(answer[: needed.value]).decode().splitlines())
    held, said = b"", b""
    for at in range(0, len(data) + 1400, 1400):
        held += data[at : at + 1400]
        last = u32(at + 1400 >= len(data) + 1400)
        status = library.wkt_lines_some(*given(held), u32(places), last, *filled(out), ref(taken), ref(written))
        assert status == 0, status
        held, said = held[taken.value :], said + bytes(out[: written.value])
    faces.say_all("line.some", numbered, said.decode().splitlines())


for n, row in enumerate(faces.read()):
    if hasattr(library, "wkt_srid") or not row.dialects:
        single(n, row)
for (places, whole), numbered in faces.groups():
    column(numbered, places + 256 * whole)
    lines(numbered, places)
