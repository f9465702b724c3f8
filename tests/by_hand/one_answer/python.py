"""The Python package: python.py ROWS. PYTHONPATH says where it is; without its module in C it is called over ctypes."""
import inspect
import io

import faces
import numpy
import pandas
import wkt

FAST = wkt._native._fast is not None
TAKES_DIALECTS = "dialect" in inspect.signature(wkt.canonical).parameters


def status_of(call, *words, **options):
    """What a call answers, or its status as faces.py writes it."""
    try:
        return call(*words, **options), None
    except wkt.WktError as error:
        return None, f"!{error.status}"


def explained(why):
    """An explanation, with places in bytes."""
    if why is None:
        return "-"
    start, stop = why.start, why.stop
    if isinstance(why.text, str):
        start, stop = (len(why.text[:at].encode()) for at in (start, stop))
    return faces.explanation(why.status, start, stop, why.expected, why.hint)


def arrays(held):
    return faces.arrays(held.kind, held.dimension, *map(list, held[2:5]))


def single(n, row, text, sort):
    asked = {"places": row.places, "whole": row.whole}
    if row.dialects:
        asked["dialect"] = row.dialects
    if TAKES_DIALECTS:
        number = wkt.srid(text)
        faces.say(f"srid.{sort}", n, "null" if number is None else number)
    answer, refused = status_of(wkt.canonical, text, **asked)
    faces.say(f"canonical.{sort}", n, refused or answer)
    why, refused = status_of(wkt.explain, text, **asked)
    faces.say(f"explain.{sort}", n, refused or explained(why))
    pair, refused = status_of(wkt.infer, text)
    faces.say(f"infer.{sort}", n, refused or " ".join(pair))
    faces.say(f"reads.{sort}", n, "ft"[wkt.reads(text, **asked)])
    answer, refused = status_of(wkt.same, text, row.other, **asked)
    faces.say(f"same.{sort}", n, "!" if refused else "ft"[answer])
    held, refused = status_of(wkt.to_arrays, text, **asked)
    faces.say(f"arrays.{sort}", n, refused or arrays(held))
    if held:
        faces.say(f"back.{sort}", n, wkt.from_arrays(held))


def null(text):
    return "null" if text is None or text is pandas.NA or text is numpy.ma.masked else text


def columns_of(texts):
    """The forms of a column, with their names; of bytes the list alone."""
    yield "list", texts
    if any(isinstance(text, bytes) for text in texts):
        return
    objects = numpy.array(texts, object)
    yield "tuple", tuple(texts)
    yield "objects", objects
    yield "masked", numpy.ma.masked_array(objects, numpy.zeros(len(texts), bool))
    yield "series", pandas.Series(texts)
    yield "index", pandas.Index(texts)
    if FAST:
        yield "arrow", lent(texts)


def lent(texts):
    """The same as Arrow lends them."""
    data = [text.encode() for text in texts]
    offsets = numpy.concatenate([[0], numpy.cumsum([len(text) for text in data])]).astype(numpy.int64)
    joined = numpy.frombuffer(b"".join(data) or b" ", numpy.uint8)
    return wkt.ArrowTexts(joined, offsets, numpy.zeros(len(data), numpy.uint32))


def column(numbered, texts, asked):
    others = [row.other for _, row in numbered]
    for name, rows in columns_of(texts):
        faces.say_all(f"null.{name}", numbered, map(null, wkt.canonical(rows, invalid="null", **asked)))
        made, statuses = wkt.canonical_column(rows, **asked)
        faces.say_all(f"canonical.column_{name}", numbered, (f"!{s}" if s else text for text, s in zip(made, statuses)))
        faces.say_all(f"reads.{name}", numbered, ("ft"[bool(it)] for it in wkt.reads(rows, **asked)))
        pairs = wkt.infer(rows, invalid="null")
        faces.say_all(f"inferred.{name}", numbered, (" ".join(it) if it else "null" for it in pairs))
        kind, beside = ("same", others) if name == "list" else ("itself", rows)
        alike = wkt.same(rows, beside, invalid="null", **asked)
        faces.say_all(f"{kind}.{name}", numbered, ("!" if null(it) == "null" else "ft"[bool(it)] for it in alike))
        held = wkt.to_arrays(rows, invalid="null", **asked)
        faces.say_all(f"arrays_or_null.{name}", numbered, (arrays(it) if it else "null" for it in held))
        if name == "list":
            kept = [(n, it) for n, it in zip(numbered, held) if it]
            faces.say_all("back.list", [n for n, _ in kept], wkt.from_arrays([it for _, it in kept]))
        arrays_column(name, rows, numbered, asked)
        if name != "list":  # of bytes that are no UTF-8 it is an error
            faces.say_all(f"explain.{name}", numbered, map(explained, wkt.explain(rows, **asked)))
        if name == "arrow":
            made = (text for batch in wkt.batches(rows, invalid="null", **asked) for text in batch)
            faces.say_all("null.batches", numbered, map(null, made))


def arrays_column(name, rows, numbered, asked):
    held = wkt.to_arrays_column(rows, **asked)
    said = (f"!{status}" if status else arrays(held.row(i)) for i, status in enumerate(held.statuses))
    faces.say_all(f"arrays.column_{name}", numbered, said)
    for (n, _), text, status in zip(numbered, *wkt.from_arrays_column(held)):
        if status != 28:
            faces.say(f"back.column_{name}", n, f"!{status}" if status else text)


def geoarrow(numbered, texts, asked):
    """Rows of one kind and dimension as GeoArrow."""
    held, sorts = wkt.to_arrays_column(texts, **asked), {}
    for i, (kind, dimension, status) in enumerate(zip(held.kinds, held.dimensions, held.statuses)):
        if not status:
            sorts.setdefault((kind, dimension), []).append(i)
    for members in sorts.values():
        found = wkt.to_arrays_column([texts[i] for i in members], **asked).geoarrow()
        for at, i in enumerate(members):
            counts, first, last = [], at, at + 1
            for offsets in found.offsets:
                counts.append(",".join(map(str, numpy.diff(offsets[first : last + 1]))))
                first, last = offsets[first], offsets[last]
            coordinates = found.coordinates[first:last].ravel().tolist()
            faces.say("geo.column", numbered[i][0], " ".join(["|".join(counts), *map(repr, coordinates)]))


def lines(numbered, places):
    data = faces.lines_of(numbered)
    sink = io.BytesIO()
    wkt.stream(io.BytesIO(data), sink, places)
    faces.say_all("line.bytes", numbered, wkt.lines(data, places).decode().splitlines())
    faces.say_all("line.stream", numbered, sink.getvalue().decode().splitlines())
    faces.say_all("line.list", numbered, wkt.lines(data.split(b"\n")[:-1], places))


for n, row in enumerate(faces.read()):
    if row.dialects and not TAKES_DIALECTS:
        continue
    single(n, row, row.text, "bytes")
    try:
        single(n, row, row.text.decode(), "str")
    except UnicodeDecodeError:
        pass
for (places, whole), numbered in faces.groups():
    given = [row.text for _, row in numbered]
    asked = {"places": places, "whole": whole}
    column(numbered, given, asked)
    good = [(n, row) for n, row in numbered if isinstance(faces.text_or_bytes(row.text), str)]
    column(good, [row.text.decode() for _, row in good], asked)
    geoarrow(numbered, given, asked)
    lines(numbered, places)
