"""Columns that others lend by Arrow's C interfaces: what is taken, and what is refused."""
import collections
import gc
import unittest
import unittest.mock

import wkt
from arrow_columns import (
    ANSWERS, FORMATS, HELD, NAMED, TEXTS, Arrow, Called, Lent, Node, Streamed, Told, ToldStream, arrow_peer, made,
    rows_in,
)  # fmt: skip

if arrow_peer is not None:
    import numpy
    from wkt import _fast


class Taken(Arrow):
    def test_formats(self):
        for format in FORMATS:
            for first in range(len(HELD) + 1):
                with self.subTest(format=format, first=first):
                    answers = wkt.canonical(Lent(HELD, format, first), invalid="null")
                    self.assertIsInstance(answers, wkt.ArrowTexts)
                    self.assertEqual(answers.to_pylist(), ANSWERS[first:])

    def test_many_rows(self):
        """More rows than a byte of bits has, from each row on."""
        rows = (HELD * 6)[:37]
        for format in ("u", "Z", "vu", "s:u", "+sU"):
            for first in range(20):
                answers = wkt.canonical(Lent(rows, format, first), invalid="null")
                self.assertEqual(answers.to_pylist(), (ANSWERS * 6)[first:37])
        for count in range(20):  # a table with bits, none of which says that a row is null
            column = Lent(HELD[2:3] * count, "+su", count // 2, "table_bits")
            self.assertEqual(wkt.canonical(column).to_pylist(), ANSWERS[2:3] * (count - count // 2))
        none = wkt.canonical(Lent([None] * 9), invalid="null")
        self.assertEqual((none.to_pylist(), none.statuses.tolist()), ([None] * 9, [28] * 9))
        self.assertEqual(wkt.canonical(Lent(HELD, spoil="unknown_nulls"), invalid="null").to_pylist(), ANSWERS)

    def test_empty(self):
        for format in FORMATS:
            self.assertEqual(wkt.canonical(Lent([], format)).to_pylist(), [])
        self.assertEqual(wkt.canonical(Lent([], "u", spoil="no_offsets")).to_pylist(), [])
        self.assertEqual(
            wkt.canonical(Lent([None, b""], "u", spoil="no_bytes"), invalid="null").to_pylist(), [None, None]
        )
        self.assertEqual(wkt.canonical(Streamed([])).to_pylist(), [])

    def test_null(self):
        """A column of the type null, as others make of rows that are all null."""
        for rows, offset in ((0, 0), (9, 0), (20, 3)):
            for buffers in ((), (None,)):
                column = Node("n", rows, buffers, offset=offset, nulls=rows)
                table = Node("+s", rows, (None,), (column,))
                for lent in (Told(column), Told(table), ToldStream(column, column._replace(length=2, nulls=2))):
                    wanted = [None] * (rows + 2 * isinstance(lent, ToldStream))
                    answers = wkt.canonical(lent)
                    self.assertEqual((answers.to_pylist(), set(answers.statuses) - {28}), (wanted, set()))
                self.assertEqual(wkt.reads(Told(column)).tolist(), [False] * rows)
        with self.assertRaises(ValueError):
            wkt.canonical(Told(Node("n", -1)))

    def test_streams(self):
        for format in FORMATS:
            for chunks in ([HELD], [HELD, [], HELD[3:], [None] * 3], [HELD] * 9):
                wanted = [
                    None if row is None else {a: b for a, b in zip(HELD, ANSWERS)}[row]
                    for rows in chunks
                    for row in rows
                ]
                answers = wkt.canonical(Streamed(chunks, format), invalid="null")
                self.assertEqual(answers.to_pylist(), wanted)
                self.assertEqual(
                    list(wkt.to_arrays_column(Streamed(chunks, format)).statuses), answers.statuses.tolist()
                )

    def test_every_call(self):
        """Each call takes a column that can be read once alone, and answers as of a list."""
        good = [text for text, answer in zip(TEXTS, ANSWERS) if answer or text is None]
        held = [None if text is None else text.encode() for text in good]

        def plain(rows):
            return [row and (row[:2] + tuple(list(values) for values in row[2:5])) for row in rows]

        calls = [
            lambda it: list(wkt.canonical(it)),
            wkt.canonical_column,
            lambda it: wkt.same(it, TEXTS[0]),
            lambda it: wkt.same(TEXTS[0], it),
            lambda it: list(wkt.reads(it)),
            wkt.explain,
            wkt.infer,
            wkt.lines,
            lambda it: plain(wkt.to_arrays(it)),
            lambda it: plain(wkt.to_arrays(it, invalid="null")),
            lambda it: list(wkt.to_arrays_column(it).statuses),
        ]
        for call in calls:
            for column in (Lent(held), Streamed([held]), Streamed([held], "+sz"), made(good)):
                self.assertEqual(call(column), call(good))
        self.assertEqual(wkt.same(Lent(held), Streamed([held])), wkt.same(good, good))

    def test_errors_name_rows(self):
        for column in (Lent(HELD[2:]), Streamed([[HELD[2]], HELD[3:]]), Lent(HELD, "i:u", 2)):
            for call in (
                wkt.canonical,
                wkt.to_arrays,
                lambda it: wkt.same(it, it and "POINT(1 2)"),
                lambda it: list(wkt.batches(it)),
            ):
                with self.assertRaises(wkt.WktError) as raised:
                    call(column)
                self.assertEqual((raised.exception.row, raised.exception.status), (1, 3))
                self.assertEqual(raised.exception.explanation.text, "PINT(5 6)")

    def test_not_utf8(self):
        """What isn't UTF-8 isn't lent as utf8: it stays null."""
        rows = [b"point(1 2)", b"P\xff", b"\xc3", b"\xa9", b"x"]
        for format in ("u", "z"):
            kept = wkt.canonical(Lent(rows, format), invalid="keep")
            self.assertEqual(kept.to_pylist(), ["POINT(1 2)", None, None, None, "x"])
            self.assertEqual(kept.statuses.tolist(), [0, 20, 20, 20, 0])
            self.assertEqual(rows_in(arrow_peer.take(*kept.__arrow_c_array__())), kept.to_pylist())
        ends = numpy.cumsum([0] + list(map(len, rows))).astype(numpy.int64)
        own = wkt.ArrowTexts(numpy.frombuffer(b"".join(rows), numpy.uint8), ends, numpy.zeros(5, numpy.uint32))
        self.assertEqual(own.statuses.tolist(), [0, 20, 20, 20, 0])
        self.assertEqual(rows_in(arrow_peer.take(*own.__arrow_c_array__())), ["point(1 2)", None, None, None, "x"])

    def test_metadata(self):
        metadata = wkt._arrow.metadata_of(NAMED)
        for column in (
            Lent(metadata=metadata),
            Lent(format="+su", metadata=metadata),
            Streamed([HELD], metadata=metadata),
        ):
            answers = wkt.canonical(column, invalid="null")
            self.assertEqual(answers.metadata, NAMED)
            self.assertEqual(arrow_peer.take(*answers.__arrow_c_array__())[2], 2)
            self.assertEqual(wkt.canonical(answers).metadata, NAMED)
        self.assertEqual(wkt.canonical(Lent(), invalid="null").metadata, {})
        for metadata in (b"\xff\xff\xff\xff", b"\1\0\0\0\xff\xff\xff\xff", b"\1\0\0\0\1\0\0\0x\xfe\xff\xff\xff"):
            with self.assertRaises(ValueError):
                wkt.canonical(Lent(metadata=metadata))


class Refused(Arrow):
    def test_arrays(self):
        """Whatever of an array can't be is seen before a byte of it is read."""
        plain = ["length", "long", "offset", "far", "buffers", "no_buffers", "columns", "nulls", "nulls_below",
                 "no_bits", "no_offsets", "no_bytes", "below", "order", "end", "released"]  # fmt: skip
        views = ["view_buffer", "view_below", "view_start", "view_end", "view_null", "view_sizes"]
        cases = [("u", spoil) for spoil in plain] + [("vu", spoil) for spoil in views]
        cases += [("U", spoil) for spoil in plain if spoil not in ("below", "order", "end")]
        cases += [("vu", spoil) for spoil in ("length", "buffers", "no_buffers", "nulls", "no_bits", "no_offsets")]
        indexed = "length offset no_buffers nulls no_bits no_offsets index index_below dictionary"
        cases += [("i:u", spoil) for spoil in indexed.split()]
        cases += [("L:u", "index"), ("L:u", "index_below"), ("c:u", "index_below"), ("C:u", "index_below")]
        cases += [("+su", spoil) for spoil in ("table_nulls", "no_column", "short", "length", "long")]
        for format, spoil in cases:
            with self.subTest(format=format, spoil=spoil):
                first = int(spoil != "below")
                with self.assertRaises(ValueError):
                    wkt.canonical(Lent(HELD, format, first, spoil), invalid="null")
                if spoil != "released":
                    with self.assertRaises(ValueError):
                        wkt.canonical(Streamed([HELD], format, first, spoil), invalid="null")

    def test_types(self):
        for format in ("l", "i:n", "e", "+l", "", "uu", "f:u", "u:u", "i:l", "ts:u"):
            with self.assertRaises(TypeError, msg=format):
                wkt.canonical(Lent([], format))
        for spoil, format in (("no_format", "u"), ("two", "+su")):
            with self.assertRaises(TypeError):
                wkt.canonical(Lent(HELD, format, 0, spoil))
        with self.assertRaises(ValueError):
            wkt.canonical(Lent(spoil="released_type"))

    def test_capsules(self):
        schema, array = Lent().__arrow_c_array__()
        for wrong in ((array, schema), (schema, schema), (1, 2), (None, array)):
            with self.assertRaises(ValueError):
                _fast.arrow_array(*wrong)
        with self.assertRaises(ValueError):
            _fast.arrow_stream(schema)
        with self.assertRaises(ValueError):
            _fast.arrow_next(schema)
        _fast.arrow_array(schema, array)
        with self.assertRaises(ValueError):  # moved
            _fast.arrow_array(schema, array)

    def test_streams_that_fail(self):
        for spoil, words in (("no_type", "the disk is gone"), ("no_words", "Input/output error")):
            with self.assertRaises(OSError) as raised:
                wkt.canonical(Streamed([HELD, HELD], spoil=spoil), invalid="null")
            self.assertIn(words, str(raised.exception))
            self.assertEqual(raised.exception.errno, 5)
        with self.assertRaises(MemoryError):
            wkt.canonical(Streamed([HELD, HELD], spoil="no_next"), invalid="null")

    def test_callbacks_in_python(self):
        """What a producer calls in Python sees no error of ours, and hides none."""

        def counts(name):
            self.seen[name] += len(str(name).split()) > 0

        def fails(name):
            counts(name)
            if "release" in name:  # what another returns after an error means nothing to ctypes
                raise KeyError(name)

        cases = [
            (dict(), None, ""),
            (dict(ends=(0, -10)), ValueError, "offsets"),
            (dict(ends=(5, 3)), ValueError, "offsets"),
            (dict(format=b"l"), TypeError, "and not of l"),
        ]
        for given, error, words in cases:
            for seen in (counts, fails):
                for streamed in (False, True):
                    with self.subTest(given, streamed=streamed, seen=seen.__name__):
                        self.called(Called(seen, **given), streamed, error, words)
        self.called(Called(counts, error=5), True, OSError, "the Arrow stream: gone \\x1b[2J \\u{202e}")
        self.called(Called(counts, b"ts\x1b"), False, TypeError, "and not of ts\\x1b")

    def called(self, producer, streamed, error, words):
        self.seen = collections.Counter()
        shown = []
        with unittest.mock.patch("sys.unraisablehook", lambda it: shown.append(repr(it.exc_value))):
            column = producer.stream() if streamed else producer
            if error is None:
                # Dropped while another error is raised.
                with self.assertRaises(ZeroDivisionError):
                    held = [wkt._arrow.taken(column)]
                    try:
                        list(held[0].chunks)
                    finally:
                        held.append(held.clear() or 1 / 0)
            else:
                with self.assertRaises(error) as raised:
                    wkt.canonical(column)
                self.assertIn(words, str(raised.exception))
                del raised
            gc.collect()
        if streamed:
            self.assertEqual(self.seen["release schema"], 1)
            self.assertEqual(self.seen["release stream"], 1)
        if error is not TypeError:
            self.assertEqual(self.seen["release array"], int(error is not OSError))
        self.assertTrue(all("KeyError" in it for it in shown), shown)

    def test_own_buffers(self):
        """Buffers that a user makes of the wrong type, length or order."""
        data, offsets, statuses = (
            numpy.frombuffer(b"POINT(1 2)", numpy.uint8),
            numpy.array([0, 10]),
            numpy.zeros(1, numpy.uint32),
        )
        wkt.ArrowTexts(data, offsets, statuses)
        wrong = [
            (data, offsets.astype(numpy.int32), statuses),
            (data, offsets.astype(float), statuses),
            (data, [0, 10], statuses),
            (b"POINT(1 2)", offsets, statuses),
            (data.view(numpy.int16), offsets, statuses),
            (data, offsets, statuses.astype(numpy.uint8)),
            (data, offsets.reshape(1, 2), statuses),
        ]
        for each in wrong:
            with self.assertRaises(TypeError):
                wkt.ArrowTexts(*each)
        for ends in ([0], [0, 11], [-1, 10], [5, 3], [0, 5, 10], [], [2**62, -(2**62)]):
            with self.assertRaises(ValueError):
                wkt.ArrowTexts(data, numpy.array(ends, numpy.int64), statuses)
        made = wkt.ArrowTexts(data, offsets, statuses)
        offsets[1] = 2**40  # it has a copy
        self.assertEqual(made.to_pylist(), ["POINT(1 2)"])
        for values in (made.data, made.offsets, made.statuses):
            with self.assertRaises(ValueError):
                values[0] = 0
        with self.assertRaises(AttributeError):
            made.offsets = offsets


class Without(unittest.TestCase):
    """Without the module in C Arrow isn't offered, and the error says so; what gives a list is taken as one."""

    class Lends:
        def __arrow_c_array__(self, requested_schema=None):
            raise AssertionError

    class Lists(Lends):
        def to_pylist(self):
            return ["point(1 2)", None]

    def test_errors(self):
        with unittest.mock.patch("wkt._arrow._fast", None):
            calls = "canonical same reads explain infer lines to_arrays to_arrays_column batches"
            for call in (getattr(wkt, name) for name in calls.split()):
                given = (self.Lends(), "POINT(1 2)") if call is wkt.same else (self.Lends(),)
                with self.assertRaises(TypeError) as raised:
                    call(*given)
                self.assertIn("Arrow columns need NumPy and wkt._fast", str(raised.exception))
            self.assertEqual(wkt.canonical(self.Lists()), ["POINT(1 2)", None])
            with self.assertRaises(ImportError):
                wkt.ArrowTexts(None, None, None)


if __name__ == "__main__":
    unittest.main()
