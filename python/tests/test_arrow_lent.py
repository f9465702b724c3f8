"""Columns that are lent by Arrow's C interfaces: what a consumer takes, when that ends, and memory that runs out."""
import copy
import pickle
import struct
import subprocess
import sys
import unittest

import wkt
from arrow_columns import (
    ANSWERS, FORMATS, HELD, NAMED, TEXTS, Arrow, Lent, Node, Streamed, arrow_peer, made, numbers, refuse, rows_in,
    texts_of,
)  # fmt: skip

if arrow_peer is not None:
    import numpy
    from wkt import _fast


class Given(Arrow):
    def test_arrays(self):
        for texts in ([], ["POINT(1 2)"], TEXTS, TEXTS * 9, [None] * 8):
            column = made(texts)
            self.assertEqual(rows_in(arrow_peer.take(*column.__arrow_c_array__())), texts)
            (taken,) = arrow_peer.take_stream(column.__arrow_c_stream__())
            self.assertEqual(rows_in(taken), texts)
            column.__arrow_c_array__(), column.__arrow_c_stream__(), column.__arrow_c_schema__()  # nobody takes them
        self.assertEqual(taken[3], 2)  # nulls are allowed

    def test_it_lives_as_long(self):
        """What is lent stays after the column is gone, and is gone after it is released."""
        import gc
        import weakref

        class Texts(numpy.ndarray):  # an array that can be watched
            pass

        column = made(TEXTS * 1000)
        watched = column.data.view(Texts)
        column._texts = column._texts._replace(data=watched)
        gone = weakref.ref(watched)
        del watched
        lent = column.__arrow_c_array__()
        del column
        gc.collect()
        self.assertIsNotNone(gone())
        self.assertEqual(rows_in(arrow_peer.take(*lent)), TEXTS * 1000)
        gc.collect()
        self.assertIsNone(gone())

    def test_kept_to_the_end(self):
        """A consumer keeps an array after Python has ended, and releases it then."""
        words = (
            "import sys, arrow_peer, numpy, wkt\n"
            "point = numpy.frombuffer(b'POINT(1 2)', numpy.uint8)\n"
            "texts = wkt.ArrowTexts(point, numpy.array([0, 10]), numpy.zeros(1, numpy.uint32))\n"
            "arrow_peer.keep(*wkt.canonical(texts).__arrow_c_array__(), int(sys.argv[1]))"
        )
        for when in "01":
            done = subprocess.run([sys.executable, "-c", words, when], stderr=subprocess.PIPE)
            self.assertEqual((done.returncode, done.stderr), (0, b""))

    def test_sequence(self):
        column = made(TEXTS)
        self.assertEqual(
            (len(column), list(column), column[0], column[1], column[-1]), (7, TEXTS, TEXTS[0], None, TEXTS[-1])
        )
        ends = (1, 3), (None, None), (5, 2), (-2, None), (0, 100), (None, None, 2), (None, None, -1)
        for part in (slice(*it) for it in ends):
            self.assertEqual(list(column[part]), TEXTS[part])
        self.assertEqual(rows_in(arrow_peer.take(*column[2:5].__arrow_c_array__())), TEXTS[2:5])
        self.assertIn("POINT(3 4)", column)
        self.assertEqual((column.index("POINT(3 4)"), column.count(None)), (2, 1))
        for wrong in (7, -8):
            with self.assertRaises(IndexError):
                column[wrong]
        self.assertEqual(repr(made(["POINT(1 2)", None])), "<wkt.ArrowTexts: 2 rows, 1 null: ['POINT(1 2)', None]>")

    def test_copies(self):
        """Copies are as the column is: nobody can write what is lent."""
        column = made(TEXTS, NAMED)
        copies = [column, copy.copy(column), copy.deepcopy(column), column[0:4], wkt.canonical(column, invalid="null")]
        copies += [pickle.loads(pickle.dumps(column, i)) for i in range(2, pickle.HIGHEST_PROTOCOL + 1)]
        for each in copies:
            self.assertIs(type(each), wkt.ArrowTexts)
            self.assertEqual(each.metadata, NAMED)
            for values in (each.data, each.offsets, each.statuses):
                with self.assertRaises(ValueError):
                    values.flags.writeable = True
                with self.assertRaises(ValueError):
                    values[0] = 1
        for each in copies[:3] + copies[5:]:
            self.assertEqual((each.to_pylist(), each.statuses.tolist()), (TEXTS, column.statuses.tolist()))
            self.assertEqual(rows_in(arrow_peer.take(*each.__arrow_c_array__())), TEXTS)

    def test_subclasses_that_lie(self):
        """What is lent is what the buffers hold."""

        class Liar(wkt.ArrowTexts):
            data = offsets = statuses = property(lambda self: numpy.zeros(1 << 20, numpy.int64))

            def __len__(self):
                return 1 << 40

        column = made(TEXTS)
        lies = Liar(*column._texts)
        self.assertEqual(rows_in(arrow_peer.take(*lies.__arrow_c_array__())), TEXTS)
        self.assertEqual(wkt.canonical(lies, invalid="null").to_pylist(), ANSWERS)

        class Flat(numpy.ndarray):
            ndim, dtype = 1, numpy.dtype("int64")

        with self.assertRaises(TypeError):
            wkt.ArrowTexts(column.data, column.offsets.reshape(-1, 1).view(Flat), column.statuses)

    def test_geoarrow_that_is_wrong(self):
        """Buffers that a user puts together, or changes, are lent only if they fit."""
        right = wkt.to_arrays_column(["POLYGON((1 2,3 4,5 6,1 2))", None]).geoarrow()
        rings, vertices = right.offsets
        wrong = [dict(offsets=(rings, numpy.array(ends, numpy.int32))) for ends in ([0, 5], [0, -1], [-1, 4], [])]
        wrong += [
            dict(offsets=(rings, vertices.astype(numpy.int64))),
            dict(offsets=(rings, vertices.reshape(1, -1))),
            dict(offsets=(numpy.array([0, 2, 1], numpy.int32), vertices)),
            dict(offsets=(rings,)),
            dict(offsets=(rings, vertices, vertices)),
            dict(coordinates=right.coordinates[:3]),
            dict(coordinates=right.coordinates.reshape(-1)),
            dict(dimension="XYZ"),
            dict(dimension="XX"),
            dict(extension="geoarrow.box"),
            dict(valid=right.valid[:1]),
        ]
        for each in wrong:
            with self.subTest(each), self.assertRaises(ValueError):
                right._replace(**each).__arrow_c_array__()
        lent = right.__arrow_c_array__()
        vertices[:] = 1 << 30  # after it was lent
        self.assertEqual(arrow_peer.take(*lent)[7][0][6][1], numpy.array([0, 4], numpy.int32).tobytes())
        with self.assertRaises(ValueError):
            right.__arrow_c_array__()

    def test_batches(self):
        chunks = [HELD, HELD[2:], []]
        found = [batch.to_pylist() for batch in wkt.batches(Streamed(chunks), invalid="null")]
        self.assertEqual(found, [ANSWERS, ANSWERS[2:], []])
        lent = arrow_peer.take_stream(wkt.batches(Streamed(chunks), invalid="null").__arrow_c_stream__())
        self.assertEqual([rows_in(each) for each in lent], found)
        lent = arrow_peer.take_stream(wkt.batches(Lent(), invalid="null").__arrow_c_stream__())
        self.assertEqual([rows_in(each) for each in lent], [ANSWERS])
        with self.assertRaises(OSError) as raised:  # what the consumer is told
            arrow_peer.take_stream(wkt.batches(Streamed([HELD[:3], HELD])).__arrow_c_stream__())
        self.assertIn("22: row 6: at 1: ", str(raised.exception))
        for wrong in ([], "POINT(1 2)", numpy.array([b"POINT(1 2)"])):
            with self.assertRaises(TypeError):
                wkt.batches(wrong)

    def test_batches_hold_one(self):
        """Ten million rows, of which one chunk is held at a time."""
        import resource

        chunk, chunks = [b"point ( 1 2.50 )"] * 100_000, 100 if refuse is None else 3
        count, before = 0, resource.getrusage(resource.RUSAGE_SELF).ru_maxrss
        for batch in wkt.batches(Streamed([chunk] * chunks)):
            count += len(batch)
        self.assertEqual(count, chunks * 100_000)
        if refuse is None:  # a sanitizer keeps what is freed
            self.assertLess(resource.getrusage(resource.RUSAGE_SELF).ru_maxrss - before, 60_000)

    def test_geoarrow(self):
        """The lists of GeoArrow's specification, of each kind."""
        cases = [
            ("POINT(1 2)", "+w:2", [], [1, 2]),
            ("LINESTRING(1 2,3 4)", "+l", [("vertices", [0, 2, 2])], [1, 2, 3, 4]),
            ("MULTIPOINT(1 2,3 4)", "+l", [("points", [0, 2, 2])], [1, 2, 3, 4]),
            ("POLYGON((1 2,3 4,5 6,1 2))", "+l", [("rings", [0, 1, 1]), ("vertices", [0, 4])],
             [1, 2, 3, 4, 5, 6, 1, 2]),
            ("MULTILINESTRING((1 2,3 4),(5 6,7 8))", "+l", [("linestrings", [0, 2, 2]), ("vertices", [0, 2, 4])],
             [1, 2, 3, 4, 5, 6, 7, 8]),
            ("MULTIPOLYGON(((1 2,3 4,5 6,1 2)))", "+l",
             [("polygons", [0, 1, 1]), ("rings", [0, 1]), ("vertices", [0, 4])], [1, 2, 3, 4, 5, 6, 1, 2]),
        ]  # fmt: skip
        for text, format, lists, wanted in cases:
            taken = arrow_peer.take(*wkt.to_arrays_column([text, None]).geoarrow().__arrow_c_array__())
            self.assertEqual((taken[0], taken[2], taken[3], taken[4], taken[5]), (format, 1, 2, 2, 1))
            self.assertEqual(taken[6][0], b"\1")
            for name, offsets in lists:
                self.assertEqual((taken[0], numpy.frombuffer(taken[6][1], numpy.int32).tolist()), ("+l", offsets))
                (taken,) = taken[7]
                self.assertEqual(taken[1], name)
            self.assertEqual(taken[0], "+w:2")
            ((format, name, _, _, length, _, buffers, _),) = taken[7]
            got = numpy.frombuffer(buffers[1]).tolist()
            self.assertEqual(
                (format, name, got[: len(wanted)], length), ("g", "xy", wanted, len(wanted) + (0 if lists else 2))
            )
        taken = arrow_peer.take(*wkt.to_arrays_column(["POINT ZM(1 2 3 4)"]).geoarrow().__arrow_c_array__())
        self.assertEqual((taken[0], taken[7][0][1]), ("+w:4", "xyzm"))


@unittest.skipIf(refuse is None, "only under sanitizers")
class Memory(Arrow):
    def each(self, call, given=tuple):
        """The answer of a call, once each of its allocations was refused in turn; its arguments are made before."""
        for n in range(1, 10_000):
            arguments = given()
            refuse.after(n)
            try:
                answer, error = call(*arguments), None
            except MemoryError as raised:
                error = raised
            finally:
                was = refuse.stop()
            if not was:
                return answer
            self.assertIsNotNone(error, n)
        self.fail("no end")

    def test_each_allocation(self):
        for format in FORMATS:
            held = HELD + [b"POINT(%d 2)" % i for i in range(20)]
            (_, _), (data, offsets, bits, count, indices) = self.each(
                _fast.arrow_array, Lent(held, format).__arrow_c_array__
            )
            count = count if indices is None else len(indices) // 4
            given = bytes(data) if offsets is not None else b"".join(it or b"" for it in data)
            self.assertEqual((given, count), (b"".join(row or b"" for row in held), len(held)))
        points = Node("+w:2", 1, (None,), (numbers("g", [1, 2], name="xy"),))
        line = Node("+l", 1, (None, struct.pack("=2i", 0, 1)), (points,))
        chosen = Node("+r", 2, (), (numbers("i", [2]), numbers("i", [0], dictionary=texts_of([b"x"]))))
        _, made = self.each(lambda *two: _fast.arrow_array(*two, True), lambda: _fast.export(self.tree(line)))
        self.assertEqual(made, (b"", 1, struct.pack("=2d", 1, 2), (struct.pack("=2q", 0, 1),)))
        _, made = self.each(_fast.arrow_array, lambda: _fast.export(self.tree(chosen)))
        self.assertEqual((list(made[0]), made[3], made[4]), ([b"x"], 1, bytes(8)))

    def tree(self, node):
        """A column as wkt._fast lends it, which releases it without a call of Python."""
        columns, more = tuple(map(self.tree, node.columns)), [self.tree(node.dictionary)] if node.dictionary else []
        return (node.format, node.name, b"", 2, node.length, node.nulls, node.buffers, columns, *more)

    def test_streams(self):
        def taken(capsule):
            stream, _ = _fast.arrow_stream(capsule)
            return [_fast.arrow_next(stream)[3], _fast.arrow_next(stream)[3], _fast.arrow_next(stream)]

        answer = self.each(taken, lambda: [Streamed([HELD, HELD]).__arrow_c_stream__()])
        self.assertEqual(answer, [7, 7, None])

    def test_rows(self):
        """Each call for one text and for rows."""
        long, given = "MULTIPOINT(%s)" % ",".join(["EMPTY"] * 300), [text for text in TEXTS if text != "PINT(5 6)"]
        rows = [*[text for text in given if text != ""], b"point(3 4)", bytearray(b"point(3 4)"), long, "\xe4"]
        wanted, texts = wkt.canonical_column(rows), [long, "POINT(1 2)"]
        packed = tuple(wkt._slow.pack([long, "POINT(1 2)"]))
        nine = tuple(map(memoryview, wkt.to_arrays_column(texts)[:9]))
        for call, answer in (
            (lambda: _fast.canonical(long, 18, True), long),
            (lambda: _fast.canonical(bytearray(b"point(1 2)"), 18, True), "POINT(1 2)"),
            (lambda: _fast.front(long + "x", 18, False), (long, len(long))),
            (lambda: _fast.same(long, long, 18, True), True),
            (lambda: _fast.reads(long, 18, True), True),
            (lambda: _fast.infer(long), ("MultiPoint", "XY")),
            (lambda: _fast.explain(b"POINT(1", 18)[0], 0),
            (lambda: _fast.lines(b"point(1 2.0)\nx", 18), b"POINT(1 2)\nrefused\n"),
            (lambda: len(_fast.arrays(long, 6, True)), 6),
            (lambda: _fast.canonical_rows(rows, 18, 1, None, None), wanted[0]),
            (lambda: list(memoryview(_fast.statuses(rows, 18, None, False)).cast("B").cast("I")), wanted[1]),
            (lambda: list(memoryview(_fast.statuses(packed, 18, None, True)).cast("B").cast("I")), [0, 0]),
            (lambda: [why and why.start for why in _fast.explain_rows(["POINT(1", *texts], 18, None)], [7, None, None]),
            (lambda: _fast.same_rows(texts, texts, 18, 0, None), [True, True]),
            (lambda: _fast.same_rows(texts, "POINT(1 2)", 18, 0, None), [False, True]),
            (lambda: _fast.infer_rows(texts, 0), [("MultiPoint", "XY"), ("Point", "XY")]),
            (lambda: _fast.lines_rows(rows[:3], 18), [*wanted[0][:3]]),
            (lambda: len(_fast.arrays_rows(rows, 6, None, False)), 9),
            (lambda: _fast.from_arrays_column(nine, 6), (texts, [0, 0])),
            (lambda: bytes(_fast.canonical_buffers(packed, 18, None)[0]), "".join(texts).encode()),
            (lambda: bytes(_fast.keys(packed, 18, False, None, bytes(16))[0]), "".join(texts).encode()),
            (lambda: bytes(_fast.keys(packed, None, False, None, bytes(16))[0]), "".join(texts).encode()),
            (lambda: _fast.events("POINT(1 -20)", 18), ([("Point", "XY"), 1, None], [10**18, -2 * 10**19], 18)),
            (lambda: [it and len(it[0]) for it in _fast.events_rows([long, "x", None], 0, 1, None)], [302, None, None]),
            (lambda: _fast.srid_rows(["SRID=5;", None, bytearray(b"x")]), [5, None, None]),
            (lambda: [it.kind for it in _fast.arrays_list(texts, 6, 0, None, False)], ["MultiPoint", "Point"]),
            (lambda: [it.kind for it in _fast.arrays_list(texts[1:] * 2, 6, 0, None, True)], ["Point", "Point"]),
        ):
            self.right_or_none(call, answer)
        arrays = wkt.to_arrays(texts)
        self.right_or_none(lambda: _fast.from_arrays_rows(arrays, None, True), texts)

    def right_or_none(self, call, answer):
        """With each allocation refused a call has no memory, or could do without."""
        for n in range(1, 10_000):
            refuse.after(n)
            try:
                made = call()
            except MemoryError:
                made = None
            finally:
                was = refuse.stop()
            self.assertIn(made, (answer,) if not was else (None, answer), n)
            if not was:
                return
        self.fail("no end")

    def test_lent(self):
        column = made(TEXTS, NAMED)
        tree, points = column._tree(), wkt.to_arrays_column(["POLYGON((1 2,3 4,5 6,1 2))"]).geoarrow()._tree()
        self.assertEqual(rows_in(arrow_peer.take(*self.each(lambda: _fast.export(tree)))), TEXTS)
        self.assertEqual(arrow_peer.take(*self.each(lambda: _fast.export(points)))[0], "+l")
        indices = numpy.arange(7, dtype=numpy.int32)
        shared = wkt.ArrowTexts(column.data, column.offsets, column.statuses, NAMED, indices)._tree()
        self.assertEqual(arrow_peer.take(*self.each(lambda: _fast.export(shared)))[0], "i")
        self.assertEqual(
            self.each(lambda: arrow_peer.drain(_fast.export_stream(tree, iter([tree, points])))), len(TEXTS) + 1
        )


if __name__ == "__main__":
    unittest.main()
