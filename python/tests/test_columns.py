"""Columns of each kind, and what becomes of refused rows."""
import io
import threading
import time
import unittest
import unittest.mock

import wkt
from modules import installed, patched
from wkt._native import _fast as compiled

numpy, pandas, tqdm = installed("numpy"), installed("pandas"), installed("tqdm")

TEXTS = ["point ( 1 2.50 )", None, "POINT(3 4)", "PINT(5 6)", "MultiPoint(1 2)"]
ANSWERS = ["POINT(1 2.5)", None, "POINT(3 4)", None, "MULTIPOINT((1 2))"]
KEPT = ["POINT(1 2.5)", None, "POINT(3 4)", "PINT(5 6)", "MULTIPOINT((1 2))"]
GOOD, GOOD_ANSWERS = [TEXTS[0], TEXTS[2], TEXTS[4]], [ANSWERS[0], ANSWERS[2], ANSWERS[4]]


def arrow(texts, first=0):
    """Texts as Arrow buffers, of which the first rows are left out by an offset."""
    held = [b"" if text is None else text.encode() for text in texts]
    offsets = numpy.cumsum([0] + list(map(len, held))).astype(numpy.int64)
    statuses = numpy.array([0 if text is not None else 28 for text in texts], numpy.uint32)
    return wkt.ArrowTexts(numpy.frombuffer(b"".join(held), numpy.uint8), offsets, statuses)


class Kinds(unittest.TestCase):
    def test_lists(self):
        self.assertEqual(wkt.canonical(TEXTS, invalid="null"), ANSWERS)
        self.assertEqual(wkt.canonical(tuple(TEXTS), invalid="keep"), KEPT)
        self.assertEqual(wkt.canonical([b"point(1 2)", "point(1 2)"]), ["POINT(1 2)"] * 2)
        self.assertEqual(wkt.canonical([]), [])
        with self.assertRaises(ValueError):
            wkt.canonical(TEXTS, invalid="drop")

    @unittest.skipIf(numpy is None, "no NumPy")
    def test_arrays(self):
        answers = wkt.canonical(numpy.array(TEXTS, object), invalid="null")
        self.assertEqual((answers.dtype, answers.tolist()), (numpy.dtype(object), ANSWERS))
        answers = wkt.canonical(numpy.array(GOOD + GOOD, object).reshape(2, 3))
        self.assertEqual(answers.tolist(), [GOOD_ANSWERS, GOOD_ANSWERS])
        for kind in "USO":
            matrix = numpy.array([GOOD, GOOD], kind).view(numpy.matrix)
            self.assertEqual(wkt.canonical(matrix).astype("U").tolist(), [GOOD_ANSWERS, GOOD_ANSWERS])
        for kind in "US":
            answers = wkt.canonical(numpy.array(GOOD, kind))
            self.assertEqual(answers.dtype.kind, kind)
            self.assertEqual(answers.astype("U").tolist(), GOOD_ANSWERS)
        made = numpy.array([text.encode() for text in GOOD + ["x", "", "P\xd6INT"]]).reshape(2, 3)
        answers = wkt.canonical(made, invalid="null")
        self.assertEqual(answers.tolist(), [[text.encode() for text in GOOD_ANSWERS], [b"", b"", b""]])
        self.assertEqual(answers.dtype, numpy.dtype("S%d" % max(map(len, GOOD_ANSWERS))))
        self.assertEqual(wkt.canonical(made[:, ::2], invalid="keep")[1].tolist(), [b"x", "P\xd6INT".encode()])
        self.assertEqual(wkt.reads(made).tolist(), [[True] * 3, [False] * 3])
        self.assertEqual(wkt.to_arrays_column(made).statuses.tolist(), wkt.canonical_column(made)[1])
        self.assertEqual(wkt.canonical(numpy.array([], "S5")).tolist(), [])
        with self.assertRaises(wkt.WktError) as raised:
            wkt.canonical(made)
        self.assertEqual((raised.exception.row, raised.exception.explanation.start), (3, 0))
        answers = wkt.canonical(numpy.array(["x", "point(1 2)"]), invalid="null")
        self.assertEqual(answers.tolist(), ["", "POINT(1 2)"])
        self.assertEqual(wkt.canonical(numpy.array(GOOD, object)[::2]).tolist(), GOOD_ANSWERS[::2])
        with self.assertRaises(TypeError):
            wkt.canonical(numpy.array("POINT(1 2)", object))
        with self.assertRaises(TypeError):
            wkt.canonical(numpy.array([1, 2]))

    @unittest.skipIf(pandas is None, "no pandas")
    def test_series(self):
        index = [7, 5, 3, 1, 9]
        for dtype in ("object", "string"):
            series = pandas.Series(TEXTS, index, name="geometry", dtype=dtype)
            for invalid, wanted in (("null", ANSWERS), ("keep", KEPT)):
                answers = wkt.canonical(series, invalid=invalid)
                self.assertIsInstance(answers, pandas.Series)
                self.assertEqual((answers.index.tolist(), answers.name, str(answers.dtype)), (index, "geometry", dtype))
                self.assertEqual([None if pandas.isna(text) else text for text in answers], wanted)
            with self.assertRaises(wkt.WktError) as raised:
                wkt.canonical(series)
            self.assertEqual(raised.exception.row, 3)
        nulls = pandas.Series(["point(1 2)", float("nan"), pandas.NA, None], dtype=object)
        self.assertEqual(wkt.canonical(nulls).tolist(), ["POINT(1 2)", None, None, None])
        frame = pandas.DataFrame({"g": TEXTS})
        self.assertEqual(frame[wkt.reads(frame.g)].g.tolist(), [TEXTS[0], TEXTS[2], TEXTS[4]])

    @unittest.skipIf(pandas is None, "no pandas")
    def test_answers_of_series(self):
        """Answers that are no texts have the index and the name of their Series too."""
        index = [7, 5, 3, 1, 9]
        series = pandas.Series(TEXTS, index, name="geometry", dtype=object)
        same, kinds, why = (
            wkt.same(series, TEXTS[0], invalid="null"),
            wkt.infer(series, invalid="null"),
            wkt.explain(series),
        )
        for answers in (
            same,
            kinds,
            why,
            wkt.lines(series),
            wkt.reads(series),
            wkt.same(TEXTS[0], series, invalid="null"),
        ):
            self.assertIsInstance(answers, pandas.Series)
            self.assertEqual((answers.index.tolist(), answers.name), (index, "geometry"))
        self.assertEqual([None if it is pandas.NA else it for it in same], [True, None, False, None, False])
        self.assertEqual(series[same.fillna(False)].tolist(), [TEXTS[0]])
        self.assertEqual(kinds.tolist(), [("Point", "XY"), None, ("Point", "XY"), None, ("MultiPoint", "XY")])
        self.assertEqual([it and it.start for it in why], [None, None, None, 0, None])
        self.assertEqual(wkt.same(series, TEXTS, invalid="null").index.tolist(), index)
        with self.assertRaises(ValueError):
            wkt.same(series, series.reset_index(drop=True), invalid="null")
        empty = wkt.same(series[:0], series[:0])
        self.assertEqual((len(empty), empty.name), (0, "geometry"))

    @unittest.skipIf(pandas is None, "no pandas")
    def test_indexes(self):
        answers = wkt.canonical(pandas.Index(GOOD, name="geometry"))
        self.assertIsInstance(answers, pandas.Index)
        self.assertEqual((answers.tolist(), answers.name), (GOOD_ANSWERS, "geometry"))
        self.assertEqual(wkt.reads(pandas.Index(TEXTS)).tolist(), [True, False, True, False, True])

    @unittest.skipIf(pandas is None, "no pandas")
    def test_accessor(self):
        import wkt.pandas  # noqa: F401 (it gives a Series its `.wkt`)

        series = pandas.Series(TEXTS, [7, 5, 3, 1, 9], name="geometry", dtype=object)
        self.assertEqual(series.wkt.canonical(invalid="null").tolist(), ANSWERS)
        for name, more in (
            ("canonical", ("null",)),
            ("same", ("POINT(3 4)", 18, "null")),
            ("reads", ()),
            ("explain", ()),
            ("infer", ("null",)),
        ):
            given = (18, *more) if name == "canonical" else more
            made, wanted = getattr(series.wkt, name)(*given), getattr(wkt, name)(series, *given)
            pandas.testing.assert_series_equal(made, wanted)
        self.assertEqual(series.wkt.to_arrays_column(1).places, 1)
        self.assertFalse(series.wkt.reads(places=0)[7])
        self.assertEqual(pandas.Index(GOOD).wkt.canonical().tolist(), GOOD_ANSWERS)

    @unittest.skipIf(pandas is None, "no pandas")
    def test_strings_of_pandas(self):
        """They are known by their class: in pandas 3 its name is another."""
        with unittest.mock.patch.object(pandas.StringDtype, "name", "str"):
            series = pandas.Series(TEXTS, dtype=pandas.StringDtype())
            answers = wkt.canonical(series, invalid="null")
            self.assertIsInstance(answers.dtype, pandas.StringDtype)
        self.assertTrue(answers[3] is pandas.NA)

    @unittest.skipIf(pandas is None, "no pandas")
    def test_every_call_takes_every_column(self):
        good = ["point(1 2)", None, "POINT(3 4)"]
        masked = ["point(1 2)", "x", "POINT(3 4)"]
        columns = [good, tuple(good), numpy.array(good, object), numpy.ma.array(masked, object, mask=[0, 1, 0]),
                   numpy.ma.array(numpy.array(masked, "S"), mask=[0, 1, 0]), pandas.Series(good),
                   pandas.Series(good, dtype="string"), pandas.Index(good),
                   pandas.Series(good, dtype="category")]  # fmt: skip
        if hasattr(numpy.dtypes if hasattr(numpy, "dtypes") else None, "StringDType"):
            columns.append(numpy.array(good, numpy.dtypes.StringDType(na_object=None)))
        if compiled is not None:
            columns.append(arrow(good))

        def plain(arrays):
            return [row and [row.kind, row.dimension, list(row.numbers), row.places] for row in arrays]

        def texts(it):
            rows = it.tolist() if hasattr(it, "tolist") else it
            return [
                row.decode() if isinstance(row, bytes) else None if row is pandas.NA or row != row else row
                for row in rows
            ]

        answers = [
            (lambda it: texts(wkt.canonical(it)), ["POINT(1 2)", None, "POINT(3 4)"]),
            (wkt.canonical_column, (["POINT(1 2)", None, "POINT(3 4)"], [0, 28, 0])),
            (lambda it: texts(wkt.same(it, "POINT(1 2)")), [True, None, False]),
            (lambda it: texts(wkt.same(it, it)), [True, None, True]),
            (lambda it: [bool(each) for each in texts(wkt.reads(it))], [True, False, True]),
            (lambda it: texts(wkt.infer(it)), [("Point", "XY"), None, ("Point", "XY")]),
            (lambda it: texts(wkt.explain(it)), [None, None, None]),
            (lambda it: texts(wkt.lines(it)), ["POINT(1 2)", None, "POINT(3 4)"]),
            (
                lambda it: plain(wkt.to_arrays(it, 1)),
                [["Point", "XY", [10, 20], 1], None, ["Point", "XY", [30, 40], 1]],
            ),
            (lambda it: list(wkt.to_arrays_column(it).statuses), [0, 28, 0]),
        ]
        for column in columns:
            for call, wanted in answers:
                with self.subTest(type(column)):
                    self.assertEqual(call(column), wanted)

    def test_geometries(self):
        """What is no text: the error names the call that gives texts."""

        class Point:
            geom_type = "Point"

        for given in (Point(), ["POINT(1 2)", Point()]):
            with self.assertRaises(TypeError) as raised:
                wkt.canonical(given)
            self.assertIn("to_wkt(", str(raised.exception))

    def test_refused_texts(self):
        """What `invalid` makes of one text."""
        for text in ("PINT(1 2)", b"\xff", "POINT(1 2) x"):
            self.assertIsNone(wkt.canonical(text, invalid="null"))
            self.assertEqual(wkt.canonical(text, invalid="keep"), text)
            self.assertIsNone(wkt.to_arrays(text, invalid="null"))
            self.assertIsNone(wkt.same(text, "POINT(1 2)", invalid="null"))
        self.assertIsNone(wkt.infer("PINT(", invalid="null"))
        self.assertEqual(wkt.infer(["PINT(", "POINT(", None], invalid="null"), [None, ("Point", "XY"), None])
        self.assertIsNone(wkt.to_arrays("GEOMETRYCOLLECTION EMPTY", invalid="null"))
        for call in (wkt.infer, wkt.to_arrays):
            with self.assertRaises(ValueError):
                call("POINT(1 2)", invalid="keep")

    @unittest.skipIf(compiled is None or numpy is None, "no fast module, or no NumPy")
    def test_arrow(self):
        texts = TEXTS * 50 + ["pÖint(1 2)"]
        answers, statuses = wkt.canonical_column(texts)
        given = arrow(texts)
        self.assertEqual(given.to_pylist(), texts)
        made = wkt.canonical(given, invalid="null")
        self.assertIsInstance(made, wkt.ArrowTexts)
        self.assertEqual((made.to_pylist(), made.statuses.tolist(), len(made)), (answers, statuses, len(texts)))
        kept = wkt.canonical(given, invalid="keep")
        self.assertEqual(kept.to_pylist(), wkt.canonical(texts, invalid="keep"))
        self.assertEqual(set(kept.statuses.tolist()), {0, 28})
        self.assertEqual(wkt.canonical(made).to_pylist(), answers)
        self.assertEqual(wkt.canonical_column(given), (answers, statuses))
        self.assertEqual(wkt.reads(given).tolist(), wkt.reads(texts))
        self.assertEqual(wkt.to_arrays_column(given).numbers.tolist(), wkt.to_arrays_column(texts).numbers.tolist())
        with self.assertRaises(wkt.WktError) as raised:
            wkt.canonical(given)
        self.assertEqual((raised.exception.row, raised.exception.status), (3, 3))
        self.assertEqual(raised.exception.explanation, wkt.explain("PINT(5 6)"))
        self.assertEqual(wkt.canonical(arrow([])).to_pylist(), [])
        many = ["MULTIPOINT(" + ",".join(["EMPTY"] * 50) + ")", "MULTIPOINT(" + ",".join(["1 2"] * 50) + ")"]
        self.assertEqual(wkt.canonical(arrow(many)).to_pylist(), wkt.canonical(many))

    def test_long_rows(self):
        """A long row is answered where the one before was: its answer is copied while the processor has it at hand."""
        if compiled is None:
            return
        rows = ["LINESTRING(%d 1.0%s)" % (i, ",1.0 2" * 1000) for i in range(300)]
        for call in (wkt.canonical, wkt.lines):
            given = []
            with patched("wkt_canonical", lambda status, *its: given.append(its)):
                call(rows)
            self.assertEqual((len(given), len({it[3] for it in given})), (300, 1))
        # Who waits is told of about a megabyte, and not of each row.
        seen = []
        wkt.canonical(rows, progress=seen.append)
        self.assertEqual(seen, [175, 300])

    def test_reads_of_arrow(self):
        """No text is written of which only the status is asked for."""
        if compiled is None or numpy is None:
            return
        rooms = []
        with patched("wkt_canonical", lambda status, *its: rooms.append(its[4])):
            answers = wkt.reads(arrow(["point(1 2)", None, "POINT(1", "POINT(3 4)"]))
        self.assertEqual((answers.tolist(), rooms), ([True, False, False, True], [0, 0, 0]))

    def test_texts_of_arrays(self):
        """A column of arrays is answered a block at a time: no call of the library has room for all of its texts."""
        long = "LINESTRING(%s)" % ",".join(["1 2"] * 2000)
        texts = [long, None, "POINT(1 2)"] * 500 + ["POINT(%d 2)" % i for i in range(60_000)]
        held, rooms = wkt.to_arrays_column(texts, 0), []
        held.kinds[-1] = 9  # there is none
        with patched("wkt_from_arrays", lambda status, *its: rooms.append(its[10])):
            with patched("wkt_column_from_arrays", lambda status, *its: rooms.append(its[20])):
                made = wkt.from_arrays_column(held)
        self.assertTrue(made == ([*texts[:-1], None], [0, 28, 0] * 500 + [0] * 59_999 + [26]))
        self.assertLess(max(rooms), 3_000_000)

    @unittest.skipIf(numpy is None, "no NumPy")
    def test_arrays_of_long_rows(self):
        """They have memory of their own, as those of a single call: one row keeps no column, and no block."""
        text = "LINESTRING(%s)" % ",".join(["1 2"] * 2000)
        rows = wkt.to_arrays([text, "POINT(1 2)", text] * 20)
        numbers = [1_000_000, 2_000_000]
        self.assertEqual([row.numbers.tolist() for row in rows[:2]], [numbers * 2000, numbers])
        if compiled is not None:
            self.assertEqual(memoryview(rows[0].numbers.base).nbytes, rows[0].numbers.nbytes)
        for row in rows[:2]:
            self.assertEqual([it.flags.writeable for it in row[2:5]], [True, False, False])

    def test_explained_rows_are_read_once(self):
        """The call that reads a row says why it is refused."""
        if compiled is None:
            return
        given = []
        with patched("wkt_canonical", lambda status, *its: given.append(its)):
            with patched("wkt_explain", lambda status, *its: given.append(its)):
                self.assertEqual([why and why.start for why in wkt.explain(TEXTS)], [None, None, None, 0, None])
        self.assertEqual(len(given), 4)

    def test_long_columns(self):
        """More rows than a block has."""
        rows = 150_001
        texts = ["point(%d 1.%d)" % (i, i) for i in range(rows)]
        texts[70_000] = None
        seen = []
        answers = wkt.canonical(texts, progress=seen.append)
        wanted = ["POINT(%d %s)" % (i, ("1.%d" % i).rstrip("0").rstrip(".")) for i in range(rows)]
        wanted[70_000] = None
        self.assertEqual(answers, wanted)
        self.assertEqual((seen[-1], sorted(seen), len(seen) > 1), (rows, seen, True))
        self.assertEqual(wkt.same(texts, answers), [True] * 70_000 + [None] + [True] * 80_000)
        self.assertEqual(wkt.same(texts[0], texts[:3]), [True, False, False])
        held = wkt.to_arrays_column(texts)
        self.assertEqual((list(held.row(-1).numbers), len(held.kinds)), ([150_000_000_000, 1_150_000], rows))
        texts[140_000] = "POINT(1)"
        for call in (wkt.canonical, wkt.to_arrays, lambda it: wkt.same(it, texts)):
            with self.assertRaises(wkt.WktError) as raised:
                call(texts)
            self.assertEqual(raised.exception.row, 140_000)
        if compiled is not None and numpy is not None:
            made = wkt.canonical(arrow(texts), invalid="null")
            self.assertEqual(made.to_pylist(), wkt.canonical(texts, invalid="null"))
        if numpy is not None:
            twice = wkt.to_arrays_column(texts + texts)
            self.assertEqual(wkt.from_arrays_column(twice)[0][rows + 5], answers[5])
            for name in ("number_offsets", "ring_offsets", "polygon_offsets"):
                once = getattr(held, name)
                self.assertEqual(len(getattr(twice, name)), 2 * rows + 1)
                self.assertEqual(getattr(twice, name)[1000], once[1000])

    def test_same(self):
        texts = ["POINT(1 2)", None, "POINT(1 2)", "x"]
        others = ["point(1 2.0)", "POINT(1 2)", "POINT(2 1)", "POINT(1 2)"]
        self.assertEqual(wkt.same(texts, others, invalid="null"), [True, None, False, None])
        self.assertEqual(wkt.same(others, texts[0], invalid="null"), [True, True, False, True])
        self.assertEqual(wkt.same(texts[:3], None), [None, None, None])
        with self.assertRaises(ValueError):
            wkt.same(texts, others[:3])
        # A text that is refused beside a column is as one of a column.
        for refused in ("POINT(1", b"\xff"):
            self.assertEqual(wkt.same(texts[:3], refused, invalid="null"), [None, None, None])
            self.assertEqual(wkt.same(refused, texts[:3], invalid="null"), [None, None, None])
            with self.assertRaises(wkt.WktError):
                wkt.same(texts[:3], refused)
        # A row that is null in one column isn't refused for the other's.
        self.assertEqual(wkt.same([None, "POINT(1 2)"], ["x", "POINT(1 2)"]), [None, True])
        with self.assertRaises(wkt.WktError) as raised:
            wkt.same("POINT(1 2)", "POINT(1")
        self.assertEqual(raised.exception.explanation.text, "POINT(1")

    def test_long_answers(self):
        """Answers that are far longer than is likely."""
        many = ["MULTIPOINT(" + ",".join(["EMPTY"] * 1000) + ")", None, "MULTIPOINT(" + ",".join(["1 2"] * 1000) + ")"]
        answers = [many[0], None, many[2].replace("1 2", "(1 2)")]
        self.assertEqual(wkt.canonical(many), answers)
        self.assertEqual(wkt.canonical(many[2]), answers[2])
        held = wkt.to_arrays_column(many)
        self.assertEqual(wkt.from_arrays_column(held), (answers, [0, 28, 0]))
        self.assertEqual(wkt.from_arrays(wkt.to_arrays(many)), answers)
        self.assertEqual(wkt.from_arrays_column(wkt.to_arrays_column(many[:1])), ([many[0]], [0]))
        self.assertEqual(wkt.lines(many[2].encode()), answers[2].encode() + b"\n")

    def test_arrays_of_refused_rows(self):
        made = wkt.to_arrays(TEXTS, invalid="null")
        self.assertEqual([row and row.kind for row in made], ["Point", None, "Point", None, "MultiPoint"])
        with self.assertRaises(ValueError):
            wkt.to_arrays(TEXTS, invalid="keep")


class Long(unittest.TestCase):
    def test_other_threads_run(self):
        """A long call releases the lock of the interpreter: else another thread runs a few times from call to call."""
        text = "LINESTRING(" + ",".join(["1.5 2.5"] * 3_000_000) + ")"
        ticks, calls, stop = [], 0, threading.Event()

        def tick():
            while not stop.is_set():
                ticks.append(time.monotonic())
                time.sleep(0.001)

        thread = threading.Thread(target=tick)
        thread.start()
        start = time.monotonic()
        while calls < 20 and time.monotonic() - start < 1:
            wkt.reads(text)
            calls += 1
        end = time.monotonic()
        stop.set()
        thread.join()
        during = [at for at in ticks if start < at < end]
        self.assertGreater(len(during), 10 * calls)

    @unittest.skipIf(tqdm is None, "no tqdm")
    def test_bar(self):
        rows = 1_000_001
        for count, shown in ((1000, False), (rows, True)):
            with unittest.mock.patch("tqdm.tqdm", wraps=tqdm.tqdm) as bar, unittest.mock.patch(
                "sys.stderr", io.StringIO()
            ) as said:
                wkt.reads(["POINT(1 2)"] * count, progress=True)
            self.assertEqual(bar.called, shown)
            self.assertEqual("100%" in said.getvalue(), shown)
        with self.assertRaises(TypeError):
            wkt.canonical(["POINT(1 2)"], progress=5)

    def test_errors_of_a_callback(self):
        def wrong(done):
            raise KeyError(done)

        with self.assertRaises(KeyError):
            wkt.canonical(["POINT(1 2)"], progress=wrong)


if __name__ == "__main__":
    unittest.main()
