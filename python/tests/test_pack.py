"""Rows that are out of the ordinary: what says another length, changes during a call, or fails."""
import array
import io
import unittest

import wkt
from modules import installed
from wkt._native import _fast, calls as native

numpy = installed("numpy")


# What each call for rows answers of these: point(1 2), a null row, x.
ROWS = {
    "canonical": (lambda it: native.canonical_rows(it, 18, 1, None, None), ["POINT(1 2)", None, None]),
    "keep": (lambda it: native.canonical_rows(it, 18, 2, None, None), ["POINT(1 2)", None, "x"]),
    "statuses": (lambda it: list(memoryview(native.statuses(it, 18, None, False)).cast("B").cast("I")), [0, 28, 3]),
    "explain": (lambda it: [why and why.status for why in native.explain_rows(it, 18, None)], [None, None, 3]),
    "same": (lambda it: native.same_rows(it, it, 18, 1, None), [True, None, None]),
    "same as": (lambda it: native.same_rows(it, "POINT(1 2)", 18, 1, None), [True, None, None]),
    "infer": (lambda it: native.infer_rows(it, 1), [("Point", "XY"), None, None]),
    "lines": (lambda it: native.lines_rows(it, 18), ["POINT(1 2)", None, "refused"]),
    "arrays": (lambda it: list(memoryview(native.arrays_rows(it, 6, None, False)[8]).cast("B").cast("I")), [0, 28, 3]),
}


class Wrong(list):
    """A list whose length is an error."""

    def __len__(self):
        raise KeyError("no length")


class Longer(list):
    """A list that says another length."""

    def __init__(self, rows, said):
        super().__init__(rows)
        self.said = said

    def __len__(self):
        return self.said


class Pack(unittest.TestCase):
    def test_lengths_that_are_wrong(self):
        with self.assertRaises(KeyError):
            wkt.canonical(Wrong(["POINT(1 2)"]))
        # Only the rows that are there are read, and all of them.
        rows = ["point(1 2)", None, "x"]
        for wrong in (Wrong(rows), Longer(rows, 0), Longer(rows, 1000)) if _fast is not None else ():
            for call, wanted in ROWS.values():
                self.assertEqual(call(wrong), wanted)

        class Itself(Longer):
            """A list of which each part is the list itself, with the length that it says."""

            def __getitem__(self, index):
                return self

        for said in (1, 1000):
            self.assertEqual(
                wkt.canonical(Itself(["point(1 2)", None, "POINT(3 4)"], said)), ["POINT(1 2)", None, "POINT(3 4)"]
            )

    def test_offsets_that_are_wrong(self):
        if _fast is None:
            return
        calls = [
            lambda ends: _fast.canonical_buffers((b"abcde", array.array("q", ends), b"", 2), 18, None),
            lambda ends: _fast.arrays_rows((b"abcde", array.array("q", ends), b"", 2), 18, None, True),
            lambda ends: _fast.keys((b"abcde", array.array("q", ends), b"", 2), None, False, None, bytes(16)),
        ]
        for ends in ([0, 3, 6], [-1, 2, 3], [0, 3, 2], [0, 3], [0, 1, 2, 3]):
            for call in calls:
                with self.assertRaises(ValueError):
                    call(ends)
        ends = array.array("q", [0, 3, 5])
        for wrong in ((b"abcde", ends, b"12", 2), (b"abcde", ends, b"", 1 << 60), (b"abcde", ends, b"", -1)):
            with self.assertRaises(ValueError):
                _fast.canonical_buffers(wrong, 18, None)
            with self.assertRaises(ValueError):
                _fast.keys(wrong, None, False, None, bytes(16))
        with self.assertRaises(ValueError):
            _fast.keys((b"abcde", ends, b"", 2), None, False, None, bytes(15))

    @unittest.skipIf(numpy is None, "no NumPy")
    def test_masks(self):
        """A row that is masked is null, and the answers are masked there."""
        texts = ["point(1 2)", "x", "POINT(3 4)"]
        for kind in (object, "U", "S"):
            given = numpy.ma.array(numpy.array(texts, kind), mask=[False, True, False])
            answers = wkt.canonical(given)
            self.assertIsInstance(answers, numpy.ma.MaskedArray)
            self.assertEqual(answers.mask.tolist(), [False, True, False])
            wanted = ["POINT(1 2)", None, "POINT(3 4)"]
            self.assertEqual([text.decode() if isinstance(text, bytes) else text for text in answers.tolist()], wanted)
            self.assertEqual(wkt.canonical_column(given), (wanted, [0, 28, 0]))
            self.assertEqual(wkt.reads(given).tolist(), [True, None, True])
            self.assertEqual(wkt.to_arrays_column(given).statuses.tolist(), [0, 28, 0])
            self.assertEqual(wkt.same(given, texts[0]), [True, None, False])
            refused = wkt.canonical(numpy.ma.array(given.data, mask=False), invalid="null")
            self.assertEqual(refused.mask.tolist(), [False, True, False])
        square = numpy.ma.array([texts, texts], object, mask=[[True] * 3, [False, True, False]])
        self.assertEqual(wkt.canonical(square).mask.tolist(), square.mask.tolist())


def liar(base, said):
    """A class of `base` that says another length, and has other contents for whoever calls its methods."""

    class Liar(base):
        def __len__(self):
            return said

        def __bool__(self):
            return said == 0

        def __bytes__(self):
            return liar(bytes, said)(b"POINT(9 9)")

        def __iter__(self):
            return iter("POINT(9 9)")

        def __getitem__(self, index):
            return self

        def other(self, *given, **more):
            return liar(bytes, said)(b"POINT(9 9)")

        encode = decode = tobytes = find = rfind = count = startswith = endswith = join = split = other

    return Liar


def calls(text, other):
    """What each call answers of a text, and of columns with it. Arrays as lists."""
    columns = ([text, other, None], (text, other), [text] * 9)
    plain = [wkt.canonical, wkt.infer, wkt.reads, wkt.lines, wkt.explain, lambda it: listed(wkt.to_arrays(it))]
    for call in plain:
        yield call(text)
        yield [call(it) for it in columns]
    yield wkt.same(text, other), wkt.same(other, text), wkt.same(list(columns[0]), text)
    for column in columns:
        yield wkt.canonical_column(column), [list(map(int, it)) for it in wkt.to_arrays_column(column)[:9]]


def listed(arrays):
    if isinstance(arrays, list):
        return [it and listed(it) for it in arrays]
    return arrays[:2] + tuple(list(map(int, it)) for it in arrays[2:5])


class Liars(unittest.TestCase):
    """Subclasses that say another length than their buffer has: the buffer counts."""

    SAID = (0, 1, 5, 11, 1000, 1 << 24, 1 << 40)

    def test_texts(self):
        text, other = "point ( 1 2.50 )", "POINT(3 4)"
        wanted = list(calls(text, other))
        for said in self.SAID:
            for base, given in ((str, text), (bytes, text.encode()), (bytearray, text.encode())):
                with self.subTest(base=base, said=said):
                    self.assertEqual(list(calls(liar(base, said)(given), other)), wanted)
        # What was refused is said as of the text itself.
        for said in self.SAID:
            for base, refused in ((str, "POINT(1 \u00e4)"), (bytes, b"POINT(1 x)")):
                with self.assertRaises(wkt.WktError) as raised:
                    wkt.canonical(refused)
                with self.assertRaises(wkt.WktError) as mine:
                    wkt.canonical(liar(base, said)(refused))
                self.assertEqual(str(mine.exception), str(raised.exception))
                self.assertEqual(mine.exception.explanation, raised.exception.explanation)

    def test_views(self):
        """Views of other items, of a part, with gaps, and such as are gone."""
        text = b"point(1 2)  "
        for view in (
            memoryview(text).cast("H"),
            memoryview(array.array("I", text)),
            memoryview(b"xx" + text)[2:],
            memoryview(bytes(it for c in text for it in (c, 0)))[::2],
            memoryview(text).cast("B", [3, 4]),
        ):
            self.assertEqual(wkt.canonical(view), "POINT(1 2)")
            self.assertEqual(wkt.canonical([view, None]), ["POINT(1 2)", None])
        gone = memoryview(text)
        gone.release()
        for given in (gone, [gone]):
            with self.assertRaises(ValueError):
                wkt.canonical(given)

    def test_sources(self):
        data = b"point(1 2)\nx\n"
        for said in self.SAID:
            for base in (bytes, bytearray):
                pieces, sink = [liar(base, said)(data), data, b""], io.BytesIO()
                source = type("Source", (), {"read": lambda self, size, it=iter(pieces): next(it)})()
                self.assertEqual(wkt.stream(source, sink), 4)
                self.assertEqual(sink.getvalue(), wkt.lines(data) * 2)

    def test_numbers(self):
        one = [0, 1]

        class Numbers(array.array):
            def __len__(self):
                return 1 << 40

            def buffer_info(self):
                return (0, 1 << 40)

        numbers = [Numbers("q", [1, 2])]
        if numpy is not None:

            class Arrays(numpy.ndarray):
                size = nbytes = itemsize = property(lambda self: 1 << 40)

                def __len__(self):
                    return 1 << 40

                def tobytes(self, order="C"):
                    return b"12"

            numbers += [numpy.array([1, 2], kind).view(Arrays) for kind in ("int64", "int32")]
        for given in numbers:
            self.assertEqual(wkt.from_arrays(wkt.Arrays("Point", "XY", given, one, one), 0), "POINT(1 2)")
            held = wkt.ColumnArrays([0], [0], given, [0, 2], one, [0, 2], one, [0, 2], [0])
            self.assertEqual(wkt.from_arrays_column(held, 0), (["POINT(1 2)"], [0]))

    def test_columns(self):
        """What gives a list of its own."""

        class Column:
            def tolist(self):
                return Longer(["point(1 2)", None, "POINT(3 4)"], 1000)

        wanted = ["POINT(1 2)", None, "POINT(3 4)"]
        self.assertEqual(wkt.canonical(Column()), wanted)
        self.assertEqual(wkt.canonical_column(Column()), (wanted, [0, 28, 0]))
        self.assertEqual(list(wkt.to_arrays_column(Column()).statuses), [0, 28, 0])

    def test_rows_that_change(self):
        """A callback changes the list while it is answered: the answers are of what it was."""
        before = ["point(%d 2)" % i for i in range(70_000)]
        wanted = ["POINT(%d 2)" % i for i in range(70_000)]
        for change in (list.clear, lambda rows: rows.extend(before), list.reverse):
            for call, answer in (
                (wkt.canonical, wanted),
                (wkt.canonical_column, (wanted, [0] * 70_000)),
                (wkt.reads, [True] * 70_000),
                (wkt.explain, [None] * 70_000),
                (lambda it, progress: wkt.same(it, before, progress=progress), [True] * 70_000),
                (lambda it, progress: wkt.from_arrays_column(wkt.to_arrays_column(it, progress=progress))[0], wanted),
            ):
                rows = list(before)
                self.assertTrue(call(rows, progress=lambda done: change(rows)) == answer)

    def test_rows_that_change_rows(self):
        """A row whose attributes are code changes the rows around it, while it is refused."""
        for call in (wkt.canonical, wkt.canonical_column, wkt.infer, wkt.lines, wkt.reads, wkt.explain, wkt.to_arrays,
                     wkt.to_arrays_column, lambda it: wkt.same(it, it), wkt.from_arrays):  # fmt: skip
            rows = ["POINT(1 2)" * 10] * 10

            class Changes:
                def __getattr__(self, name):
                    rows.clear()
                    raise AttributeError(name)

            rows[5:5] = [Changes()]
            with self.assertRaises(TypeError):
                call(rows if call is not wkt.from_arrays else [wkt.to_arrays("POINT(1 2)"), *rows[5:]])

    def test_shared_arrays_that_change(self):
        """A row whose numbers are code changes the rings that it shares with the rows around it."""
        rings = array.array("Q", [0, 2])

        class Numbers:
            def tolist(self):
                rings[1] = 1
                return [5, 6]

        line = wkt.Arrays("LineString", "XY", array.array("q", [1, 2, 3, 4]), rings, array.array("Q", [0, 1]), 0)
        self.assertEqual(wkt.from_arrays([line, line]), ["LINESTRING(1 2,3 4)"] * 2)
        with self.assertRaises(wkt.WktError) as raised:
            wkt.from_arrays([line, line, line._replace(numbers=Numbers()), line])
        self.assertEqual((raised.exception.row, raised.exception.status), (3, 26))

    def test_arrays_of_another_size(self):
        """An Arrays that is made behind the back of its class, and buffers of other items."""
        for count in range(6):
            with self.assertRaises((TypeError, IndexError, wkt.WktError)):
                wkt.from_arrays([tuple.__new__(wkt.Arrays, ("Point", "XY", [1], [0, 1], [0])[:count])])
        arrays = wkt.to_arrays("POINT(1 2)", 0)
        for numbers, wanted in (
            (array.array("q", [1, 2]), "POINT(1 2)"),
            (array.array("i", [1, 2]), "POINT(1 2)"),
            (memoryview(array.array("q", [1, 9, 2]))[::2], "POINT(1 2)"),
            (memoryview(array.array("Q", [1, 2])), "POINT(1 2)"),
            (array.array("d", [1, 2]), TypeError),
            (b"12345678", TypeError),
        ):
            made = arrays._replace(numbers=numbers)
            for given, answer in ((made, wanted), ([made], [wanted])):
                if isinstance(wanted, str):
                    self.assertEqual(wkt.from_arrays(given), answer)
                else:
                    with self.assertRaises(wanted):
                        wkt.from_arrays(given)


if __name__ == "__main__":
    unittest.main()
