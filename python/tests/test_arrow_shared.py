"""Arrow's columns whose rows share texts: dictionaries and runs. Each text is answered once."""
import copy
import pickle
import random
import struct
import unittest

import wkt
from arrow_columns import (
    NAMED, Arrow, Lent, Node, Streamed, Told, ToldStream, arrow_peer, numbers, rows_in, texts_of,
)  # fmt: skip
from modules import patched

if arrow_peer is not None:
    import numpy
    from wkt import _arrow, _fast

VALUES = [b"never(", b"point ( 1 2.50 )", None, b"PINT(5 6)", b"POINT(1 2.5)", b"LINESTRING(1 2,3 4,5 6,7 8)"]
INDICES = [5, 1, None, 4, 2, 1, 5, 3, 3, 4]
POINT, LINE = "POINT(1 2.5)", "LINESTRING(1 2,3 4,5 6,7 8)"
ANSWERS = [LINE, POINT, None, POINT, None, POINT, LINE, None, None, POINT]
CODES = [0, 0, 28, 0, 28, 0, 0, 3, 3, 0]


def dictionary(indices=INDICES, values=VALUES, format="i", **more):
    return numbers(format, indices, dictionary=texts_of(values), **more)


def runs(ends, values, format="i", **more):
    length = more.pop("length", None)
    length = ends[-1] - more.get("offset", 0) if length is None else length
    return Node("+r", length, columns=(numbers(format, ends, name="run_ends"), values), nulls=0, **more)


class Shared(Arrow):
    def test_dictionaries(self):
        for format in "cCsSiIlL":
            for offset in (0, 1, 4):
                node = dictionary(format=format)._replace(offset=offset, length=len(INDICES) - offset)
                made = wkt.canonical(Told(node), invalid="null")
                self.assertEqual((made.to_pylist(), made.statuses.tolist()), (ANSWERS[offset:], CODES[offset:]))
        # Two spellings of a point are one text, and what no row has isn't there.
        self.assertEqual(made.data.tobytes().decode(), POINT + LINE)
        self.assertEqual(made.indices.tolist(), [0, 0, 1, 0, 0, 0])
        kept = wkt.canonical(Told(dictionary()), invalid="keep")
        self.assertEqual([kept[i] for i in range(10)], ANSWERS[:7] + 2 * ["PINT(5 6)"] + [POINT])

    def test_runs(self):
        """Rows 0 to 9: two of one run, three null ones, one refused, four of the last."""
        values = [b"point(1 2.50)", None, b"PINT(", b"LINESTRING(1 2,3 4,5 6,7 8)"]
        wanted = 2 * [POINT] + 3 * [None] + [None] + 4 * [LINE]
        for format in "sil":
            for offset in range(10):
                made = wkt.canonical(Told(runs([2, 5, 6, 10], texts_of(values), format, offset=offset)), invalid="null")
                self.assertEqual(made.to_pylist(), wanted[offset:])
        with self.assertRaises(wkt.WktError) as raised:
            wkt.canonical(Told(runs([2, 5, 6, 10], texts_of(values), offset=1)))
        self.assertEqual(raised.exception.row, 4)
        # Runs of a dictionary, and columns in a run that begin further behind.
        chosen = numbers("s", [1, None, 2, 0], dictionary=texts_of([b"POINT(7 8)", values[0], values[3]]))
        made = wkt.canonical(Told(runs([2, 5, 6, 10], chosen)))
        self.assertEqual(made.to_pylist(), 2 * [POINT] + 3 * [None] + [LINE] + 4 * ["POINT(7 8)"])
        behind = runs([9, 2, 5], texts_of([b"x", *values[:2]])._replace(offset=1, length=2), length=5)
        behind = behind._replace(columns=(behind.columns[0]._replace(offset=1, length=2), behind.columns[1]))
        self.assertEqual(wkt.canonical(Told(behind)).to_pylist(), wanted[:5])
        table = Node("+s", 10, (None,), (runs([2, 5, 6, 10], texts_of(values)),))
        self.assertEqual(wkt.canonical(Told(table), invalid="null").to_pylist(), wanted)
        self.assertEqual(wkt.canonical(Told(runs([], texts_of([]), length=0))).to_pylist(), [])

    def test_each_text_once(self):
        """As many calls as there are texts, and memory for these and not for the rows: that were 1.5 GB."""
        import resource

        calls = []
        with patched("wkt_canonical", lambda status, *given: calls.append(status)):
            wkt.canonical(Told(dictionary([1, 4] * 1000)))
        self.assertEqual(len(calls), 2)
        values = [("LINESTRING(%s)" % ",".join(["%d.0 1" % i] * 8000)).encode() for i in range(10)]
        node = dictionary([i % 10 for i in range(30_000)], values)
        before = resource.getrusage(resource.RUSAGE_SELF).ru_maxrss
        made = wkt.canonical(Told(node))
        arrays = wkt.reads(made)
        self.assertLess(resource.getrusage(resource.RUSAGE_SELF).ru_maxrss - before, 60_000)
        self.assertEqual((len(made), made[-1][:16], arrays.all()), (30_000, "LINESTRING(9 1,9", True))

    def test_every_call(self):
        """The other calls answer as of a list."""
        rows = [None if i is None or VALUES[i] is None else VALUES[i].decode() for i in INDICES]
        good = [0, 1, 2, 3, 4, 5, 6, 9]
        for call in (wkt.canonical_column, wkt.explain, wkt.lines, lambda it: list(wkt.reads(it))):
            self.assertEqual(call(Told(dictionary())), call(rows))
        self.assertEqual(wkt.same(Told(dictionary()), POINT, invalid="null"), wkt.same(rows, POINT, invalid="null"))
        node = dictionary([INDICES[i] for i in good])
        self.assertEqual(wkt.infer(Told(node)), wkt.infer([rows[i] for i in good]))
        for column, listed in ((Told(dictionary()), rows), (ToldStream(dictionary(), dictionary()), rows + rows)):
            one, other = wkt.to_arrays_column(column), wkt.to_arrays_column(listed)
            for mine, theirs in zip(one[:9], other[:9]):
                self.assertEqual((mine.tolist(), mine.dtype), (theirs.tolist(), theirs.dtype))

    def test_streams(self):
        """Chunks have dictionaries of their own; of all together each text is there once."""
        nodes = dictionary([1, None, 1]), dictionary([0, 1], [b"POINT(1 2.500)", b"POINT(3 4)"]), dictionary([])
        wanted = [POINT, None, POINT, POINT, "POINT(3 4)"]
        seen = []
        made = wkt.canonical(ToldStream(*nodes), progress=seen.append)
        self.assertEqual((made.to_pylist(), made.indices.tolist()), (wanted, [0, 0, 0, 0, 1]))
        batches = list(wkt.batches(ToldStream(*nodes), progress=seen.append))
        self.assertEqual([batch.to_pylist() for batch in batches], [wanted[:3], wanted[3:], []])
        self.assertEqual(seen[-2:], [5, 5])
        lent = arrow_peer.take_stream(wkt.batches(ToldStream(*nodes)).__arrow_c_stream__())
        self.assertEqual([self.rows(each) for each in lent], [wanted[:3], wanted[3:], []])
        with self.assertRaises(wkt.WktError) as raised:
            wkt.canonical(ToldStream(nodes[0], dictionary()))
        self.assertEqual((raised.exception.row, raised.exception.explanation.text), (10, "PINT(5 6)"))

    def test_many(self):
        """Thousands of values, some of one key: the dictionary has the keys in the order of their first rows."""
        make = random.Random(3)
        values = [b"LINESTRING(%s)" % b",".join([b"%d 1" % i] * (i % 7 + 2)) for i in range(2000)]
        values += [value.replace(b" 1", b" 1.0") for value in values] + [b"PINT(1 2)", None, b"MULTIPOINT EMPTY"]
        indices = make.sample(range(len(values)), len(values)) + make.choices([None, *range(len(values))], k=2000)
        keys, _ = wkt.canonical_column([None if i is None else values[i] for i in indices])
        order = {key: number for number, key in enumerate(dict.fromkeys(key for key in keys if key))}
        made = wkt.canonical(Told(dictionary(indices, values)), invalid="null")
        self.assertEqual(made.to_pylist(), keys)
        self.assertEqual(made.indices.tolist(), [order.get(key, 0) for key in keys])
        self.assertEqual((len(made.offsets), bytes(made.data)), (len(order) + 1, "".join(order).encode()))
        halves = [dictionary(part, values) for part in (indices[:3000], indices[3000:])]
        again = wkt.canonical(ToldStream(*halves), invalid="null")
        self.assertEqual((again.to_pylist(), bytes(again.data)), (keys, bytes(made.data)))

    def test_ends(self):
        """Texts of one length, with the same first and last hundred bytes, are told apart, and found again."""
        ends = ",".join(["7 7"] * 25)
        for count in (1, 2, 40):
            values = [b"LINESTRING(%s,%d 1,%s)" % (ends.encode(), i, ends.encode()) for i in range(10, 10 + count)]
            spelled = [value.replace(b",", b" , ") for value in values]
            made = wkt.canonical(Told(dictionary(list(range(2 * count)), values + spelled)))
            self.assertEqual(made.indices.tolist(), 2 * list(range(count)))
            self.assertEqual(bytes(made.data), b"".join(values))

    def test_read_in_place(self):
        """Of views, dictionaries and runs the texts are what stands in the producer's memory, once."""
        shared = Told(dictionary()), Told(runs([2, 5], texts_of(VALUES[1:3])))
        for column in (*shared, Lent(VALUES, "vu"), Lent(VALUES, "vz")):
            _, (texts, offsets, bits, count, _) = _fast.arrow_array(*column.__arrow_c_array__())
            self.assertEqual((type(texts).__name__, offsets, bits, count), ("Cells", None, None, len(texts)))
            self.assertTrue(all(text in VALUES for text in texts))
            for at in (-len(texts) - 1, len(texts)):
                with self.assertRaises(IndexError):
                    texts[at]
            with self.assertRaises(TypeError):
                type(texts)()
        column, listed = Streamed([VALUES, VALUES[2:5]], "vu"), VALUES + VALUES[2:5]
        one, other = wkt.to_arrays_column(column), wkt.to_arrays_column(listed)
        self.assertEqual([it.tolist() for it in one[:9]], [it.tolist() for it in other[:9]])
        kept = wkt.canonical(Lent(VALUES, "vu"), invalid="keep")
        self.assertEqual(kept.to_pylist(), ["never(", POINT, None, "PINT(5 6)", POINT, LINE])

    def rows(self, taken):
        """The rows of what a consumer took of a dictionary."""
        format, _, _, flags, length, nulls, (bits, indices), (known,) = taken
        self.assertEqual((format, flags), ("i", 2))
        valid, texts = [bits[i // 8] >> i % 8 & 1 for i in range(length)], rows_in(known)
        self.assertEqual((nulls, len(set(texts))), (length - sum(valid), len(texts)))
        return [texts[at] if it else None for it, (at,) in zip(valid, struct.iter_unpack("=i", indices))]

    def test_lent(self):
        metadata = _arrow.metadata_of(NAMED)
        column = wkt.canonical(Told(dictionary(metadata=metadata)), invalid="null")
        self.assertEqual((column.metadata, self.rows(arrow_peer.take(*column.__arrow_c_array__()))), (NAMED, ANSWERS))
        self.assertEqual(wkt.canonical(ToldStream(runs([2], texts_of([b"x"]), metadata=metadata)),
                                       invalid="null").metadata, NAMED)  # fmt: skip
        (taken,) = arrow_peer.take_stream(column.__arrow_c_stream__())
        self.assertEqual((taken[2], self.rows(taken)), (2, ANSWERS))
        again = wkt.canonical(column)
        self.assertEqual((again.to_pylist(), again.metadata), (ANSWERS, NAMED))
        for part in (slice(2, 7), slice(7, 2), slice(None, None, 3), slice(-2, None)):
            self.assertEqual(list(column[part]), ANSWERS[part])
        self.assertEqual([column[i] for i in range(-10, 10)], ANSWERS + ANSWERS)
        self.assertIn("10 rows, 4 null: ['LINESTRING(1 2,3 4,5 6,7 8)', 'POINT(1 2.5)', None, ", repr(column))
        for each in (copy.deepcopy(column), pickle.loads(pickle.dumps(column)), column[2:]):
            self.assertEqual((each.to_pylist(), each.metadata), (ANSWERS[10 - len(each) :], NAMED))
            with self.assertRaises(ValueError):
                each.indices[0] = 1
        column.__arrow_c_schema__()  # nobody takes it

    def test_own_buffers(self):
        data, ends = numpy.frombuffer(b"POINT(1 2)\xffx", numpy.uint8), numpy.array([0, 10, 11, 12])
        statuses, indices = numpy.array([0, 0, 28, 0], numpy.uint32), numpy.array([2, 0, 99, 1], numpy.int32)
        made = wkt.ArrowTexts(data, ends, statuses, None, indices)
        self.assertEqual((made.to_pylist(), made.statuses.tolist()), (["x", "POINT(1 2)", None, None], [0, 0, 28, 20]))
        for wrong in (indices[:3], indices + numpy.int32(1), indices - numpy.int32(1)):
            with self.assertRaises(ValueError):
                wkt.ArrowTexts(data, ends, statuses, None, wrong)
        for wrong in (indices.astype(numpy.int64), indices.tolist(), indices.reshape(2, 2)):
            with self.assertRaises(TypeError):
                wkt.ArrowTexts(data, ends, statuses, None, wrong)
        for wrong in (ends[:0], ends[::-1]):
            with self.assertRaises(ValueError):
                wkt.ArrowTexts(data, wrong, statuses, None, indices)

    def test_wrong(self):
        """What can't be is seen before it is used."""
        texts, one = texts_of([b"POINT(1 2)", b"x"]), numbers("i", [1, 2])
        good = Node("+r", 2, (), (one, texts))
        cases = [
            good._replace(length=3), good._replace(offset=1), good._replace(length=-1), good._replace(offset=-1),
            good._replace(columns=(numbers("i", [1, 1]), texts)), good._replace(columns=(numbers("i", [-5, 2]), texts)),
            good._replace(columns=(numbers("i", [0, 2]), texts)), good._replace(columns=(numbers("s", [-1, 2]), texts)),
            good._replace(columns=(one._replace(buffers=(None, None)), texts)),
            good._replace(columns=(one, texts._replace(length=1))), good._replace(buffers=(None, None)),
            good._replace(columns=(one, texts._replace(buffers=texts.buffers[:2]))),
            dictionary([1], [b"x"]), dictionary([-1], [b"x"]), dictionary([0])._replace(buffers=(None, None)),
            good._replace(columns=(one, numbers("i", [0, 1], dictionary=texts_of([b"x"])))),
        ]  # fmt: skip
        for node in cases:
            with self.subTest(node), self.assertRaises(ValueError):
                wkt.canonical(Told(node), invalid="null")
        types = [
            good._replace(columns=(one,)), good._replace(columns=(numbers("I", [1, 2]), texts)),
            good._replace(columns=(numbers("c", [1, 2]), texts)), good._replace(columns=(texts, texts)),
            good._replace(columns=(one, one)), good._replace(columns=(one, good)), dictionary(format="g"),
        ]  # fmt: skip
        for node in types:
            with self.subTest(node), self.assertRaises(TypeError) as raised:
                wkt.canonical(Told(node), invalid="null")
            self.assertIn("or a dictionary or runs of these", str(raised.exception))
            Told.held.clear()  # nobody took the array


if __name__ == "__main__":
    unittest.main()
