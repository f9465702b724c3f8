"""Lines from one file to another."""
import io
import os
import unittest

import wkt


class Few:
    """A source that gives few bytes at once."""

    def __init__(self, data, most):
        self.file, self.most, self.largest = io.BytesIO(data), most, 0

    def read(self, size):
        self.largest = max(self.largest, size)
        return self.file.read(min(size, self.most))


class Partial(io.RawIOBase):
    """A sink that takes a part of what it is given."""

    def __init__(self):
        super().__init__()
        self.held = b""

    def writable(self):
        return True

    def write(self, data):
        self.held += bytes(data[:1000])
        return min(len(data), 1000)


class Streams(unittest.TestCase):
    def test_lines(self):
        for data in (b"", b"\n", b"point(1 2.50)\nnonsense\n", b"point(1 2.50)\nnonsense", b"POINT(1 2)\r\n\xff\n\n"):
            for most in (1, 3, 1 << 20):
                sink = io.BytesIO()
                lines = wkt.stream(Few(data, most), sink)
                self.assertEqual(sink.getvalue(), wkt.lines(data))
                self.assertEqual(lines, sink.getvalue().count(b"\n"))

    def test_blocks(self):
        """More than a megabyte, in it a line that is longer than that; the last ends without a line feed."""
        long = b"LINESTRING(%s)\n" % b",".join([b"1 2"] * 400_000)
        data = b"point(1 2.50)\n" * 100_000 + long + b"x\n" * 600_000 + b"POINT(3 4)"
        self.assertEqual(wkt.lines(data), b"POINT(1 2.5)\n" * 100_000 + long + b"refused\n" * 600_000 + b"POINT(3 4)\n")

    def test_places(self):
        sink = io.BytesIO()
        wkt.stream(io.BytesIO(b"point(1 2.5)\n"), sink, places=0)
        self.assertEqual(sink.getvalue(), b"refused\n")

    def test_partial_writes_and_progress(self):
        data, seen, sink = b"point ( 1 2.50 )\n" * 300_000, [], Partial()
        self.assertEqual(wkt.stream(io.BytesIO(data), sink, progress=seen.append), 300_000)
        self.assertEqual(sink.held, b"POINT(1 2.5)\n" * 300_000)
        self.assertEqual((seen[-1], sorted(seen), len(seen) > 3), (len(data), seen, True))

    def test_what_a_sink_keeps(self):
        """What was written stays as it was, also where the sink keeps it."""

        class Keeps:
            def __init__(self):
                self.held = []

            def write(self, data):
                self.held.append(data)
                return len(data)

        sink = Keeps()
        data = b"".join(b"point ( %d 2.50 )\n" % i for i in range(200_000))
        wkt.stream(io.BytesIO(data), sink)
        self.assertGreater(len(sink.held), 2)
        self.assertEqual(b"".join(sink.held), wkt.lines(data))

    def test_sinks_that_do_not_block(self):
        class Full(io.RawIOBase):
            held = b""

            def writable(self):
                return True

            def write(self, data):
                if len(self.held) > 1000:
                    return None
                self.held += bytes(data[:600])
                return min(len(data), 600)

        sink = Full()
        with self.assertRaises(BlockingIOError) as raised:
            wkt.stream(io.BytesIO(b"point ( 1 2.50 )\n" * 1000), sink)
        self.assertEqual((raised.exception.characters_written, len(sink.held)), (1200, 1200))
        reader, writer = os.pipe()
        os.set_blocking(writer, False)
        with open(writer, "wb", 0) as full, open(reader, "rb", 0) as rest:
            with self.assertRaises(BlockingIOError):
                wkt.stream(io.BytesIO(b"point ( 1 2.50 )\n" * 100_000), full)
            full.close()
            self.assertEqual(set(rest.read().split(b"\n")[:-1]), {b"POINT(1 2.5)"})

    def test_long_line(self):
        line = b"LINESTRING(" + b",".join([b"1 2.50"] * 500_000) + b")\n"
        sink = io.BytesIO()
        self.assertEqual(wkt.stream(io.BytesIO(line + b"point(1 2)"), sink), 2)
        self.assertEqual(sink.getvalue(), line.replace(b".50", b".5") + b"POINT(1 2)\n")

    def test_memory(self):
        """It doesn't grow with the input."""
        import tracemalloc

        class Endless:
            left = 40

            def read(self, size):
                self.left -= 1
                return b"point ( 1 2.50 )\n" * 50_000 if self.left >= 0 else b""

        class Nowhere:
            def write(self, data):
                return None

        tracemalloc.start()
        try:
            self.assertEqual(wkt.stream(Endless(), Nowhere()), 2_000_000)
            self.assertLess(tracemalloc.get_traced_memory()[1], 12 << 20)
        finally:
            tracemalloc.stop()

    def test_what_is_refused(self):
        with self.assertRaises(TypeError):
            wkt.stream(io.StringIO("POINT(1 2)"), io.BytesIO())

        class Full:
            def write(self, data):
                raise OSError("full")

        with self.assertRaises(OSError):
            wkt.stream(io.BytesIO(b"POINT(1 2)"), Full())

    def test_sinks_that_lie(self):
        """A sink that takes nothing, or less than nothing, or more than there is, ends it."""

        class Sink:
            def __init__(self, said):
                self.said, self.held = iter(said), []

            def write(self, data):
                self.held.append(bytes(data))
                return next(self.said)

        cases = [([0], OSError), ([-1], OSError), ([3, 0], OSError), ([3, -3], OSError), ([12], OSError)]
        cases += [([1 << 70], OSError), ([10, 2], OSError)]
        cases += [([wrong], TypeError) for wrong in (True, 2.0, "11", b"", [11])]
        for said, error in cases:
            sink = Sink(said)
            with self.subTest(said), self.assertRaises(error):
                wkt.stream(io.BytesIO(b"point(1 2)"), sink)
            self.assertEqual(sink.held, [b"POINT(1 2)\n"[start:] for start in [0, *said][: len(said)]])
        sink = Sink([3, 8])
        wkt.stream(io.BytesIO(b"point(1 2)"), sink)
        self.assertEqual(sink.held, [b"POINT(1 2)\n", b"NT(1 2)\n"])


if __name__ == "__main__":
    unittest.main()
