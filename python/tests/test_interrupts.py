"""Ctrl-C in a long column ends the call between two of its blocks."""
import functools
import os
import signal
import subprocess
import sys
import unittest

import wkt
from modules import installed

numpy = installed("numpy")
LONG = "LINESTRING(%s)" % ",".join(["1 2"] * 25_000)  # canonical, so that the rows are the answers


def points(rows):
    """An Arrow column of the same text in each row."""
    text = b"point ( 1.0 2 )"
    data = numpy.frombuffer(text * rows, numpy.uint8)
    return wkt.ArrowTexts(data, numpy.arange(rows + 1) * len(text), numpy.zeros(rows, numpy.uint32))


CALLS = {
    "canonical": lambda: functools.partial(wkt.canonical, [LONG] * 1500),
    "reads": lambda: functools.partial(wkt.reads, [LONG] * 1500),
    "same": lambda: functools.partial(wkt.same, [LONG] * 1000, [LONG] * 1000),
    "arrays": lambda: functools.partial(wkt.from_arrays_column, wkt.to_arrays_column(["POINT(1 2)"] * 2_000_000)),
    "lines": lambda: functools.partial(wkt.lines, b"point ( 1.0 2 )\n" * 6_000_000),
    "Arrow": lambda: functools.partial(wkt.canonical, points(3_000_000)),
    "keys": lambda: functools.partial(wkt.keys, wkt.to_arrays_column(points(500_000)).geoarrow()),
}
CHILD = """
import os, signal, sys, threading, time
sys.path.insert(0, sys.argv[2])
from test_interrupts import CALLS

call, spent = CALLS[sys.argv[1]](), []
for interrupted in (False, True):
    begin = time.process_time()
    try:
        if interrupted:  # on a loaded machine it may come before the call
            threading.Timer(spent[0] / 10, os.kill, (os.getpid(), signal.SIGINT)).start()
        call()
    except KeyboardInterrupt:
        sys.stdout.write("interrupted ")
    spent.append(time.process_time() - begin)
print(*spent)
"""


class Interrupts(unittest.TestCase):
    def test_columns(self):
        for name in CALLS:
            if wkt._native._fast is None and name in ("lines", "Arrow", "keys"):
                continue  # by ctypes lines are one call; the others need the fast module
            if numpy is None and name in ("Arrow", "keys"):
                continue
            with self.subTest(name):
                # On a busy machine the signal may come late, but not each time.
                self.assertTrue(any(self.ends_soon(name) for _ in range(3)))

    def ends_soon(self, name):
        """Whether an interrupted call takes less than half of what the whole call takes."""
        # What a script starts in the background ignores SIGINT, and so would the child.
        heed = functools.partial(signal.signal, signal.SIGINT, signal.SIG_DFL)
        words = [sys.executable, "-c", CHILD, name, os.path.dirname(os.path.abspath(__file__))]
        run = subprocess.run(words, stdout=subprocess.PIPE, preexec_fn=heed)
        word, whole, spent = run.stdout.split()
        self.assertEqual((run.returncode, word), (0, b"interrupted"))
        return float(spent) < float(whole) / 2


if __name__ == "__main__":
    unittest.main()
