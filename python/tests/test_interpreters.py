"""Several interpreters in one process: each has the package for itself, and the first alone lends Arrow columns."""
import subprocess
import sys
import unittest

from wkt._native import _fast

# As Python 3.8, 3.12 and 3.13 have them. Before 3.13 ctypes is for interpreters with one lock alone.
START = """
import sys, threading
try:
    import _interpreters as several
    make = several.create
    kinds = ["legacy", "isolated"]
except ImportError:
    import _xxsubinterpreters as several
    one_lock = {"isolated": False} if sys.version_info >= (3, 12) else {}
    make = lambda kind: several.create(**one_lock)
    kinds = ["legacy"]

def run(it, words):  # NumPy is for one interpreter alone
    words = "import sys\\nsys.path[:0], sys.modules['numpy'] = %r, None\\n%s" % (sys.path, words)
    failed = several.run_string(it, words)
    assert failed is None, failed
"""
ANSWERS = '''
import wkt, wkt._native
assert (wkt._native._fast is not None) is %r
assert wkt.canonical("point ( 1 2.0 )") == "POINT(1 2)"
assert wkt.canonical(["point(1 2)", None] * 9999) == ["POINT(1 2)", None] * 9999
assert wkt.infer(["point(1 2)"]) == [("Point", "XY")]
assert wkt.from_arrays(wkt.to_arrays("point(1 2)")) == "POINT(1 2)"
try:
    wkt.canonical(["POINT(1"])
    raise AssertionError
except wkt.WktError as error:
    assert error.row == 0
''' % (_fast is not None)
LENDS = """
from wkt import _fast
tree = ("U", "", b"", 2, 0, 0, (None, bytes(8), b""), ())
for lend in (lambda: _fast.export(tree), lambda: _fast.export_stream(tree, iter([tree]))):
    try:
        lend()
        raise AssertionError("it lends")
    except RuntimeError as error:
        assert "subinterpreter" in str(error)
_fast.export_schema(tree)
"""


class Interpreters(unittest.TestCase):
    def ran(self, words, *given):
        done = subprocess.run([sys.executable, "-c", START + words, *given], stderr=subprocess.PIPE, timeout=600)
        self.assertEqual((done.returncode, done.stderr.decode()), (0, ""))

    def test_answers(self):
        """In two at once, beside the main one, and after one of them has ended."""
        self.ran(
            """
exec(sys.argv[1])
for kind in kinds:
    two = [make(kind), make(kind)]
    threads = [threading.Thread(target=run, args=(it, sys.argv[1])) for it in two]
    for call in (threading.Thread.start, threading.Thread.join):
        list(map(call, threads))
    exec(sys.argv[1])
    several.destroy(two[0])
    run(two[1], sys.argv[1])
    several.destroy(two[1])
    exec(sys.argv[1])
""",
            ANSWERS,
        )

    @unittest.skipIf(_fast is None, "no fast module")
    def test_lent_by_the_main_one(self):
        """A release takes the lock of the main one, and would wait for ever in another."""
        self.ran("for kind in kinds:\n    it = make(kind)\n    run(it, sys.argv[1])\n    several.destroy(it)", LENDS)


if __name__ == "__main__":
    unittest.main()
