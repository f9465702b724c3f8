"""Files with a column of texts: python -m wkt.table."""
import contextlib
import functools
import io
import os
import random
import signal
import subprocess
import sys
import tempfile
import time
import unittest
import unittest.mock

import wkt
from wkt import table

COMMAND = [sys.executable, "-m", "wkt.table"]
PACKAGE = os.path.dirname(os.path.dirname(os.path.abspath(wkt.__file__)))
REJECTS = """file,row,column,cause,hint,text
b.csv,3,8,expected_y,"a second number was expected, and not )",POINT(1)
ragged.csv,2,,fields,"the row has 3 fields, and not 2; a text with commas stands in quotes",LINESTRING(1 2
ragged.csv,3,,fields,"the row has 1 fields, and not 2; a text with commas stands in quotes",POINT(5 6)
"""
SAID = """b.csv: 5 rows, 1 refused, 1 without a text
ragged.csv: 3 rows, 2 refused, 0 without a text
out.csv: 2 rows
"""
A = "id,geom\n1,point(1 2)\n2,POINT(1.0 2)\n3,\n4,POINT(1)\n5,POINT(3 4)\n6,POINT(1)\n"
B = "geom,name\nPOINT(3.00 4),c\nPOINT(1 2),a\nPOINT(1),x\n,y\npoint (1 2),b\n"

# What is asked, its status, and what is in out.csv.
RUNS = [
    ("a.csv --column geom", 1,
     "key,id,geom\nPOINT(1 2),1,point(1 2)\nPOINT(1 2),2,POINT(1.0 2)\nPOINT(3 4),5,POINT(3 4)\n"),
    ("a.csv --column geom --dedup", 1, "key,id,geom\nPOINT(1 2),1,point(1 2)\nPOINT(3 4),5,POINT(3 4)\n"),
    ("a.csv a.csv --column geom --dedup", 1, "key,id,geom\nPOINT(1 2),1,point(1 2)\nPOINT(3 4),5,POINT(3 4)\n"),
    ("a.csv --column geom --dedup --all --key k", 1,
     "k,id,geom\nPOINT(1 2),1,point(1 2)\n,3,\n,4,POINT(1)\nPOINT(3 4),5,POINT(3 4)\n,6,POINT(1)\n"),
    ("a.csv --column geom --join b.csv", 1,
     "key,id,geom,geom_other,name\nPOINT(1 2),1,point(1 2),POINT(1 2),a\nPOINT(1 2),1,point(1 2),point (1 2),b\n"
     "POINT(1 2),2,POINT(1.0 2),POINT(1 2),a\nPOINT(1 2),2,POINT(1.0 2),point (1 2),b\n"
     "POINT(3 4),5,POINT(3 4),POINT(3.00 4),c\n"),
    ("a.csv --column geom --join b.csv --dedup", 1,
     "key,id,geom,geom_other,name\nPOINT(1 2),1,point(1 2),POINT(1 2),a\nPOINT(3 4),5,POINT(3 4),POINT(3.00 4),c\n"),
    ("refused.csv --column geom --join refused.csv", 1, "key,geom,geom_other\n"),
    ("a.csv --column geom --other-column name --join names.csv", 1,
     "key,id,geom,name,geom_other\nPOINT(3 4),5,POINT(3 4),POINT(3 4),1\n"),
    ("good.csv --column geom", 0, 'key,geom\n"LINESTRING(1 2,3 4)","LINESTRING(1 2,\n3 4)"\n'),
    ("tab.tsv --column geom --delimiter tab", 0, "key\tgeom\tid\nLINESTRING(1 2,3 4)\tLINESTRING(1 2,3 4)\t\"a\tb\"\n"),
    ("crlf.csv --column geom", 0, 'key,geom,id\r\nPOINT(1 2),POINT(1 2),"a\r\nb"\r\n'),
    ("mark.csv --column geom", 0, "key,geom\nPOINT(1 2),POINT(1 2)\n"),
    ("latin.csv --column geom", 1, b"key,geom,name\nPOINT(1 2),POINT(1 2),M\xfcnchen\n"),
    ("bare.csv --column 2 --no-header", 0, "POINT(1 2),a,point(1 2)\nPOINT(3 4),b,POINT(3 4)\n"),
    ("bare.csv --column 2 --no-header --join bare.csv", 0,
     "POINT(1 2),a,point(1 2),a,point(1 2)\nPOINT(3 4),b,POINT(3 4),b,POINT(3 4)\n"),
    ("places.csv --column geom --places 1", 1, "key,geom\nPOINT(1.5 2),POINT(1.50 2)\n"),
    ("ragged.csv --column geom --all", 1,
     "key,geom,id\nPOINT(1 2),POINT(1 2),1\n,LINESTRING(1 2,3 4),2\n,POINT(5 6)\n"),
]  # fmt: skip
FILES = {
    "a.csv": A,
    "b.csv": B,
    "names.csv": "name,geom\nPOINT(3 4),1\n",
    "refused.csv": "geom\nPOINT(1)\nPOINT(1)\nx\n",
    "good.csv": 'geom\n"LINESTRING(1 2,\n3 4)"\n\n',
    "tab.tsv": 'geom\tid\nLINESTRING(1 2,3 4)\t"a\tb"\n',
    "crlf.csv": 'geom,id\r\nPOINT(1 2),"a\r\nb"\r\n',
    "mark.csv": "\ufeffgeom\nPOINT(1 2)\n",
    "latin.csv": b"geom,name\nPOINT(1 2),M\xfcnchen\nPOINT(1 2)\xfc,x\n",
    "bare.csv": "a,point(1 2)\nb,POINT(3 4)\n",
    "places.csv": "geom\nPOINT(1.50 2)\nPOINT(1.55 2)\n",
    "ragged.csv": "geom,id\nPOINT(1 2),1\nLINESTRING(1 2,3 4),2\nPOINT(5 6)\n",
    "open.csv": 'geom,id\nPOINT(1 2),1\n"POINT(1 2),2\nPOINT(1 2),3\n',
    "quote.csv": 'geom,id\n"POINT(1 2)"x,1\n',
    "wide.csv": "\ufeffgeom\nPOINT(1 2)\n".encode("utf-16-le"),
    "empty.csv": "",
    "two.csv": "geom,geom\n",
    "semicolons.csv": "id;geom\n",
    "keyed.csv": "key,geom\n",
}
# What is refused, and why: a text, and its row of rejects behind file and row.
REFUSED = [
    ("POINT(1)", '8,expected_y,"a second number was expected, and not )",POINT(1)'),
    ("POINT(1 2", '10,expected_closing,"`)` was expected, but the text ends",POINT(1 2'),
    ("PINT(1 2)", '1,expected_kind,"a kind of geometry, such as POINT, was expected, and not PINT",PINT(1 2)'),
    ("SRID=4326;POINT(1 2)", "1,srid,SRID=..; of EWKT is not read; ST_AsText leaves it out,SRID=4326;POINT(1 2)"),
    ("POINT(1e-7 2)", "7,exponent,exponents are not read; write 0.0000001 for 1e-7,POINT(1e-7 2)"),
    ("POINT(1.1234567 2)", '7,places,"1.1234567 has 7 places, at most 6 are allowed",POINT(1.1234567 2)'),
    ("POINT(1 2) \x1b", '12,not_whole,"the end of the text was expected, and not \\x1b",POINT(1 2) \x1b'),
    ("POINT(1 2) \xe4\ufffd",
     '12,not_whole,"the end of the text was expected, and not \xe4\ufffd",POINT(1 2) \xe4\ufffd'),
    (b"POINT(1 2)\xff", b"11,not_utf8,The text is not UTF-8,POINT(1 2)\xff"),
]  # fmt: skip
# What ends a run, and its words.
FAILURES = [
    ("open.csv --column geom", "open.csv:3: a quote that is opened in this row isn't closed"),
    ("quote.csv --column geom", "quote.csv:2: ',' expected after '\"'"),
    ("wide.csv --column geom", "wide.csv: it is UTF-16"),
    ("empty.csv --column geom", "empty.csv: it is empty"),
    ("a.csv --column name", "a.csv: it has no column name, but id, geom"),
    ("two.csv --column geom", "two.csv: it has two columns geom"),
    ("semicolons.csv --column geom", "--delimiter names what separates them"),
    ("bare.csv --column 3 --no-header", "without a header a column is a number, 1 to 2"),
    ("keyed.csv --column geom", "keyed.csv: it has a column key; --key names"),
    ("a.csv b.csv --column geom", "b.csv: it has another header than a.csv"),
    ("nowhere.csv --column geom", "No such file or directory: 'nowhere.csv'"),
    ("a.csv --column geom --join .", "Is a directory"),
    ("a.csv --column geom --rejects nowhere/bad.csv", "No such file"),
]
USAGE = [
    "a.csv",
    "--column geom",
    "a.csv --column geom --places 37",
    "a.csv --column geom --delimiter ,,",
    "a.csv --column geom --all --join b.csv",
    "- - --column geom",
    "a.csv --column geom --rejects ./out.csv",
    "b.csv a.csv --column geom --rejects ./a.csv",
    "a.csv --column geom --join b.csv --rejects b.csv",
]


class Folder(unittest.TestCase):
    def setUp(self):
        folder = tempfile.TemporaryDirectory(prefix="a folder ")
        self.addCleanup(folder.cleanup)
        self.addCleanup(os.chdir, os.getcwd())
        os.chdir(folder.name)
        paths = unittest.mock.patch.dict(os.environ, PYTHONPATH=PACKAGE)
        paths.start()
        self.addCleanup(paths.stop)
        for number in (signal.SIGTERM, signal.SIGHUP):
            self.addCleanup(signal.signal, number, signal.getsignal(number))
        for name, text in FILES.items():
            self.put(name, text)

    def put(self, name, text):
        with open(name, "wb") as file:
            file.write(text if isinstance(text, bytes) else text.encode())

    def has(self, name):
        with open(name, "rb") as file:
            return file.read()

    def run_of(self, words, *more):
        """The status of a run in this process, and its words."""
        said = io.StringIO()
        with contextlib.redirect_stderr(said):
            try:
                status = table.main([*words.split(" "), "--out", "out.csv", *more])
            except SystemExit as ended:
                status = ended.code
        return status, said.getvalue()

    def nothing_is_left(self, *but):
        self.assertEqual([it for it in os.listdir(".") if it not in FILES and it not in but], [])


class Runs(Folder):
    def test_runs(self):
        for words, status, out in RUNS:
            with self.subTest(words):
                got = self.run_of(words)
                self.assertEqual(got[0], status, got[1])
                self.assertEqual(self.has("out.csv"), out if isinstance(out, bytes) else out.encode())
                os.unlink("out.csv")
        self.nothing_is_left()

    def test_refused(self):
        for text, row in REFUSED:
            with self.subTest(text):
                text = text if isinstance(text, bytes) else text.encode()
                self.put("one.csv", b"geom\tid\nPOINT(1 2)\t1\n%s\t2\n" % text)
                status, _ = self.run_of("one.csv --column geom --delimiter tab --places 6 --rejects bad.csv")
                self.assertEqual(status, 1)
                # The same fields, separated by tabs.
                file, number, *rest = self.has("bad.csv").split(b"\n")[1].split(b"\t")
                self.assertEqual((file, number), (b"one.csv", b"2"))
                wanted = row if isinstance(row, bytes) else row.encode()
                self.assertEqual(b"\t".join(rest), b"\t".join(self.fields(wanted)))

    def fields(self, row):
        first, cause, rest = row.split(b",", 2)
        hint, text = rest[1:].rsplit(b'",', 1) if rest.startswith(b'"') else rest.rsplit(b",", 1)
        return [first, cause, hint, text]

    def test_rejects(self):
        _, said = self.run_of("ragged.csv --column geom --join b.csv --rejects bad.csv")
        self.assertEqual(self.has("bad.csv").decode(), REJECTS)
        self.assertEqual(said, SAID)
        self.put("many.csv", "geom\n" + "x\x1b\n" * 12)
        _, said = self.run_of("many.csv --column geom")
        self.assertEqual(said.count("many.csv: row "), 10)
        self.assertIn("many.csv: row 10: at 1: a kind of geometry, such as POINT, was expected, and not x\\x1b\n", said)
        self.assertIn("10 of 12 refusals are shown", said)
        self.assertEqual(self.run_of("many.csv --column geom -q"), (1, ""))

    def test_failures(self):
        for words, said in FAILURES:
            with self.subTest(words):
                got = self.run_of(words)
                self.assertEqual((got[0], said in got[1]), (2, True), got[1])
        for words in USAGE:
            with self.subTest(words):
                self.assertEqual(self.run_of(words)[0], 2)
        self.assertEqual([self.has("a.csv").decode(), self.has("b.csv").decode()], [A, B])
        self.nothing_is_left()

    def test_inputs_stay(self):
        """What is refused, and standard output, don't go into a file that is read."""
        shell = ["/bin/sh", "-c", '"$@" - --column geom --rejects a.csv < a.csv', "sh", *COMMAND]
        self.assertEqual(subprocess.run(shell, check=False, stderr=subprocess.DEVNULL).returncode, 2)
        shell[2] = '"$@" a.csv --column geom --all >> a.csv'
        self.assertEqual(subprocess.run(shell, check=False, stderr=subprocess.DEVNULL).returncode, 2)
        self.assertEqual(self.has("a.csv").decode(), A)
        self.nothing_is_left()

    def test_outputs(self):
        """What was there stays until the new one is whole; its mode stays, and a link stays one."""
        self.put("out.csv", "old")
        os.chmod("out.csv", 0o640)
        self.assertEqual(self.run_of("open.csv --column geom")[0], 2)
        self.assertEqual(self.has("out.csv"), b"old")
        self.assertEqual(self.run_of("good.csv --column geom")[0], 0)
        self.assertEqual(os.stat("out.csv").st_mode & 0o777, 0o640)
        os.symlink("out.csv", "link.csv")
        self.assertEqual(self.run_of("good.csv --column geom", "--out", "link.csv")[0], 0)
        self.assertTrue(os.path.islink("link.csv"))
        # Onto its own input.
        self.assertEqual(self.run_of("bare.csv --column 2 --no-header", "--out", "bare.csv")[0], 0)
        self.assertEqual(self.has("bare.csv"), b"POINT(1 2),a,point(1 2)\nPOINT(3 4),b,POINT(3 4)\n")
        self.assertEqual(self.run_of("good.csv --column geom", "--out", "/dev/full")[0], 2)
        # A pipe, as a shell gives it for >(gzip > bad.csv.gz): what /dev/fd leads to is no path.
        ends = os.pipe()
        status = self.run_of("a.csv --column geom", "--rejects", "/dev/fd/%d" % ends[1])[0]
        os.close(ends[1])
        with open(ends[0], encoding="utf-8") as bad:
            self.assertEqual((status, bad.read().count("POINT(1)")), (1, 2))
        # Where one of two can't be written, neither changes.
        self.put("out.csv", "old")
        self.assertEqual(self.run_of("a.csv --column geom", "--rejects", "/dev/full")[0], 2)
        self.assertEqual(self.has("out.csv"), b"old")

    def test_many_rows(self):
        """A deduplicated and a joined table as one is made of keys that are known, over many blocks."""
        rng, keys = random.Random(1), ["POINT(%d %d)" % (i, -i) for i in range(300)]
        spelled = [lambda x, y: "POINT(%d %d)", lambda x, y: "point ( %d.00 %d )", lambda x, y: "Point (+%d %d.0)"]
        rows = [[rng.randrange(300), rng.randrange(9)] for _ in range(4000)]

        def text(key, form):
            return "PINT" if form > 6 else spelled[form % 3](0, 0) % (key, -key)

        self.put("m.csv", "n,g\n" + "".join("%d,%s\n" % (n, text(*row)) for n, row in enumerate(rows)))
        self.put("o.csv", "g,o\n" + "".join("%s,%d\n" % (text(*row), n) for n, row in enumerate(rows[:1000])))
        read = [(n, *row) for n, row in enumerate(rows) if row[1] <= 6]
        first = {}
        for n, key, form in read:
            first.setdefault(key, (n, key, form))
        wanted = ["%s,%d,%s" % (keys[key], n, text(key, form)) for n, key, form in first.values()]
        with unittest.mock.patch("wkt._files.BLOCK", 500):
            self.assertEqual(self.run_of("m.csv --column g --dedup")[0], 1)
            self.assertEqual(self.has("out.csv").decode().splitlines()[1:], wanted)
            self.assertEqual(self.run_of("m.csv --column g --join o.csv")[0], 1)
        wanted = [
            "%s,%d,%s,%s,%d" % (keys[key], n, text(key, form), text(*rows[o]), o)
            for n, key, form in read
            for o, other, _ in read
            if o < 1000 and other == key
        ]
        self.assertEqual(self.has("out.csv").decode().splitlines()[1:], wanted)

    def test_long_fields(self):
        text = "LINESTRING(%s)" % ",".join(["1.50 2"] * 200_000)
        self.put("long.csv", 'geom,id\n"%s",%s\n' % (text, "x" * 1_000_000))
        self.assertEqual(self.run_of("long.csv --column geom")[0], 0)
        key = "LINESTRING(%s)" % ",".join(["1.5 2"] * 200_000)
        self.assertEqual(self.has("out.csv").decode().split("\n")[1], '"%s","%s",%s' % (key, text, "x" * 1_000_000))


class Processes(Folder):
    """What needs a process of its own."""

    def begun(self, *words):
        pipe = subprocess.PIPE
        # What a script starts in the background ignores SIGINT, and so would this run.
        heed = functools.partial(signal.signal, signal.SIGINT, signal.SIG_DFL)
        return subprocess.Popen([*COMMAND, *words], stdin=pipe, stdout=pipe, stderr=pipe, preexec_fn=heed)

    def test_pipes(self):
        with self.begun("-", "--column", "geom") as run:
            out, said = run.communicate(A.encode())
        self.assertEqual(out.decode(), RUNS[0][2])
        self.assertIn(b"standard input: 6 rows, 2 refused, 1 without a text\nstandard output: 3 rows\n", said)
        self.put("long.csv", "geom\n" + "POINT(1 2)\n" * 20_000)
        with self.begun("long.csv", "--column", "geom") as run:
            run.stdout.readline()
            run.stdout.close()
            self.assertEqual((run.wait(), b"Traceback" in run.stderr.read()), (2, False))

    def test_untold(self):
        """Where standard error can't be written, the status is that of a run that fails, and nothing changes."""
        self.put("out.csv", "old")
        with open("/dev/full", "w", encoding="utf-8") as full:
            for words in ("nothing.csv --column geom", "good.csv", "good.csv --column geom"):
                run = [*COMMAND, *words.split(" "), "--out", "out.csv"]
                for unbuffered in ("", "1"):
                    env = {**os.environ, "PYTHONUNBUFFERED": unbuffered}
                    self.assertEqual(subprocess.run(run, stderr=full, check=False, env=env).returncode, 2, words)
                    self.assertEqual(self.has("out.csv"), b"old")

    def test_killed(self):
        """A run that is ended leaves what was there; one that can clear up leaves nothing else."""
        self.put("out.csv", "old")
        for number in (signal.SIGTERM, signal.SIGINT, signal.SIGKILL):
            with self.begun("-", "--column", "geom", "--out", "out.csv", "--rejects", "bad.csv") as run:
                run.stdin.write(b"geom\nPOINT(1 2)\n")
                run.stdin.flush()
                while run.poll() is None and not any(it.startswith("out.csv.") for it in os.listdir(".")):
                    time.sleep(0.05)
                run.send_signal(number)
                status = run.wait()
            self.assertEqual(self.has("out.csv"), b"old")
            self.assertNotIn("bad.csv", os.listdir("."))
            if number != signal.SIGKILL:
                self.assertEqual(status, 128 + number)
                self.nothing_is_left("out.csv")

    def test_terminal(self):
        """Progress comes on a terminal, and is gone at the end."""
        try:
            parent, child = os.openpty()
        except OSError:
            self.skipTest("no terminals")
        self.put("long.csv", "geom\n" + "POINT(1 2)\n" * 1000)
        for more in ([], ["-q"]):
            run = [*COMMAND, "long.csv", "--column", "geom", "--out", "out.csv", *more]
            subprocess.run(run, stderr=child, check=True)
            os.write(child, b"end\n")
            said = b""
            while not said.endswith(b"end\r\n"):
                said += os.read(parent, 1 << 16)
            if more:
                self.assertEqual(said, b"end\r\n")
            else:
                self.assertRegex(said, rb"\r\x1b\[Klong.csv: \d+ %.*\r\x1b\[Klong.csv: 1000 rows, 0 refused")
        os.close(parent)
        os.close(child)


if __name__ == "__main__":
    unittest.main()
