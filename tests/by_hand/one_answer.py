#!/usr/bin/env python3
"""One answer in all faces: one_answer.py [TEXTS [SEED]]

It makes so many texts (50,000; texts.py), many of them damaged, asks every face for each in every form of call, and
compares. What is right is what the library for C answers to one text at a time, and that is compared with the reader in
texts.py, which shares nothing with it. The programs in one_answer/ call the faces. Each writes lines: a form of call
(KIND.NAME), the number of a row, and an answer. Answers of one KIND have to be equal:

    canonical, null      the canonical text, or the status as !13; `null` for any status
    value, held          by a database's wkt_or_null; whether the text is read, as its calls say
    front, line          the text of the geometry in front, with its end; of a line, `refused` for a status
    reads, cast, taken   whether a text is read; whether a database's type takes it as a literal; and as a text
    explain, said, check where and why it is refused; as a database says it; as the command does
    infer, inferred      the kind and dimension of the header; kind: by a database; sort: by the command
    arrays, back, geo    arrays of the text as read; the text of these; as GeoArrow
    same, itself         whether it names the geometry of another text; of itself
    srid                 the number of SRID=..; in front

A quarter of the texts are in dialects, which are compared with the reader in in_dialects.py. Calls that take none
aren't asked for these, and each face says how many of its forms of call take them.

It needs the library and the programs in WKT_LIB_DIR (dist/out; `make -C dist` makes them), and what tests/needs.sh
installs. SKIP=NAME,NAME leaves faces out: python, ctypes, rust, javascript, postgres, sqlite, programs.
WKT_LIB_BESIDE is the folder of another library for C, whose answers are compared too.
"""
import collections
import concurrent.futures
import glob
import io
import os
import random
import re
import shutil
import subprocess
import sys
import tempfile
import time

import dialects
import in_dialects
import texts

TOP = texts.TOP
HERE = f"{TOP}/tests/by_hand/one_answer"
sys.path.insert(0, HERE)
sys.dont_write_bytecode = True
import faces  # noqa: E402 (found by the line above)

LIBRARY = os.path.abspath(os.environ.get("WKT_LIB_DIR", f"{TOP}/dist/out"))
BESIDE = os.environ.get("WKT_LIB_BESIDE")
LISTS = [*in_dialects.NAMES, "ewkt", "ewkt,exponents", "nan,untagged", *["ewkt,exponents,nan"] * 7]
PLACES = "numbers have at most %s places here"
PYTHON = "/usr/bin/python3" if os.path.exists("/usr/bin/python3") else sys.executable


def place_words(why, text, end, more=""):
    """The place of an explanation by character, and why; `more` stands for its words where more than a text follows."""
    status, start, _, rest = why.split(" ", 3)
    wanted, _, hint = rest.partition("|")
    at = len(text[: int(start)].decode()) + 1
    words = more if more and status == "30" else f"{wanted} was expected"
    return f"{at}{end} {words}{f' ({hint})' if hint else ''}"


def geo(arrays, places):
    """Arrays as GeoArrow has them: the sizes of the lists, and doubles; a point that is empty is NaN."""
    kind, dimension, *parts = arrays.split(" ")
    numbers, rings, polygons = ([int(it) for it in part.split(",") if it] for part in parts)
    # A quotient of two ints is rounded once.
    width, coordinates = len(dimension), [n / 10**places for n in numbers]
    sizes = [b - a for a, b in zip(rings, rings[1:])]
    if kind in ("Point", "MultiPoint"):
        starts = [a * width for a in rings[:-1]]
        coordinates = [x for a, n in zip(starts, sizes) for x in (coordinates[a : a + width] if n else ["nan"] * width)]
        sizes = [1] * len(sizes)
    counts = {
        "Point": [],
        "LineString": [[sum(sizes)]],
        "MultiPoint": [[len(sizes)]],
        "MultiPolygon": [[len(polygons) - 1], [b - a for a, b in zip(polygons, polygons[1:])], sizes],
    }.get(kind, [[len(sizes)], sizes])
    return " ".join(["|".join(",".join(map(str, it)) for it in counts), *map(str, coordinates)])


def derived(row, said):
    """The answers of each kind, by those of the library for C to one text."""
    canonical, why, infer = said["canonical"], said["explain"], said["infer"]
    is_read = canonical[0] != "!"
    said["reads"], said["null"] = "ft"[is_read], canonical if is_read else "null"
    said["itself"] = "t" if is_read else "!"
    said["front_or_null"] = "null" if said["front"][0] == "!" else said["front"]
    said["line"] = "refused" if said["front"][0] == "!" else said["front"].split(" ", 1)[1]
    said["inferred"] = "null" if infer[0] == "!" else infer
    said["sort"] = infer if is_read else "null"
    kind, _, dimension = infer.partition(" ")
    said["kind"] = "null" if infer[0] == "!" else f"{kind.upper()} {dimension[2:]}".rstrip()
    said["arrays_or_null"] = "null" if said["arrays"][0] == "!" else said["arrays"]
    if said["arrays"][0] != "!":
        said["geo"] = geo(said["arrays"], row.places)
    if is_read:
        said["said"], said["check"] = canonical.lower(), "-"
    elif why == "!20":
        said["said"], said["check"] = "!the text is not utf-8", "not UTF-8"
    else:
        said["said"] = "!" + place_words(why, row.text, ":").lower()
        said["check"] = place_words(why, row.text, ":", "more follows the geometry")
    said["held"], said["value"] = said["reads"], said["null"]


class Compared:
    """The answers of a face beside those that are right."""

    def __init__(self, face, rows, right):
        self.face, self.rows, self.right = face, rows, right
        self.found, self.wrong = collections.Counter(), collections.defaultdict(list)
        self.missing, self.began, self.take = {}, time.time(), set()

    def add(self, form, n, answer):
        kind = form.partition(".")[0]
        if kind == "explain":  # These words say how many places the number has.
            said = r"\|.* has (?:\d+|too many) places, at most (\d+) are allowed$"
            answer = re.sub(said, r"|" + PLACES % r"\1", answer)
        wanted = self.right[n].get(kind, "nothing")
        self.found[form] += 1
        if form not in self.missing:
            self.missing[form] = set(self.asked(kind, False))
        if self.rows[n].dialects and form not in self.take:
            self.take.add(form)
            self.missing[form].update(self.asked(kind, True))
        self.missing[form].discard(n)
        if answer != wanted:
            self.wrong[form].append((len(self.rows[n].text), n, answer, wanted))

    def asked(self, kind, in_dialects):
        """The rows that every face takes: of ASCII, whole, with 18 places; without dialects, or with them."""
        for n, row in enumerate(self.rows):
            given = row.text + row.other
            plain = row.places == 18 and row.whole and given.isascii() and b"\0" not in given
            if plain and bool(row.dialects) == in_dialects and kind in self.right[n]:
                yield n

    def said(self):
        """How many answers were given, and each form that differs, with its shortest text; how many forms do."""
        forms, given, seconds = len(self.found), sum(self.found.values()), time.time() - self.began
        differ = f"{len(self.wrong)} forms differ"
        print(f"{self.face}: {forms} forms, {given:,} answers in {seconds:.0f} s; {differ}", end="; ")
        print(f"{len(self.take)} take dialects" if self.take else "none takes dialects")
        for form, found in sorted(self.wrong.items()):
            _, n, answer, wanted = min(found)
            row = self.rows[n]
            asked = f"{row.places} places" + ("" if row.whole else ", not whole")
            asked += row.dialects and f", {row.dialects}"
            asked += f", beside {row.other!r}" if form.startswith("same.") else ""
            print(f"  {form}: {len(found)} differ, as {row.text!r} ({asked}): {answer}, and not {wanted}")
        lacking = {form: rows for form, rows in self.missing.items() if rows}
        for form, rows in lacking.items():
            print(f"  {form}: no answer to {len(rows)} texts, as {self.rows[min(rows)].text!r}")
        return len(self.wrong) + len(lacking)


def ran(*words, **more):
    """Runs a command that prepares something."""
    done = subprocess.run(words, stdout=subprocess.PIPE, stderr=subprocess.STDOUT, check=False, **more)
    if done.returncode:
        sys.exit(f"{' '.join(words)}: {done.stdout.decode('utf-8', 'replace')}")


def environment(**more):
    kept = {name: value for name, value in os.environ.items() if name not in ("PYTHONPATH", "WKT_LIB", "WKT_FAST")}
    return {**kept, "PYTHONDONTWRITEBYTECODE": "1", "WKT_LIB_DIR": LIBRARY, **more}


def python(work):
    folder = f"{work}/python"
    options = ["--root-user-action=ignore", "--no-build-isolation", "--no-deps", "--no-index", "--target", folder]
    ran(PYTHON, "-m", "pip", "install", "-q", *options, f"{TOP}/python", env=environment(WKT_FAST="1"))
    return [PYTHON, f"{HERE}/python.py"], [], {"PYTHONPATH": folder}


def over_ctypes(work):
    os.makedirs(f"{work}/alone/wkt")
    for file in glob.glob(f"{TOP}/python/wkt/*.py"):
        shutil.copy(file, f"{work}/alone/wkt")
    return [PYTHON, f"{HERE}/python.py"], [], {"PYTHONPATH": f"{work}/alone", "WKT_LIB": f"{LIBRARY}/libwkt.so"}


def rust(work):
    os.makedirs(f"{work}/rust/src")
    shutil.copy(f"{HERE}/rust.rs", f"{work}/rust/src/main.rs")
    with open(f"{work}/rust/Cargo.toml", "w", encoding="utf-8") as file:
        file.write('[package]\nname = "answers"\nversion = "0.0.0"\nedition = "2021"\n[workspace]\n[dependencies]\n')
        file.write(f"wkt_proved = {{ path = '{TOP}/rust' }}\n")
    ran(f"{TOP}/tests/lib/cargo_home.sh", f"{work}/home")
    build = ["cargo", "build", "--offline", "--release", "--target-dir", f"{work}/rust/target"]
    flags = {"RUSTFLAGS": "--cfg dialects"} if os.path.exists(f"{TOP}/rust/src/dialects.rs") else {}
    ran(*build, cwd=f"{work}/rust", env=environment(CARGO_HOME=f"{work}/home", **flags))
    return [f"{work}/rust/target/release/answers"], [], {}


def sqlite(work):
    os.makedirs(f"{work}/sqlite")
    ran("make", "-s", "-C", f"{work}/sqlite", "-f", f"{TOP}/sqlite/Makefile", f"WKT_LIB_DIR={LIBRARY}")
    return [PYTHON, f"{HERE}/sqlite.py"], [f"{work}/sqlite"], {}


FACES = {
    "postgres": lambda work: ([f"{HERE}/postgres.sh"], [LIBRARY], {}),
    "javascript": lambda work: (["node", f"{HERE}/javascript.js"], [], {}),
    "python": python,
    "ctypes": over_ctypes,
    "rust": rust,
    "sqlite": sqlite,
    "programs": lambda work: ([sys.executable, f"{HERE}/programs.py"], [LIBRARY], {}),
    "beside": lambda work: ([sys.executable, f"{HERE}/c.py"], [f"{os.path.abspath(BESIDE)}/libwkt.so"], {}),
}


def answers(command, file, last, env):
    """The form, row and answer of each line that a program of one_answer/ writes."""
    with subprocess.Popen([*command, file, *last], stdout=subprocess.PIPE, env=environment(**env)) as running:
        for line in io.TextIOWrapper(running.stdout, "utf-8", "replace", newline="\n"):
            form, n, answer = line.rstrip("\n").split("\t", 2)
            yield form, int(n), answer
    if running.returncode:
        raise SystemExit(f"{' '.join(command)} ends with {running.returncode}")


def the_right(file, rows):
    """The answers of each kind to each row."""
    right, others = [{} for _ in rows], []
    for form, n, answer in answers([sys.executable, f"{HERE}/c.py"], file, [f"{LIBRARY}/libwkt.so"], {}):
        kind, _, name = form.partition(".")
        if name == "one":
            right[n][kind] = answer
        else:
            others.append((form, n, answer))
    for row, said in zip(rows, right):
        derived(row, said)
    columns = Compared("c", rows, right)
    for it in others:
        columns.add(*it)
    return right, columns


def by_reader(rows, right):
    compared = Compared("reader", rows, right)
    for n, row in enumerate(rows):
        names = in_dialects.names(row.dialects)
        found = in_dialects.expected(row.text, row.places, names)
        number = in_dialects.split(row.text.decode("utf-8", "replace"), names)[0]
        compared.add("srid.reader", n, "null" if number is None else str(number))
        compared.add("front_or_null.reader", n, f"{found[1]} {found[0]}" if found else "null")
        if row.whole and found and not texts.is_whole(row.text, found[1]):
            found = None
        compared.add("null.reader", n, found[0] if found else "null")
        held = "null"
        if found and isinstance(found[2], tuple):
            kind, dimension, *parts = found[2]
            held = faces.arrays(faces.KINDS[kind], faces.DIMENSIONS[dimension], *parts)
        compared.add("arrays_or_null.reader", n, held)
    return compared


def by_face(name, work, file, rows, right):
    command, last, env = FACES[name](work)
    compared = Compared(name, rows, right)
    for it in answers(command, file, last, env):
        compared.add(*it)
    return compared


def all_rows(count, seed):
    """Three quarters without dialects, and a quarter with some: texts.rows, and those of dialects.py and some more."""
    yield from ((*row, "") for row in texts.rows(count - count // 4, seed))
    chance, before = random.Random(seed), b"POINT(1 2)"
    for text in dialects.generated(count // 4, seed):
        places, whole = chance.choice([0, 6, 6, 18, 18, 18, chance.randint(0, 36)]), chance.random() < 0.8
        if chance.random() < 0.1:
            text = texts.damaged(chance, text)
        asked = chance.choice(LISTS)
        written = in_dialects.expected(text, places, in_dialects.names(asked)) if chance.random() < 0.4 else None
        yield places, whole, text, written[0].encode() if written else before, asked
        before = text


def main():
    if sys.argv[1:2] in (["-h"], ["--help"]):
        print(__doc__.strip())
        return 0
    count = int(sys.argv[1]) if len(sys.argv) > 1 else 50_000
    seed = int(sys.argv[2]) if len(sys.argv) > 2 else 1
    with tempfile.TemporaryDirectory() as work:
        file = f"{work}/rows"
        with open(file, "w", encoding="ascii") as out:
            for places, whole, text, other, asked in all_rows(count, seed):
                print(places, int(whole), text.hex(), other.hex(), asked, sep="\t", file=out)
        rows = list(faces.read(file))
        right, columns = the_right(file, rows)
        read = sum(said["reads"] == "t" for said in right)
        print(f"{count:,} texts by seed {seed}, of which {read:,} are read")
        differ = columns.said() + by_reader(rows, right).said()
        left = os.environ.get("SKIP", "").split(",") + ([] if BESIDE else ["beside"])
        asked = [name for name in FACES if name not in left]
        with concurrent.futures.ThreadPoolExecutor(2) as two:
            for compared in two.map(lambda name: by_face(name, work, file, rows, right), asked):
                differ += compared.said()
    print("one answer in all faces" if not differ else f"{differ} forms of call differ")
    return 1 if differ else 0


if __name__ == "__main__":
    sys.exit(main())
