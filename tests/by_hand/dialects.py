#!/usr/bin/env python3
"""Texts in dialects, read by the library, PostGIS and GEOS: dialects.py LIBWKT.SO [TEXTS [SEED]]

First the texts of other projects' tests. Debian's source packages of SOURCES are fetched by apt into a temporary
folder, or taken from the folder that SOURCES_DIR names. A text is a string in quotes, the content of an XML element, or
a field between bars of expected output. It begins with a kind word, or with SRID= and one; behind that stand a
dimension or none, and EMPTY or a parenthesis, but `POINT(2)` is the type of a column. It has letters, digits, white
space and `()+-.,;=` alone, and no code joins more to it. So the 46 templates `SRID=@SRID@;..` of PostGIS's tests are
none. Each is counted once in a package. Why one is refused is the first of REFUSED.

Then TEXTS (20,000) are generated: in each dialect, in all four, and damaged. The library reads each with all dialects,
the others read it and its canonical text. Numbers are compared as doubles; a point of NaN is an empty one. Where a
reading differs, READ and NOT_READ say how: else the text is printed, and the status is 1.

It needs apt with Debian's keyring; PostgreSQL with PostGIS (as the user postgres if it runs as root); and libgeos_c.
"""
import collections
import ctypes
import glob
import math
import os
import random
import re
import struct
import subprocess
import sys
import tarfile
import tempfile
from decimal import Decimal

import texts

PLACES, WHOLE = 18, 256
DIALECTS = {"srid": 512, "untagged": 1024, "exponents": 2048, "nan": 4096}
ALL = sum(DIALECTS.values())
size, u32, ref = ctypes.c_size_t, ctypes.c_uint32, ctypes.byref


# ---- Three readers. A value is kind, dimension and body, as texts.Reader has them; None says that a text is refused.


class Library:
    def __init__(self, path):
        self.library, self.out = ctypes.CDLL(path), (ctypes.c_uint8 * (1 << 22))()

    def canonical(self, text, asked):
        """The canonical text; `asked` has dialects, and WHOLE or not."""
        needed, end, given = size(), size(), (text, size(len(text)), u32(PLACES + asked))
        status = self.library.wkt_canonical(*given, self.out, size(len(self.out)), ref(needed), ref(end))
        assert status <= 14 or status == 20 or status == 30, (text, status)
        return None if status else bytes(self.out[: needed.value]).decode()

    def reads(self, text, asked=ALL + WHOLE):
        return self.canonical(text, asked) is not None

    def value(self, text, asked=ALL + WHOLE):
        return value(self.canonical(text, asked))

    def srid(self, text):
        srid, end = u32(), size()
        assert self.library.wkt_srid(text, size(len(text)), ref(srid), ref(end)) == 0
        return srid.value


def value(canonical):
    def doubles(body):
        return [doubles(it) for it in body] if isinstance(body, list) else float(Decimal(body).scaleb(-PLACES))

    def of(kind, dimension, body):
        return kind, dimension, [of(*it) for it in body] if kind == 6 else doubles(body)

    return None if canonical is None else of(*texts.Reader(canonical, PLACES).geometry())


CURVED = 7, 0, []  # what has a curve or a surface


class Binary:
    """One reading of extended well-known binary."""

    def __init__(self, data):
        self.data, self.at, self.srid = data, 0, 0
        try:
            self.value = self.geometry()
        except ValueError:
            self.value = CURVED

    def take(self, form):
        self.at += struct.calcsize(form)
        return struct.unpack_from(form, self.data, self.at - struct.calcsize(form))

    def some(self, item):
        return [item() for _ in range(*self.take("<I"))]

    def geometry(self):
        _, word = self.take("<BI")
        kind, dimension = word % 256 - 1, (word >> 31) + 2 * (word >> 30 & 1)
        if kind > 6:
            raise ValueError
        if word >> 29 & 1:
            (self.srid,) = self.take("<I")

        def coordinate():
            return list(self.take(f"<{texts.SIZES[dimension]}d"))

        if kind == 0:
            point = coordinate()
            body = [[[] if all(map(math.isnan, point)) else [point]]]
        elif kind < 3:
            rings = self.some(coordinate) if kind == 1 else self.some(lambda: self.some(coordinate))
            body = [[rings]] if kind == 1 else [rings]
        else:
            parts = self.some(self.geometry)
            body = parts if kind == 6 else [it[2][0] for it in parts] if kind == 5 else [[it[2][0][0] for it in parts]]
        return kind, dimension, body


def from_postgis(given):
    """The values that ST_GeomFromEWKT reads, and their SRIDs, by a server of its own."""
    sql = """create extension postgis;
        create function taken(hex text) returns text language plpgsql as $$ begin
            return encode(ST_AsEWKB(ST_GeomFromEWKT(convert_from(decode(hex, 'hex'), 'UTF8')), 'NDR'), 'hex');
            exception when others then return 'refused'; end $$;
        create table given (n serial, hex text); copy given (hex) from stdin;\n"""
    with tempfile.NamedTemporaryFile("w", suffix=".sql") as script:
        script.write(sql + "".join(text.hex() + "\n" for text in given))
        script.write("\\.\nselect taken(hex) from given order by n;\n")
        script.flush()
        command = '. "$0/postgres/server.sh"; start_server; "$bin/psql" -X -At -v ON_ERROR_STOP=1 -qf "$1" 2> /dev/null'
        words = ["bash", "-euc", command, texts.TOP, script.name]
        said = subprocess.run(words, stdout=subprocess.PIPE, check=True)
    for row in said.stdout.decode().splitlines():
        read = None if row == "refused" else Binary(bytes.fromhex(row))
        yield (read.value, read.srid) if read else (None, 0)


def from_geos(given):
    """The values that GEOS reads; no text has an SRID."""
    geos = ctypes.CDLL("libgeos_c.so.1")
    pointers = "GEOS_init GEOSWKTReader_create GEOSWKTReader_read GEOSWKBWriter_create GEOSWKBWriter_write".split()
    for name in pointers:
        getattr(geos, name + "_r").restype = ctypes.c_void_p
    handle = ctypes.c_void_p(geos.GEOS_init_r())
    reader, writer = (ctypes.c_void_p(getattr(geos, pointers[i] + "_r")(handle)) for i in (1, 3))
    geos.GEOSWKBWriter_setOutputDimension_r(handle, writer, 3)
    for text in given:
        found, length = ctypes.c_void_p(geos.GEOSWKTReader_read_r(handle, reader, ctypes.c_char_p(text))), size()
        if not found:
            yield None, 0
            continue
        data = ctypes.c_void_p(geos.GEOSWKBWriter_write_r(handle, writer, found, ref(length)))
        yield Binary(ctypes.string_at(data, length.value)).value, 0
        geos.GEOSFree_r(handle, data)
        geos.GEOSGeom_destroy_r(handle, found)


# ---- What is said of texts and values

NUMBER = re.compile(rb"(?<![\w=.+-])[+-]?(?:[0-9]+\.?[0-9]*|\.[0-9]+)(?:[eE][+-]?[0-9]+)?(?![\w.+-])")


def has(words):
    return lambda text: re.search(words, text.decode("utf-8", "replace"), re.I)


def of_ones(text):
    """The text with 1 for each number."""
    return NUMBER.sub(b"1", text)


def is_out(text):
    """A number of it has more than 18 places, or is too great."""
    numbers = [it for it in (Decimal(run.decode()) for run in NUMBER.findall(text)) if it]
    units = [it.scaleb(PLACES) for it in numbers if abs(it.adjusted()) < 99]
    return len(units) < len(numbers) or any(it != it.to_integral_value() or abs(it) >= 2**127 for it in units)


def in_plane(text):
    """The text with two numbers in each coordinate, and no dimension."""
    word = rb"(?:[0-9.+-][^\s(),]*|nan)"
    text = re.sub(rb"(?i)(%b)\s+(%b)(?:\s+%b){1,2}" % (word, word, word), rb"\1 \2", text)
    return re.sub(rb"(?i)\b(ZM|Z|M)\b", b"", text)


def without_srid(text):
    return re.sub(rb"(?i)^[ \t\r\n]*SRID=-?[0-9]+[ \t\r\n]*;", b"", text)


def has_both_forms(text):
    """A multipoint has points in parentheses, or EMPTY, and others without."""
    for body in re.findall(rb"(?i)MULTIPOINT[\sZM]*\(((?:[^()]|\([^()]*\))*)\)", text):
        points = re.sub(rb"\([^()]*\)", b"()", body).split(b",")
        if len({point.strip()[:1] in (b"(", b"E") for point in points}) == 2:
            return True
    return False


def flat(it):
    return [n for part in it for n in flat(part)] if isinstance(it, (list, tuple)) else [it]


def reduced(it, number=lambda n: n, most=4, dimension=lambda body, d: d):
    """A value with other numbers, at most so many in each coordinate, and another dimension."""
    if it is None:
        return None
    if it[0] == 6:
        return 6, 0, [reduced(part, number, most, dimension) for part in it[2]]

    def body(part):
        return [body(each) for each in part] if not part or isinstance(part[0], list) else [*map(number, part[:most])]

    return it[0], dimension(it[2], it[1]), body(it[2])


def without_dimension(it):
    """A value without the dimension of its collections, and of what has no numbers."""
    return reduced(it, dimension=lambda body, d: d if flat(body) else 0)


def dimensions(it):
    return {it[1]}.union(*map(dimensions, it[2])) if it[0] == 6 else {it[1]}


def shape(it):
    return reduced(it, lambda n: 1.0, 2, lambda body, d: 0)


def plane(it):
    return reduced(it, most=2, dimension=lambda body, d: 0)


# ---- The texts of other projects' tests

SOURCES = {"postgis": "", "geos": "", "jts": "", "boost1.74": "libs/geometry/"}
CURVES = "CIRCULARSTRING|COMPOUNDCURVE|CURVEPOLYGON|MULTICURVE|MULTISURFACE|CURVE"
SURFACES = "POLYHEDRALSURFACE|TRIANGLE|TIN"
FRONT = rf"(?:SRID *=[^;'\"|@]*; *)?(?:{'|'.join(texts.KINDS)}|LINEARRING|{CURVES}|{SURFACES})[ \t]*(?:ZM|Z|M)?"
TEXT = rf"\s*{FRONT}\s*(?:EMPTY\s*|\((?![0-9]\))[\w\s().,;=+-]*)"
QUOTED = re.compile(rf"""(['"])({TEXT})\1(?!\s*(?:\|\||[+]|<<))|>({TEXT})<""", re.I | re.A)
IN_LINE = TEXT.replace(r"[\w\s", r"[\w \t").replace(r"\s", r"[ \t]")
FIELD = re.compile(rf"(?:^|\|)({IN_LINE})(?=$|\|)", re.I | re.A | re.M)

# Why a text is refused with all dialects; `others` are whether PostGIS and GEOS read it.
REFUSED = {
    "curves": lambda text, library, others: has(CURVES)(text),
    "surfaces": lambda text, library, others: has(SURFACES)(text),
    "broken: neither PostGIS nor GEOS reads it": lambda text, library, others: not any(others),
    "more stands behind the geometry": lambda text, library, others: library.reads(text, ALL),
    "nan or infinity in a coordinate": lambda text, library, others: has("nan|inf")(text),
    "more than 18 places, or too great": lambda text, library, others: library.reads(of_ones(text)),
    "coordinates of several lengths": lambda text, library, others: library.reads(in_plane(text)),
    "other": lambda *_: True,
}


def texts_in(name, data):
    """The texts of a file."""
    if re.search(r"(expected|ref)$", name):
        return FIELD.findall(data)
    if name.endswith(".wkt"):  # one of JTS would have most of its texts
        return []
    if re.search(r"\.(c|cpp|h|hpp|java)$", name):
        data = re.sub(r'"\s*\+?\s*"', "", re.sub(r"(?m)^\s*//", "", data)).replace("\\n", "\n").replace("\\t", "\t")
    return [quoted or content for _, quoted, content in QUOTED.findall(data)]


def of_package(folder, package):
    """Each text of its tests, once."""
    (path,) = glob.glob(f"{folder}/{package}_*.orig.tar.*")
    found = {}
    with tarfile.open(path) as archive:
        for it in archive:
            if it.isfile() and SOURCES[package] in it.name and re.search(r"/(tests?|regress|cunit)/", it.name):
                data = archive.extractfile(it).read().decode("utf-8", "replace")
                found.update((text.strip().encode(), None) for text in texts_in(it.name, data))
    return list(found)


def fetch(folder):
    """Their tarballs, by an apt that reads and writes nothing else."""
    with open(folder + "/list", "w") as it:
        signed = "[signed-by=/usr/share/keyrings/debian-archive-keyring.gpg]"
        it.write(f"deb-src {signed} http://deb.debian.org/debian bookworm main\n")
    os.makedirs(folder + "/lists/partial")
    here = "Etc::SourceList={0}/list Etc::SourceParts=/dev/null State::Lists={0}/lists Cache={0}".format(folder).split()
    apt = ["apt-get", "-qq", *(word for it in here for word in ("-o", "Dir::" + it))]
    subprocess.run([*apt, "update"], cwd=folder, check=True)
    subprocess.run([*apt, "source", "--tar-only", *SOURCES], cwd=folder, check=True, stdout=subprocess.DEVNULL)


def count_package(given, package, library):
    print(f"{package}: {len(given)} texts, read with ", end="")
    for name, bits in [("none", 0), *DIALECTS.items(), ("all", ALL)]:
        print(f"{name} {sum(library.reads(text, bits + WHOLE) for text in given)}", end=", ")
    left = [text for text in given if not library.reads(text)]
    print(f"refused {len(left)}, {100 * len(left) / len(given):.1f} in 100")
    why = collections.defaultdict(list)
    for text, one, other in zip(left, from_postgis(left), from_geos(left)):
        others = one[0] is not None, other[0] is not None
        why[next(name for name, is_so in REFUSED.items() if is_so(text, library, others))].append(text)
    for name, of in sorted(why.items(), key=lambda it: -len(it[1])):
        print(f"  {len(of):5} {name}, as {min(of, key=len)[:90]}")


# ---- Generated texts


def one(chance, rate):
    return chance.random() < rate


def number(chance, sort):
    if "nan" in sort and one(chance, 0.01):
        return chance.choice(["nan", "NaN", "-nan"])
    run = chance.choice(["", "", "", "", "-", "-", "-", "+"]) + texts.digits(chance, chance.randint(1, 3))
    if one(chance, 0.5):
        run += "." + texts.digits(chance, chance.randint(1, 6))
    if "exponents" not in sort or one(chance, 0.6):
        return run
    if one(chance, 0.01):
        return chance.choice("1e 1e+ e5 .e1 1e1e1 1e1.5 1d3 .5e1 -.5E1 5.e1 1e20 1e400 1e-400 1e-19 0e99 0e-99".split())
    return run + chance.choice("eE") + chance.choice(["", "+", "-"]) + chance.choice("0 1 2 3 5 8 11 03".split())


def a_text(chance, sort, deep=2):
    """A geometry that PostGIS and GEOS take: lines have two points or more, and rings are closed."""
    kind = chance.randrange(7 if deep else 6)
    dimension = chance.choice(["", "", "Z", "M", "ZM"])
    n = texts.SIZES[texts.DIMENSIONS[dimension]]
    if "untagged" in sort and one(chance, 0.8) or kind == 6 and one(chance, 0.7):
        dimension = ""

    def white():
        return chance.choice(["", "", "", " ", "  ", "\n", "\t "])

    def listed(items):
        return white() + "(" + ",".join(white() + it + white() for it in items) + ")"

    def some(item, least, most):
        return listed([item() for _ in range(chance.randint(least, most))])

    def or_empty(item):
        return " EMPTY" if one(chance, 0.04) else item()

    def coordinate():
        if "nan" in sort and kind in (0, 3) and one(chance, 0.4):
            return " ".join(chance.choice(["nan", "NaN", "NAN"]) for _ in range(n))
        several = chance.choice([-1, 1]) if one(chance, 0.001) else 0
        return chance.choice([" ", " ", "\n "]).join(number(chance, sort) for _ in range(n + several))

    def ring():
        first = coordinate()
        return listed([first, *(coordinate() for _ in range(chance.randint(2, 4))), first])

    def line():
        return some(coordinate, 2, 4)

    def point():
        return coordinate() if one(chance, 0.5) else "(" + coordinate() + ")"

    def polygon():
        return some(lambda: or_empty(ring), 1, 3)

    name = "LINEARRING" if kind == 1 and one(chance, 0.05) else texts.KINDS[kind]
    items = [coordinate, coordinate, ring, point, line, polygon, lambda: a_text(chance, sort, deep - 1)]
    body = ring if name == "LINEARRING" else line if kind == 1 else lambda: some(lambda: or_empty(items[kind]), 1, 3)
    body = or_empty((lambda: listed([coordinate()])) if kind == 0 else body)
    return chance.choice([name, name.lower()]) + (chance.choice(["", " "]) if dimension else "") + dimension + body


ODD = "SRID= 1; SRID_=1; SRID=1_; SRID=-1; SRID=; SRID=1 SRID=1;SRID=1; SRID=1000000000;".split()


def an_srid(chance):
    if one(chance, 0.1):
        return chance.choice(ODD).replace("_", " ")
    run = str(chance.randint(0, 10 ** chance.choice([1, 4, 4, 5, 6, 9]) - 1))
    return chance.choice(["SRID=", "SRID=", "srid=", " SRID=", "Srid=0"]) + run[:8] + ";" + chance.choice(["", " "])


def generated(count, seed):
    chance = random.Random(seed)
    for i in range(count):
        sort = [["srid"], ["untagged"], ["exponents"], ["nan"], list(DIALECTS), [*DIALECTS, "damaged"]][i % 6]
        text = a_text(chance, sort).encode()
        if "srid" in sort and one(chance, 0.9):
            text = an_srid(chance).encode() + text
        found = text
        while "damaged" in sort and (found == text or re.search(rb"[^ -~\t\r\n]", found)):
            found = texts.damaged(chance, text)
        yield found


# What the others alone read, by a text, their value and the library; and what they don't read as the library does, by a
# text and the library's value.
READ = {
    "more than 18 places, or too great": lambda text, theirs, library: is_out(text)
    and shape(theirs) == shape(library.value(of_ones(without_srid(text)), ALL)),
    "nan kept in a coordinate": lambda text, theirs, library: any(map(math.isnan, flat(theirs))) or has("-nan")(text),
}
READ_BY_POSTGIS = {
    "SRID with a minus, ten digits, or a space behind it": lambda text, theirs, library: has(
        r"^\s*SRID=(-|\d{10}|\d+\s)"
    )(text)
    and without_dimension(library.value(without_srid(text))) == without_dimension(theirs),
    **READ,
    "a curve or a surface": lambda text, theirs, library: theirs == CURVED,
}
READ_BY_GEOS = {
    **READ,
    "coordinates of several lengths": lambda text, theirs, library: library.value(in_plane(text), ALL) == plane(theirs),
    "both of these": lambda text, theirs, library: is_out(text)
    and shape(theirs) == shape(library.value(in_plane(of_ones(text)), ALL)),
}
NOT_READ = {
    "EMPTY in it": lambda text, ours: has(r"[(,]\s*EMPTY")(text),
    "LINEARRING": lambda text, ours: has("LINEARRING")(text),
}
NOT_BY_POSTGIS = {
    **NOT_READ,
    # Of these PostGIS 3.3 refuses most; in some it reads bytes behind the numbers.
    "members of several dimensions": lambda text, ours: len(dimensions(ours)) > 1,
    "a point between digits and e": lambda text, ours: has(r"\d\.e")(text),
}
NOT_BY_GEOS = {**NOT_READ, "a multipoint in both forms": lambda text, ours: has_both_forms(text)}


def for_postgis(text):
    """The text without a plus in front of a number, which PostGIS doesn't read."""
    return re.sub(rb"(?<![eE])[+]", b"", text)


def for_geos(text):
    """The text as GEOS 3.11 needs it: no SRID, no dimension joined to a kind word, no white space in front of EMPTY."""
    text = re.sub(rb"(?i)(POINT|STRING|POLYGON|COLLECTION)(ZM|Z|M)\b", rb"\1 \2", without_srid(text))
    return re.sub(rb"(?i)([(,])\s+EMPTY", rb"\1EMPTY", text)


def compare(name, given, asked, reader, alone, not_read, library):
    """How many are the same, and how many are of each class; what is of none is printed, and counted in the answer."""
    counts, examples = collections.Counter(), {}
    written = [library.canonical(text, asked) for text in given]
    read = list(reader(given + [(it or "").encode() for it in written]))
    for text, it, (theirs, srid), (again, _) in zip(given, written, read, read[len(given) :]):
        ours, said = value(it), library.srid(text)
        if ours == theirs:
            how = "the same" if ours else "both refuse"
        elif ours is None:
            how = next((how for how, is_so in alone.items() if is_so(text, theirs, library)), "wrong")
        elif theirs == again:
            how = "read as it reads the canonical text" if theirs else "refused, and so is the canonical text"
        elif theirs and without_dimension(theirs) == without_dimension(again):
            how = "so too, but for the dimension of a collection, or of what is empty"
        else:
            how = next((how for how, is_so in not_read.items() if is_so(text, ours)), "wrong")
        if ours and theirs and srid != said and how != "wrong":
            how = how + ", but for an SRID above 999999" if said > 999999 else "wrong"
        counts[how] += 1
        examples[how] = min(examples.get(how, text), text, key=len)
        if how == "wrong":
            print(f"wrong: {name}: {text}: {it}, and not {theirs} with SRID {srid}")
    print(f"{name}, {len(given)} texts:")
    for how, n in counts.most_common():
        print(f"  {n:5} {how}, as {examples[how][:90]}")
    return counts["wrong"] + (counts["the same"] == 0)


def main():
    library = Library(sys.argv[1])
    count, seed = map(int, sys.argv[2:] + ["20000", "1"][len(sys.argv) - 2 :])
    with tempfile.TemporaryDirectory() as folder:
        if "SOURCES_DIR" not in os.environ:
            fetch(folder)
        for package in SOURCES:
            count_package(of_package(os.environ.get("SOURCES_DIR", folder), package), package, library)
    given = list(generated(count, seed))
    by_postgis, by_geos = [*map(for_postgis, given)], [*map(for_geos, given)]
    wrong = compare("PostGIS", by_postgis, ALL + WHOLE, from_postgis, READ_BY_POSTGIS, NOT_BY_POSTGIS, library)
    # GEOS 3.11 reads what a text begins with.
    wrong += compare("GEOS", by_geos, ALL - DIALECTS["srid"], from_geos, READ_BY_GEOS, NOT_BY_GEOS, library)
    sys.exit(wrong != 0)


if __name__ == "__main__":
    main()
