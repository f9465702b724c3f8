"""The extension from Python's sqlite3: test.py FOLDER-OF-mod_wkt.so FOLDER-OF-wkt.h REPOSITORY"""
import math
import os
import random
import re
import resource
import sqlite3
import subprocess
import sys
import tempfile
import threading
import time
from decimal import Context, Decimal
from fractions import Fraction

EXACT = Context(prec=60)
folder, library, repository = sys.argv[1:4]


def connect(name=":memory:"):
    db = sqlite3.connect(name)
    db.enable_load_extension(True)
    db.load_extension(os.path.join(folder, "mod_wkt"))
    db.enable_load_extension(False)
    return db


def ask(db, call, *values):
    """The answer of a call, or the words of its error."""
    try:
        return db.execute("select " + call, values).fetchone()[0]
    except (sqlite3.OperationalError, sqlite3.DataError) as error:
        return "error: " + str(error)


def same(found, expected):
    assert found == expected, (found, expected)


db = connect()
same(ask(db, "wkt_canonical(?)", "point ( 1.0 2 )"), "POINT(1 2)")
db.execute("create table t (g text)")
db.execute("create unique index i on t (wkt_canonical(g))")
db.execute("insert into t values ('POINT(1 2)')")
for text, error in (("point(1 2.0)", sqlite3.IntegrityError), ("POINT(1)", sqlite3.OperationalError)):
    try:
        db.execute("insert into t values (?)", (text,))
    except error:
        pass
    else:
        raise SystemExit("taken: " + text)
same(db.execute("select count(*) from t").fetchone(), (1,))

# Loading fails midway amid a statement if the application has a function of that name: what was made stays callable.
started = """
import sqlite3, sys
db = sqlite3.connect(":memory:")
db.enable_load_extension(True)
db.create_function("wkt_version", 0, str)
try:
    db.execute("select load_extension(?)", sys.argv[1:]).fetchall()
except sqlite3.OperationalError as error:
    print(error)
print(*db.execute("select wkt_canonical('point(1 2.0)')").fetchone())
"""
child = subprocess.run(
    [sys.executable, "-c", started, folder + "/mod_wkt"], stdout=subprocess.PIPE, text=True, check=True
)
same(
    child.stdout,
    "error during initialization: wkt: unable to delete/modify user-function due to active statements\nPOINT(1 2)\n",
)

# A text that is refused is null; the version; what wkt_same keeps of a constant.
with open(library + "/wkt.h", encoding="utf-8") as header:
    said = header.read()
same(ask(db, "wkt_version()"), re.search('#define WKT_VERSION "(.*)"', said)[1])
for text, places, key in (
    ("point(1 2.0)", 18, "POINT(1 2)"),
    ("POINT(1)", 18, None),
    ("POINT(1.5 2)", 0, None),
    ("POINT(1.0 2)", 0, "POINT(1 2)"),
    ("POINT(1 2) x", 6, None),
    ("", 6, None),
    (None, 6, None),
    ("POINT(1 2)", None, None),
    ("POINT(0.100000000000000000000000 2.000000000000000000000001)", 24, "POINT(0.1 2.000000000000000000000001)"),
    ("POINT(0.000000000000000000000000000000000001 180)", 36, None),
    ("POINT(1 2)", 37, "error: places must be between 0 and 36"),
):
    same(ask(db, "wkt_or_null(?, ?)", text, places), key)
same(ask(db, "wkt_or_null(?)", "POINT(1"), None)
db.execute(
    "create table short as with n(i) as (select 0 union all select i + 1 from n where i < 199) "
    "select i, 'point(' || (i % 10) || '.0 1)' as t from n"
)
for call in "wkt_same(t, ?)", "wkt_same(?, t)":
    same(db.execute(f"select count(*) from short where {call}", ("POINT ( 3 1 )",)).fetchone(), (20,))
    same(
        db.execute(
            "select group_concat(wkt_same('POINT(' || i || ' 1)', 'POINT(3 1)'), '') from short where i < 10"
        ).fetchone(),
        ("0001000000",),
    )
same(db.execute("select count(*) from short a, short b where a.i < 10 and wkt_same(a.t, b.t)").fetchone(), (200,))
same(ask(db, "group_concat(wkt_same('POINT(1.5 2)', 'POINT(1.50 2)', 3 - i), '') from short where i < 3"), "111")
for order in "i", "-i":
    same(
        ask(
            db,
            "max(wkt_same('POINT(1.5 2)', 'POINT(1.50 2)', i)) from (select i from short where i < 3 order by %s)"
            % order,
        ),
        "error: invalid well-known text: at character 7: a first number was expected "
        "(numbers have at most 0 places here)",
    )
same(
    ask(db, "max(wkt_same(t, 'POINT(1')) from short"),
    "error: invalid well-known text: at character 8: a second number was expected",
)
# So it is with a dialect that changes.
same_in = "wkt_same('POINT(1 2 3)', 'POINT Z(1 2 3)', 18, iif(i < 2, 'untagged', 'ewkt'))"
call = f"group_concat({same_in}, '') from short where i < 3"
same(ask(db, call), "111")
same(ask(db, call.replace("ewkt", "nan"))[:47], "error: invalid well-known text: at character 11")
long = "LINESTRING(" + "12.345678 34.567891," * 100_000 + "0 0)"


def seconds(statement):
    start = time.process_time()
    db.execute(statement, (long,)).fetchall()
    return time.process_time() - start


each = seconds("select count(*) from short where wkt_reads(?1 || t)")
for call in "wkt_same(t, ?1)", "wkt_same(?1, t)":
    once = seconds(f"select count(*) from short where {call}")
    assert once * 5 < each, (call, once, each)
print(
    f"Python: wkt_same of a constant of 2 MB and 200 rows takes {once:.2f} s, and {each:.2f} s where each row's is read"
)

# Places: a whole number from 0 to 36, as a number or as its text.
for places in 6, 6.0, "6", "6.0", " 6 ", 18.0, 36.0:
    same(ask(db, "wkt_or_null('POINT(1.5 2)', ?)", places), "POINT(1.5 2)")
for places in 0.0, False, -0.0:
    same(ask(db, "wkt_or_null('POINT(1.5 2)', ?)", places), None)
for places in 6.5, "6.5", "six", "", b"6", -1, "-1", 37, 1e300, float("inf"), 2**40:
    same(ask(db, "wkt_or_null('POINT(1.5 2)', ?)", places), "error: places must be between 0 and 36")

# A database in UTF-16, and one in a file that is opened again. A blob is a text in UTF-8 in any.
for encoding in ("UTF-16le", "UTF-16be"):
    wide = connect()
    wide.execute(f"pragma encoding = '{encoding}'")
    wide.execute("create table t (g text, key text as (wkt_canonical(g)) stored)")
    wide.execute("insert into t values ('point ( 1.0 2 )')")
    same(wide.execute("select key, wkt_reads('PÖINT(1 2)') from t").fetchone(), ("POINT(1 2)", 0))
    same(ask(wide, "wkt_canonical('SRID=1;POINT(1 2 3)', 18, 'ewkt') || wkt_srid('SRID=1;')"), "POINT Z(1 2 3)1")
    same(wide.execute("select x, x_text, path from wkt_points('multipoint(1 2.0)')").fetchone(), (1.0, "1", "[1,1]"))
for encoding in ("UTF-8", "UTF-16le", "UTF-16be"):
    wide = connect()
    wide.execute(f"pragma encoding = '{encoding}'")
    wide.execute("create table t (g blob)")
    for blob in b"point ( 1.0 2 )", b"POINT(1", b"", b"P\xc3\x96INT(1 2)", b"POINT(1 2)\xff":
        wide.execute("delete from t")
        wide.execute("insert into t values (?)", (blob,))
        key = "POINT(1 2)" if blob.startswith(b"p") else None
        kind = None if not blob.isascii() or blob == b"" else "POINT"
        found = wide.execute("select wkt_or_null(g), wkt_reads(g), wkt_kind(g) from t").fetchone()
        same(found, (key, int(key is not None), kind))
        found = wide.execute("select count(*) from t, wkt_points(g) where wkt_reads(g)").fetchone()
        same(found, (int(key is not None),))
with tempfile.TemporaryDirectory() as there:
    for _ in range(2):
        file = connect(there + "/file")
        file.execute("create table if not exists t (g text)")
        file.execute("create unique index if not exists i on t (wkt_canonical(g))")
        file.execute("insert or ignore into t values ('point(1 2)'), ('POINT(1.0 2)')")
        file.commit()
        same(file.execute("select count(*) from t").fetchone(), (1,))
        same(file.execute("pragma integrity_check").fetchone(), ("ok",))
        file.close()


def table(name):
    """The fields of each row, with its escapes read."""
    escapes = {r"\n": "\n", r"\r": "\r", r"\t": "\t", r"\\": "\\"}
    with open(f"{repository}/tests/data/{name}.tsv", encoding="utf-8", newline="\n") as lines:
        for line in lines:
            if not line.startswith("#"):
                fields = line.rstrip("\n").split("\t")
                yield [re.sub(r"\\[nrt\\]", lambda it: escapes[it[0]], field) for field in fields]


# The tables of keys, and texts in dialects.
rows = 0
for places, text, key in table("key_rules"):
    answer = ask(db, "wkt_canonical(?, ?)", text, int(places))
    assert answer == key or key == "refused" and answer.startswith("error: invalid well-known text"), (text, answer)
    same(ask(db, "wkt_reads(?, ?)", text, int(places)), int(key != "refused"))
    same(ask(db, "wkt_or_null(?, ?)", text, int(places)), key if key != "refused" else None)
    same(ask(db, "wkt_explain(?, ?) is null", text, int(places)), int(key != "refused"))
    if key != "refused":
        same(ask(db, "wkt_canonical(?, ?, 'ewkt,exponents,nan')", text, int(places)), key)
    rows += 1
assert rows > 40
for dialects, places, text, srid, key, place in table("dialects"):
    asked, is_read = (text, int(places), dialects), key != "refused"
    same(ask(db, "wkt_or_null(?, ?, ?)", *asked), key if is_read else None)
    same(ask(db, "wkt_reads(?, ?, ?)", *asked), int(is_read))
    same(ask(db, "wkt_explain_place(?, ?, ?)", *asked), None if is_read else int(place))
    same(ask(db, "wkt_srid(?)", text), int(srid) if srid else None)
    if is_read:
        same(ask(db, "wkt_same(?1, ?4, ?2, ?3)", *asked, key), 1)
    else:
        answer = ask(db, "wkt_canonical(?, ?, ?)", *asked)
        assert answer.startswith(f"error: invalid well-known text: at character {place}: "), (asked, answer)
    rows += 1
assert rows > 120
with open(repository + "/tests/data/keys.tsv", encoding="utf-8", newline="\n") as kept:
    for row in kept:
        if not row.startswith("#"):
            text, *keys = row.rstrip("\n").split("\t")
            for places, key in zip((0, 6, 15, 18, 24, 36), keys):
                answer = ask(db, "wkt_canonical(?, ?)", text, places)
                if answer != key:
                    # that table's keys are of the front of a text
                    assert (
                        answer.endswith("the end of the text was expected")
                        or key == "refused"
                        and answer.startswith("error: invalid well-known text")
                    ), (text, answer)
                rows += 1
print("Python:", rows, "keys")

# Numbers as doubles: the nearest, and of bounds the nearest outside of them; beside them the exact texts.
numbers = 0
for number, below, nearest, above in table("doubles"):
    point = f"POINT({number} {number})"
    places = len(number.partition(".")[2])
    of_point = db.execute("select x, y, x_text, y_text from wkt_points(?, ?)", (point, places)).fetchone()
    same(of_point, (float(nearest), float(nearest), number, number))
    of_bounds = db.execute("select min_x, max_y, min_x_text, max_y_text from wkt_bounds(?, ?)", (point, places))
    same(of_bounds.fetchone(), (float(below), float(above), number, number))
    numbers += 1
assert numbers > 60


def drawn(draw):
    """A number of up to 36 places, as units: of a double's digits, around the middle of two doubles, or of any bits."""
    places = draw.randrange(37)
    units = draw.randrange(2 ** draw.randrange(1, 128))
    if draw.random() < 0.3:
        places = draw.randrange(1, 18)
        units = round(draw.uniform(0, 180) * 10**places)
    elif draw.random() < 0.5:
        fraction = Fraction(draw.randrange(2**53, 2**54)) * Fraction(2) ** draw.randrange(-160, 74)
        units = int(fraction * 10**places) + draw.randrange(2)
    if units >= 2**127:
        units %= 2**127
    return (-units if draw.random() < 0.5 else units), places


count, seed = int(os.environ.get("NUMBERS", 20_000)), int(os.environ.get("SEED", 1))
draw = random.Random(seed)
for _ in range(count):
    units, places = drawn(draw)
    exact = Fraction(units, 10**places)
    nearest = units / 10**places
    text = f"POINT({Decimal(units).scaleb(-places, EXACT):f} 0)"
    x, least, greatest = db.execute(
        "select x, min_x, max_x from wkt_points(?1, ?2), wkt_bounds(?1, ?2)", (text, places)
    ).fetchone()
    same(x, nearest)
    same(least, nearest if nearest <= exact else math.nextafter(nearest, -math.inf))
    same(greatest, nearest if nearest >= exact else math.nextafter(nearest, math.inf))
print(f"Python: {numbers + count} numbers as doubles (seed {seed})")

# A canonical text may be many times as long as its text in a dialect, and longer than a text may be.
powers = "LINESTRING(" + "1e37 2e30," * 100_000 + "0 0)"
written = "LINESTRING(" + ("1" + "0" * 37 + " 2" + "0" * 30 + ",") * 100_000 + "0 0)"
same(ask(db, "wkt_canonical(?, 0, 'exponents')", powers) == written, True)
same(ask(db, "wkt_same(?, ?, 0, 'exponents')", powers, written), 1)
if hasattr(db, "setlimit"):
    most = db.setlimit(sqlite3.SQLITE_LIMIT_LENGTH, 2_000_000)
    same(ask(db, "wkt_canonical(?, 0, 'exponents')", powers), "error: string or blob too big")
    db.setlimit(sqlite3.SQLITE_LIMIT_LENGTH, 100)
    same(ask(db, "wkt_explain(?)", "POINT(1 2)" + " " * 60 + "x"), "error: string or blob too big")
    db.setlimit(sqlite3.SQLITE_LIMIT_LENGTH, most)


def is_answered(limit, statement, *values):
    """Whether a call in a process of its own with so much memory has its answer; out of memory is the one other."""
    child = os.fork()
    if child == 0:
        status = 2
        try:
            limit()
            status = 0 if db.execute(statement, values).fetchone() == (1,) else 2
        except MemoryError:
            status = 1
        finally:
            os._exit(status)
    status = os.waitstatus_to_exitcode(os.waitpid(child, 0)[1])
    assert status in (0, 1), (statement, status)
    return status == 0


# Out of memory of SQLite's, and of the library's.
answered = []
powers, written = (f"{text[:11]}{text[11:].split(',', 90_000)[-1]}" for text in (powers, written))
for call in (
    "wkt_canonical(?1, 0, 'ewkt,exponents') = ?2",
    "wkt_or_null(?1, 0, 'exponents') = ?2",
    "wkt_same(?1, ?2, 0, 'exponents')",
    "wkt_reads(?1, 0, 'exponents') and ?2 > ''",
    "wkt_explain_place(?1 || ' x', 0, 'exponents') > 1 and ?2 > ''",
    "wkt_srid('SRID=1;' || ?1) and ?2 > ''",
):
    for most in (2**18 * n for n in range(1, 60, 4)):
        def heap():
            db.execute(f"pragma hard_heap_limit = {most}")

        def process():
            used = int(open("/proc/self/statm", encoding="ascii").read().split()[0]) * resource.getpagesize()
            resource.setrlimit(resource.RLIMIT_AS, (used + most, used + most))

        answered += [is_answered(limit, f"select {call}", powers, written) for limit in (heap, process)]
assert 20 < sum(answered) < len(answered) - 20, answered
print(f"Python: of {len(answered)} calls with little memory {sum(answered)} are answered")

# Long texts, and deep ones, also on a thread that has little stack.
same(ask(db, "count(*) from wkt_points(?)", long), 100_001)
same(ask(db, "wkt_num_points(?)", long), 100_001)
collection = "GEOMETRYCOLLECTION(" * 20 + "POINT(1 2)" + ")" * 20
same(ask(db, "path from wkt_each(?)", collection), "[" + ",".join("1" * 20) + "]")
line = "LINESTRING(" + "12.345678 34.567891, " * 5_000_000 + "0 0)"
same(ask(db, "wkt_canonical(?)", line), line.replace(", ", ","))
same(ask(db, "wkt_reads(?)", line + ","), 0)
deep = "GEOMETRYCOLLECTION(" * 1_000_000 + "point(1 2.0)" + ")" * 1_000_000


def nested():
    db = connect()
    answers.append(ask(db, "wkt_canonical(?)", deep))
    answers.append(ask(db, "wkt_same(?1, upper(?1))", deep))
    answers.append(ask(db, "wkt_reads(?)", deep + ")"))
    answers.append(ask(db, "wkt_reads(?)", "(" * 10_000_000))
    answers.append(ask(db, "wkt_kind(?)", deep))
    answers.append(ask(db, "length(path) + x from wkt_points(?)", deep))


for stack in (0, 262144):
    answers = []
    threading.stack_size(stack)
    thread = threading.Thread(target=nested)
    thread.start()
    thread.join()
    same(answers[:4], [deep.replace("point(1 2.0)", "POINT(1 2)"), 1, 0, 0])
    same(answers[4:], ["GEOMETRYCOLLECTION", 2_000_004])
same(ask(db, "wkt_reads(?)", "GEOMETRYCOLLECTION(" * 999 + "POINT(1 2)" + ")" * 999), 1)
print("Python: a million nested collections are answered")

# Rows come one by one, so a query over one long value can be interrupted.
rows = []
db.set_progress_handler(lambda: rows.append(1) or len(rows) > 10, 1000)
same(ask(db, "count(*) from wkt_points(?)", long), "error: interrupted")
db.set_progress_handler(None, 0)
