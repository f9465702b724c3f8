#!/usr/bin/env bash
# Prints seconds of processor time in SQLite beside SpatiaLite, in one run: bench.sh [FOLDER [ROWS]]
#
# FOLDER as test.sh has it. ROWS is how many points there are (a million without it); the long texts have twice as many
# bytes as the points. The tables are in memory, and each number is the least of three runs. It needs python3 that loads
# extensions, and SpatiaLite for its rows.
set -eu
unset CDPATH # with which `cd` says where it went
here=$(cd "$(dirname "$0")" && pwd)
wkt=${1:-${WKT_LIB_DIR:-$here/../capi/out}}
wkt=$(cd "$wkt" && pwd)
rows=${2:-1000000}
dir=$(mktemp -d)
trap 'rm -rf "$dir"' EXIT
make -s -C "$dir" -f "$here/Makefile" WKT_LIB_DIR="$wkt"
python3 "$here/../bench/lines.py" points 6 $((rows * 30)) 2> /dev/null | head -n "$rows" > "$dir/points"
python3 "$here/../bench/lines.py" mixed 6 $((rows * 60)) > "$dir/mixed"
echo "$(git -C "$here" describe --always --dirty 2> /dev/null), $(nproc) processors$(sed -n 's/^model name[^:]*:/,/p' /proc/cpuinfo | head -n 1)"
for python in /usr/bin/python3 python3; do
    "$python" -c 'import sqlite3; sqlite3.connect(":memory:").enable_load_extension(True)' 2> /dev/null && break
done
"$python" - "$dir" <<'P'
import sqlite3
import sys
import time

folder = sys.argv[1]
db = sqlite3.connect(":memory:")
db.enable_load_extension(True)
db.load_extension(folder + "/mod_wkt")
try:
    db.load_extension("mod_spatialite")
    spatialite = db.execute("select spatialite_version()").fetchone()[0]
except sqlite3.OperationalError:
    spatialite = None
print(f"SQLite {sqlite3.sqlite_version}, SpatiaLite {spatialite}")


def row(name, statement, before=None):
    took = []
    for _ in range(3):
        if before:
            db.execute(before)
        start = time.process_time()
        db.execute(statement).fetchall()
        took.append(time.process_time() - start)
    print(f"| {name} | {min(took):.2f} |")


for what in "points", "mixed":
    with open(f"{folder}/{what}") as file:
        texts = [(line.rstrip("\n"),) for line in file]
    db.execute("drop table if exists t")
    db.execute("create table t (g text)")
    db.executemany("insert into t values (?)", texts)
    db.commit()
    print(f"\n| {len(texts)} of {what} | s |\n|---|---|")
    row("sum(length(g))", "select sum(length(g)) from t")
    row("sum(length(wkt_canonical(g)))", "select sum(length(wkt_canonical(g))) from t")
    row("sum(wkt_reads(g))", "select sum(wkt_reads(g)) from t")
    if spatialite:
        row("sum(length(AsText(GeomFromText(g)))), SpatiaLite", "select sum(length(AsText(GeomFromText(g)))) from t")
    row("a unique index on g", "create unique index i on t (g)", "drop index if exists i")
    row("a unique index on wkt_canonical(g)", "create unique index i on t (wkt_canonical(g))", "drop index if exists i")
    if spatialite:
        # SpatiaLite's text isn't a key: it writes six places.
        row("an index on AsText(GeomFromText(g)), SpatiaLite", "create index i on t (AsText(GeomFromText(g)))", "drop index if exists i")
    db.execute("drop index if exists i")
P
