#!/usr/bin/env bash
# Prints seconds of COPY and of SELECT beside PostGIS's, in one run: bench.sh [FOLDER [ROWS]]
#
# FOLDER as test.sh has it. It needs PostGIS too. ROWS is how many points there are (a million without it); the long
# texts have twice as many bytes as a million points have, in lines of 2,271 bytes on average, and compress to 60 %.
# Of each line two times are given, the least of three runs: seconds of the server's processor time, and of the clock.
# COUNT=yes gives millions of instructions instead, by callgrind, which nothing else on the machine changes. It takes some
# fifty times as long, so give it 20000 ROWS.
set -eu
. "$(dirname "$0")/server.sh"
library "${1:-}"
rows=${2:-1000000}
root=$(cd "$(dirname "$0")/.." && pwd)
server_flags=(-c shared_buffers=1GB -c max_wal_size=8GB -c wal_level=minimal -c max_wal_senders=0 -c jit=off -c autovacuum=off)
start_server
sql() { "$bin/psql" -X -q -v ON_ERROR_STOP=1 "$@"; }
sql -c "create extension wkt"
sql -c "create extension postgis" 2> /dev/null || { echo "no PostGIS: not run"; exit 0; }
python3 "$root/bench/lines.py" points 6 $((rows * 30)) 2> /dev/null | head -n "$rows" > "$dir/points"
python3 "$root/bench/lines.py" mixed 6 $((rows * 60)) > "$dir/mixed"
chmod 644 "$dir/points" "$dir/mixed"

echo "$(git -C "$root" describe --always --dirty 2> /dev/null), $(nproc) processors$(sed -n 's/^model name[^:]*:/,/p' /proc/cpuinfo | head -n 1)"
sql -At -c "select 'PostgreSQL ' || current_setting('server_version'), 'PostGIS ' || postgis_lib_version()"
# table NAME: the head of a table
table() {
    if [ -n "${COUNT:-}" ]; then printf '\n| %s | million instructions |\n|---|---|\n' "$1"; else printf '\n| %s | server | clock |\n|---|---|---|\n' "$1"; fi
}
# counted NAME SETUP STATEMENT: a row of the table, by a server for one session. The statement is run twice, since the first
# run also loads libraries; callgrind writes what it counted before each statement, and the eighth is the second rollback.
counted() {
    local twice=("begin;" "${2:-;}" "$3" "rollback;")
    as "$bin/pg_ctl" -D data -m fast stop > /dev/null
    rm -f counted*
    printf '%s\n' "${twice[@]}" "${twice[@]}" | as valgrind --tool=callgrind --dump-before=pg_parse_query --callgrind-out-file=counted \
        "$bin/postgres" --single -D data "${server_flags[@]}" postgres > "$dir/err" 2>&1
    printf '| %s | %s |\n' "$1" "$(sed -n 's/.*ERROR: */fails: /p' "$dir/err" | grep -m 1 . || awk '/^summary:|^totals:/ { printf "%.2f", $2 / 1e6; exit }' counted.8)"
    as "$bin/pg_ctl" -D data -w -o "-k $PGHOST -h '' -F ${server_flags[*]}" -l log start > /dev/null
}
# measured NAME SETUP STATEMENT: a row of the table, the statement in a transaction that is rolled back
measured() {
    local took=
    [ -z "${COUNT:-}" ] || { counted "$@"; return; }
    for _ in 1 2 3; do
        took+=$(printf '%s\n' "begin;" "select pg_backend_pid() as pid \\gset" "\\setenv PID :pid" "$2" \
            "\\! awk '{ print \"cpu\", \$14 + \$15 }' /proc/\$PID/stat" '\timing on' "$3" '\timing off' \
            "\\! awk '{ print \"cpu\", \$14 + \$15 }' /proc/\$PID/stat" "rollback;" | sql -At 2> "$dir/err" |
            awk -v hz="$(getconf CLK_TCK)" '$1 == "cpu" { before = after; after = $2 } $1 == "Time:" { clock = $2 / 1000 }
                END { if (clock) print (after - before) / hz, clock }')$'\n'
    done
    if grep -q ERROR "$dir/err"; then
        printf '| %s | %s | |\n' "$1" "$(sed -n 's/.*ERROR: */fails: /p' "$dir/err" | head -n 1)"
    else
        printf '| %s | %.2f | %.2f |\n' "$1" "$(printf %s "$took" | awk '{ print $1 }' | sort -g | head -n 1)" \
            "$(printf %s "$took" | awk '{ print $2 }' | sort -g | head -n 1)"
    fi
}
copied() { measured "$1" "$4 create table t ($2);" "copy t (g) from '$dir/$3';"; }
lz4="set local default_toast_compression = lz4;"
# Squares of a hundredth of a degree, as many as a quarter of the points.
sql -c "select setseed(0.5)" -c "create table squares as select s as g, s::wkt as w, s::geometry as p from (select format('POLYGON((%s %s,%s %s,%s %s,%s %s,%s %s))', x, y, x + a, y, x + a, y + a, x, y + a, x, y) s
    from (select (random() * 360 - 180)::numeric(9,6) x, (random() * 180 - 90)::numeric(9,6) y, 0.01 a from generate_series(1, $((rows / 4)))) c) t" -c "analyze squares" > /dev/null
alone="set local max_parallel_workers_per_gather = 0;"
table "$((rows / 4)) of squares"
for memory in 4MB 256MB; do
    for column in w p; do
        measured "order by $column, $(sql -At -c "select format_type(atttypid, -1) from pg_attribute where attrelid = 'squares'::regclass and attname = '$column'"), work_mem $memory" \
            "$alone set local work_mem = '$memory';" "select $column from squares order by $column offset $rows;"
    done
done
measured "count(*) from wkt_points(w)" "$alone" "select count(*) from squares, wkt_points(w);"
measured "count(*) from ST_DumpPoints(p)" "$alone" "select count(*) from squares, ST_DumpPoints(p);"
measured "sum(max_x) from wkt_bounds(w)" "$alone" "select sum(max_x) from squares, wkt_bounds(w);"
measured "count(value) from wkt_read(g)" "$alone" "select count(value) from squares, wkt_read(g);"
measured "count(wkt_or_null(g))" "$alone" "select count(wkt_or_null(g)) from squares;"
sql -c "drop table squares"
# The points as both types, and a tenth as many lines of ten points.
sql -c "create table t (g text)" -c "copy t from '$dir/points'" -c "create table dots as select g::wkt as w, g::geometry as p from t" -c "drop table t" \
    -c "create table ways as select s::wkt as w, s::geometry as p from (select format('LINESTRING(%s)', string_agg(format('%s %s', x + i * 0.001, y + i * 0.0007), ',')) s
        from (select n, (random() * 360 - 180)::numeric(9,6) x, (random() * 180 - 90)::numeric(9,6) y from generate_series(1, $((rows / 10))) n) a, generate_series(1, 10) i group by n) b" \
    -c "analyze dots" -c "analyze ways"
table "$rows points"
measured "sum(wkt_x(w))" "$alone" "select sum(wkt_x(w)) from dots;"
measured "sum(ST_X(p))" "$alone" "select sum(ST_X(p)) from dots;"
measured "sum(x) from wkt_points_float8(w)" "$alone" "select sum(x) from dots, wkt_points_float8(w);"
measured "sum(x) from wkt_points(w)" "$alone" "select sum(x) from dots, wkt_points(w);"
measured "sum(ST_X(d.geom)) from ST_DumpPoints(p) d" "$alone" "select sum(ST_X(d.geom)) from dots, ST_DumpPoints(p) d;"
measured "sum of the four numbers of wkt_box(w)" "$alone" "select sum((b[0])[0] + (b[0])[1] + (b[1])[0] + (b[1])[1]) from (select wkt_box(w) b from dots offset 0) a;"
measured "sum of the four of wkt_bounds_float8(w)" "$alone" "select sum(min_x + min_y + max_x + max_y) from dots, wkt_bounds_float8(w);"
measured "sum of the four of wkt_bounds(w)" "$alone" "select sum(min_x + min_y + max_x + max_y) from dots, wkt_bounds(w);"
measured "sum of ST_XMin(p) to ST_YMax(p)" "$alone" "select sum(ST_XMin(p) + ST_YMin(p) + ST_XMax(p) + ST_YMax(p)) from dots;"
for what in dots ways; do
    table "an index over $(sql -At -c "select count(*) from $what") $what"
    measured "spgist (wkt_box(w))" "$alone" "create index on $what using spgist (wkt_box(w));"
    measured "gist (wkt_box(w))" "$alone" "create index on $what using gist (wkt_box(w));"
    measured "gist (p), PostGIS's" "$alone" "create index on $what using gist (p);"
    measured "INSERT INTO a table with spgist (wkt_box(w))" "$alone create table other (like $what); create index on other using spgist (wkt_box(w));" "insert into other select * from $what;"
    measured "INSERT INTO a table with gist (p)" "$alone create table other (like $what); create index on other using gist (p);" "insert into other select * from $what;"
done
sql -c "drop table dots, ways"
for what in points mixed; do
    table "$(wc -l < "$dir/$what") of $what: COPY into"
    copied "text" "g text" $what ""
    copied "wkt" "g wkt" $what ""
    copied "wkt(6)" "g wkt(6)" $what ""
    copied "PostGIS's geometry" "g geometry" $what ""
    copied "text, and a generated column of text by wkt_canonical" "g text, k text generated always as (wkt_canonical(g)) stored" $what ""
    copied "text, and a generated column of wkt" "g text, k wkt generated always as (g::wkt) stored" $what ""
    copied "text, and a generated column of geometry by ST_GeomFromText" "g text, k geometry generated always as (ST_GeomFromText(g)) stored" $what ""
    copied "text, and its digest by sha256(wkt_canonical(g)::bytea) as a generated primary key" \
        "g text, k bytea generated always as (sha256(wkt_canonical(g)::bytea)) stored primary key" $what ""
    copied "wkt, exclude using hash (g with =)" "g wkt, exclude using hash (g with =)" $what ""
    copied "text collate \"C\", primary key" "g text collate \"C\" primary key" $what ""
    copied "wkt, primary key" "g wkt primary key" $what ""
    copied "PostGIS's geometry, primary key" "g geometry primary key" $what ""
    if [ $what = mixed ]; then
        copied "text, and a generated column of text by wkt_canonical, this column with lz4" \
            "g text, k text compression lz4 generated always as (wkt_canonical(g)) stored" $what ""
        copied "text, with lz4" "g text" $what "$lz4"
        copied "PostGIS's geometry, with lz4" "g geometry" $what "$lz4"
        copied "text, and a generated column of text by wkt_canonical, both with lz4" "g text, k text generated always as (wkt_canonical(g)) stored" $what "$lz4"
        copied "text, and a generated column of geometry by ST_GeomFromText, both with lz4" "g text, k geometry generated always as (ST_GeomFromText(g)) stored" $what "$lz4"
    fi
    sql -c "create table t (g text)" -c "copy t from '$dir/$what'" -c "analyze t"
    table "$(wc -l < "$dir/$what") of $what: SELECT"
    measured "sum(length(g))" "$alone" "select sum(length(g)) from t;"
    measured "sum(length(wkt_canonical(g)))" "$alone" "select sum(length(wkt_canonical(g))) from t;"
    measured "count(*) where wkt_reads(g)" "$alone" "select count(*) from t where wkt_reads(g);"
    measured "sum(length(ST_AsText(ST_GeomFromText(g))))" "$alone" "select sum(length(ST_AsText(ST_GeomFromText(g)))) from t;"
    sql -c "drop table t"
done
