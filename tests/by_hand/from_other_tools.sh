#!/usr/bin/env bash
# Shows which of other programs' texts are read, and that they stay the same: from_other_tools.sh [FOLDER]
#
# FOLDER has wkt.h, libwkt.a and libwkt.so; it is WKT_LIB_DIR without an argument, and capi/out without that. For each
# call of docs/FROM_OTHER_TOOLS.md 100,000 doubles of each sort are written by it. A text is read as a key, the program
# reads the key and writes it by the same call, and the key of that has to be the same. Which texts are refused is a rule
# of the page, and is compared with what is refused. Then the program reads 20,000 keys that it didn't write, and writes
# them by the call: how many keep their key is compared with other_tools/expected and the page's table. The versions of
# Debian 12 and 13 are expected; where they differ a line begins with its release. It is no part of the gate; it takes
# some five minutes.
#
# It needs python3 with Shapely (python3-shapely) and GDAL (python3-gdal, gdal-bin), a C compiler, GEOS (libgeos-dev),
# SQLite with SpatiaLite (sqlite3, libsqlite3-dev, libsqlite3-mod-spatialite), and PostgreSQL with PostGIS and its
# headers (as the user postgres if it runs as root). What isn't installed is said to be missing.
set -eu
root=$(cd "$(dirname "$0")/../.." && pwd)
. "$root/postgres/server.sh"
library "${1:-}"
there=$root/tests/by_hand/other_tools
status=0
work=$(mktemp -d)
trap 'rm -rf "$work"' EXIT
chmod 755 "$work"
python=python3
[ ! -x /usr/bin/python3 ] || python=/usr/bin/python3

# Doubles: degrees, metres of Web Mercator, and of any size from 1e-20 to 1e20.
"$python" "$there/points.py" > "$work/doubles"
"$python" "$there/points.py" "$work/doubles" > "$work/given"
printf '%-12s %-60s %-8s %7s %7s %7s %7s\n' program call doubles texts read same exact
touch "$work/again" "$work/kept"
# figures FILE: lines of program, call, sort of doubles, texts, read, kept the same, those with both numbers exact, against
# the rule; of program, call, sort of given keys, keys, kept the same; and of program, key of a kind, what becomes of it
figures() {
    : > "$work/counts"
    awk -F '\t' -v work="$work" 'NF == 3 { print >> (work "/again") } NF == 5 { print >> (work "/kept") } NF == 8 { print >> (work "/counts") }' "$1"
    cut -f 1 "$work/counts" | uniq >> "$work/programs"
    while IFS=$'\t' read -r program call sort texts read same exact against; do
        printf '%-12s %-60s %-8s %7s %7s %7s %7s\n' "$program" "$call" "$sort" "$texts" "$read" "$same" "$exact"
        [ "$against" = 0 ] && [ "$read" = "$same" ] && [ "$read" -gt 0 ] || { echo "wrong: $against against the rule, or not the same"; status=1; }
    done < "$work/counts"
}

for tool in shapely gdal; do
    if WKT_LIB=$wkt/libwkt.so PYTHONDONTWRITEBYTECODE=1 PYTHONPATH=$root/python "$python" "$there/python.py" "$tool" "$work/doubles" "$work/given" "$there/kinds" > "$work/$tool" 2> "$work/err"; then
        figures "$work/$tool"
    else
        echo "$tool: $(tail -n 1 "$work/err")"
        grep -q "^ModuleNotFoundError" "$work/err" || status=1
    fi
done
if echo '#include <geos_c.h>' | gcc -E - > /dev/null 2>&1; then
    gcc -O2 -Wall -Wextra -I"$wkt" "$there/geos.c" "$wkt/libwkt.a" -lgeos_c -lm -o "$work/geos_texts"
    "$work/geos_texts" "$work/doubles" "$work/given" "$there/kinds" > "$work/geos"
    figures "$work/geos"
else
    echo "no headers of GEOS"
fi
if command -v sqlite3 > /dev/null && sqlite3 :memory: "select load_extension('mod_spatialite')" > /dev/null 2>&1; then
    make -s -C "$work" -f "$root/sqlite/Makefile" WKT_LIB_DIR="$wkt" > "$work/make.log" 2>&1 || { cat "$work/make.log"; exit 1; }
    sqlite3 -cmd ".load $work/mod_wkt" -cmd ".load mod_spatialite" "$work/db" ".mode tabs" "create table doubles (sort text, x real, y real)" ".import $work/doubles doubles" \
        "create table given (sort text, key text)" ".import $work/given given" "create table kinds (key text)" ".import $there/kinds kinds" ".read $there/spatialite.sql" > "$work/spatialite"
    figures "$work/spatialite"
else
    echo "no SpatiaLite"
fi
(
    LACKING=0
    server_flags=(-c jit=off)
    start_server > "$work/server" || { cat "$work/server"; exit 1; }
    "$bin/psql" -X -q -At -F $'\t' -v ON_ERROR_STOP=1 -c "create extension wkt" -c "create extension postgis" \
        -c "create table doubles (sort text, x float8, y float8)" -c "\\copy doubles from '$work/doubles'" -c "create table given (sort text, key text)" -c "\\copy given from '$work/given'" \
        -c "create table kinds (n serial, key text)" -c "\\copy kinds (key) from '$there/kinds'" -f "$there/postgis.sql"
) > "$work/postgis" || { cat "$work/postgis"; status=1; }
if [ -s "$work/postgis" ]; then figures "$work/postgis"; else echo "PostGIS: $(head -n 1 "$work/server")"; fi
# Given keys, by the programs that are there: the table of the page has these numbers.
echo "of the keys that a program didn't write, it keeps:"
printf '%-12s %-60s %-5s %7s %7s\n' program call keys keys kept
while IFS=$'\t' read -r program call sort keys kept; do printf '%-12s %-60s %-5s %7s %7s\n' "$program" "$call" "$sort" "$keys" "$kept"; done < "$work/kept"
# there_are FIELDS: of what is expected in this release of Debian, the lines of so many fields, of the programs that are there
release=$(sed -n 's/^VERSION_ID="*\([0-9]*\)"*$/\1/p' /etc/os-release)
case $release in 12 | 13) ;; *) echo "wrong: other_tools/expected has Debian 12 and 13, and not ${release:-this system}"; status=1 ;; esac
there_are() {
    awk -F '\t' -v fields="$1" -v release="$release" 'NF == fields + 1 && ($1 == "*" || $1 == release) { sub(/^[^\t]*\t/, ""); print }' "$there/expected" |
        grep -f <(sed 's/.*/^&	/' "$work/programs" | sort -u)
}
there_are 5 | sort | diff - <(sort "$work/kept") > "$work/differ" || { echo "wrong: other numbers of keys are kept than in other_tools/expected"; cat "$work/differ"; status=1; }
"$python" "$there/page.py" "$there/expected" "$root/docs/FROM_OTHER_TOOLS.md" || status=1
# The keys of other kinds that don't stay the same, of the programs that are there.
there_are 3 | diff - "$work/again" > "$work/differ" ||
    { echo "wrong: of tests/by_hand/other_tools/kinds other keys stay the same"; cat "$work/differ"; status=1; }
echo "of $(wc -l < "$there/kinds") keys of all kinds, these don't stay the same:"
column -t -s $'\t' "$work/again" 2> /dev/null || cat "$work/again"
echo "DuckDB: Debian has no package of it, so not tried"
[ $status = 0 ] && echo "as docs/FROM_OTHER_TOOLS.md says"
exit $status
