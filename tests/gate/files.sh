#!/usr/bin/env bash
# The jobs of docs/FILES.md, word for word, over two small tables: each joins the same rows, and lists what is refused.
#
# It takes the library in capi/out, and builds the extensions for SQLite and PostgreSQL over it. SKIP=pandas,sqlite,postgres,dask
# passes over what a machine lacks.
set -eu
cd "$(dirname "$0")/../.."
root=$PWD
. "$root/postgres/server.sh"
skips() { case ",${SKIP:-}," in *",$1,"*) true ;; *) false ;; esac; }
library
work=$(mktemp -d)
removed+=("$work")
trap ended EXIT
export WKT_LIB=$wkt/libwkt.so PYTHONPATH=$root/python PYTHONDONTWRITEBYTECODE=1
mkdir "$work/bin"
ln -s "${PYTHON:-/usr/bin/python3}" "$work/bin/python3"
PATH=$work/bin:$PATH

printf '%s\n' id,geom 'a,point ( 1 2.0 )' 'b,"LINESTRING(1 2,3 4)"' 'c,POINT(1 2)' d, 'e,POINT(5' 'f,POINT(5' 'g,POINT(7 8)' > "$work/old.csv"
printf '%s\n' geom,name '"linestring(1 2, 3.0 4)",line' 'POINT(1 2),one' 'POINT(5,x' ,none 'POINT(1.00 2),two' 'POINT(9 9),nine' > "$work/new.csv"
printf '%s\n' 'a one' 'b line' > "$work/want"
# block KIND WORDS: the page's block of this kind behind the line that begins with these words
block() { awk -v kind="\`\`\`$1" -v words="$2" 'index($0, words) == 1 { on = 1 } on && $0 == "```" { exit } on > 1 { print } on && $0 == kind { on = 2 }' "$root/docs/FILES.md"; }
# gives NAME: what was said is what is wanted
gives() { sort "$work/said" | cmp - "$work/want" || { echo "files: $1: it joins other rows"; cat "$work/said"; exit 1; }; }
# by_python NAME: the block with pandas or Dask, and what it joins and lists
by_python() {
    { block python "With $1"; echo 'print(*sorted(map(" ".join, zip(joined.id, joined.name))), sep="\n")'; } > "$work/job.py"
    echo 'assert set(bad.geom) == {"POINT(5"} and len(bad) > 1, bad' >> "$work/job.py"
    (cd "$work" && python3 job.py) > "$work/said"
    gives "$1"
}

cd "$work"
block sh 'In the shell' > job.sh
bash -eu job.sh > said 2> log || { cat log; exit 1; }
[ "$(tr -s ' ' < said | sort)" = "$(printf ' 1 cause\n 3 expected_y')" ] || { cat said; echo "files: the shell: other refusals"; exit 1; }
python3 -c 'import csv; [print(row["id"], row["name"]) for row in csv.DictReader(open("joined.csv"))]' > said
gives "the shell"
ran="the shell"
skips pandas || { by_python pandas; ran="$ran, pandas"; }
skips dask || { by_python '[Dask]'; ran="$ran, Dask"; }
if ! skips sqlite; then
    mkdir "$work/sqlite" "$work/postgres"
    cp "$root"/sqlite/{Makefile,*.c,*.h} "$work/sqlite"
    cp "$root"/postgres/*.h "$work/postgres"
    make -s -C "$work/sqlite" WKT_LIB_DIR="$wkt" > log 2>&1 || { cat log; exit 1; }
    cp "$work/sqlite/mod_wkt.so" .
    block sql 'In SQLite' > job.sql
    sqlite3 -bail -cmd '.load ./mod_wkt' job.db < job.sql > explained
    [ "$(grep -c 'a second number was expected' explained)" = 2 ]
    sqlite3 -separator ' ' job.db 'SELECT id, name FROM joined' > said
    gives SQLite
    ran="$ran, SQLite"
fi
if ! skips postgres; then
    start_server
    cd "$work"
    { echo 'CREATE EXTENSION wkt;'; block sql 'In PostgreSQL'; } > job.sql
    "$bin/psql" -X -q -At -v ON_ERROR_STOP=1 -f job.sql > explained
    [ "$(grep -c 'a second number was expected' explained)" = 2 ]
    ask postgres "SELECT id || ' ' || name FROM joined" > said
    gives PostgreSQL
    cd "$dir/base"
    ran="$ran, PostgreSQL"
fi
echo "files: one join by $ran"
