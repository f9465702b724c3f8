#!/usr/bin/env bash
# Runs the examples of README.md in Python, in a server of its own: recipes.sh [FOLDER]
#
# FOLDER as test.sh has it. It is run by hand, where python3-psycopg, python3-asyncpg and python3-sqlalchemy are.
set -eu
. "$(dirname "$0")/server.sh"
here=$(cd "$(dirname "$0")" && pwd)
test_server "$@"
ask postgres "create extension wkt" "create table places (id int, at wkt(6) primary key)"
csplit -s -z -f recipe. "$here/README.md" '/^```python$/' '{*}'
for file in recipe.*; do
    [ "$(head -n 1 "$file")" = '```python' ] || continue
    sed '1d; /^```$/,$d' "$file" > "$file.py"
    /usr/bin/python3 "$file.py" || wrong "$(grep -m 1 import "$file.py")"
done
is "rows of psycopg and asyncpg" "10 POINT(10 2.5),11 POINT(11 2),20 POINT(20 2.5),21 POINT(21 2)" "$(ask postgres "select string_agg(format('%s %s', id, at), ',' order by id) from places")"
is "a row of SQLAlchemy" "POINT(1 2) wkt(6)" "$(ask postgres "select at || ' ' || format_type(atttypid, atttypmod) from stops, pg_attribute where attrelid = 'stops'::regclass and attname = 'at'")"
[ $status = 0 ] && echo "recipes of README.md: as expected"
exit $status
