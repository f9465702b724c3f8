#!/usr/bin/env bash
# Shows that an input that is cut at line feeds, over processes or within a database, is answered with the bytes of one run.
#
# It needs wktstream (rt run in crates/wktstream) and python3. The parts are answered side by side by GNU
# parallel where it is installed, else by split and xargs; then PostgreSQL reads the answers by COPY .. FROM PROGRAM,
# where one is installed (as the user postgres if this runs as root).
set -eu
cd "$(dirname "$0")/../.." || exit 1
. postgres/server.sh
work=$(mktemp -d)
trap 'rm -rf "$work"' EXIT
cp crates/wktstream/out/wktstream "$work/wktstream"
program=$work/wktstream
wrong=0

# same NAME FILE
same() {
    if cmp -s "$work/whole" "$2"; then
        echo "ok: $1"
    else
        echo "wrong: $1"
        wrong=1
    fi
}

# Lines of all kinds, a hundred times over, some of which are refused.
{ python3 bench/lines.py mixed 6 300000; printf 'POINT (10)\n\n'; python3 bench/lines.py mixed 15 200000; } > "$work/once"
for _ in $(seq 100); do cat "$work/once"; done > "$work/lines"
"$program" < "$work/lines" > "$work/whole"
echo "$(wc -c < "$work/lines") bytes, $(wc -l < "$work/whole") answers"

if [ -n "$(command -v parallel)" ]; then
    parallel --will-cite --pipepart -k -j 4 --block 4M -a "$work/lines" "$program" > "$work/parts"
    same "parts of a file, by parallel --pipepart" "$work/parts"
    parallel --will-cite --pipe -k -j 4 --block 4M "$program" < "$work/lines" > "$work/parts"
    same "parts of a stream, by parallel --pipe" "$work/parts"
fi
split -n l/4 "$work/lines" "$work/part."
printf '%s\n' "$work"/part.a? | xargs -P 4 -I '{}' sh -c '"$1" < "$2" > "$2.answers"' sh "$program" '{}'
cat "$work"/part.a?.answers > "$work/parts"
same "four parts, by split and xargs" "$work/parts"

# A database of its own, which is gone when this ends.
find_server || { echo "no PostgreSQL is installed: COPY .. FROM PROGRAM was not tried"; exit $wrong; }
removed+=("$work")
chmod 755 "$work" # the server runs the program there
start_server
"$bin/psql" -X -q -v ON_ERROR_STOP=1 <<SQL
create table answers (place bigserial, answer text);
copy answers (answer) from program '$program < $work/lines';
\o $work/table
\t on
\pset format unaligned
select answer from answers order by place;
SQL
same "the answers in a table, by COPY .. FROM PROGRAM" "$work/table"
exit $wrong
