#!/usr/bin/env bash
# Reads the table of texts by PostGIS: where a text is answered with a canonical text, both are the same bytes of EWKB there,
# but for the sign of zero, if PostGIS takes the text at all.
#
# It needs PostgreSQL with PostGIS, and python3 (as the user postgres if it runs as root), and is no part of the gate.
set -eu
cd "$(dirname "$0")/../.." || exit 1
. postgres/server.sh
work=$(mktemp -d)
removed+=("$work")
trap 'rm -rf "$work"' EXIT
# Rows that are read, as hexadecimal digits: a canonical text begins with two capitals, and no message does.
python3 - crates/wkt_tables/stdin > "$work/rows" <<'PY'
import re
import sys

with open(sys.argv[1], encoding="utf-8", newline="\n") as table:
    for row in table.read().removesuffix("\n").split("\n"):
        text, _, canonical = row.partition("\t")
        if re.match("[A-Z][A-Z]", canonical):
            print(text.encode().hex(), canonical.encode().hex())
PY

chmod 755 "$work" # the server reads the rows there
start_server
"$bin/psql" -X -q -v ON_ERROR_STOP=1 > "$work/output" <<SQL
create extension postgis;
create function taken(t text) returns geometry language plpgsql as
    \$\$ begin return ST_GeomFromText(t); exception when others then return null; end \$\$;
create function no_minus_zero(g geometry) returns text language sql as
    \$\$ select regexp_replace(ST_AsEWKT(g, 15), '-0([ ,)])', '0\\1', 'g') \$\$;
create table rows (text_hex text, canonical_hex text);
copy rows from '$work/rows' (format text, delimiter ' ');
create table both_ways as
    select text, canonical, taken(text) as one, taken(canonical) as other
    from (select convert_from(decode(text_hex, 'hex'), 'UTF8') as text,
                 convert_from(decode(canonical_hex, 'hex'), 'UTF8') as canonical from rows) r;
\t on
\pset format unaligned
\pset fieldsep ' '
select count(*), case
    when one is null and other is null then 'refused in both forms'
    when one is null then 'taken in canonical form alone'
    when other is null then 'wrong: taken, but not in canonical form'
    when ST_AsEWKB(one) = ST_AsEWKB(other) then 'the same bytes'
    when no_minus_zero(one) = no_minus_zero(other) then 'the same but for the sign of zero'
    else 'wrong: another geometry' end as how
from both_ways group by how order by count(*) desc;
select 'wrong:', text, '=>', canonical from both_ways
where one is not null and (other is null or no_minus_zero(one) <> no_minus_zero(other)) limit 20;
SQL
cat "$work/output"
if grep -q wrong: "$work/output" || ! grep -q "the same bytes" "$work/output"; then
    exit 1
fi
