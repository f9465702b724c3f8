# Sourced by test.sh: the statements of README.md, and what the tables there answer.

# The SQL of README.md, word for word.
ask postgres "create database page"
ask page "create extension wkt"
sed -n '/^```sql$/,/^```$/p' "$here/README.md" | grep -v '^```' > "$dir/page.sql"
"$bin/psql" -X -q -At -v ON_ERROR_STOP=1 -d page < "$dir/page.sql" > "$dir/said" 2>&1 || wrong "page: $(cat "$dir/said")"
is "page: its first key" "POINT(1 2)" "$(ask page "select at from places")"
sed -n 's/^=> //p' "$here/README.md" > "$dir/page.sql"
"$bin/psql" -X -q -At -d page < "$dir/page.sql" > "$dir/said" 2>&1 || true
is "page: its error" "$(sed -n '/^=> /,/^```$/p' "$here/README.md" | grep -v '^=> \|^```')" "$(cat "$dir/said")"
echo "page: the statements of README.md run"
is "queries: the rejects" "" "$(ask page "table rejects")"
ask page "insert into lines (t) values ('point(3 4.0)'), ('POINT(3'), ('POINT(3 4)'), (null)" "$(sed -n '/^WITH read/,/;$/p' "$here/README.md")"
is "queries: loaded" "POINT(1 2) POINT(3 4)" "$(ask page "select at from places order by at" | paste -sd ' ')"
is "queries: refused" "2 8 expected_y,4  " "$(ask page "select format('%s %s %s', n, place, cause) from rejects order by n" | paste -sd ,)"
# A text that is too long is refused by the domain before the generated column reads it.
fails page "insert into received values (repeat('x', 1000001))" 'value for domain short_text violates check constraint'
is "queries: a short text" "POINT(1 2)" "$(ask page "insert into received values ('point(1.0 2)') returning key")"
# Boxes: by the index, nothing for what is empty, and with wkt_bounds exact.
ask page "insert into places select 10 + n, at::wkt from unnest('{POINT EMPTY,MULTIPOINT(EMPTY),\"LINESTRING(5.000001 0,6 1)\",\"POLYGON((-1 5,-2 6,0 7,-1 5))\",\"POLYGON((0 5,9 5,9 9,0 5))\",\"POINT(5.000002 5)\"}'::text[])
    with ordinality a(at, n)"
boxes=$(sed -n "s/^SELECT id FROM \(places.* && '(0,0),(5,5)'.*\);$/\1/p" "$here/README.md")
is "queries: boxes" "1 1 13 14 15,1 1 14 15" "$(while read -r tables; do ask page "set enable_seqscan = off" "select id from $tables order by id" | paste -sd ' '; done <<< "$boxes" | paste -sd ,)"
while read -r tables; do
    [[ $(ask page "set enable_seqscan = off" "explain select id from $tables") == *"Index Scan "*"places_wkt_box_idx"* ]] || wrong "queries: boxes without their index: $tables"
done <<< "$boxes"
# How long all paths of a value are, where they take most, as SECURITY.md says.
for shape in "points LINESTRING 5000" "each MULTIPOINT 3333"; do
    read -r call kind rows <<< "$shape"
    said=$(sed -n "s/.*n²\/\([0-9]*\)[^\`]*\`wkt_$call\`.*/\1/p" "$here/../SECURITY.md")
    is "queries: paths of wkt_$call" "$said" "$(ask page "select round(length(at)::numeric ^ 2 / sum(4 * cardinality(path))) from (
        select (repeat('GEOMETRYCOLLECTION(', 1000) || '$kind(' || repeat('1 2,', $rows) || '1 2' || repeat(')', 1001))::wkt at) a, wkt_$call(at) group by at")"
done
is "queries: nested collections are left out" "POINT(1 2) GEOMETRYCOLLECTION(POINT(1 2))" "$(ask page "select string_agg(at::text, ' ' order by n) from unnest('{POINT(1 2),GEOMETRYCOLLECTION(POINT(1 2)),\
    GEOMETRYCOLLECTION(GEOMETRYCOLLECTION EMPTY)}'::text[]::wkt[]) with ordinality a(at, n) $(sed -n 's/.*`\(WHERE at::text NOT LIKE [^`]*\)`.*/\1/p' "$here/../SECURITY.md")")"
# An exclusion with another column, and long values: as many as don't overlap.
long="('LINESTRING(' || repeat('0.123456 1,', 1000) || '2 3)')::wkt"
ask page "insert into bookings values ($long, '[2026-01-01, 2026-01-02)'), ($long, '[2026-01-02, 2026-01-03)'), ('POINT(1 2)', '[2026-01-01, 2026-01-02)')"
fails page "insert into bookings values ('point(1.0 2)', '[2026-01-01 12:00, 2026-01-01 13:00)')" "conflicting key value violates exclusion constraint"
fails page "insert into bookings values ($long, '[2026-01-02, infinity)')" "conflicting key value violates exclusion constraint"
# A foreign table over this server: what is sent there.
ask page "alter server other options (add host '$PGHOST', set dbname 'page')" "create user mapping for public server other" \
    "create foreign table elsewhere (id int, at wkt(6), t text, kind text) server other options (table_name 'places')"
sent() { ask page "explain (verbose, costs off) $1" | sed -n 's/.*Remote SQL: //p'; }
for asked in "at = 'point(3.0 4)'|WHERE ((at OPERATOR(public.=) 'POINT(3 4)'" "wkt_num_points(at) > 1 order by at|WHERE ((public.wkt_num_points(at) > 1)) ORDER BY at"; do
    [[ $(sent "select at from elsewhere where ${asked%|*}") == *"${asked#*|}"* ]] || wrong "queries: not sent: $asked: $(sent "select at from elsewhere where ${asked%|*}")"
done
sent_where() { sent "select id from elsewhere where $1" | sed -n 's/.* WHERE //p'; }
while IFS='|' read -r asked told; do is "queries: sent of $asked" "$told" "$(sent_where "$asked")"; done <<'CONDITIONS'
wkt_box(at) && '(1,1),(2,2)'|((public.wkt_box(at) && '(2,2),(1,1)'::box))
wkt_x(at) > 3|((public.wkt_x(at) > 3::double precision))
wkt_same(t, 'POINT(1 2)', dialect => 'ewkt')|(public.wkt_same(t, 'POINT(1 2)'::text, 18, 'ewkt'::text))
wkt_canonical(t) = 'POINT(1 2)'|((public.wkt_canonical(t, 18, ''::text) = 'POINT(1 2)'::text))
kind = 'POINT'|((kind = 'POINT'))
wkt_kind(at) = 'POINT'|
wkt_version() = '1'|
at in ('POINT(1 2)', 'POINT(3 4)')|
at::text like 'POINT%'|
(wkt_bounds(at)).min_x > 3|
CONDITIONS
is "queries: answered from there" "POINT(3 4)" "$(ask page "select at from elsewhere where at = 'point(3.0 4)'")"
# A function of another role beside these: an error, or the answer to another type, as README.md says.
ask page "create role planter" "grant create on schema public to planter" "set role planter" "create function wkt_canonical(text) returns text language sql return 'planted'" "create function wkt_reads(varchar) returns bool language sql return true"
fails page "select wkt_canonical('POINT(1 2)'::text)" "is not unique"
is "queries: a planted function" "POINT(1 2) f t" "$(ask page "select wkt_canonical('POINT(1 2)', 18), wkt_reads('x'), wkt_reads('x'::varchar)" | tr '|' ' ')"
ask page "drop owned by planter" "drop role planter"
# META.json names what is there, in the version of the library.
meta="'$("$here/../dist/version.sh" in "$here/META.json" | sed "s/'/''/g")'::jsonb"
is "META.json: versions" "$(sed -n 's/^#define WKT_VERSION "\(.*\)"/\1/p' "$wkt/wkt.h")" \
    "$(ask page "select distinct v from (select $meta ->> 'version' union all select value ->> 'version' from jsonb_each($meta -> 'provides')) m(v)")"
is "META.json: files" "$(cd "$here" && printf '%s\n' wkt*--*.sql | sort)" "$(ask page "select value ->> 'file' from jsonb_each($meta -> 'provides')" | sort)"
echo "queries: as README.md says"
