#!/usr/bin/env bash
# Tests the extension wkt_postgis, in a server of its own: postgis.sh [FOLDER]
#
# FOLDER as test.sh has it. It is run by hand, where PostGIS is (on Debian postgresql-15-postgis-3).
set -eu
. "$(dirname "$0")/server.sh"
here=$(cd "$(dirname "$0")" && pwd)
test_server "$@"
ask postgres "create database places"
PGOPTIONS="-c client_min_messages=warning" ask places "create extension wkt_postgis cascade"
# A text by its geometry: what isn't a number in it stays.
while read -r text; do
    is "there and back" "$text" "$(ask places "select '$text'::wkt::geometry::wkt")"
    is "as PostGIS reads it" t "$(ask places "select ST_AsEWKB('$text'::wkt::geometry) = ST_AsEWKB(ST_GeomFromText('$text'))")"
done <<'TEXTS'
POINT(1 2)
POINT Z(0.1 -2.5 3)
POINT M(1 2 3)
POINT ZM(1 2 3 4)
POINT EMPTY
LINESTRING(0 0,12.345678 34.567891)
POLYGON((0 0,4 0,2 4,0 0),(1 1,2 1,2 2,1 1))
MULTIPOINT((1 2),(3 4))
MULTILINESTRING((0 0,1 1),(2 2,3 3))
MULTIPOLYGON(((0 0,4 0,2 4,0 0)),((10 10,14 10,12 14,10 10)))
GEOMETRYCOLLECTION(POINT(1 2),GEOMETRYCOLLECTION(LINESTRING(0 0,1 1)))
GEOMETRYCOLLECTION EMPTY
TEXTS
# What PostGIS changes, and what it refuses.
while read -r text back; do is "retagged: $text" "$back" "$(ask places "select replace(replace('$text', '_', ' ')::wkt::geometry::wkt::text, ' ', '_')")"; done <<'TEXTS'
GEOMETRYCOLLECTION(POINT_Z(1_2_3)) GEOMETRYCOLLECTION_Z(POINT_Z(1_2_3))
GEOMETRYCOLLECTION_Z(POINT_Z(1_2_3),POINT_EMPTY) GEOMETRYCOLLECTION_Z(POINT_Z(1_2_3),POINT_Z_EMPTY)
GEOMETRYCOLLECTION_Z(GEOMETRYCOLLECTION_EMPTY) GEOMETRYCOLLECTION_Z(GEOMETRYCOLLECTION_Z_EMPTY)
TEXTS
while IFS='|' read -r text error; do fails places "select '$text'::wkt::geometry" "$error"; done <<'TEXTS'
GEOMETRYCOLLECTION(POINT(1 2),POINT Z(1 2 3))|Dimensions mismatch
GEOMETRYCOLLECTION Z(POINT(1 2))|can not mix dimensionality
LINESTRING(1 2)|geometry requires more points
POLYGON((0 0,1 0,0 0))|geometry requires more points
POLYGON((0 0,1 0,0 1,1 1))|geometry contains non-closed rings
POLYGON((0 0,1 0,0 1,0 0),EMPTY)|parse error
TEXTS
# Null in the place of each refusal; a text is still read as one, and not as a geometry.
is "or null" "POINT(1 2)|1|1|1|1|1|1" "$(ask places "select wkt_or_null(ST_SetSRID(ST_MakePoint(1, 2), 4326)), count(*) filter (where wkt_or_null(g) is null and n = 1), count(*) filter (where wkt_or_null(g) is null and n = 2),
    count(*) filter (where wkt_or_null(g) is null and n = 3), count(*) filter (where wkt_or_null(g) is null and n = 4), count(*) filter (where wkt_or_null(g) is null and n = 5), count(*) filter (where wkt_or_null(g) is null and n = 6)
    from (values (1, 'CIRCULARSTRING(0 0,1 1,2 0)'::geometry), (2, ST_MakePoint('NaN', 2)), (3, ST_MakePoint(0.0012345678901234567, 2)), (4, ST_MakePoint(1e15, 2)), (5, ST_MakePoint(1e-9, 2)), (6, null), (7, 'POINT(1 2)')) v(n, g)")"
is "or null: of a text" "POINT(0.100000000000000001 2)||POINT(1 2)" "$(ask places "select wkt_or_null('POINT(0.100000000000000001 2)'), wkt_or_null(null), wkt_or_null('POINT(1 2)'::varchar)")"
is "no SRID comes in" "POINT(1 2)" "$(ask places "select ST_SetSRID('POINT(1 2)'::geometry, 4326)::wkt")"
is "the geometry has no SRID" 0 "$(ask places "select ST_SRID('POINT(1 2)'::wkt::geometry)")"
is "a modifier" "POINT(1.5 2)" "$(ask places "select ST_MakePoint(1.5, 2)::wkt(1)")"
is "rounded by PostGIS" "POINT(0.3 0.333333)" "$(ask places "select ST_AsText(ST_MakePoint(0.1 + 0.2::float8, 1 / 3::float8), 6)::wkt(6)")"
is "null" "" "$(ask places "select null::geometry::wkt, null::wkt::geometry" | tr -d '|')"
# Points, parts and bounds of the kept keys that PostGIS takes, as its own calls have them.
grep -v '^#' "$here/../tests/data/keys.tsv" | cut -f 5 | grep -vx refused | sort -u > "$dir/kept"
chmod 644 "$dir/kept"
ask places "create function taken(t text) returns geometry language plpgsql as \$\$ begin return ST_GeomFromText(t); exception when others then return null; end \$\$" \
    "create table kept (k text)" "copy kept from '$dir/kept'" "create table both_of as select k::wkt at, g from (select k, taken(k) g from kept) k where g is not null" \
    "create view points_of as select at, array(select (p.path, x::float8, y::float8, z::float8, m::float8)::text from wkt_points(at) p) one,
        array(select (p.path, ST_X(p.geom), ST_Y(p.geom), ST_Z(p.geom), ST_M(p.geom))::text from ST_DumpPoints(g) p) other from both_of" \
    "create view parts_of as select at, array(select (p.path, ST_AsEWKB(part::geometry))::text from wkt_each(at) p) one,
        array(select (p.path, ST_AsEWKB(p.geom))::text from ST_Dump(g) p) other from both_of" \
    "create view bounds_of as select at, array[min_x, max_x, min_y, max_y, min_z, max_z]::float8[] one, array[ST_XMin(g), ST_XMax(g), ST_YMin(g), ST_YMax(g),
        case when ST_Zmflag(g) > 1 then ST_ZMin(g) end, case when ST_Zmflag(g) > 1 then ST_ZMax(g) end] other from both_of, wkt_bounds(at)" \
    "create view counts_of as select at, array[wkt_num_points(at), wkt_num_parts(at)] one, array[ST_NPoints(g), (select count(*) from ST_Dump(g))::int] other from both_of"
for what in points parts bounds counts; do
    is "$what: other than PostGIS's" "" "$(ask places "select at from ${what}_of where one is distinct from other limit 3")"
done
echo "of $(wc -l < "$dir/kept") kept keys PostGIS takes $(ask places "select count(*) from both_of"), with the same points, parts and bounds"
# As EWKT, but for collections, whose members alone say their dimension there, and for what is empty, of which none is said.
is "ewkt: other keys than those of ST_AsText, or SRIDs" "" "$(ask places "select at from both_of, lateral (select ST_AsEWKT(ST_SetSRID(g, 4326), 15) t, ST_AsText(g, 15) other) e
    where wkt_srid(t) is distinct from 4326 or not ST_IsEmpty(g) and ST_GeometryType(g) <> 'ST_GeometryCollection' and not wkt_same(t, other, 18, 'ewkt,exponents') limit 3")"
# Each double as its shortest decimal, which float8's text is too, in each dimension and kind; what has more places is refused.
ask places "create function drawn(name text, i int) returns float8 language sql return ('x' || left(md5(name || i), 13))::bit(52)::int8 / (2::float8 ^ 52)" \
    "create table doubles as select drawn('x', i) x, drawn('y', i) y, drawn('z', i) z, drawn('m', i) m from generate_series(1, 10000) i" \
    "create table points as select 'degrees' sort, ST_MakePoint(x * 360 - 180, y * 180 - 90) g from doubles union all select 'unit', ST_MakePoint(x, y) from doubles" \
    "create function tried(g geometry) returns text language plpgsql as \$\$ begin return case when g::wkt::geometry = g then 'equal' else 'another' end;
        exception when invalid_text_representation then return 'refused'; end \$\$"
counts=$(ask places "select string_agg(format('%s %s %s', sort, tried, n), ', ' order by sort, tried) from (select sort, tried(g), count(*) n from points group by 1, 2) c")
is "doubles: which are refused" "$(ask places "select string_agg(format('%1\$s equal %2\$s, %1\$s refused %3\$s', sort, 10000 - n, n), ', ' order by sort) from (
    select sort, count(*) filter (where greatest(scale(ST_X(g)::text::numeric), scale(ST_Y(g)::text::numeric)) > 18) n from points group by 1) c")" "$counts"
is "doubles: as README.md says" "$(sed -n 's/.*Of 10,000 random points in degrees \([0-9]*\),\([0-9]*\) come back equal, of 10,000 in .* \([0-9]*\),\([0-9]*\);.*/\1\2 \3\4/p' "$here/README.md")" \
    "$(sed 's/degrees equal \([0-9]*\),.*unit equal \([0-9]*\),.*/\1 \2/' <<< "$counts")"
is "doubles: the text of float8" 0 "$(ask places "select count(*) from doubles where tried(ST_MakePoint(x, y)) = 'equal'
    and ST_MakePoint(x, y)::wkt <> format('POINT(%s %s)', x::text::numeric, y::text::numeric)::wkt")"
is "doubles: other kinds" "equal" "$(ask places "select string_agg(distinct t, ' ') from (select tried(ST_Collect(array[
        'GEOMETRYCOLLECTION ZM(MULTIPOINT ZM(EMPTY,1 2 3 4),POLYGON ZM EMPTY)'::geometry, ST_Multi(p), ST_MakeLine(p, ST_MakePoint(m, x, y, z))])) t
    from (select *, ST_MakePoint(x * 10, y * 100, z - 5, m * 1e12) p from doubles) a where least(x, y, z, m) > 0.1) b where t <> 'refused'")"
is "doubles: 0.1 + 0.2 is not 0.3" f "$(ask places "select ST_MakePoint(0.1::float8 + 0.2::float8, 0)::wkt = ST_MakePoint(0.3, 0)::wkt")"
for number in 1.23456789012e-5 999999999999999.9 -0.000012345678901234 123456789012345.67; do
    is "doubles: $number" t "$(ask places "select ST_MakePoint($number, 2)::wkt = format('POINT(%s 2)', '$number'::numeric)::wkt")"
done
fails places "select ST_MakePoint(0.0012345678901234567, 2)::wkt" "Numbers have at most 18 places here."
fails places "select ST_MakePoint(1.0 / 3, 2)::wkt(6)" "Numbers have at most 6 places here."
fails places "select ST_GeomFromText('CIRCULARSTRING(0 0,1 1,2 0)')::wkt" "Curves are not read"
for number in 1e-9 1e15 -1e300 5e-324; do fails places "select ST_MakePoint($number, 2)::wkt" "Exponents are not read"; done
fails places "select ST_MakePoint('NaN', 2)::wkt" "NaN and infinity are no decimals"
fails places "select ST_MakePoint('-infinity', 2)::wkt" "NaN and infinity are no decimals"
# An index over the cast, a dump, and a column of keys.
ask places "create table t (g geometry(Point, 4326), key wkt generated always as (g::wkt) stored unique)" "create index on t ((g::wkt))" \
    "insert into t (g) values ('SRID=4326;POINT(1 2)'), ('SRID=4326;POINT(2 1)')"
fails places "insert into t (g) values ('SRID=4326;POINT(1 2)')" "duplicate key value"
ask postgres "create database again"
"$from/pg_dump" -Fc places | "$from/pg_restore" --exit-on-error -d again || wrong "pg_restore fails"
is "restored" "POINT(1 2) POINT(2 1)" "$(ask again "select key from t order by key" | paste -sd ' ')"
with_postgis=yes
. "$here/tests/tenant.sh"
echo "of 10,000 points each come back equal or are refused: $counts"
[ $status = 0 ] && echo "wkt_postgis, $(ask places "select 'PostGIS ' || postgis_lib_version()"): as expected"
exit $status
