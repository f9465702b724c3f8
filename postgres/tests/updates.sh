# Sourced by test.sh: dump and restore, also into the next version, and the update to it: a stub that adds a function in SQL. And
# each version that has a script, updated, has the same objects as one that is created. Until one is released, an earlier one is
# made of the script: without its functions of doubles, which its update adds.
folder=$dir$share/extension
sed -n '/^-- The same as doubles/,/^$/p' "$here/wkt--1.0.sql" > "$folder/wkt--0.9--1.0.sql"
sed '/^-- The same as doubles/,/^$/d' "$here/wkt--1.0.sql" > "$folder/wkt--0.9.sql"
objects="select pg_describe_object(classid, objid, 0), obj_description(objid, classid::regclass::name), case when classid = 'pg_proc'::regclass and prokind <> 'a' then pg_get_functiondef(objid) end
    from pg_depend left join pg_proc p on classid = 'pg_proc'::regclass and p.oid = objid where deptype = 'e' and refobjid = (select oid from pg_extension where extname = 'wkt')
    union all select pg_describe_object(classid, objid, objsubid), '', pg_describe_object(refclassid, refobjid, refobjsubid) from pg_depend where classid in ('pg_amop'::regclass, 'pg_amproc'::regclass)
        and exists (select from pg_depend m where m.deptype = 'e' and (m.classid, m.objid) = (pg_depend.refclassid, pg_depend.refobjid)) order by 1, 3"
ask postgres "create database created"
ask created "create extension wkt"
[ "$(ask created "$objects" | wc -l)" -gt 100 ] || wrong "updates: few objects: $(ask created "$objects")"
for from_version in $(ask created "select version from pg_available_extension_versions where name = 'wkt' and not installed"); do
    ask postgres "create database older"
    ask older "create extension wkt version '$from_version'" "create table kept as select 'point(1 2.0)'::wkt at"
    [ "$from_version" != 0.9 ] || [ "$(ask older "$objects")" != "$(ask created "$objects")" ] || wrong "updates: 0.9 has the objects of the present version"
    ask older "alter extension wkt update"
    is "updates: from $from_version: other objects" "" "$(diff <(ask created "$objects") <(ask older "$objects"))"
    is "updates: from $from_version: contents" "POINT(1 2)|1" "$(ask older "select at, wkt_x(at) from kept")"
    ask postgres "drop database older"
    tried="${tried:-}, from $from_version"
done
rm "$folder"/wkt--0.9*
echo "CREATE FUNCTION wkt_next(text) RETURNS text LANGUAGE sql IMMUTABLE STRICT AS 'SELECT \$1';" > "$folder/wkt--1.0--1.1.sql"
# A database with the type, indexes on expressions, a generated column and an exclusion constraint.
ask postgres "create database source"
ask source "create extension wkt" "create table places (id int, at wkt(6) primary key)" \
    "insert into places select i, format('point ( %s.50 %s )', i % 180, i % 90)::wkt from generate_series(1, 180) i" \
    "create table texts (t text, key text generated always as (wkt_canonical(t)) stored)" \
    "create unique index on texts (wkt_canonical(t))" "create unique index on texts (sha256(wkt_canonical(t)::bytea))" \
    "insert into texts select format('point ( %s.50 %s )', i % 180, i % 90) from generate_series(1, 180) i" \
    "create table by_hash (at wkt, exclude using hash (at with =))" "insert into by_hash select at from places"
contents="select md5(string_agg(at::text, ',' order by id)) from places
    union all select md5(string_agg(key::text, ',' order by key)) || count(*) from texts
    union all select md5(string_agg(at::text, ',' order by at)) || count(*) from by_hash
    union all select string_agg(indexdef, ',' order by indexdef) from pg_indexes where schemaname = 'public'"
# restored FROM NAME VERSION: a dump of that database as a new one, whose extension has that version
restored() {
    ask postgres "create database $2"
    "$from/pg_dump" -Fc "$1" | "$from/pg_restore" --exit-on-error -d "$2" || wrong "$2: pg_restore fails"
    is "$2: the version" "$3" "$(ask "$2" "select extversion from pg_extension where extname = 'wkt'")"
    is "$2: the contents" "$(ask "$1" "$contents")" "$(ask "$2" "$contents")"
    fails "$2" "insert into places values (0, 'POINT(1.50 1.0)')" 'duplicate key value violates unique constraint'
}
restored source restored_same 1.0
sed -i "s/^default_version.*/default_version = '1.1'/" "$folder/wkt.control"
restored source restored_next 1.1
is "next version: its function" "POINT(1 2)" "$(ask restored_next "select wkt_next('POINT(1 2)')")"
ask source "alter extension wkt update"
is "source updated: the version" 1.1 "$(ask source "select extversion from pg_extension where extname = 'wkt'")"
is "source updated: the contents" "$(ask restored_next "$contents")" "$(ask source "$contents")"
sed -i "s/^default_version.*/default_version = '1.0'/" "$folder/wkt.control"
rm "$folder/wkt--1.0--1.1.sql"
echo "updates: dumped and restored, also into the next version$tried"
