# Sourced by test.sh and postgis.sh: the owner of a database, who is no superuser, creates the extensions in a schema of his
# that has functions and operators of every name in their scripts. None is run by a superuser, or named by what they make.
#
# Without PostGIS, which test.sh leaves alone, a type over text stands for it.
folder=$dir$share/extension
if [ -z "${with_postgis:-}" ]; then
    rm -f "$folder"/postgis{.control,--*}
    echo "default_version = '1'" > "$folder/postgis.control"
    cat > "$folder/postgis--1.sql" <<'SQL'
CREATE TYPE geometry;
CREATE FUNCTION geometry_in(cstring) RETURNS geometry AS 'textin' LANGUAGE internal IMMUTABLE STRICT;
CREATE FUNCTION geometry_out(geometry) RETURNS cstring AS 'textout' LANGUAGE internal IMMUTABLE STRICT;
CREATE TYPE geometry (INPUT = geometry_in, OUTPUT = geometry_out, LIKE = text);
CREATE CAST (geometry AS text) WITHOUT FUNCTION;
CREATE CAST (text AS geometry) WITHOUT FUNCTION AS IMPLICIT;
CREATE FUNCTION ST_AsText(geometry, int DEFAULT 15) RETURNS text LANGUAGE sql IMMUTABLE STRICT RETURN $1::text;
CREATE FUNCTION ST_GeomFromText(text) RETURNS geometry LANGUAGE sql IMMUTABLE STRICT RETURN $1::geometry;
SQL
fi
ask postgres "create role tenant login" "create database rented owner tenant"
ask rented "create extension postgis"
tenant() { PGUSER=tenant ask rented "$@"; }
# Whoever runs one of these as a superuser makes the tenant one, and says so, since an error would undo that. Their arguments
# fit better than those of the server's own.
names=$(cat "$folder"/wkt*--*.sql | grep -oE '[A-Za-z_][A-Za-z_0-9]*' | tr A-Z a-z | sort -u | paste -sd ,)
tenant "create schema m" "create function m.taken() returns text language plpgsql as
        \$\$ begin alter role tenant superuser; raise warning 'taken over'; return 'POINT(6 6)'; exception when insufficient_privilege then return 'POINT(6 6)'; end \$\$" \
    "do \$\$ declare name text; args text; begin
        foreach name in array string_to_array('$names', ',') loop
            foreach args in array '{\"\",name,text,oid,regnamespace,anyelement,anyarray,\"text,text\",\"name,name\",\"text,text[]\",\"text,variadic text[]\",
                \"anyelement,anyelement\",public.geometry,\"public.geometry,int\"}'::text[] loop
                -- but for what the script itself makes, which it would refuse to make
                continue when name like 'wkt%' and args not in ('name', 'anyelement') and (args <> 'text' or name not in ('wkt_canonical', 'wkt_or_null', 'wkt_reads', 'wkt_explain'));
                begin
                    execute format('create function m.%I(%s) returns %s language plpgsql as %L', name, args,
                        case name when 'st_geomfromtext' then 'public.geometry' else 'text' end, 'begin return m.taken(); end');
                exception when duplicate_function or invalid_function_definition then null;
                end;
            end loop;
        end loop;
        foreach args in array '{name,text,oid,anyelement}'::text[] loop
            execute format('create function m.op(%s, %1\$s) returns bool language plpgsql as \$op\$ begin return m.taken() is not null; end \$op\$', args);
            foreach name in array '{=,<>,<,<=,>,>=}'::text[] loop
                execute format('create operator m.%s (leftarg = %s, rightarg = %2\$s, function = m.op)', name, args);
            end loop;
        end loop; end \$\$"
# What an object of the extensions names that is neither theirs nor PostGIS's nor the server's.
strangers="with member as (select * from pg_depend where deptype = 'e')
    select pg_describe_object(d.classid, d.objid, 0) || ' names ' || pg_describe_object(d.refclassid, d.refobjid, 0)
    from pg_depend d join member m using (classid, objid) join pg_extension e on e.oid = m.refobjid and extname in ('wkt', 'wkt_postgis')
    where d.refclassid not in ('pg_extension'::regclass, 'pg_namespace'::regclass)
        and not exists (select from member r where r.classid = d.refclassid and r.objid = d.refobjid)"
# The extensions' functions that no comment describes, or that may not run in parallel.
bare="select p.oid::regprocedure from pg_proc p join pg_depend d on classid = 'pg_proc'::regclass and objid = p.oid and deptype = 'e'
    join pg_extension e on e.oid = refobjid and extname in ('wkt', 'wkt_postgis') where proparallel <> 's' or obj_description(p.oid, 'pg_proc') is null order by 1"
# used SCHEMA-OF-wkt SCHEMA-OF-wkt_postgis: a superuser uses what is there
used() {
    PGOPTIONS="-c search_path=m,pg_catalog -c client_min_messages=warning" ask rented "drop table if exists public.held" "create table public.held (at $1.wkt primary key, g public.geometry)" "insert into public.held values ('point(1 2.0)', 'POINT(1 2)')" \
        "select g::$1.wkt operator($1.=) at, g::$1.wkt::public.geometry::$1.wkt operator($1.=) at, $2.wkt_or_null(g) operator($1.=) at from public.held order by at" "drop table public.held" 2>&1
}
for version in $(ask rented "select version from pg_available_extension_versions where name = 'wkt'"); do
    is "tenant: $version: created" "" "$(tenant "set search_path = m, pg_catalog" "create extension wkt version '$version' schema m" "create table m.kept (at m.wkt, \"At\" m.wkt[])" \
        "alter extension wkt update" "create extension wkt_postgis schema m" 2>&1 | grep -v 'already installed$')"
    is "tenant: $version: the casts" "t|t|t" "$(used m m)"
    is "tenant: $version: what is named" "" "$(ask rented "$strangers")"
    is "tenant: $version: functions without a comment, or not parallel safe" "" "$(ask rented "$bare")"
    is "tenant: $version: is no superuser" f "$(ask rented "select rolsuper from pg_roles where rolname = 'tenant'")"
    ask rented "drop extension wkt cascade" "drop table if exists m.kept" "alter role tenant nosuperuser" 2> /dev/null
done
PGUSER=tenant fails rented "create extension wkt version '0.14' schema m" "has no installation script"
PGUSER=tenant fails rented "create event trigger seen on ddl_command_end execute function m.taken()" "permission denied to create event trigger"
# Schemas whose names have to be quoted. The server lets no script of wkt's sort have a schema with a quote.
tenant 'create schema "Big Place"' "create schema \"it's \"\"here\"" 'create extension wkt schema "Big Place"' "create extension wkt_postgis schema \"it's \"\"here\""
is "tenant: quoted schemas" "t|t|t" "$(used '"Big Place"' "\"it's \"\"here\"")"
PGUSER=tenant fails rented "set search_path = \"Big Place\", \"it's \"\"here\"; select wkt('POINT(1 2)'::text)" 'function wkt(text) does not exist'
PGUSER=tenant fails rented 'alter extension wkt set schema m' 'does not support SET SCHEMA'
PGUSER=tenant fails rented 'drop function "Big Place".wkt_canonical(text, int, text)' 'requires it'
PGUSER=tenant fails rented "create or replace function \"Big Place\".wkt_canonical(text, places int default 18, dialect text default '') returns text language sql return ''" 'must be owner of function'
tenant "drop extension wkt_postgis" "drop extension wkt"
PGUSER=tenant fails rented "create extension wkt schema \"it's \"\"here\"" 'must not contain any of'
ask postgres "drop database rented" "drop role tenant"
echo "tenant: $(tr , '\n' <<< "$names" | wc -l) names of the scripts, taken by the owner of a schema, give nothing away"
