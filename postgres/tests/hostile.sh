# Sourced by test.sh: what a role without rights may ask of each function, and what it may put in front of them.
ask postgres "create role stranger login" "create database open"
ask open "create extension wkt" "grant create on database open to stranger"
stranger() { PGUSER=stranger ask open "$@"; }

# Each function with each of the odd arguments: an answer, or an error that is about them.
odd="create function odd(type regtype) returns text[] language sql as \$\$ select case type
    when 'text'::regtype then array['null', quote_literal(''), quote_literal('point ( 1.50 2 )'), quote_literal('POINT(1'), 'U&''P\\00D6INT(1 2)''', 'chr(1114111)', 'repeat(''('', 100000)',
        '''POINT('' || repeat(''9'', 100000) || '' 1)''', '''POINT(0.'' || repeat(''0'', 100000) || '' 1)''', 'repeat('' '', 100000) || ''point empty''', 'repeat(''GEOMETRYCOLLECTION('', 10000)',
        quote_literal('ewkt,exponents'), quote_literal('SRID=999999999;point(1e37 1 nan)'), '''SRID='' || repeat(''1'', 100000) || '';''', 'repeat(''nan,'', 100000)',
        'E''POINT(1 2)\\n\\t\\x01''', '''LINESTRING('' || repeat(''1 2,'', 300000) || ''3)''']
    when 'wkt'::regtype then array['null', '''POINT EMPTY''', '''MULTIPOINT Z(1 2 3,EMPTY)''', '''POINT M(-0.000000000000000001 170141183460469231731 0)''', '''POLYGON((0 0,4 0,2 4,0 0),EMPTY)''',
        '(repeat(''GEOMETRYCOLLECTION('', 1000) || ''MULTIPOLYGON EMPTY'' || repeat('')'', 1000))::wkt', '(''LINESTRING('' || repeat(''1 2,'', 300000) || ''3 4)'')::wkt']
    when 'int'::regtype then array['null', '(-2147483648)', '(-1)', '0', '1', '18', '19', '36', '37', '256', '2147483647']
    when 'bigint'::regtype then array['null', '(-9223372036854775808)', '9223372036854775807']
    when 'bool'::regtype then array['null', 'true', 'false'] when 'oid'::regtype then array['0', '4294967295']
    when 'cstring'::regtype then array['null', '''POINT(1 2)''', '''''', '''POINT(''']
    when 'cstring[]'::regtype then array['null', '''{}''', '''{NULL}''', '''{6}''', '''{6,7}''', '''{{1},{2}}''', '''[5:5]={6}''', '''{x}''', '''{-1}''', '''{99999999999}'''] end \$\$"
# Those that take what only the server can give are left out.
calls="select format('select %s(%s)', p.oid::regproc, concat_ws(', ', a.v || '::' || type[0]::regtype, b.v || '::' || type[1]::regtype, c.v || '::' || type[2]::regtype, d.v || '::' || type[3]::regtype))
    from pg_proc p join pg_depend on classid = 'pg_proc'::regclass and objid = p.oid and deptype = 'e' join pg_extension e on e.oid = refobjid and extname = 'wkt',
        lateral (select proargtypes::oid[] as type) t, unnest(coalesce(odd(type[0]), '{null}')) a(v), unnest(coalesce(odd(type[1]), '{null}')) b(v), unnest(coalesce(odd(type[2]), '{null}')) c(v), unnest(coalesce(odd(type[3]), '{null}')) d(v)
    where pronargs between 1 and 4 and 'internal'::regtype <> all (type) and (d.v is null or d.v = quote_literal('ewkt,exponents'))
        and (type[2] is distinct from 'text'::regtype or c.v ~ 'ewkt|nan|chr|null')"
stranger "create schema tried" "set search_path = tried, public" "$odd" "create table calls as $calls" \
    "create function answered(call text) returns text language plpgsql as \$\$ begin execute call; return 'answered'; exception when others then return sqlstate || ' ' || sqlerrm; end \$\$" \
    "create table answers as select answered(format) as said, count(*) as n, min(format) as call from calls group by 1"
# 22P02: a text that is refused; 22023: places; 22003, 22004, 2202E, 22P02: an array that is no modifier
is "hostile: other errors" "" "$(ask open "select said, call from tried.answers where said <> 'answered' and left(said, 5) not in ('22P02', '22023', '22003', '22004', '2202E') limit 5")"
tried=$(ask open "select sum(n) from tried.answers" "select sum(n) from tried.answers where said = 'answered'" | paste -sd ' ')
[ "${tried% *}" -gt 3000 ] && [ "${tried#* }" -gt 1000 ] || wrong "hostile: only $tried calls were made"

# Functions and operators of every name of the server's, in front of it, are called by none of the extension's.
stranger "create schema front" "create function front.taken() returns bool language plpgsql as \$\$ begin alter role stranger superuser; return true; exception when insufficient_privilege then raise 'taken'; end \$\$" \
    "do \$\$ declare name text; type text; begin
        for name, type in select distinct p.proname, format_type(proargtypes[0], null) from pg_proc p where pronamespace = 'pg_catalog'::regnamespace and pronargs > 0
            and proargtypes[0] in ('text'::regtype, 'bytea'::regtype, 'name'::regtype, 'int'::regtype, 'numeric'::regtype, 'anyelement'::regtype, 'anyarray'::regtype) loop
            begin execute format('create function front.%I(%s) returns bool language sql as ''select front.taken()''', name, type); exception when others then null; end;
        end loop;
        foreach type in array '{text,bytea,numeric,int,public.wkt}'::text[] loop
            execute format('create function front.lie(%s, %1\$s) returns bool language sql as ''select front.taken()''', type);
            foreach name in array '{=,<>,<,<=,>,>=}'::text[] loop execute format('create operator front.%s (leftarg = %s, rightarg = %2\$s, function = front.lie)', name, type); end loop;
        end loop; end \$\$" "create operator front.|| (leftarg = public.wkt, rightarg = public.wkt, function = front.lie)"
PGUSER=stranger fails open "set search_path = front, pg_catalog; select sha256('x'::bytea)" "taken"
PGUSER=stranger fails open "set search_path = front, pg_catalog; select 'POINT(1 2)'::public.wkt = 'POINT(1 2)'" "taken"
ask open "create table kept (at wkt primary key, key text generated always as (wkt_canonical(at::text)) stored, digest bytea generated always as (wkt_digest(at)) stored unique)" \
    "create function called(text) returns text security definer language plpgsql as \$\$ begin insert into public.kept values (\$1::public.wkt) on conflict do nothing;
        return (select pg_catalog.concat_ws(' ', max_x, public.wkt_num_points(at), public.wkt_same(key, \$1), public.wkt_kind(at), (public.wkt_read(\$1)).place, public.wkt_explain(\$1), public.wkt_srid('SRID=4326;' || \$1),
                public.wkt_same(key, public.wkt_canonical('SRID=1;' || \$1, 18, 'ewkt'), 18, 'nan'), public.wkt_box(at), (select pg_catalog.min(p.y) from public.wkt_points_float8(at) p), public.wkt_x('POINT(7 8)'))
            from public.kept, public.wkt_bounds(at) order by at limit 1); end \$\$" "create index on kept using hash (at)" "create index on kept using spgist (public.wkt_box(at))"
is "hostile: functions in front" "2.5 2 t LINESTRING 4326 t (2.5,3),(1,2) 2 7" "$(stranger "set search_path = front, pg_catalog" "select public.called('linestring ( 1 2, 2.50 3)')")"
is "hostile: a lying operator" "2 2 1" "$(ask open "insert into kept values ('POINT(1 2)')" "grant select on kept to stranger" "set role stranger" "set search_path = front, pg_catalog" \
    "select pg_catalog.count(distinct at), pg_catalog.count(*), (select pg_catalog.count(*) from public.kept where at operator(public.=) 'point(1.0 2)') from public.kept" | tr '|' ' ')"
is "hostile: is no superuser" f "$(ask open "select rolsuper from pg_roles where rolname = 'stranger'")"

# Behind a view that hides rows a text isn't quoted by an error; comparisons, which quote nothing, may use the index.
ask open "create table secrets (who text, t text, at wkt)" "insert into secrets values ('stranger', 'POINT(1 2)', 'POINT(1 2)'), ('another', 'secret', 'POINT(5 6)')" \
    "insert into secrets select 'another', 'secret', format('POINT(%s 7)', i)::wkt from generate_series(1, 1000) i" "create index on secrets (at)" "analyze secrets" \
    "create view seen with (security_barrier) as select * from secrets where who = current_user" "grant select on seen to stranger"
is "hostile: a view" "POINT(1 2)" "$(stranger "select wkt_canonical(t) from seen where wkt_canonical(t) <> '' and wkt_same(t, 'POINT(1 2)') and t::wkt = at")"
[[ $(stranger "explain select * from seen where at = 'POINT(5 6)'") == *"Index Cond: (at = "* ]] || wrong "hostile: a comparison behind a view uses no index"
for sql in "drop function wkt_canonical(text, int, text)" "alter type wkt rename to other" "create cast (bytea as wkt) without function" "create function mine(text) returns text as '\$libdir/wkt', 'pg_wkt_out' language c" \
    "create type mine" "alter operator family wkt_ops using btree add function 1 (wkt, text) btint4cmp(int, int)"; do
    said=$(stranger "$sql" 2>&1) && [[ $sql == "create type mine" ]] || [[ $said == *"must be"* || $said == *"denied"* ]] || wrong "hostile: $sql: $said"
done
# Where memory runs out amid a call its session goes on, also if the canonical text is many times as long as its text.
if [ -z "${SANITIZED:-}" ] && as prlimit > /dev/null; then
    limit=prlimit
    [ "$(id -u)" != 0 ] || limit="setpriv --reuid postgres --regid postgres --clear-groups prlimit"
    for mb in 30 60 120 200 300 500 1000 2000; do
        printf '%s\n' "select pg_backend_pid() as pid \\gset" "\\setenv PID :pid" "\\! $limit --pid \$PID --as=\$((\$(sed -n 's/^VmSize:[^0-9]*\([0-9]*\) kB/\1/p' /proc/\$PID/status) * 1024 + $mb * 1048576)):" \
            "select length(wkt_canonical('SRID=1;LINESTRING(' || repeat('1e37 2,', 1000000) || '3 4)', 0, 'srid,exponents'));" "\\! $limit --pid \$PID --as=unlimited:" \
            "select wkt_canonical('SRID=1;point(1e1 2)', 0, 'srid,exponents');" | "$bin/psql" -X -q -At -d open 2>&1 | paste -sd ' '
    done > "$dir/said"
    is "hostile: other answers where memory runs out" "" "$(grep -vxE '(41000015|ERROR: +out of memory( DETAIL: .*)?) POINT\(10 2\)' "$dir/said")"
    is "hostile: with memory and without" "2" "$(sed 's/ .*//' "$dir/said" | sort -u | wc -l)"
fi
is "hostile: the server goes on" "POINT(1 2)" "$(ask open "select wkt_canonical('point(1 2)')")"
ask postgres "drop database open" "drop role stranger"
echo "hostile: ${tried% *} calls with odd arguments, ${tried#* } of them answered"
