# Sourced by test.sh: whatever a column holds, its dump can be restored; and a text is answered alike by each way in.
large='POINT(200000000000000000000 2)'
most='POINT(170141183460469231731 2)'
gcc -O2 -Wall -Wextra -Werror -I"$("$config" --includedir)" "$here/tests/params.c" -L"$("$config" --libdir)" -lpq -o "$dir/params"
ask postgres "create database dumped"
ask dumped "create extension wkt" "create table plain (at wkt)" "create table six (at wkt(6))" "create table texts (t text)" \
    "create table arrays (at wkt[], six wkt(6)[])" "create domain place as wkt(6)" "create table domains (at place, row plain)" \
    "create table parted (at wkt(6)) partition by list (at)" "create table ranged (at wkt) partition by range (at)" \
    "create table others partition of parted default" "create table other_ranges partition of ranged default"

# sent WAY TEXT: what a column wkt(6) says of the text by that way: its key, or its error
sent() {
    case $1 in
        literal) ask dumped "insert into six values ('$2') returning at" ;;
        text) ask dumped "insert into six values (('$2'::text)::wkt(6)) returning at" ;;
        COPY) ask dumped "create temp table t (at wkt(6))" "copy t from stdin" "table t" <<< "$2" ;;
        "binary COPY") ask dumped "copy (select '$2'::text) to '$dir/base/copied' (format binary)" "create temp table t (at wkt(6))" \
            "copy t from '$dir/base/copied' (format binary)" "table t" ;;
        array) ask dumped "select ('{\"$2\"}'::text::wkt(6)[])[1]" ;;
        "parameter in text") PGDATABASE=dumped "$dir/params" 0 'insert into six values ($1) returning at' "$2" ;;
        "parameter in binary") PGDATABASE=dumped "$dir/params" 1 'insert into six values ($1) returning at' "$2" ;;
        "text in binary") PGDATABASE=dumped "$dir/params" 1 'insert into six values ($1::wkt(6)) returning at' "$2" 25 ;;
        bind) printf 'insert into six values ($1) returning at \\bind :text \\g\n' | "$bin/psql" -X -q -At -d dumped -v text="$2" ;;
    esac 2>&1
}
ways=(literal text COPY "binary COPY" array "parameter in text" "parameter in binary" "text in binary")
[ "$("$bin/psql" --version | sed 's/[^0-9]*\([0-9]*\).*/\1/')" -lt 16 ] || ways+=(bind)
for way in "${ways[@]}"; do
    is "dump: $way" "POINT(1 2.5)" "$(sent "$way" 'point ( 1.0 +2.50 )')"
    is "dump: $way, the largest" "$most" "$(sent "$way" "$most")"
    is "dump: $way, a larger one" "$large" "$(sent "$way" "$large")"
    for text in "POINT(170141183460469231731687303715884.123456 2)" "POINT(1.1234567 2)"; do
        said=$(sent "$way" "$text") || true
        [[ $said == *'invalid well-known text: "'* ]] || wrong "dump: $way: $text: $said"
    done
done

# Each of these leaves something that can be restored, or is refused.
for sql in "plain values (('$large'::text)::wkt(6))" "plain select ('$large'::text)::wkt(6) union all select 'POINT(1 2)'" \
    "arrays values (array[('$large'::text)::wkt(6)], null)" "arrays values (null, '{\"$large\"}')" \
    "arrays values (array[array['POINT(1 2)', 'POINT EMPTY']::wkt[]], array['point(1 2.0)', null]::wkt(6)[])" \
    "domains values ('$large'::text::place, row('POINT(1 2)'::wkt))" "domains values ('point(1 2.0)', row('$large'::text::wkt(6)))" \
    "parted values ('$large'::text::wkt(6))" "parted values ('$most')"; do
    ask dumped "insert into $sql" > "$dir/said" 2>&1 || grep -q 'invalid well-known text: "' "$dir/said" || wrong "dump: $sql: $(cat "$dir/said")"
done
for sql in "parted for values in ('${large/2/3}'::text::wkt(6))" "ranged for values from (minvalue) to ('$large'::text::wkt(6))" "parted for values in ('point(1 2.0)', null)"; do
    ask dumped "create table part_$((parts = ${parts:-0} + 1)) partition of $sql" > "$dir/said" 2>&1 ||
        grep -q 'invalid well-known text: "' "$dir/said" || wrong "dump: $sql: $(cat "$dir/said")"
done
contents="select md5(string_agg(t::text, ',' order by t::text)) from (select 'plain', at::text from plain union all select 'six', at::text from six
    union all select 'arrays', (at, six)::text from arrays union all select 'domains', (at, row)::text from domains
    union all select tableoid::regclass::text, at::text from parted) t"
ask postgres "create database undumped"
"$from/pg_dump" -Fc dumped | "$from/pg_restore" --exit-on-error -d undumped || wrong "dump: pg_restore fails"
is "dump: the contents" "$(ask dumped "$contents")" "$(ask undumped "$contents")"
is "dump: the partitions" "$(ask dumped "select string_agg(pg_get_expr(relpartbound, oid), ',' order by oid) from pg_class where relispartition")" \
    "$(ask undumped "select string_agg(pg_get_expr(relpartbound, oid), ',' order by oid) from pg_class where relispartition")"
for modifier in 19 261 300 2147483647; do
    fails dumped "select wkt_in('POINT(1 2)', 0, $modifier)" "places must be between 0 and 18"
    fails dumped "select wkt('POINT(1 2)'::text, $modifier, false)" "places must be between 0 and 18"
done
echo "dump: ${#ways[@]} ways in, dumped and restored"
