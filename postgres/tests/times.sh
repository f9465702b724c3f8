# Sourced by test.sh: how long calls take, and what wkt_same keeps from row to row.

# cancel: a cancel, or a timeout, that comes amid a call of the library on some 100 MB ends it. The fifth shape takes longest.
# Three texts of digits have 600 MB; that of the digest is of another type, so that nothing else takes time.
ask postgres "create database cancel"
ask cancel "create extension wkt" "create table long (id int, t text)" "alter table long alter t set storage external" "insert into long
    select 1, 'LINESTRING(' || repeat('12.345678 34.567891,', 5000000) || '0 0)' union all
    select 2, 'LINESTRING(' || repeat('0 0,', 25000000) || '0 0)' union all
    select 5, 'LINESTRING(' || repeat('.1 .1,', 16000000) || '0 0)' union all
    select 6, 'LINESTRING(1e0 1,' || repeat('.1 .1,', 16000000) || '0 0)' union all
    select 7, 'LINESTRING(' || repeat('.1 .1,', 16000000) || '0 1e0)'"
ask cancel "create function digest_of(text) returns bytea as '\$libdir/wkt', 'pg_wkt_digest' language c strict"
ask postgres "create database latin encoding 'LATIN1' template template0 locale 'C'"
ask latin "create extension wkt"
# processor PID: milliseconds of it that the process has taken
processor() { awk -v hz="$(getconf CLK_TCK)" '{ print int(($14 + $15) * 1000 / hz) }' "/proc/$1/stat"; }
# session SQL..: what one session, of the database $on, prints is in $dir/said, in the end with its ticks of the processor and its
# memory; before the last of the SQL its process is in $dir/pid.
session() {
    { printf '%s\n' "select pg_backend_pid() as pid \\gset" "\\setenv PID :pid"
        printf '%s;\n' "${@:1:$#-1}"
        printf '%s\n' "\\! echo \$PID > '$dir/pid'" "${*: -1};" "\\! awk '{ print \"ticks\", \$14 + \$15 }' /proc/\$PID/stat; grep RssAnon /proc/\$PID/status"
    } | "$bin/psql" -X -q -At -d "${on:-cancel}" > "$dir/said" 2>&1 || true
}
# meanwhile MS STATEMENT SQL: once the SQL has taken so much of the processor another session says the statement, of the process
# :pid, which may have ended by then. It prints how much the SQL takes from when that is said.
meanwhile() {
    local pid begin at
    rm -f "$dir/pid" "$dir/at"
    session "$3" &
    until [ -s "$dir/pid" ]; do
        kill -0 $! 2> /dev/null || return 0
        sleep 0.01
    done
    pid=$(cat "$dir/pid")
    begin=$(processor "$pid")
    while at=$(processor "$pid" 2> /dev/null) && [ $((at - begin)) -lt "$1" ]; do sleep 0.01; done
    ask cancel "\\! awk '{ print \$14 + \$15 }' /proc/$pid/stat > '$dir/at'" "${2//:pid/$pid}" > /dev/null 2>&1 || true
    wait $!
    awk -v hz="$(getconf CLK_TCK)" -v at="$(cat "$dir/at")" '$1 == "ticks" { print int(($2 - at) * 1000 / hz) }' "$dir/said"
}
# amid MS STATEMENT SQL WORDS: the same, earlier where the machine is faster, until the SQL ends with the words. `after` is how
# much it took from then on.
amid() {
    local ms=$1
    while after=$(meanwhile "$ms" "$2" "$3") && ! grep -q "$4" "$dir/said" && [ "$ms" -gt 20 ]; do ms=$((ms / 2)); done
    grep -q "$4" "$dir/said" || wrong "cancel: $3: $(head -c 200 "$dir/said")"
    [ -z "${VERBOSE:-}" ] || echo "$3: ${after:-no} ms of the processor after ${2%%(*} at $ms ms"
}
most=0 allowed=600
# The sanitizers look at each byte that the server copies, and at what the library gives back.
[ -z "${SANITIZED:-}" ] || allowed=3000
server=$(ask cancel "show server_version_num")
# cancelled DATABASE MS SQL: a cancel ends it once it has taken so much of the processor; of three tries the first that ends soon
# counts, since on a busy machine one may take longer
cancelled() {
    local on=$1 sql=$3
    for _ in 1 2 3; do
        amid "$2" "select pg_cancel_backend(:pid)" "select $sql" 'canceling statement due to user request'
        [ "${after:-0}" -gt "$allowed" ] || break
    done
    [ "${after:-0}" -le "$allowed" ] || wrong "cancel: $sql takes $after ms of the processor after a cancel"
    [ "${after:-0}" -le "$most" ] || most=$after which=$sql
}
while read -r ms sql; do cancelled cancel "$ms" "$sql"; done <<'CALLS'
300 length(wkt_canonical(t)) from long where id = 1
600 length(wkt_canonical(t)) from long where id = 5
600 wkt_reads(t) from long where id = 5
600 length(wkt_or_null(t)) from long where id = 5
600 length(t::wkt(6)) from long where id = 5
600 wkt_same(t, t || ' ') from long where id = 5
600 wkt_same(t, 'POINT(1 2)') from long where id = 5
400 wkt_explain(t || ',') from long where id = 2
1400 wkt_explain(t || ',') from long where id = 2
1800 (wkt_read(t || ',')).hint from long where id = 2
1200 count(*) from long, wkt_points(t::wkt) where id = 2
1300 wkt_num_points(t::wkt) from long where id = 2
1200 count(*) from long, wkt_points_float8(t::wkt) where id = 2
1300 wkt_box(t::wkt) from long where id = 2
1100 count(*) from long, wkt_each(t::wkt) where id = 2
1200 wkt_kind(repeat(repeat('9', 1000000), 600))
2700 repeat(repeat('9', 1000000), 600)::wkt
200 wkt_reads(t, 18, 'exponents') from long where id = 6
600 wkt_reads(t, 18, 'exponents') from long where id = 7
1800 length(wkt_canonical(t, 18, 'ewkt,exponents')) from long where id = 7
1500 wkt_same(t, t || ' ', 18, 'exponents') from long where id = 7
1500 wkt_explain(t || ',', 18, 'ewkt,exponents') from long where id = 6
200 wkt_srid(repeat(repeat(' ', 1000000), 600) || 'SRID=1;')
CALLS
# These are no constants: the planner copies those, and no cancel ends that. Before 14 the digest is one call of the server's.
[ "$server" -lt 140000 ] || cancelled cancel 800 "digest_of(repeat(repeat('9', 1000000), id)) from generate_series(600, 600) id"
cancelled cancel 600 "wkt_reads('', 18, repeat(repeat('nan,', 100000), id)) from generate_series(1000, 1000) id"
cancelled latin 1300 "wkt_reads(repeat(repeat('9', 1000000), id) || chr(228)) from generate_series(600, 600) id"
echo "cancel: calls on some 100 MB take at most $most ms of the processor after a cancel ($which)"
# A session goes on after timeouts, which come earlier where the machine is faster, and has given their memory back.
for ms in 700 350 170 80 40; do
    session "set statement_timeout = $ms" "select wkt_canonical(t) from long where id = 5" "select wkt_reads(t) from long where id = 5" \
        "select wkt_same(t, t || ' ') from long where id = 5" "set statement_timeout = 0" "select wkt_canonical('point(1 2.0)')"
    said="$(grep -c 'canceling statement due to statement timeout' "$dir/said") $(grep '^POINT' "$dir/said")"
    [ "$said" != "3 POINT(1 2)" ] || break
done
is "cancel: by timeouts" "3 POINT(1 2)" "$said"
[ "$(sed -n 's/^RssAnon:[^0-9]*\([0-9]*\) kB/\1/p' "$dir/said")" -lt 100000 ] || wrong "cancel: memory is kept: $(grep RssAnon "$dir/said")"
# An interrupt that is no error, as that of pg_log_backend_memory_contexts of 14 and later: the answer is the same.
if [ "$server" -ge 140000 ]; then
    meanwhile 600 "select pg_log_backend_memory_contexts(:pid)" "select md5(wkt_canonical(t)) from long where id = 5" > /dev/null
    is "cancel: an interrupt that is no error" "$(ask cancel "select md5(replace(t, '.1', '0.1')) from long where id = 5")" "$(head -n 1 "$dir/said")"
fi
amid 600 "select pg_terminate_backend(:pid)" "select wkt_canonical(t) from long where id = 5" 'terminating connection due to administrator command'
is "cancel: the server goes on" "POINT(1 2)" "$(ask cancel "select wkt_canonical('point(1 2)')")"
ask postgres "drop database cancel" "drop database latin"

# same: wkt_same reads a text that stays the same from row to row once.
ask postgres "create database same"
ask same "create extension wkt" "create table long (t text)" "alter table long alter t set storage external" \
    "insert into long select 'LINESTRING(' || repeat('12.345678 34.567891,', 100000) || '0 0)'" \
    "create table short as select format('point(%s.0 1)', i % 10) t from generate_series(1, 200) i" "analyze"
# cpu SQL: milliseconds of the server's processor that the statement takes; its answer is in $dir/said
cpu() {
    printf '%s\n' "select pg_backend_pid() as pid \\gset" "\\setenv PID :pid" "\\! awk '{ print \"cpu\", \$14 + \$15 }' /proc/\$PID/stat" "$1;" \
        "\\! awk '{ print \"cpu\", \$14 + \$15 }' /proc/\$PID/stat" | "$bin/psql" -X -q -At -d same > "$dir/said"
    awk -v hz="$(getconf CLK_TCK)" '$1 == "cpu" { before = after; after = $2 } END { print int((after - before) * 1000 / hz) }' "$dir/said"
}
# Both are measured again where a busy machine slows one of them down.
for call in "wkt_same(t, (select t from long))" "wkt_same((select t from long), t)"; do
    for _ in 1 2 3; do
        each=$(cpu "select count(*) from short, long where wkt_reads(long.t || short.t)")
        once=$(cpu "select count(*) from short where $call")
        [ $((once * 3)) -ge "$each" ] || break
    done
    [ -n "${SANITIZED:-}" ] || [ $((once * 3)) -lt "$each" ] || wrong "same: $call of 200 rows takes $once ms, and $each ms where each row's is read"
    is "same: $call" 0 "$(grep -v cpu "$dir/said")"
done
is "same: a constant" 20 "$(ask same "select count(*) from short where wkt_same(t, 'POINT ( 3 1.0 )')")"
is "same: refused" f "$(ask same "select bool_or(wkt_same(t, 'POINT(1)')) from short" 2> /dev/null || echo f)"
fails same "select wkt_same(t, 'POINT(1)') from short" 'invalid well-known text: "POINT(1)"'
fails same "select wkt_same('POINT(1', 'POINT(2') from short" 'invalid well-known text: "POINT(1"'
# A parameter, a variable and places that change from call to call.
is "same: a variable that changes" "10 2000" "$(ask same "do \$\$ declare found int := 0; begin
        for i in 0..9 loop if wkt_same('POINT(' || i || ' 1)', 'POINT(3 1)') or wkt_same('POINT(3 1)', format('POINT(%s 1)', i)) then found := found + 1; end if; end loop;
        if found <> 1 then raise 'found %', found; end if; end \$\$" "prepare found(text) as select count(*) from short where wkt_same(t, \$1)" \
    "create table counts (n int, of text)" "set plan_cache_mode = force_generic_plan" "create function found(given text) returns bigint language plpgsql as
        \$\$ begin return (select count(*) from short where wkt_same(t, given)); end \$\$" \
    "select count(distinct i), sum(n) * 10 from (select i, found(format('POINT(%s 1)', i)) n from generate_series(0, 9) i) a where n = 20" | tr '|' ' ')"
is "same: outer rows that change" 200 "$(ask same "set enable_hashjoin = off" "select count(*) from (select distinct t from short) a cross join lateral (select count(*) from short b where wkt_same(a.t, b.t)) c(n), generate_series(1, 20) where n = 20")"
is "same: long ones that change" "400 1" "$(ask same "select count(*) from (select t, 'LINESTRING(' || repeat('0 0,', i) || '0 0)' as l, i from (select distinct t from short) s, generate_series(70, 109) i) a
        where wkt_same(l, 'LINESTRING(' || repeat('0 0, ', i) || '0 0)')" "select count(*) from generate_series(0, 9) i where wkt_same((select 'LINESTRING(' || repeat('1 1,', 100) || '3 1)'), 'LINESTRING(' || repeat('1 1 , ', 100) || i || ' 1)')" | paste -sd ' ')"
fails same "select wkt_same('POINT(1.5 2)', 'POINT(1.5 2)', p) from generate_series(2, 0, -1) p" "invalid well-known text"
is "same: places that change" 3 "$(ask same "select count(*) from generate_series(3, 1, -1) p where wkt_same('POINT(1.5 2)', 'POINT(1.50 2)', p)")"
echo "same: 200 rows beside a constant of 2 MB take $once ms, and $each ms read each"
