#!/usr/bin/env bash
# The extension for PostgreSQL, in a server of its own: postgres.sh ROWS FOLDER-OF-libwkt.a
#
# A text with a NUL, or that is no UTF-8, is no text of the database, and is left out.
set -eu
. "$(dirname "$0")/../../../postgres/server.sh"
rows=$(cd "$(dirname "$1")" && pwd)/$(basename "$1")
library "$2"
start_server
"$bin/psql" -X -q -At -F $'\t' -v ON_ERROR_STOP=1 -f - << SQL
create extension wkt;
create function text_of(hex text) returns text language plpgsql as \$\$
    begin return convert_from(decode(hex, 'hex'), 'UTF8'); exception when others then return null; end \$\$;
-- The canonical text, or what the error says.
create function said(t text, places int, dialects text) returns text language plpgsql as \$\$
    declare detail text; hint text;
    begin return lower(wkt_canonical(t, places, dialects));
    exception when invalid_text_representation then
        get stacked diagnostics detail = pg_exception_detail, hint = pg_exception_hint;
        return '!' || lower(rtrim(replace(detail, 'At character ', ''), '.') || coalesce(nullif(' (' || rtrim(hint, '.') || ')', ' ()'), ''));
    end \$\$;
create function is_same(t text, o text, places int, dialects text) returns text language plpgsql as \$\$
    begin return left(wkt_same(t, o, places, dialects)::text, 1); exception when invalid_text_representation then return '!'; end \$\$;
create function is_value(t text, places int) returns text language plpgsql as \$\$
    declare key wkt;
    begin execute format('select %L::wkt(%s)', t, places) into key; return 't'; exception when invalid_text_representation then return 'f'; end \$\$;
create table given (n serial, places int, whole int, t text, o text, d text);
\\copy given (places, whole, t, o, d) from '$rows'
create table texts as select n - 1 n, places, whole = 1 whole, text_of(t) t, text_of(o) o, d from given;
select 'kind.wkt_kind', n, coalesce(wkt_kind(t), 'null') from texts where t is not null;
select 'srid.wkt_srid', n, coalesce(wkt_srid(t)::text, 'null') from texts where t is not null;
delete from texts where t is null or not whole;
select 'said.wkt_canonical', n, said(t, places, d) from texts;
-- The type has 18 places at most, and also takes what fewer places read.
create table held as select n, wkt_or_null(t, places, d) v, wkt_reads(t, places, d) reads, d from texts where places <= 18;
select 'held.wkt_or_null', n, left((v is not null and reads)::text, 1) from held;
select 'value.wkt_or_null', n, coalesce(case when reads then v end::text, 'null') from held;
select 'taken.wkt_or_null', n, left((v is not null)::text, 1) from held where d = '';
select 'held.wkt_reads', n, left(wkt_reads(t, places, d)::text, 1) from texts;
select 'held.wkt_explain', n, left((wkt_explain(t, places, d) is null)::text, 1) from texts;
select 'cast.literal', n, is_value(t, places) from texts where places <= 18;
select 'same.wkt_same', n, is_same(t, o, places, d) from texts where o is not null;
SQL
