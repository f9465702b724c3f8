-- A database in LATIN1: places are characters, and wkt_explain gives them back
CREATE DATABASE wkt_latin1 ENCODING 'LATIN1' LOCALE 'C' TEMPLATE template0;
\c wkt_latin1
\encoding UTF8
CREATE EXTENSION wkt;
SELECT wkt_canonical('point(1 2.0)'), 'point(1 2.0)'::wkt, wkt_same('POINT(1 2)', 'point(1 2)');
SELECT octet_length(U&'P\00D6INT'), wkt_reads(U&'P\00D6INT(1 2)'), wkt_kind(U&'POINT(1 2) \00D6') AS kind;
SELECT wkt_box('linestring(1 2.5,3 4)'), wkt_x('POINT(0.1 2)'), wkt_or_null(U&'POINT(1 2) \00D6', dialect => 'ewkt') IS NULL AS none, wkt_or_null('SRID=1;POINT(2e20 2)', dialect => 'ewkt,exponents');
SELECT wkt_canonical(U&'P\00D6INT(1 2)');
SELECT wkt_canonical(U&'GEOMETRYCOLLECTION(POINT(1 2),\00D6\00D6(1 2))');
SELECT (wkt_explain(U&'POINT(1 2) \00D6\00E9')).shown;
SELECT (wkt_explain(U&'LINESTRING(1 2,\00D6\00E9 3)')).shown;
SELECT wkt_canonical(U&'\009B31mP\00D6INT\00A0(1\00AD2)');
-- Others: what isn't ASCII is refused where it stands, also without an equivalent in UTF-8. In SQL_ASCII it is any bytes.
\set asked 'SELECT wkt_reads(t), wkt_or_null(t) IS NULL AS none, wkt_kind(t), (wkt_explain(t)).shown = ''POINT(1 2) '' || :shown || E''\\n           ^ the end of the text was expected'' AS the_end, (wkt_explain(:it)).shown = :shown || E''\\n^ a kind of geometry, such as POINT, was expected'' AS a_kind, (wkt_read(t)).place, (wkt_read(:it)).expected FROM (SELECT ''POINT(1 2) '' || :it) a(t); SELECT wkt_canonical(:it); SELECT wkt_same(''POINT(1 2)'', :it); SELECT :it::text::wkt;'
\c contrib_regression
CREATE DATABASE wkt_win1252 ENCODING 'WIN1252' LOCALE 'C' TEMPLATE template0;
CREATE DATABASE wkt_euc_jp ENCODING 'EUC_JP' LOCALE 'C' TEMPLATE template0;
CREATE DATABASE wkt_hebrew ENCODING 'ISO_8859_8' LOCALE 'C' TEMPLATE template0;
CREATE DATABASE wkt_mule ENCODING 'MULE_INTERNAL' LOCALE 'C' TEMPLATE template0;
CREATE DATABASE wkt_sql_ascii ENCODING 'SQL_ASCII' LOCALE 'C' TEMPLATE template0;
\set VERBOSITY sqlstate
\c wkt_win1252
CREATE EXTENSION wkt;
\set it 'E''\\x81'''
\set shown :it
:asked
SELECT split_part((wkt_explain(E'POINT(1\xa0\xad2)')).shown, E'\n', 1) = E'POINT(1\\xa0\\xad2)' OR current_setting('server_version_num')::int < 140000 AS unseen;
\c wkt_euc_jp
CREATE EXTENSION wkt;
\set it 'E''\\xa2\\xaf'''
\set shown :it
:asked
SELECT (wkt_explain(E'LINESTRING(1 2,\xa4\xa2\xa2\xaf\x8f\xb0\xa1\t3)')).shown = E'LINESTRING(1 2,\xa4\xa2\xa2\xaf\x8f\xb0\xa1\t3)\n               ^ a first number was expected' AS the_place,
    (wkt_explain(E'\n\xa4\xa2\t\xa4\xa2\nPOINT(1 2)\xa4\xa2')).shown = E'\xa4\xa2\t\xa4\xa2\n^ a kind of geometry, such as POINT, was expected' AS the_line,
    (wkt_explain('POINT(1 2) ' || repeat(E'\xa4\xa2', 70))).shown = 'POINT(1 2) ' || repeat(E'\xa4\xa2', 60) || E'..\n           ^ the end of the text was expected' AS the_front;
SELECT split_part((wkt_explain(E'POINT(1\xa1\xa12)')).shown, E'\n', 1) = E'POINT(1\\u{3000}2)' OR current_setting('server_version_num')::int < 140000 AS unseen;
\c wkt_hebrew
CREATE EXTENSION wkt;
SELECT split_part((wkt_explain(E'POINT(1\xfe\xe02)')).shown, E'\n', 1) = E'POINT(1\\xfe\xe02)' OR current_setting('server_version_num')::int < 140000 AS unseen;
\c wkt_mule
CREATE EXTENSION wkt;
\set it 'E''\\x81\\xd6'''
\set shown :it
:asked
\c wkt_sql_ascii
CREATE EXTENSION wkt;
SELECT wkt_canonical('point(1 2.0)'), 'point(1 2.0)'::wkt;
\set it 'E''\\xd6\\xc3\\x96'''
\set shown 'E''\\\\xd6\\\\xc3\\\\x96'''
:asked
\set VERBOSITY default
SELECT wkt_canonical(E'\xe2\x80\xaePOINT\xc3\x96(1 2)');
\c contrib_regression
DROP DATABASE wkt_latin1;
DROP DATABASE wkt_win1252;
DROP DATABASE wkt_euc_jp;
DROP DATABASE wkt_hebrew;
DROP DATABASE wkt_mule;
DROP DATABASE wkt_sql_ascii;
