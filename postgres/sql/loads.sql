CREATE EXTENSION wkt;
\pset null (null)
-- A text is read once: its value, or why it has none
SELECT t, r.* FROM (VALUES (1, 'point ( 1.0 2 )'), (2, 'POINT(1)'), (3, 'POINT(1 2) more'), (4, ''), (5, 'POINT(1.1234567 2)'), (6, 'SRID=4326;POINT(1 2)'),
    (7, U&'P\00D6INT(1 2)'), (8, NULL), (9, 'POINT()')) v(id, t), wkt_read(t, 6) r ORDER BY id;
SELECT * FROM wkt_read('POINT(1.1234567 2)');
SELECT * FROM wkt_read('POINT(1 2)', 19);
SELECT (wkt_read('POINT(1 2)')).value, pg_typeof((wkt_read('POINT(1 2)')).value);
-- It has the value that a cast has, and so has wkt_or_null: also a number that is too large for the places, if fewer read it
CREATE FUNCTION casted(t text, places int) RETURNS wkt LANGUAGE plpgsql AS
    $$ BEGIN RETURN wkt(t, places, false); EXCEPTION WHEN invalid_text_representation THEN RETURN NULL; END $$;
SELECT count(*) AS others FROM (VALUES ('POINT(1 2)'), ('POINT(1'), ('POINT(1.5 2)'), ('POINT(200000000000000000000 2)'), ('x')) v(t), generate_series(0, 18) p, wkt_read(t, p) r
    WHERE r.value IS DISTINCT FROM casted(t, p) OR r.value IS DISTINCT FROM wkt_or_null(t, p) OR (r.place IS NULL) <> (r.value IS NOT NULL) OR (r.expected IS NULL) <> (r.value IS NOT NULL);
SELECT wkt_or_null('POINT(200000000000000000000 0.5)'), wkt_or_null('POINT(200000000000000000000 0.5)', 1), (wkt_read('POINT(200000000000000000000 0.50)')).value, wkt_or_null('POINT(200000000000000000000 0.5)', 0);
-- The functions over text read with these places alone
SELECT wkt_reads('POINT(200000000000000000000 2)'), wkt_reads('POINT(200000000000000000000 2)', 6), (wkt_explain('POINT(200000000000000000000 2)')).hint, wkt_canonical(at::text, 6) FROM (VALUES ('POINT(200000000000000000000 2)'::wkt)) v(at);
-- With exponents too: what 1e21, 2000e17 and 0.5e-1 are counts, and not their digits
SELECT t, wkt_or_null(t, dialect => 'exponents') FROM (VALUES (1, 'POINT(1e21 2)'), (2, 'POINT(2000e17 0.5e-1)'), (3, 'POINT(2E+20 12.50e-2)'), (4, 'POINT(2e20 1e-18)'), (5, 'POINT(0e99 20000000000000000000000e-1)'), (6, 'POINT(1e39 1)'), (7, 'POINT(1e21 2')) v(n, t) ORDER BY n;
SELECT t, wkt_or_null(t, dialect => 'ewkt') FROM (VALUES ('SRID=4326;POINT(200000000000000000000 2 0.25)')) v(t);
-- A load with a table of what is refused
CREATE TABLE lines (n int GENERATED ALWAYS AS IDENTITY, t text);
COPY lines (t) FROM stdin;
point ( 1 2.50 )
POINT(1
POINT(1 2.5)
\N
POLYGON((0 0,1 0,0 1,0 0))
POINT(1e3 2)
\.
CREATE TABLE places (n int, at wkt(6) PRIMARY KEY);
CREATE TABLE rejects (n int, t text, place int, expected text, cause text, hint text);
WITH read AS MATERIALIZED (SELECT n, t, r.* FROM lines, wkt_read(t, 6) r),
    refused AS (INSERT INTO rejects SELECT n, t, place, expected, cause, hint FROM read WHERE value IS NULL)
INSERT INTO places SELECT n, value FROM read WHERE value IS NOT NULL ON CONFLICT DO NOTHING;
SELECT * FROM places ORDER BY n;
SELECT * FROM rejects ORDER BY n;
-- A value under another modifier isn't read again, and stays as it is or is refused
SELECT 'POINT(1.123 2)'::wkt::wkt(3), 'POINT(10 20)'::wkt::wkt(0), ('LINESTRING(' || repeat('0.25 1,', 1000) || '1 1)')::wkt::wkt(2) = ('LINESTRING(' || repeat('0.25 1,', 1000) || '1 1)')::wkt;
SELECT 'POINT(1.123 2)'::wkt::wkt(2);
CREATE FUNCTION recast(t text, places int) RETURNS text LANGUAGE plpgsql AS
    $$ BEGIN RETURN wkt(t::wkt, places, false); EXCEPTION WHEN invalid_text_representation THEN RETURN NULL; END $$;
SELECT count(*) AS others FROM (VALUES ('POINT(1.5 2)'), ('POINT(1 2.25)'), ('POINT(1.5 2.125)'), ('POINT(1 2)'), ('POINT EMPTY'), ('POINT(0.123456789012345678 -1)')) v(t),
    generate_series(0, 18) p WHERE recast(t, p) IS DISTINCT FROM wkt_or_null(t, p)::text;
-- A digest is the SHA-256 of the text (those of coreutils' sha256sum)
SELECT encode(wkt_digest('point(1.0 2)'), 'hex'), encode(wkt_digest('POINT EMPTY'), 'hex'), wkt_digest(NULL);
CREATE TABLE areas (id int, at wkt NOT NULL, key bytea GENERATED ALWAYS AS (wkt_digest(at)) STORED PRIMARY KEY);
CREATE TABLE notes (of bytea REFERENCES areas, note text);
CREATE FUNCTION line_of(n int) RETURNS text LANGUAGE sql AS
    $$ SELECT 'LINESTRING(' || string_agg(translate(left(md5(i::text), 9), 'abcdef', '123456') || ' ' || i, ', ') || ')' FROM generate_series(1, n) i $$;
INSERT INTO areas SELECT 1, line_of(1000)::wkt;
INSERT INTO areas SELECT 2, lower(line_of(1000))::wkt ON CONFLICT (key) DO UPDATE SET id = excluded.id;
INSERT INTO areas SELECT 3, line_of(1001)::wkt ON CONFLICT (key) DO UPDATE SET id = excluded.id;
INSERT INTO notes SELECT wkt_digest(lower(line_of(1000))::wkt), 'seen';
\set VERBOSITY terse
\set SHOW_CONTEXT never
INSERT INTO areas SELECT 4, line_of(1000)::wkt;
INSERT INTO notes SELECT wkt_digest(line_of(1002)::wkt), 'unknown';
SELECT id, length(at), length(key), note FROM areas LEFT JOIN notes ON of = key ORDER BY id;
SET enable_seqscan = off;
EXPLAIN (COSTS OFF) SELECT id FROM areas WHERE key = wkt_digest('POINT(1 2)');
SET client_min_messages = warning;
DROP SCHEMA public CASCADE;
CREATE SCHEMA public;
