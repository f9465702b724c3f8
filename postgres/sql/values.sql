CREATE EXTENSION wkt;
\pset null (null)
-- A text that is refused is null, so that it doesn't end a load
CREATE TABLE loaded (id int, t text, at wkt(6));
INSERT INTO loaded SELECT id, t, wkt_or_null(t, 6) FROM (VALUES (1, 'point ( 1.0 2 )'), (2, 'POINT(1)'), (3, 'POINT(1 2) more'), (4, ''),
    (5, 'POINT(1.1234567 2)'), (6, 'POINT(200000000000000000000 2)'), (7, NULL), (8, 'POINT(1.1234560 2)')) v(id, t);
SELECT id, at FROM loaded ORDER BY id;
SELECT wkt_or_null('POINT(1.1234567 2)'), wkt_or_null('POINT(1 2)', NULL), pg_typeof(wkt_or_null('POINT(1 2)'));
SELECT wkt_or_null('POINT(1 2)', 19);
-- The first and the last in the order of the type, by an index where there is one
SELECT min(at), max(at), min(at) FILTER (WHERE id = 0) FROM loaded;
SELECT min(a), max(a) FROM (VALUES ('POINT(2 1)'::wkt), ('POINT(10 2)'), ('LINESTRING(0 0,1 1)'), ('POINT EMPTY')) v(a);
SELECT min(a::text COLLATE "C") = min(a)::text AND max(a::text COLLATE "C") = max(a)::text AS in_that_order FROM (VALUES ('POINT(2 1)'::wkt), ('POINT(10 2)'), ('POINT(1 2)')) v(a);
CREATE INDEX ON loaded (at);
SET enable_seqscan = off;
CREATE FUNCTION plan(query text) RETURNS SETOF text LANGUAGE plpgsql AS 'BEGIN RETURN QUERY EXECUTE ''EXPLAIN '' || query; END';
SELECT count(*) FROM plan('SELECT max(at) FROM loaded') p WHERE p LIKE '%Index Only Scan Backward using loaded_at_idx%';
RESET enable_seqscan;
CREATE TABLE many AS SELECT format('POINT(%s %s)', i % 180, i % 90)::wkt AS at FROM generate_series(1, 20000) i;
ANALYZE many;
SET parallel_setup_cost = 0; SET parallel_tuple_cost = 0; SET min_parallel_table_scan_size = 0;
EXPLAIN (COSTS OFF) SELECT min(at), max(at) FROM many;
SELECT min(at), max(at) FROM many;
RESET ALL;
-- A wkt as a text, where it is assigned to one
CREATE TABLE texts (t text, v varchar);
INSERT INTO texts SELECT at, at FROM loaded WHERE id = 1;
UPDATE texts SET t = 'POINT(3 4)'::wkt;
TABLE texts;
SELECT 'POINT(1 2)'::wkt = 'POINT(1 2)'::text;
-- Its length in characters
SELECT length(at), length(at) = char_length(at::text) AS the_same FROM loaded WHERE id = 1;
SELECT length(('LINESTRING(' || repeat('1 2,', 100000) || '1 2)')::wkt);
-- Wider places rewrite no table and no index; narrower ones do
CREATE TABLE places (id int, at wkt(6) PRIMARY KEY);
INSERT INTO places VALUES (1, 'POINT(1.5 2)');
-- rewritten(TYPE): whether the table, and its index
CREATE FUNCTION rewritten(type text) RETURNS text LANGUAGE plpgsql AS $$
DECLARE before oid[] := array[pg_relation_filenode('places'), pg_relation_filenode('places_pkey')];
BEGIN
    EXECUTE 'ALTER TABLE places ALTER at TYPE ' || type;
    RETURN format('%s %s', before[1] <> pg_relation_filenode('places'), before[2] <> pg_relation_filenode('places_pkey'));
END $$;
SELECT t, rewritten(t) FROM (VALUES ('wkt(9)'), ('wkt(9)'), ('wkt'), ('wkt(18)'), ('wkt'), ('wkt(6)'), ('wkt(1)')) v(t);
ALTER TABLE places ALTER at TYPE wkt(0);
SELECT wkt(at, 300, false) FROM places;
SET client_min_messages = warning;
DROP SCHEMA public CASCADE;
CREATE SCHEMA public;
