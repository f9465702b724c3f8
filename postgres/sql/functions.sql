CREATE EXTENSION wkt;
\pset null (null)
-- One text for one geometry
SELECT wkt_canonical('point ( 10 -20.50 )'), wkt_canonical('LineStringZ(1 2 3,+4 .5 6.0)');
SELECT wkt_canonical('MULTIPOINT(1 2,(3 4))'), wkt_canonical('multipolygon zm empty');
SELECT wkt_canonical('point(1.5 2)', 1), wkt_canonical('point(1.50 2)', places => 1), wkt_canonical('POINT(5 2)', 0);
SELECT wkt_canonical(E' \t\r\nPOINT(1 2) \t\r\n');
-- Up to 36 places
SELECT wkt_canonical('point(0.1234567890123456789012340 -.5)', 24), wkt_canonical('POINT(170141183460469.231731687303715884105727 -00.0)', 24);
SELECT wkt_canonical('POINT(-170.141183460469231731687303715884105728 0.0000000000000000000000000000000000010)', 36);
SELECT wkt_same('POINT(0.123456789012345678901234 1)', 'point(+0.1234567890123456789012340 1.0)', 24), wkt_same('POINT(0.000000000000000000000000000000000001 1)', 'POINT(0 1)', 36);
SELECT wkt_reads('POINT(180 90)', 35), wkt_reads('POINT(180 90)', 36), wkt_reads('POINT(0.1234567890123456789 2)'), wkt_reads('POINT(0.1234567890123456789 2)', 19), wkt_explain('POINT(170 0.000000000000000000000000000000000001)', 36);
-- An answer that is longer than its text
SELECT wkt_canonical('multipoint(.1 .1,.1 .1,.1 .1,.1 .1,.1 .1,.1 .1,.1 .1,.1 .1)');
SELECT wkt_same('POINT(1 2)', 'point ( 1.0 +2 )'), wkt_same('POINT(1 2)', 'POINT(2 1)');
SELECT wkt_same('LINESTRING(0 0,1 1)', 'LINESTRING(1 1,0 0)'), wkt_same('POINT(0 1)', 'POINT(-0 1.0)', 1);
SELECT wkt_kind('polygon zm ((1'), wkt_kind('POINT(1 2)'), wkt_kind('nonsense'), wkt_kind('');
SELECT wkt_reads('POINT(1 2)'), wkt_reads('POINT(1)'), wkt_reads('POINT(1 2) more'), wkt_reads('POINT(1 2) '), wkt_reads('');
SELECT wkt_reads('POINT(1.5 2)', 0), wkt_reads('POINT(1.5 2)', 6);
-- Of long texts, which a cancel can leave
CREATE TABLE long AS SELECT 'LINESTRING(' || repeat('1.0 2,', 200000) || '3 4' AS t;
SELECT length(wkt_canonical(t || ')')), wkt_canonical(t || ')') = 'LINESTRING(' || repeat('1 2,', 200000) || '3 4)' AS is_it, wkt_reads(t || ')'), wkt_reads(t) FROM long;
SELECT wkt_same(t || ')', t || '.0 )'), wkt_same(t || ')', t || ',3 4)'), wkt_same(t || ')', 'POINT(1 2)') FROM long;
SELECT length(t), e.place, e.expected, e.cause, e.hint, r.place, r.hint, length(s.value::text) FROM long, wkt_explain(t || ' 5)') e, wkt_read(t || ' 5)') r, wkt_read(t || ')') s;
SELECT wkt_same(t || ')', t) FROM long;
-- Null in, null out
SELECT wkt_canonical(NULL), wkt_canonical('POINT(1 2)', NULL), wkt_same(NULL, 'POINT(1 2)'), wkt_same('POINT(1 2)', NULL),
       wkt_reads(NULL), wkt_kind(NULL::text), wkt_kind(NULL::wkt), wkt_explain(NULL), NULL::wkt;
-- What a planner may do with them
SELECT proname, provolatile, proisstrict, proparallel FROM pg_proc
WHERE proname IN ('wkt_canonical', 'wkt_same', 'wkt_reads', 'wkt_kind', 'wkt_explain')
ORDER BY proname, proargtypes::text COLLATE "C";
-- A unique index on an expression over text
CREATE TABLE texts (t text);
CREATE UNIQUE INDEX ON texts (wkt_canonical(t));
INSERT INTO texts VALUES ('POINT(1 2)'), (NULL), (NULL);
INSERT INTO texts VALUES ('point(1 2.0)');
INSERT INTO texts VALUES ('POINT(1 2');
SELECT * FROM texts WHERE wkt_canonical(t) = wkt_canonical('Point(1.0 2)');
-- A domain of texts that are canonical, a generated column
CREATE DOMAIN canonical_text AS text CHECK (VALUE = wkt_canonical(VALUE));
SELECT 'POINT(1 2)'::canonical_text;
SELECT 'point(1 2)'::canonical_text;
CREATE TABLE both_of (t text, key text GENERATED ALWAYS AS (wkt_canonical(t)) STORED, at wkt(6) GENERATED ALWAYS AS (t::wkt(6)) STORED);
INSERT INTO both_of VALUES ('point(1 2.50)');
TABLE both_of;
-- Four workers over a table
CREATE TABLE many AS SELECT format('point ( %s.50 %s )', i % 180, i % 90) t FROM generate_series(1, 20000) i;
ANALYZE many;
SET parallel_setup_cost = 0; SET parallel_tuple_cost = 0; SET min_parallel_table_scan_size = 0; SET max_parallel_workers_per_gather = 4;
EXPLAIN (COSTS OFF) SELECT sum(length(wkt_canonical(t))) FROM many;
SELECT sum(length(wkt_canonical(t))) FROM many;
EXPLAIN (COSTS OFF) SELECT sum(wkt_x(t::wkt)), count(*) FILTER (WHERE wkt_box(t::wkt) && '(9,9),(20,20)') FROM many;
SELECT sum(wkt_x(t::wkt)), count(*) FILTER (WHERE wkt_box(t::wkt) && '(9,9),(20,20)') FROM many;
SET max_parallel_workers_per_gather = 0;
SELECT sum(length(wkt_canonical(t))) FROM many;
SELECT sum(wkt_x(t::wkt)), count(*) FILTER (WHERE wkt_box(t::wkt) && '(9,9),(20,20)') FROM many;
RESET ALL;
SET client_min_messages = warning;
DROP SCHEMA public CASCADE;
CREATE SCHEMA public;
