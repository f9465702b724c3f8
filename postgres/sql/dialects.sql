SET client_min_messages = warning;
DROP SCHEMA public CASCADE;
CREATE SCHEMA public;
CREATE EXTENSION wkt;
\pset null (null)
-- Each by its name, and several
SELECT wkt_canonical('SRID=4326;POINT(1 2.0)', 18, 'srid'), wkt_canonical('point(1 2 3)', 18, 'untagged'), wkt_canonical('POINT(1e3 5e-5)', 6, 'exponents'), wkt_canonical('POINT(nan nan)', 6, 'nan');
SELECT wkt_canonical('SRID=4326;POINT(1 2 3)', 18, 'ewkt'), wkt_canonical('SRID=4326;POINT(1e-3 2 3)', 3, 'exponents,ewkt'), wkt_canonical('POINT(1 2)', 0, '');
SELECT wkt_canonical('srid=1;point(1 2 3)', dialect => 'ewkt', places => 0), wkt_canonical('point(1e37 1)', 0, 'exponents'), wkt_or_null('SRID=1;POINT(1 2', 18, 'srid'), wkt_or_null('SRID=1;POINT(1 2)', 6, 'srid');
SELECT wkt_srid('SRID=4326;POINT(1 2)'), wkt_srid(' srid=0;'), wkt_srid('POINT(1 2)'), wkt_srid('SRID=1000000000;POINT(1 2)'), wkt_srid(''), wkt_srid('SRID=999999999;GEOMETRYCOLLECTION(');
SELECT wkt_same('SRID=1;POINT(1 2)', 'SRID=2;point(1 2.0)', 18, 'srid'), wkt_same('POINT(1 2 3)', 'POINT Z(1 2 3)', 18, 'untagged'), wkt_same('POINT(1 2 3)', 'POINT M(1 2 3)', 18, 'untagged'), wkt_same('POINT(1e1 2)', 'POINT(10 2)', 0, 'exponents');
SELECT wkt_reads('SRID=1;POINT(1 2)', 18, 'ewkt'), wkt_reads('SRID=1;POINT(1 2)', 18, 'untagged,exponents,nan'), wkt_reads('SRID=1;POINT(1 2)'), wkt_reads('SRID=1;POINT(1 2) x', 18, 'ewkt'), wkt_reads('SRID=1;SRID=1;POINT(1 2)', 18, 'ewkt');
-- The type takes none, but what is read in one
SELECT 'SRID=4326;POINT(1 2)'::wkt;
SELECT wkt_canonical('SRID=4326;POINT(1 2 3)', 18, 'ewkt')::wkt, wkt_or_null('SRID=4326;POINT(1 2 3)', 18, 'ewkt');
SELECT wkt_kind('SRID=4326;POINT(1 2)'), wkt_dimension('POINT(1 2 3)');
-- Refusals: places are of the text as it was given
SELECT wkt_canonical('SRID=4326;POINT(1 2 3)', 18, 'srid');
SELECT wkt_canonical('POINT(1e-7 2)', 6, 'exponents');
SELECT wkt_same('SRID=1;POINT(1 2)', 'SRID=1;POINT(1', 18, 'srid');
SELECT (wkt_explain('SRID=4326;POINT(1 2)', 18, 'ewkt')).shown;
SELECT (wkt_explain('SRID=4326;POINT(1 2 3 4 5)', 18, 'ewkt')).shown;
SELECT t, e.place, e.expected, e.cause, e.hint FROM (VALUES (1, 'SRID=1;POINT(1'), (2, 'SRID=1;POINT(1 2 3)'), (3, 'SRID=1;POINT(1 2) x'), (4, 'SRID=1;SRID=1;POINT(1 2)'), (5, 'POINT(1e-7 2)'), (6, 'POINT(nan nan)'), (7, NULL)) v(id, t), wkt_explain(t, 6, 'ewkt') e ORDER BY id;
SELECT t, r.* FROM (VALUES (1, 'SRID=1;POINT(1 2 3.50)'), (2, 'SRID=1;POINT(1'), (3, 'POINT(1e-7 2)')) v(id, t), wkt_read(t, 6, 'ewkt,exponents') r ORDER BY id;
-- An unknown dialect
SELECT wkt_canonical('POINT(1 2)', 18, 'wkb');
SELECT wkt_reads('POINT(1 2)', 18, 'EWKT');
SELECT wkt_same('POINT(1 2)', 'POINT(1 2)', 18, 'ewkt,');
SELECT wkt_explain('POINT(1 2)', 18, 'ewkt exponents');
SELECT wkt_or_null('POINT(1 2)', 18, 'ewkt,,nan');
SELECT wkt_read('POINT(1 2)', 18, U&'ewkt,\00E4' || repeat('x', 100));
SELECT wkt_canonical('POINT(1 2)', 37, 'wkb');
SELECT wkt_or_null('POINT(1 2)', 19, 'srid');
-- Null in, null out
SELECT wkt_canonical(NULL, 18, 'srid'), wkt_canonical('POINT(1 2)', NULL, 'srid'), wkt_canonical('POINT(1 2)', 18, NULL), wkt_same('POINT(1 2)', 'POINT(1 2)', 18, NULL), wkt_reads('POINT(1 2)', 18, NULL), wkt_explain('POINT(1', 18, NULL), wkt_srid(NULL);
-- What a planner may do with them
SELECT oid::regprocedure, provolatile, proisstrict, proparallel, proleakproof, prosecdef FROM pg_proc WHERE 'dialect' = ANY (proargnames) OR proname = 'wkt_srid' ORDER BY oid::regprocedure::text COLLATE "C";
-- By its name, without places
SELECT wkt_canonical('SRID=1;POINT(1 2)', dialect => 'ewkt'), wkt_same('SRID=1;POINT(1 2)', 'POINT(1 2)', dialect => 'srid'), wkt_reads('POINT(1e1 2)', dialect => 'exponents'), wkt_or_null('POINT(nan nan)', dialect => 'nan'),
    (wkt_read('POINT(1 2 3)', dialect => 'untagged')).value, (wkt_explain('SRID=1;POINT(1', dialect => 'srid')).place;
-- Calls without a dialect
SELECT wkt_canonical('POINT(1 2)', '6'), wkt_canonical('POINT(1 2)', places => 6), wkt_same('POINT(1 2)', 'POINT(1 2)', '6'), 'wkt_canonical'::regproc;
-- Keys of a column as it came, and its SRIDs
CREATE TABLE texts (t text, srid int GENERATED ALWAYS AS (wkt_srid(t)) STORED, key wkt GENERATED ALWAYS AS (wkt_canonical(t, 18, 'ewkt')::wkt) STORED);
CREATE UNIQUE INDEX ON texts (wkt_canonical(t, 18, 'ewkt'));
INSERT INTO texts VALUES ('SRID=4326;POINT(1 2 3)'), ('POINT(1 2)'), (NULL);
INSERT INTO texts VALUES ('POINT Z(1.0 2 3)');
INSERT INTO texts VALUES ('SRID=4326;POINT(1 2 3 4 5)');
SELECT * FROM texts ORDER BY key;
CREATE UNIQUE INDEX ON texts (wkt_srid(t), wkt_canonical(t, 18, 'ewkt'));
SELECT t FROM texts WHERE wkt_canonical(t, 18, 'ewkt') = wkt_canonical('SRID=3857;POINT(1 2 3.0)', 18, 'ewkt');
-- Of long texts, which a cancel can leave; a canonical text may be many times as long as its text
CREATE TABLE long AS SELECT 'LINESTRING(' || repeat('1e37 2,', 200000) || '3 4)' AS t;
SELECT length(t), length(k), k = 'LINESTRING(' || repeat('1' || repeat('0', 37) || ' 2,', 200000) || '3 4)' AS is_it, wkt_reads(t, 0, 'exponents'), wkt_reads(t, 0, 'ewkt') FROM long, wkt_canonical('SRID=1;' || t, 0, 'exponents,srid') k;
SELECT wkt_same('SRID=1;' || t, 'SRID=2; ' || t, 0, 'exponents,srid'), wkt_same(t, 'POINT(1 2)', 0, 'exponents') FROM long;
-- A text that stays the same from row to row, and a dialect that doesn't
SELECT d, wkt_same('POINT Z(1 2 3)', 'POINT(1 2 3)' || repeat(' ', 300), 18, d) FROM (VALUES ('untagged'), ('ewkt'), ('untagged,nan')) v(d);
SELECT d, wkt_same('POINT Z(1 2 3)', 'POINT(1 2 3)' || repeat(' ', 300), 18, d) FROM (VALUES ('untagged'), ('srid')) v(d);
DROP TABLE texts, long;
DROP EXTENSION wkt;
