CREATE EXTENSION wkt;
\pset null (null)
SELECT 'point ( 1.0 2 )'::wkt, 'POINT(1 2)'::wkt = 'point(1 2.0)', wkt_kind('POINT Z(1 2 3)'::wkt);
SELECT 'POINT(1.1234560 2)'::wkt(6), pg_typeof('POINT(1 2)'::wkt), pg_column_size('POINT(1 2)'::wkt);
SELECT format_type('wkt'::regtype, 6), format_type('wkt'::regtype, -1);
-- A value of wkt(6) is one of wkt: a number that its places are too many for is taken where fewer hold it, as the text has
SELECT 'POINT(200000000000000000000 2)'::wkt(6);
SELECT ('point(200000000000000000000.0 2)'::text)::wkt(6);
SELECT ('point(170141183460469231731.687303 2)'::text)::wkt(6);
SELECT ('point(170141183460469231731.687304 2)'::text)::wkt(6);
SELECT ('point(200000000000000000000.0 2)'::text)::wkt, wkt_or_null('point(200000000000000000000.0 2)', 6)::wkt, wkt_reads('point(200000000000000000000.0 2)');
SELECT 'POINT(200000000000000000000 0.123456789012345678)'::wkt;
SELECT wkt_canonical('point(200000000000000000000.0 2)', 6);
SELECT ('LINESTRING(' || repeat('12345678901234567890 1234567890.123456, ', 100) || '170141183460469231731687303715884.123456 2)')::wkt(6);
-- Modifiers that a declaration doesn't take
SELECT wkt_in('POINT(1 2)', 0, 300);
SELECT wkt_in('POINT(1 2)', 0, 261);
SELECT wkt('POINT(1 2)'::text, 19, false);
-- A text is cast to the type explicitly, and the type may be assigned to a text
SELECT 'POINT(1 2)'::wkt = 'POINT(1 2)'::text;
SELECT ('point(1 2)'::text)::wkt, ('point(1 2)'::wkt)::text, CAST('point(1.5 2)'::text AS wkt(1));
CREATE TABLE places (id int, at wkt(6) PRIMARY KEY);
INSERT INTO places SELECT 1, 'POINT(1 2)'::text;
INSERT INTO places SELECT 1, 'POINT(0.1234567 2)'::wkt;
SELECT castsource::regtype, casttarget::regtype, castcontext FROM pg_cast
WHERE 'wkt'::regtype IN (castsource, casttarget) ORDER BY 1, 2;
-- A primary key
INSERT INTO places VALUES (1, 'POINT(1 2)'), (2, 'POINT(2 1)');
INSERT INTO places VALUES (3, 'point ( 1.0 +2 )');
INSERT INTO places VALUES (4, 'POINT(0.1234567 2)');
INSERT INTO places VALUES (4, NULL);
INSERT INTO places VALUES (5, 'point ( 1.0 +2 )') ON CONFLICT (at) DO UPDATE SET id = excluded.id;
SELECT * FROM places ORDER BY at;
SET enable_seqscan = off;
EXPLAIN (COSTS OFF) SELECT id FROM places WHERE at = 'Point(1.000 2.000)';
SELECT id FROM places WHERE at = 'Point(1.000 2.000)';
RESET enable_seqscan;
CREATE TABLE visits (place wkt(6) REFERENCES places);
INSERT INTO visits VALUES ('point(2.0 1.0)');
INSERT INTO visits VALUES ('point(2.0 1.5)');
-- COPY, as text and in binary
COPY places FROM stdin;
6	linestring (0 0, 1.50 1)
\.
COPY places FROM stdin;
7	POINT(3 4)
8	LINESTRING(0 0,1.5 1.00)
\.
COPY places FROM stdin;
7	POINT(3 4)
8	POINT(3 4 5)
\.
COPY places TO stdout;
\copy places to 'results/places' (format binary)
CREATE TABLE again (id int, at wkt(6));
\copy again from 'results/places' (format binary)
SELECT count(*) FROM places JOIN again USING (id, at);
-- What comes in binary is read as a text is: texts of another column, as a wkt(6)
CREATE TABLE texts (id int, t text);
INSERT INTO texts VALUES (9, 'point(9.0 9)');
\copy texts to 'results/texts' (format binary)
\copy again from 'results/texts' (format binary)
SELECT * FROM again WHERE id = 9;
INSERT INTO texts VALUES (10, 'POINT(1)');
\copy texts to 'results/texts' (format binary)
\copy again from 'results/texts' (format binary)
-- Sorts, groups, hash joins, merge joins
SELECT g, count(*) FROM (VALUES ('POINT(1 2)'::wkt), ('point(1.0 2)'), ('POINT(3 4)')) v(g) GROUP BY g ORDER BY g;
SELECT g FROM (VALUES ('POINT(1 2)'::wkt), ('LINESTRING(0 0,1 1)'), ('POINT(10 2)'), ('POINT EMPTY'), ('POINT(1 2)')) v(g)
ORDER BY g COLLATE "C";
SELECT g FROM (VALUES ('POINT(1 2)'::wkt), ('LINESTRING(0 0,1 1)'), ('POINT(10 2)'), ('POINT EMPTY'), ('POINT(1 2)')) v(g) ORDER BY g;
SELECT min(id) FROM places WHERE at < 'POINT(1 2)' AND at <= 'POINT(1 2)' AND NOT at > 'POINT(1 2)' AND NOT at >= 'POINT(1 2)' AND at <> 'POINT(1 2)';
SET enable_mergejoin = off; SET enable_nestloop = off;
SELECT count(*) FROM places a JOIN places b USING (at);
RESET ALL;
SET enable_hashjoin = off; SET enable_nestloop = off;
SELECT count(*) FROM places a JOIN places b USING (at);
RESET ALL;
CREATE TABLE parted (at wkt(6)) PARTITION BY HASH (at);
CREATE TABLE parted_0 PARTITION OF parted FOR VALUES WITH (MODULUS 2, REMAINDER 0);
CREATE TABLE parted_1 PARTITION OF parted FOR VALUES WITH (MODULUS 2, REMAINDER 1);
INSERT INTO parted SELECT at FROM places;
SELECT count(*) FROM parted WHERE at = 'point(2 1)';
-- A call of the casts' functions with a null is null, also where the planner leaves out the call
SELECT wkt(at, 18, b) IS NULL AS wider, wkt(at, 6, b) IS NULL AS same, wkt(at::text, 18, b) IS NULL AS of_text, wkt(at, b::int, true) IS NULL AS places FROM (SELECT at, nullif(id, id)::bool AS b FROM places LIMIT 1 OFFSET 0) a;
-- Wider places keep the keys; narrower ones are refused where a key has more digits
ALTER TABLE again ALTER at TYPE wkt(9);
SELECT md5(string_agg(at::text, ' ' ORDER BY id)) = (SELECT md5(string_agg(at::text, ' ' ORDER BY id)) FROM (TABLE places UNION ALL SELECT 9, 'POINT(9 9)') a) AS the_same FROM again;
ALTER TABLE again ALTER at TYPE wkt(0);
SET client_min_messages = warning;
DROP SCHEMA public CASCADE;
CREATE SCHEMA public;
