CREATE EXTENSION wkt;
\set VERBOSITY terse
CREATE FUNCTION line_of(n int) RETURNS text LANGUAGE sql AS
    $$ SELECT 'LINESTRING(' || string_agg(translate(left(md5(i::text), 9), 'abcdef', '123456') || ' ' || i, ', ') || ')' FROM generate_series(1, n) i $$;
SELECT length(wkt_canonical(line_of(1000)));
-- A long value is stored as it is, unless its column says otherwise
CREATE TABLE stored (at wkt, packed wkt);
ALTER TABLE stored ALTER packed SET STORAGE extended;
INSERT INTO stored SELECT at, at FROM (SELECT ('LINESTRING(' || repeat('1 2,', 1000) || '1 2)')::wkt AS at) a;
SELECT length(at::text), pg_column_size(at), pg_column_size(packed) < 500 AS is_smaller FROM stored;
DROP TABLE stored;
-- A btree takes keys of up to 2692 bytes
CREATE TABLE places (at wkt PRIMARY KEY);
INSERT INTO places SELECT ('LINESTRING(' || repeat('1 2,', 669) || repeat('1', 2) || ' 2)')::wkt AS at RETURNING length(at);
INSERT INTO places SELECT ('LINESTRING(' || repeat('1 2,', 669) || repeat('1', 3) || ' 2)')::wkt AS at RETURNING length(at);
INSERT INTO places SELECT line_of(1000)::wkt;
-- The hash way: any length, by an exclusion constraint
CREATE TABLE by_hash (at wkt, EXCLUDE USING hash (at WITH =));
INSERT INTO by_hash SELECT line_of(1000)::wkt;
INSERT INTO by_hash SELECT replace(line_of(1000), ', ', ' ,')::wkt;
INSERT INTO by_hash SELECT replace(line_of(1000), ', ', ' ,')::wkt ON CONFLICT DO NOTHING;
INSERT INTO by_hash SELECT line_of(1001)::wkt;
SELECT count(*) FROM by_hash;
SET enable_seqscan = off;
EXPLAIN (COSTS OFF) SELECT count(*) FROM by_hash WHERE at = 'POINT(1 2)';
SELECT count(*) FROM by_hash WHERE at = lower(line_of(1000))::wkt;
RESET enable_seqscan;
-- The same over text
CREATE TABLE texts_by_hash (t text, EXCLUDE USING hash (wkt_canonical(t) WITH =));
INSERT INTO texts_by_hash SELECT line_of(1000);
INSERT INTO texts_by_hash SELECT lower(line_of(1000));
-- The digest way: any length, a unique index, ON CONFLICT DO UPDATE
CREATE TABLE by_digest (id int, at wkt);
CREATE UNIQUE INDEX ON by_digest (sha256(at::text::bytea));
INSERT INTO by_digest SELECT 1, line_of(1000)::wkt;
INSERT INTO by_digest SELECT 2, lower(line_of(1000))::wkt;
INSERT INTO by_digest SELECT 3, lower(line_of(1000))::wkt ON CONFLICT (sha256(at::text::bytea)) DO UPDATE SET id = excluded.id;
SELECT id FROM by_digest;
SET enable_seqscan = off;
EXPLAIN (COSTS OFF) SELECT id FROM by_digest WHERE sha256(at::text::bytea) = sha256('POINT(1 2)'::wkt::text::bytea);
RESET enable_seqscan;
-- A key that a foreign key can name: the digest as a generated column, over text
CREATE TABLE texts (t text, key bytea GENERATED ALWAYS AS (sha256(wkt_canonical(t)::bytea)) STORED PRIMARY KEY);
CREATE TABLE notes (of bytea REFERENCES texts);
INSERT INTO texts SELECT line_of(1000);
INSERT INTO texts SELECT lower(line_of(1000));
INSERT INTO notes SELECT sha256(wkt_canonical(lower(line_of(1000)))::bytea);
INSERT INTO notes SELECT sha256(wkt_canonical(line_of(1001))::bytea);
SELECT length(key), count(*) FROM texts JOIN notes ON of = key GROUP BY 1;
SET client_min_messages = warning;
DROP SCHEMA public CASCADE;
CREATE SCHEMA public;
