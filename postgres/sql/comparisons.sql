CREATE EXTENSION wkt;
-- Values of other lengths are told apart without being fetched
CREATE FUNCTION blocks(query text) RETURNS int LANGUAGE plpgsql AS $$
DECLARE plan json;
BEGIN
    EXECUTE 'EXPLAIN (ANALYZE, BUFFERS, FORMAT json) ' || query INTO plan;
    RETURN (plan->0->'Plan'->>'Shared Hit Blocks')::int + (plan->0->'Plan'->>'Shared Read Blocks')::int;
END $$;
CREATE TABLE long AS SELECT i, ('LINESTRING(' || repeat('1 2,', 10000 + i) || '1 2)')::wkt AS at FROM generate_series(1, 50) i;
ANALYZE long;
SELECT count(*) FROM long WHERE at = (SELECT at FROM long WHERE i = 7);
SELECT blocks('SELECT count(*) FROM long WHERE at = (SELECT at FROM long WHERE i = 7)') < 100 AS few_blocks;
-- A btree keeps equal values once, as one over bytea does
CREATE TABLE many AS SELECT format('POINT(%s.123456 7.654321)', i % 50)::wkt AS at FROM generate_series(1, 20000) i;
CREATE INDEX by_wkt ON many (at);
CREATE INDEX by_bytea ON many ((at::text::bytea));
SELECT pg_relation_size('by_wkt') = pg_relation_size('by_bytea') AS the_same_size;
-- Order and hashes are those of the bytes
SELECT count(*) FROM many a JOIN (SELECT DISTINCT at FROM many) b ON (a.at < b.at) <> (a.at::text::bytea < b.at::text::bytea)
    OR (a.at <= b.at) <> (a.at::text::bytea <= b.at::text::bytea) OR (a.at > b.at) <> (a.at::text::bytea > b.at::text::bytea)
    OR (a.at >= b.at) <> (a.at::text::bytea >= b.at::text::bytea) OR (a.at = b.at) <> (a.at::text::bytea = b.at::text::bytea)
    OR (a.at <> b.at) <> (a.at::text::bytea <> b.at::text::bytea);
SELECT array_agg(at ORDER BY at) = array_agg(at ORDER BY at::text::bytea) AS the_same_order FROM many;
SELECT wkt_hash('POINT(1 2)') = hashtext('POINT(1 2)'), wkt_hash_extended('POINT(1 2)', 7) = hashtextextended('POINT(1 2)', 7);
SELECT opcname, amname, amvalidate(c.oid) FROM pg_opclass c JOIN pg_am a ON a.oid = opcmethod WHERE opcname LIKE 'wkt%' ORDER BY 1, 2;
-- The front that sorting packs agrees with that order: among texts of all kinds, which begin alike and end each in its own way
CREATE TABLE mixed AS SELECT format(f, a, b, c)::wkt AS at FROM unnest(array[
    'POINT(%s %s)', 'POINT Z(%s %s %s)', 'POINT M(%s %s %s)', 'POINT ZM(%s %s %s 0)', 'POINT EMPTY', 'POINT Z EMPTY', 'POINT M EMPTY', 'POINT ZM EMPTY',
    'LINESTRING(%s %s)', 'LINESTRING(%s %s,0 0)', 'LINESTRING EMPTY', 'POLYGON((%s %s))', 'POLYGON((%s %s),EMPTY)', 'POLYGON((%s %s),(0 0))', 'POLYGON EMPTY',
    'MULTIPOINT(%s %s)', 'MULTIPOINT(EMPTY,%s %s)', 'MULTIPOINT(EMPTY)', 'MULTIPOINT(EMPTY,EMPTY)', 'MULTIPOINT EMPTY', 'MULTIPOINT M(EMPTY)', 'MULTILINESTRING((%s %s),EMPTY)',
    'MULTILINESTRING((%s %s,1 1))', 'MULTIPOLYGON(((%s %s)))', 'MULTIPOLYGON(EMPTY,((%s %s)))', 'MULTIPOLYGON(EMPTY)', 'MULTIPOLYGON Z(((%s %s %s)),EMPTY)',
    'GEOMETRYCOLLECTION EMPTY', 'GEOMETRYCOLLECTION M EMPTY', 'GEOMETRYCOLLECTION(POINT(%s %s))', 'GEOMETRYCOLLECTION(POINT(%s %s),POINT EMPTY)', 'GEOMETRYCOLLECTION(POINT EMPTY)',
    'GEOMETRYCOLLECTION(POINT EMPTY,POINT(%s %s))', 'GEOMETRYCOLLECTION(POINT Z EMPTY)', 'GEOMETRYCOLLECTION Z(POINT(%s %s))', 'GEOMETRYCOLLECTION(GEOMETRYCOLLECTION(POINT(%s %s)))',
    'GEOMETRYCOLLECTION(GEOMETRYCOLLECTION EMPTY)', 'GEOMETRYCOLLECTION(GEOMETRYCOLLECTION EMPTY,POINT(%s %s))', 'GEOMETRYCOLLECTION(MULTIPOINT(EMPTY,%s %s),LINESTRING M EMPTY)',
    'GEOMETRYCOLLECTION(MULTIPOINT(EMPTY),POLYGON((%s %s)))', repeat('GEOMETRYCOLLECTION ZM(', 9) || 'POINT(%s %s)' || repeat(')', 9),
    repeat('GEOMETRYCOLLECTION ZM(', 12) || 'POINT(%s %s)' || repeat(')', 12)]) f,
    unnest(array['0', '1', '-1', '1.5', '1.25', '10', '-10', '-0.5', '123456.123456', '123456.1234567']) a, unnest(array['0', '-1', '9', '0.1', '12345678901234567890']) b, unnest(array['0', '7.5']) c;
SELECT count(*), count(DISTINCT at), array_agg(at ORDER BY at) = array_agg(at ORDER BY at::text::bytea) AS the_same_order FROM mixed;
SELECT array_agg(at ORDER BY at DESC) = array_agg(at ORDER BY at::text::bytea DESC) AS the_same_order FROM mixed;
SET work_mem = '64kB';
SELECT count(*) AS others FROM (SELECT row_number() OVER (ORDER BY at) a, row_number() OVER (ORDER BY at::text::bytea) b, at FROM (SELECT DISTINCT at FROM mixed) d) o WHERE a <> b;
RESET work_mem;
-- Also where long values are stored elsewhere, or compressed
CREATE TABLE fetched (at wkt, packed wkt);
ALTER TABLE fetched ALTER packed SET STORAGE extended;
INSERT INTO fetched SELECT at, at FROM (SELECT ('LINESTRING(' || a || repeat(' 2,3', 3000 + i) || ' 4)')::wkt AS at FROM unnest(array['1', '-1', '10', '1.5', '123456.123456789012']) a, generate_series(1, 3) i) b;
SELECT array_agg(at ORDER BY at) = array_agg(at ORDER BY at::text::bytea) AND array_agg(packed ORDER BY packed) = array_agg(at ORDER BY at::text::bytea) AS the_same_order FROM fetched;
-- A BRIN index has the least and the greatest of neighbouring rows
CREATE TABLE sorted AS SELECT at FROM many ORDER BY at;
CREATE INDEX by_brin ON sorted USING brin (at) WITH (pages_per_range = 1);
CREATE FUNCTION plan(query text) RETURNS text LANGUAGE plpgsql AS $$ DECLARE line text; said text := ''; BEGIN FOR line IN EXECUTE 'EXPLAIN ' || query LOOP said := said || line; END LOOP; RETURN said; END $$;
SET enable_seqscan = off;
SELECT plan('SELECT count(*) FROM sorted WHERE at = ''POINT(7.123456 7.654321)''') LIKE '%Bitmap Index Scan on by_brin%' AS by_the_index;
SELECT count(*) FROM sorted WHERE at = 'POINT(7.123456 7.654321)';
SELECT count(*) FROM sorted WHERE at > 'POINT(7.123456 7.654321)' AND at <= 'POINT(8.123456 7.654321)';
SELECT blocks('SELECT count(*) FROM sorted WHERE at = ''POINT(7.123456 7.654321)''') < pg_relation_size('sorted') / 8192 / 3 AS few_blocks;
RESET enable_seqscan;
-- Each function of the extension may run in parallel and has a comment; only comparisons and hashes are leakproof, since an error quotes its argument
CREATE VIEW members AS SELECT p.* FROM pg_proc p JOIN pg_depend d ON classid = 'pg_proc'::regclass AND objid = p.oid AND deptype = 'e'
    JOIN pg_extension e ON e.oid = refobjid AND extname = 'wkt';
SELECT proname FROM members WHERE proparallel <> 's' OR provolatile <> CASE proname WHEN 'wkt_version' THEN 's' ELSE 'i' END OR obj_description(oid, 'pg_proc') IS NULL;
SELECT obj_description('wkt'::regtype, 'pg_type');
SELECT string_agg(proname, ' ' ORDER BY proname) FROM members WHERE proleakproof;
SELECT procost, string_agg(DISTINCT proname, ' ' ORDER BY proname) FROM members WHERE procost <> 1 GROUP BY 1;
-- A text is compared once it is cast
SELECT 'POINT(1 2)'::wkt = 'point(1 2)'::text::wkt, 'POINT(1 2)'::wkt::text LIKE 'POINT(%';
SELECT 'POINT(1 2)'::wkt LIKE 'POINT(%';
SET client_min_messages = warning;
DROP SCHEMA public CASCADE;
CREATE SCHEMA public;
