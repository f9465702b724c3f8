CREATE EXTENSION wkt;
\pset null (null)
-- Points, parts and bounds: paths, parts and counts are those of PostGIS's ST_DumpPoints, ST_Dump and ST_NPoints, as postgis.sh compares them
CREATE TABLE shapes (id int, g wkt);
INSERT INTO shapes VALUES (1, 'point zm (1 2.50 -3 4)'), (2, 'POINT EMPTY'), (3, 'POLYGON((0 0,4 0,2 4,0 0),(1 1,2 1,2 2,1 1))'), (4, 'MULTIPOINT M(EMPTY,3 4 5)'),
    (5, 'GEOMETRYCOLLECTION(POINT Z(1 2 3),GEOMETRYCOLLECTION(MULTILINESTRING((0 0,1 1),EMPTY),POINT EMPTY),MULTIPOINT EMPTY,POINT M(5 6 7))'),
    (6, 'MULTIPOLYGON(((0 0,4 0,2 4,0 0)),EMPTY,((10 10,14 10,12 14,10 10),EMPTY))'), (7, 'GEOMETRYCOLLECTION(MULTIPOINT(EMPTY))'), (8, NULL);
SELECT id, p.* FROM shapes, wkt_points(g) p WHERE id IN (1, 4, 5);
SELECT id, string_agg(format('%s: %s %s', p.path, x, y), ', ' ORDER BY n) FROM shapes, wkt_points(g) WITH ORDINALITY p(path, x, y, z, m, n) WHERE id IN (3, 6) GROUP BY id;
SELECT id, p.*, pg_typeof(p.part) FROM shapes, wkt_each(g) p;
SELECT id, wkt_num_points(g), wkt_num_parts(g), wkt_kind(g), wkt_dimension(g) FROM shapes ORDER BY id;
SELECT id, b.* FROM shapes, wkt_bounds(g) b ORDER BY id;
-- No number is rounded, and the least is the least as a number
SELECT min_x, max_x, min_y, max_y FROM wkt_bounds('LINESTRING(-10 9.5,-9.75 10,-10.25 9.123456789012345678,-10.3 9.12345678901234568,-9 9.9)');
SELECT min_x, max_x FROM wkt_bounds('LINESTRING(170141183460469231731 0,-170141183460469231731 0,-0.000000000000000001 0)');
SELECT min_x = min AND max_x = max AS as_numbers FROM (SELECT ('LINESTRING(' || string_agg(format('%s 0', x), ',') || ')')::wkt g, min(x), max(x) FROM
    (SELECT round((hashint4(i) % 1000)::numeric / (1 + abs(hashint4(-i)) % 7), i % 4) x FROM generate_series(1, 200) i) a) b, wkt_bounds(g);
SELECT id, (wkt_bounds(g)).max_y, wkt_points(g) FROM shapes WHERE id IN (1, 2);
-- The same as doubles: the nearest of points, and of bounds the nearest outside of them
SELECT id, p.*, pg_typeof(x) FROM shapes, wkt_points_float8(g) p WHERE id IN (1, 4, 5);
SELECT id, b.*, wkt_box(g) FROM shapes, wkt_bounds_float8(g) b ORDER BY id;
SELECT wkt_x('POINT ZM(0.1 -2.5 3 4)'), wkt_y('POINT ZM(0.1 -2.5 3 4)'), wkt_z('POINT ZM(0.1 -2.5 3 4)'), wkt_m('POINT ZM(0.1 -2.5 3 4)'), wkt_x('POINT EMPTY'), wkt_z('POINT M(1 2 3)'), wkt_m('POINT M(1 2 3)');
SELECT min_x < 0.1 AS below, max_x = 0.1 AS at_it, min_y = 0.3 AS at_it, max_y > 0.3 AS above, wkt_box(g) = box(point(min_x, min_y), point(max_x, max_y)) AS box FROM (VALUES ('POINT(0.1 0.3)'::wkt)) v(g), wkt_bounds_float8(g);
SELECT wkt_x('MULTIPOINT((1 2))');
SELECT wkt_m('GEOMETRYCOLLECTION(POINT(1 2))');
SELECT count(*) AS other_doubles FROM (SELECT i, ('MULTIPOINT(' || string_agg(format('%s %s', round((hashint4(i * j) % 1000)::numeric / 7, i % 19), hashint4(j) % 100), ',') || ')')::wkt g FROM generate_series(1, 200) i, generate_series(1, 5) j GROUP BY i) s,
    LATERAL (SELECT e.x::float8 <> d.x OR e.y::float8 <> d.y AS differ FROM wkt_points(g) e JOIN wkt_points_float8(g) d USING (path)) p WHERE differ;
SELECT sum(x), count(*), wkt_box(min(g)) FROM (SELECT ('LINESTRING(' || repeat('0.5 2,', 100000) || '1 1)')::wkt g) s, wkt_points_float8(g);
-- An index of boxes
CREATE TABLE boxes AS SELECT i, format('LINESTRING(%s %s,%s %s)', i % 100, i / 100, i % 100 + 0.7, i / 100 + 0.3)::wkt AS at FROM generate_series(0, 9999) i;
INSERT INTO boxes VALUES (-1, 'POINT EMPTY'), (-2, NULL);
CREATE INDEX ON boxes USING spgist (wkt_box(at));
ANALYZE boxes;
SET enable_seqscan = off;
EXPLAIN (COSTS OFF) SELECT i FROM boxes WHERE wkt_box(at) && '(10.7,20.3),(11,22)';
SELECT i FROM boxes WHERE wkt_box(at) && '(10.7,20.3),(11,22)' ORDER BY i;
SELECT i FROM boxes WHERE wkt_box(at) <@ '(13,31),(11,30)' ORDER BY i;
RESET enable_seqscan;
SELECT i FROM boxes WHERE wkt_box(at) && '(10.7,20.3),(11,22)' ORDER BY i;
-- A part is a value again; a large number keeps its places
SELECT bool_and(part = part::text::wkt), count(*) FROM shapes, wkt_each(g);
SELECT part, x FROM wkt_each(('multipoint(200000000000000000000 1)'::text)::wkt(6)), wkt_points(part);
SELECT x, path[1], array_length(path, 1) FROM wkt_points((repeat('GEOMETRYCOLLECTION(', 100000) || 'POINT(7 8)' || repeat(')', 100000))::wkt);
SELECT count(*), max(path[1]), sum(x) FROM wkt_points(('LINESTRING(' || repeat('0.5 2,', 100000) || '1 1)')::wkt);
SELECT count(*) FROM (SELECT wkt_each(g) FROM shapes LIMIT 3) a;
-- The header of a text, with what may stand before it, and of a value of each kind
SELECT wkt_dimension('point zm ( 1'), wkt_dimension(E'\n\t point m('), wkt_kind(repeat(' ', 1000) || 'linestring z empty'), wkt_dimension('nonsense'), wkt_dimension('');
SELECT count(*) AS wrong FROM unnest(array['POINT', 'LINESTRING', 'POLYGON', 'MULTIPOINT', 'MULTILINESTRING', 'MULTIPOLYGON', 'GEOMETRYCOLLECTION']) k, unnest(array['', ' Z', ' M', ' ZM']) d
    WHERE wkt_kind((k || d || ' EMPTY')::wkt) <> k || d OR wkt_dimension((k || d || ' EMPTY')::wkt) <> 'XY' || trim(d);
-- Of a long value that is stored elsewhere kind, dimension and length fetch no more than a piece
CREATE FUNCTION blocks(query text) RETURNS int LANGUAGE plpgsql AS $$
DECLARE plan json;
BEGIN
    EXECUTE 'EXPLAIN (ANALYZE, BUFFERS, FORMAT json) ' || query INTO plan;
    RETURN (plan->0->'Plan'->>'Shared Hit Blocks')::int + (plan->0->'Plan'->>'Shared Read Blocks')::int;
END $$;
CREATE TABLE long AS SELECT i, ('LINESTRING M(' || repeat('1 2 3,', 1000000) || i || ' 2 3)')::wkt AS at FROM generate_series(1, 3) i;
ANALYZE long;
SELECT blocks('SELECT wkt_kind(at), wkt_dimension(at), length(at) FROM long') < 200 AS few_blocks, blocks('SELECT wkt_num_points(at) FROM long') > 2000 AS many_blocks;
SELECT wkt_kind(at), wkt_dimension(at), length(at), wkt_num_points(at) FROM long WHERE i = 1;
-- So does sorting, where the fronts differ
CREATE TABLE fronts AS SELECT ('LINESTRING(' || i || repeat(' 2,3', 100000) || ' 4)')::wkt AS at FROM generate_series(1, 9) i;
SELECT blocks('SELECT 1 FROM fronts ORDER BY at') < 200 AS few_blocks;
SET client_min_messages = warning;
DROP SCHEMA public CASCADE;
CREATE SCHEMA public;
