CREATE EXTENSION wkt;
-- A million collections in collections, with the server's default stack
SHOW max_stack_depth;
CREATE TABLE nested AS SELECT repeat('GEOMETRYCOLLECTION(', 1000000) || 'point(1 2.0)' || repeat(')', 1000000) t;
SELECT length(wkt_canonical(t)), wkt_canonical(t) = replace(t, 'point(1 2.0)', 'POINT(1 2)') AS as_expected FROM nested;
SELECT wkt_reads(t), wkt_same(t, upper(t)), wkt_kind(t) FROM nested;
SELECT length(t::wkt::text) FROM nested;
-- Refused at the end, and never closed
SELECT wkt_reads(t || ')'), wkt_reads(left(t, 19000000)), wkt_reads(replace(t, '2.0', '2.0 3')) FROM nested;
SELECT wkt_reads(repeat('(', 10000000)), wkt_reads(repeat('GEOMETRYCOLLECTION Z(', 1000000));
SELECT (wkt_explain(left(t, 19000006))).shown FROM nested;
DROP TABLE nested;
DROP EXTENSION wkt;
