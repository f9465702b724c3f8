CREATE EXTENSION wkt;
\pset null (null)
-- The place, what was expected there, and what may be done
SELECT wkt_canonical('');
SELECT wkt_canonical('POINT(1)');
SELECT wkt_canonical('POINT(1 2');
SELECT wkt_canonical('POINT(1 2 3)');
SELECT wkt_canonical('POINT()');
SELECT wkt_canonical('POINT(1 2))');
SELECT wkt_canonical('POINT(1 2) POINT(1 2)');
SELECT wkt_canonical('SRID=4326;POINT(1 2)');
SELECT wkt_canonical('POINT(1e3 2)');
SELECT wkt_canonical('POINT(1.25 2)', 0);
SELECT wkt_canonical('POINT(1.250 2)', 2), wkt_canonical('POINT(1 1.2500000)', 1);
SELECT wkt_canonical('POINT(200000000000000000000 2)');
SELECT wkt_canonical('POINT(1 2 170141183460469231731)');
SELECT wkt_canonical('POINT(1 -170141183460469231732)');
SELECT wkt_canonical('POINT(nan 2)');
SELECT wkt_canonical('0101000000000000000000F03F0000000000000040');
SELECT wkt_canonical('TRIANGLE((0 0,1 0,0 1,0 0))');
SELECT wkt_canonical('CIRCULARSTRING(0 0,1 1,2 0)');
SELECT wkt_canonical('POINT(1,2)');
SELECT wkt_canonical('null');
SELECT wkt_canonical('BOX(1 2,3 4)');
SELECT wkt_canonical('1 2');
SELECT wkt_canonical(U&'P\00D6INT(1 2)');
SELECT wkt_canonical(U&'\FEFFPOINT(1 2)');
SELECT wkt_same('POINT(1 2)', 'POINT(1)');
SELECT wkt_canonical('LINESTRING(' || repeat('1 2,', 1000) || '3)');
-- Places
SELECT wkt_canonical('POINT(1 2)', -1);
SELECT wkt_canonical('POINT(1 2)', 37);
SELECT wkt_reads('POINT(1 2)', 37);
SELECT (wkt_explain('POINT(1 2)', -1)).shown;
SELECT (wkt_explain('POINT(1 2)', 37)).shown;
SELECT wkt_same('POINT(1 2)', 'POINT(1 2)', 37);
SELECT wkt_canonical('POINT(0.1234567890123456789012345 2)', 24);
SELECT wkt_canonical('POINT(2 180)', 36);
SELECT wkt_canonical('POINT(170.141183460469231731687303715884105728 2)', 36);
-- The line of the text, and a caret at the place
SELECT (wkt_explain('POINT(1 2)')).shown;
SELECT (wkt_explain('')).shown;
SELECT (wkt_explain('POINT(1)')).shown;
SELECT (wkt_explain('POINT(1 2) more')).shown;
SELECT (wkt_explain(E'LINESTRING(0 0,\n 1 1\n 2 2)')).shown;
SELECT (wkt_explain('LINESTRING(' || repeat('10 20, ', 100) || '1 2 3, ' || repeat('10 20, ', 100) || '0 0)')).shown;
-- As columns: the cause is the word that docs/FILES.md has
SELECT t, e.place, e.expected, e.cause, e.hint, e.message FROM (VALUES (1, 'POINT(1'), (2, 'POINT(1 2)'), (3, 'POINT(1 2) x'), (4, ''), (5, 'POINT(1.5 2'), (6, 'POINT(1.1234567 2)'),
    (7, 'POINT(1e3 2)'), (8, 'SRID=4326;POINT(1 2)'), (9, 'POINT(1 2 3)'), (10, 'POINT()'), (11, 'LINESTRING(0 0 1 1)'), (12, NULL)) v(id, t), wkt_explain(t, 6) e ORDER BY id;
SELECT (wkt_explain(t, 6)).cause, count(*) FROM (VALUES ('POINT(1'), ('POINT(1 2)'), ('POINT(2'), ('POINT(1 2) x'), ('POINT(1.1234567 2)'), (NULL)) v(t) GROUP BY 1 ORDER BY 1;
SELECT count(*) AS others FROM (VALUES ('POINT(1 2)'), ('POINT(1'), ('POINT(1.5 2)'), ('POINT(200000000000000000000 2)'), ('x'), ('POINT(1 2) x')) v(t), generate_series(0, 18) p, wkt_read(t, p) r, wkt_explain(t, p) e
    WHERE (r.place, r.expected, r.cause, r.hint, r.message) IS DISTINCT FROM (e.place, e.expected, e.cause, e.hint, e.message) AND (r.value IS NULL OR r.place IS NOT NULL);
SELECT wkt_explain('POINT(1 2)') IS NULL AS is_null, wkt_explain('POINT(1') IS NULL AS is_not;
-- What isn't printable stands in a message by its number
SELECT wkt_canonical(E'\x1b[2J\x07\n\tPOINT(1 2)\x7f');
SELECT wkt_canonical(U&'\202EPOINT(1 2)\00A0\00E9\+01F600' || repeat(U&'\0085', 30));
SELECT wkt_canonical('POINT(1 2)', 18, E'\x1b');
SELECT l FROM regexp_split_to_table((wkt_explain(E'\n\r\tPOINT(1 2)\r \x1b[31m' || U&'\202E\00E9\+0E0041\3164\FE0F' || E'\rx')).shown, E'\n') l;
SELECT l FROM regexp_split_to_table((wkt_explain('LINESTRING(' || repeat(E'1 2,\r', 100) || U&'\009B' || repeat('x', 100))).shown, E'\n') l;
-- Of the type
SELECT 'POINT(1)'::wkt;
SELECT ''::wkt;
SELECT 'POINT(1.1234567 2)'::wkt(6);
SELECT 'POINT(1 2)'::wkt(19);
SELECT 'POINT(1 2)'::wkt(-1);
SELECT 'POINT(1 2)'::wkt(1, 2);
SELECT 'POINT(1.25 2)'::wkt::wkt(1);
DROP EXTENSION wkt;
