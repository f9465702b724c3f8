.bail off
.load ./mod_wkt
.nullvalue (null)
.headers off
-- One text for one geometry
select wkt_canonical('point ( 10 -20.50 )'), wkt_canonical('LineStringZ(1 2 3,+4 .5 6.0)'), wkt_canonical('point(1.50 2)', 1);
select wkt_canonical('multipoint(.1 .1,.1 .1,.1 .1,.1 .1,.1 .1,.1 .1,.1 .1,.1 .1)');
select wkt_same('POINT(1 2)', 'point ( 1.0 +2 )'), wkt_same('POINT(1 2)', 'POINT(2 1)'), wkt_same('POINT(0 1)', 'POINT(-0 1.0)', 1);
select wkt_kind('polygon zm ((1'), wkt_kind('POINT(1 2)'), wkt_kind('nonsense'), wkt_kind('');
select wkt_reads('POINT(1 2)'), wkt_reads('POINT(1)'), wkt_reads('POINT(1 2) more'), wkt_reads('POINT(1 2) '), wkt_reads(''), wkt_reads('POINT(1.5 2)', 0);
-- Null in, null out
select wkt_canonical(null), wkt_canonical('POINT(1 2)', null), wkt_same(null, 'POINT(1 2)'), wkt_same('POINT(1 2)', null), wkt_reads(null), wkt_kind(null), wkt_explain(null);
-- Refusals
select wkt_canonical('');
select wkt_canonical('POINT(1)');
select wkt_canonical('POINT(1 2) more');
select wkt_canonical('POINT(1.5 2)', 0);
select wkt_canonical('POINT(1 2)' || char(0));
select wkt_canonical(x'ff');
select wkt_canonical(12);
select wkt_same('POINT(1 2)', 'POINT(1');
select wkt_canonical('POINT(1 2)', -1);
select wkt_canonical('POINT(1 2)', 37);
select wkt_reads('POINT(1 2)', 'six');
select wkt_same('POINT(1 2)', 'POINT(1 2)', 1.5);
select wkt_explain('POINT(1 2)', 4294967296);
-- Hints
select wkt_canonical('POINT(1.1234567 2)', 6);
select wkt_canonical('POINT(200000000000000000000 2)');
select wkt_canonical('SRID=4326;POINT(1 2)');
select wkt_canonical('POINT(1 2 3)');
select wkt_same('POINT(1 2)', 'POINT()');
-- The line of the text, and a caret at the place
select wkt_explain('POINT(1 2)');
select wkt_explain('POINT(1)');
select wkt_explain('POINT(1 2) more');
select wkt_explain('LINESTRING(0 0,' || char(10) || ' 1 1' || char(10) || ' 2 2)');
select wkt_explain('GEOMETRYCOLLECTION(POINT(1 2),ÖÖ(1 2))');
select wkt_explain('LINESTRING(' || replace(hex(zeroblob(100)), '00', '10 20, ') || '1 2 3, ' || replace(hex(zeroblob(100)), '00', '10 20, ') || '0 0)');
select wkt_explain(char(10, 13, 9) || 'POINT(1 2)' || char(13, 32, 27) || '[31m' || char(155, 8238, 233, 8364, 128512, 917569, 12644, 65039) || char(13) || 'x');
-- The same one by one; the cause is the word that docs/FILES.md has
create table refused (t text);
insert into refused values ('POINT(1'), ('POINT(1 2)'), ('POINT(1 2) x'), (''), ('POINT(1.1234567 2)'), ('POINT(1e3 2)'), ('SRID=4326;POINT(1 2)'), ('POINT()'), (x'ff'), (null);
select t, wkt_explain_place(t, 6), wkt_explain_expected(t, 6), wkt_explain_cause(t, 6), wkt_explain_hint(t, 6), wkt_explain_message(t, 6) from refused;
select wkt_explain_cause(t), count(*) from refused group by 1;
select wkt_explain_cause('POINT(1 2)', 37);
-- A unique index on an expression
create table texts (t text);
create unique index one_geometry on texts (wkt_canonical(t));
insert into texts values ('POINT(1 2)');
insert into texts values ('point(1 2.0)');
insert into texts values ('POINT(1 2');
insert into texts values ('POINT(1 2.0001)'), (null), (null);
select count(*) from texts;
explain query plan select * from texts where wkt_canonical(t) = wkt_canonical('Point(1.0 2)');
select t from texts where wkt_canonical(t) = wkt_canonical('Point(1.0 2)');
-- CHECK, and generated columns, stored and not; no function is called that a schema may not
pragma trusted_schema = off;
create table checked (t text check (t = wkt_canonical(t)) primary key) without rowid;
insert into checked values ('point(1 2)');
insert into checked values ('POINT(1 2)');
create table generated (t text, key text generated always as (wkt_canonical(t)) stored unique, kind text as (wkt_kind(t)));
insert into generated (t) values ('point(1 2.50)');
insert into generated (t) values ('point(1 2.5)') on conflict (key) do nothing;
select * from generated;
create view of_views as select wkt_canonical(t) from generated;
select * from of_views;
create trigger before_insert before insert on checked begin select raise(abort, 'not a point') where wkt_kind(new.t) <> 'POINT'; end;
insert into checked values ('LINESTRING(0 0,1 1)');
pragma integrity_check;
-- Points, parts and bounds as rows: paths and parts are those of PostGIS's ST_DumpPoints and ST_Dump
create table shapes (id integer primary key, g text);
insert into shapes (g) values ('point zm (1 2.50 -3 4)'), ('POINT EMPTY'), ('polygon((0 0,4 0,2 4,0 0),(1 1,2 1,2 2,1 1))'),
    ('MULTIPOINT M(EMPTY,3 4 5)'), ('GEOMETRYCOLLECTION(POINT Z(1 2 3),GEOMETRYCOLLECTION(MULTILINESTRING((0 0,1 1),EMPTY)),POINT M(5 6 7))'), (null);
select id, path, x, y, z, m, typeof(x), x_text, y_text, z_text, m_text, typeof(x_text) from shapes, wkt_points(g) where id <> 3;
select path, x, y from shapes, wkt_points(g) where id = 3 and path like '[2,%';
select id, path, kind, part from shapes, wkt_each(g);
select id, b.* from shapes, wkt_bounds(g) b;
select min_x_text, max_x_text, min_y_text, max_y_text from wkt_bounds('linestring(-10 9.5,-9.75 10,-10.25 9.123456789012345678)');
-- Numbers compare as numbers, and the doubles of bounds are outside of them; the texts beside them are exact
create table sizes (g text);
insert into sizes values ('POINT(9 1)'), ('POINT(10 1)'), ('POINT(-3 1)'), ('POINT EMPTY');
select max(max_x), min(min_x), max(x), sum(x), typeof(sum(x)) from sizes, wkt_bounds(g), wkt_points(g);
select count(*) from sizes, wkt_bounds(g) where max_x > 100;
select x_text from sizes, wkt_points(g) where x between 1 and 9.5;
select x_text from sizes, wkt_points(g) where x > '9' order by x desc;
select x_text from sizes, wkt_points(g) order by x;
select min_x < 0.1, max_x = 0.1, min_y = 0.3, max_y > 0.3, min_x_text, max_y_text from wkt_bounds('POINT(0.1 0.3)');
create table plain as select g, b.* from sizes, wkt_bounds(g) b;
select g from plain where max_x > 9;
select id, wkt_num_points(g), wkt_num_parts(g), wkt_kind(g), wkt_dimension(g) from shapes;
select count(*) from wkt_points('POINT(1.5 2)', 1), wkt_each('MULTIPOINT(1 2,3 4)', '6.0') where x = 1.5 and x = '1.5' and x_text = 1.5;
select count(*) from wkt_points;
select count(*) from wkt_points('POINT(1 2)', null);
select count(*) from wkt_points('POINT(1 2', 6);
select count(*) from wkt_each('POINT(1.5 2)', 0);
select count(*) from wkt_bounds('POINT(1 2)', 37);
select wkt_num_points('POINT(1)');
-- Their hidden columns have the arguments
select geometry, places, typeof(places), x from wkt_points('point(1 2.0)', '6');
select id, x from shapes join wkt_points('point zm (1 2.50 -3 4)') p on p.geometry = g;
select kind from wkt_each('POINT(1 2)', '6') where geometry = 'POINT(1 2)' and places = '6';
select min_x from wkt_bounds where (geometry = 'POINT(1 2)' and min_y = '2') or (geometry = 'POINT(3 4)' and min_y = '2');
-- They may be called in a view, also by those who trust no schema
create view points as select id, x from shapes, wkt_points(g);
select count(*) from points;
-- Up to 36 places
select wkt_canonical('point(0.1234567890123456789012340 -.5)', 24), wkt_canonical('POINT(-170.141183460469231731687303715884105728 0.0000000000000000000000000000000000010)', 36);
select wkt_reads('POINT(180 90)', 35), wkt_reads('POINT(180 90)', 36), wkt_or_null('POINT(0.1234567890123456789 2)'), wkt_or_null('POINT(0.1234567890123456789 2)', '19');
select wkt_same('POINT(0.000000000000000000000000000000000001 1)', 'POINT(0 1)', 36), wkt_same('POINT(0.123456789012345678901234 1)', 'point(+0.1234567890123456789012340 1.0)', 24.0);
select wkt_canonical('POINT(2 180)', 36);
select wkt_explain('POINT(2 0.1234567890123456789012345)', 24);
select x, y, x_text, y_text from wkt_points('POINT(0.000000000000000000000000000000000001 -170)', 36);
select min_x, max_x, min_x_text, max_x_text from wkt_bounds('LINESTRING(-0.000000000000000000000000000000000001 0,0.000000000000000000000000000000000002 0)', 36);
-- Dialects, by their names
select wkt_canonical('SRID=4326;POINT(1 2.0 3)', 18, 'ewkt'), wkt_canonical('POINT(1e3 5e-5)', 5, 'exponents'), wkt_canonical('POINT(nan nan)', 6, 'nan'), wkt_canonical('POINT(1 2)', 0, '');
select length(wkt_canonical('POINT(1e37 1)', 0, 'exponents')), wkt_or_null('SRID=1;POINT(1 2)', 6, 'untagged'), wkt_or_null('SRID=1;POINT(1 2)', '6', 'untagged,srid');
select wkt_srid('SRID=4326;POINT(1 2)'), wkt_srid(' srid=0;'), wkt_srid('POINT(1 2)'), wkt_srid('SRID=1000000000;POINT(1 2)'), wkt_srid(''), wkt_srid(x''), wkt_srid(4326), wkt_srid(null);
select wkt_same('SRID=1;POINT(1 2)', 'SRID=2;point(1 2.0)', 18, 'srid'), wkt_same('POINT(1 2 3)', 'POINT M(1 2 3)', 18, 'untagged'), wkt_reads('POINT(1e3 2)', 18, 'ewkt'), wkt_reads('POINT(1e3 2)', 18, x'6e616e2c6578706f6e656e7473');
select wkt_canonical(null, 18, 'srid'), wkt_canonical('POINT(1 2)', null, 'srid'), wkt_canonical('POINT(1 2)', 18, null), wkt_same('POINT(1 2)', 'POINT(1 2)', 18, null), wkt_explain('POINT(1', 18, null);
select wkt_canonical('SRID=4326;POINT(1 2 3)', 18, 'srid');
select wkt_canonical('POINT(1e-7 2)', 6, 'exponents');
select wkt_canonical('POINT(1 2)', 18, 'wkb');
select wkt_reads('POINT(1 2)', 18, 'EWKT');
select wkt_same('POINT(1 2)', 'POINT(1 2)', 18, 'ewkt,');
select wkt_explain_cause('POINT(1 2)', 18, 'ewkt exponents');
select wkt_or_null('POINT(1 2)', 18, 1);
select wkt_or_null('POINT(1 2)', 37, 'wkb');
select wkt_explain('SRID=4326;POINT(1 2 3 4 5)', 18, 'ewkt');
select t, wkt_explain_place(t, 6, 'ewkt'), wkt_explain_expected(t, 6, 'ewkt'), wkt_explain_cause(t, 6, 'ewkt'), wkt_explain_hint(t, 6, 'ewkt'), wkt_explain_message(t, 6, 'ewkt') from refused;
create table imported (t text, srid integer as (wkt_srid(t)), key text generated always as (wkt_canonical(t, 18, 'ewkt')) stored unique);
insert into imported values ('SRID=4326;POINT(1 2 3)');
insert into imported values ('SRID=3857;POINT Z(1.0 2 3)');
select * from imported;
select x, y, z from imported, wkt_points(key);
select x from wkt_points('SRID=4326;POINT(1 2 3)');
