create table calls (n int, call text, digits int, places int);
insert into calls values (1, 'ST_AsText(g)', null, 18), (2, 'ST_AsText(g, 18)', 18, 18), (3, 'ST_AsText(g, 6)', 6, 6);
create function written(g geometry, digits int) returns text language sql immutable as
    $$ select case when digits is null then ST_AsText(g) else ST_AsText(g, digits) end $$;
create table texts as
    select n, call, digits, places, sort, x, y, written(ST_MakePoint(x, y), digits) t from doubles, calls;
-- PostGIS writes an exponent of what is no more than 1e-8, and of what is 1e15 or more.
create table keys as
    select *, case when wkt_reads(t, places) then wkt_canonical(t, places) end as key,
           abs(x) <= 1e-8 and x <> 0 or abs(x) >= 1e15 as refused from texts;
select 'PostGIS', call, sort, count(*), count(key),
       count(*) filter (where key = wkt_canonical(written(ST_GeomFromText(key), digits), places)),
       count(*) filter (where ST_X(ST_GeomFromText(key)) = x and ST_Y(ST_GeomFromText(key)) = y),
       count(*) filter (where (key is null) <> refused)
from keys group by n, call, sort order by n, sort;
select 'PostGIS', call, sort, count(*), count(*) filter (where wkt_or_null(written(ST_GeomFromText(key), digits))::text = key)
from given, calls group by n, call, sort order by n, sort;

-- What docs/KEYS.md and docs/FROM_OTHER_TOOLS.md say beside.
create table places (id int, at wkt(6) primary key);
insert into places values (1, 'POINT(1.234567 2)'), (2, 'POINT(1.234568 2)'), (3, 'LINESTRING(0 0,1.000004 1)');
alter table places add at5 wkt(5);
update places set at5 = ST_AsText(ST_GeomFromText(at::text), 5)::wkt(5);
do $$ begin
    assert (select string_agg(at5::text || ' ' || n, '; ') from (select at5, count(*) n from places group by at5 having count(*) > 1) d)
        = 'POINT(1.23457 2) 2', 'keys that fall together';
    assert (select at5 from places where id = 3) = 'LINESTRING(0 0,1 1)', 'a key of fewer places';
    delete from places where id = 2;
    alter table places drop constraint places_pkey, add primary key (at5);
    assert ST_AsText(ST_SnapToGrid(ST_MakePoint(1e-9, 1), 1e-6), 6) = 'POINT(0 1)', 'snapped';
    assert not wkt_reads(ST_AsText(ST_MakePoint(1e-9, 1), 18)) and not wkt_reads(ST_AsText(ST_MakePoint(1e15, 1), 15)), 'exponents';
    assert not wkt_reads(ST_AsEWKT(ST_SetSRID(ST_MakePoint(1, 2), 4326))) and not wkt_reads(ST_AsEWKT(ST_MakePoint(1, 2, 3))), 'EWKT';
    assert not wkt_reads(ST_MakePoint(1, 2)::text) and not wkt_reads(ST_AsText(ST_MakePoint('nan', 1))), 'WKB, NaN';
    assert not wkt_reads(ST_AsText('CIRCULARSTRING(0 0,1 1,2 0)'::geometry)), 'curves';
    assert wkt_reads(ST_AsText(ST_CurveToLine('CIRCULARSTRING(0 0,1 1,2 0)'::geometry), 15)), 'lines of curves';
    assert wkt_same(ST_AsText(ST_Normalize('POLYGON((0 0,1 0,0 1,0 0))'), 6), ST_AsText(ST_Normalize('POLYGON((1 0,0 0,0 1,1 0))'), 6)), 'normalized';
end $$;
create table again as
    select n, key, wkt_canonical(ST_AsText(ST_GeomFromText(key), 15)) as again from kinds;
select 'PostGIS', key, again from again where key <> again order by n;
