-- SpatiaLite writes some sixteen digits of a number, the last of them at times not the nearest. With places after the point
-- that leave at most fifteen, a text stays the same: the six of AsText for numbers below 1e9, twelve of AsWKT for degrees.
.mode tabs
create table calls (call text, sort text, x real, y real, t text, places int);
insert into calls select 'AsText(g)', sort, x, y, AsText(MakePoint(x, y)), 6 from doubles where abs(x) < 1e9;
insert into calls select 'AsWKT(g, 12)', sort, x, y, AsWKT(MakePoint(x, y), 12), 12 from doubles where abs(x) < 1e3 and sort <> 'metres';
create table keys as
    select *, case when wkt_reads(t, places) then wkt_canonical(t, places) end as key from calls;
select 'SpatiaLite', call, sort, count(*), count(key),
       count(*) filter (where key = wkt_canonical(case places when 6 then AsText(GeomFromText(key)) else AsWKT(GeomFromText(key), 12) end, places)),
       count(*) filter (where X(GeomFromText(key)) = x and Y(GeomFromText(key)) = y),
       count(*) filter (where key is null)
from keys group by call, sort order by call, sort;
create table passes as
    select sort, key, AsText(GeomFromText(key)) as six, AsWKT(GeomFromText(key), 12) as twelve, AsWKT(GeomFromText(key)) as most from given;
select 'SpatiaLite', 'AsText(g)', sort, count(*), count(*) filter (where wkt_or_null(six) = key) from passes group by sort;
select 'SpatiaLite', 'AsWKT(g, 12)', sort, count(*), count(*) filter (where wkt_or_null(twelve) = key) from passes group by sort;
select 'SpatiaLite', 'AsWKT(g)', sort, count(*), count(*) filter (where wkt_or_null(most) = key) from passes group by sort;
create table again as select key, AsText(GeomFromText(key)) as t from kinds;
select 'SpatiaLite', key, case when t is null then 'not read there' when wkt_reads(t) then wkt_canonical(t) else 'refused' end as again
from again where again <> key order by again.rowid;
