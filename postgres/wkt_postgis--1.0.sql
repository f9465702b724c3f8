\echo Use "CREATE EXTENSION wkt_postgis" to load this file. \quit

-- Each name has its schema, as in the script of wkt. Those of the three extensions are looked up, since @extschema:postgis@
-- came with PostgreSQL 16. A regnamespace is written as an identifier.
DO LANGUAGE plpgsql $do$
DECLARE
    -- Of postgis, wkt and wkt_postgis.
    schemas pg_catalog.text[] := (SELECT pg_catalog.array_agg(extnamespace::pg_catalog.regnamespace::pg_catalog.text ORDER BY extname)
        FROM pg_catalog.pg_extension WHERE extname OPERATOR(pg_catalog.=) ANY ('{postgis,wkt,wkt_postgis}'::pg_catalog.name[]));
    -- ST_AsText writes the shortest decimal of a double and then rounds it: to 25 places it rounds none that has no exponent.
    -- It writes no SRID, and what isn't read, such as a curve, is refused. The function isn't called wkt: PostGIS casts each text
    -- to a geometry where that is wanted, so wkt(text) would be rounded to doubles.
    -- wkt_or_null is called with the types of all its arguments, since its schema may have another one of text alone.
    -- The other way gives a geometry without an SRID; its numbers are the nearest doubles.
    statements pg_catalog.text[] := ARRAY[
        'CREATE FUNCTION %3$s.wkt_from_geometry(%1$s.geometry) RETURNS %2$s.wkt LANGUAGE sql IMMUTABLE STRICT PARALLEL SAFE COST 50
            RETURN %1$s.ST_AsText($1, 25)::%2$s.wkt',
        'COMMENT ON FUNCTION %3$s.wkt_from_geometry(%1$s.geometry) IS $$the text of a geometry, with every digit of its doubles$$',
        'CREATE CAST (%1$s.geometry AS %2$s.wkt) WITH FUNCTION %3$s.wkt_from_geometry(%1$s.geometry)',
        'CREATE FUNCTION %3$s.wkt_or_null(%1$s.geometry) RETURNS %2$s.wkt LANGUAGE sql IMMUTABLE STRICT PARALLEL SAFE COST 50
            RETURN %2$s.wkt_or_null(%1$s.ST_AsText($1, 25), 18, $$$$::pg_catalog.text)',
        'COMMENT ON FUNCTION %3$s.wkt_or_null(%1$s.geometry) IS $$the text of a geometry; null where the cast refuses it$$',
        'CREATE FUNCTION %3$s.geometry(%2$s.wkt) RETURNS %1$s.geometry LANGUAGE sql IMMUTABLE STRICT PARALLEL SAFE COST 50
            RETURN %1$s.ST_GeomFromText($1::pg_catalog.text)',
        'COMMENT ON FUNCTION %3$s.geometry(%2$s.wkt) IS $$the geometry of a text, without an SRID$$',
        'CREATE CAST (%2$s.wkt AS %1$s.geometry) WITH FUNCTION %3$s.geometry(%2$s.wkt)'];
    statement pg_catalog.text;
BEGIN
    FOREACH statement IN ARRAY statements LOOP
        EXECUTE pg_catalog.format(statement, VARIADIC schemas);
    END LOOP;
END
$do$;
