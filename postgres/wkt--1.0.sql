\echo Use "CREATE EXTENSION wkt" to load this file. \quit

-- Each name has its schema, since this runs as a superuser: who owns the extension's schema may have put functions, operators
-- and types of any name there, and the search path begins with it.

-- Over text. places, 0 to 36: how many digits after the point a number may have; nothing is rounded. dialect: what other tools
-- write beyond the grammar, as 'ewkt' or 'srid,untagged,exponents,nan'; an SRID is no part of a geometry.
CREATE FUNCTION @extschema@.wkt_canonical(pg_catalog.text, places pg_catalog.int4 DEFAULT 18, dialect pg_catalog.text DEFAULT '')
    RETURNS pg_catalog.text AS 'MODULE_PATHNAME', 'pg_wkt_canonical' LANGUAGE C IMMUTABLE STRICT PARALLEL SAFE COST 10;
COMMENT ON FUNCTION @extschema@.wkt_canonical(pg_catalog.text, pg_catalog.int4, pg_catalog.text) IS 'the canonical text of a geometry';
CREATE FUNCTION @extschema@.wkt_same(pg_catalog.text, pg_catalog.text, places pg_catalog.int4 DEFAULT 18,
    dialect pg_catalog.text DEFAULT '') RETURNS pg_catalog.bool AS 'MODULE_PATHNAME', 'pg_wkt_same' LANGUAGE C IMMUTABLE STRICT PARALLEL SAFE COST 20;
COMMENT ON FUNCTION @extschema@.wkt_same(pg_catalog.text, pg_catalog.text, pg_catalog.int4, pg_catalog.text)
    IS 'whether two texts have the same canonical text, whatever their SRIDs';
CREATE FUNCTION @extschema@.wkt_reads(pg_catalog.text, places pg_catalog.int4 DEFAULT 18, dialect pg_catalog.text DEFAULT '')
    RETURNS pg_catalog.bool AS 'MODULE_PATHNAME', 'pg_wkt_reads' LANGUAGE C IMMUTABLE STRICT PARALLEL SAFE COST 10;
COMMENT ON FUNCTION @extschema@.wkt_reads(pg_catalog.text, pg_catalog.int4, pg_catalog.text) IS 'whether a text has a canonical text';
CREATE FUNCTION @extschema@.wkt_explain(pg_catalog.text, places pg_catalog.int4 DEFAULT 18, dialect pg_catalog.text DEFAULT '',
    OUT place pg_catalog.int4,
    OUT expected pg_catalog.text, OUT cause pg_catalog.text, OUT hint pg_catalog.text, OUT message pg_catalog.text,
    OUT shown pg_catalog.text) RETURNS pg_catalog.record
    AS 'MODULE_PATHNAME', 'pg_wkt_explain' LANGUAGE C IMMUTABLE STRICT PARALLEL SAFE COST 20;
COMMENT ON FUNCTION @extschema@.wkt_explain(pg_catalog.text, pg_catalog.int4, pg_catalog.text)
    IS 'where and why a text is refused; null where it is read';
CREATE FUNCTION @extschema@.wkt_srid(pg_catalog.text) RETURNS pg_catalog.int4
    AS 'MODULE_PATHNAME', 'pg_wkt_srid' LANGUAGE C IMMUTABLE STRICT PARALLEL SAFE;
COMMENT ON FUNCTION @extschema@.wkt_srid(pg_catalog.text) IS 'the number of SRID=..; in front of a text; null where it has none';
CREATE FUNCTION @extschema@.wkt_kind(pg_catalog.text) RETURNS pg_catalog.text
    AS 'MODULE_PATHNAME', 'pg_wkt_kind' LANGUAGE C IMMUTABLE STRICT PARALLEL SAFE;
COMMENT ON FUNCTION @extschema@.wkt_kind(pg_catalog.text) IS 'the kind and dimension that the header of a text names';
CREATE FUNCTION @extschema@.wkt_dimension(pg_catalog.text) RETURNS pg_catalog.text
    AS 'MODULE_PATHNAME', 'pg_wkt_dimension' LANGUAGE C IMMUTABLE STRICT PARALLEL SAFE;
COMMENT ON FUNCTION @extschema@.wkt_dimension(pg_catalog.text) IS 'the dimension that the header of a text names';
CREATE FUNCTION @extschema@.wkt_version() RETURNS pg_catalog.text
    AS 'MODULE_PATHNAME', 'pg_wkt_version' LANGUAGE C STABLE STRICT PARALLEL SAFE;
COMMENT ON FUNCTION @extschema@.wkt_version() IS 'the version of the library that answers';

-- The type: a value is a canonical text, so equal values are one geometry. wkt(6): numbers of at most six places, and of 18
-- at most, so that each wkt(n) is a wkt.
CREATE TYPE @extschema@.wkt;
CREATE FUNCTION @extschema@.wkt_in(pg_catalog.cstring, pg_catalog.oid, pg_catalog.int4) RETURNS @extschema@.wkt
    AS 'MODULE_PATHNAME', 'pg_wkt_in' LANGUAGE C IMMUTABLE STRICT PARALLEL SAFE COST 10;
COMMENT ON FUNCTION @extschema@.wkt_in(pg_catalog.cstring, pg_catalog.oid, pg_catalog.int4) IS 'input: makes a text canonical';
CREATE FUNCTION @extschema@.wkt_out(@extschema@.wkt) RETURNS pg_catalog.cstring
    AS 'MODULE_PATHNAME', 'pg_wkt_out' LANGUAGE C IMMUTABLE STRICT PARALLEL SAFE;
COMMENT ON FUNCTION @extschema@.wkt_out(@extschema@.wkt) IS 'output: the canonical text';
CREATE FUNCTION @extschema@.wkt_recv(pg_catalog.internal, pg_catalog.oid, pg_catalog.int4) RETURNS @extschema@.wkt
    AS 'MODULE_PATHNAME', 'pg_wkt_recv' LANGUAGE C IMMUTABLE STRICT PARALLEL SAFE COST 10;
COMMENT ON FUNCTION @extschema@.wkt_recv(pg_catalog.internal, pg_catalog.oid, pg_catalog.int4) IS 'binary input: makes a text canonical';
CREATE FUNCTION @extschema@.wkt_send(@extschema@.wkt) RETURNS pg_catalog.bytea
    AS 'MODULE_PATHNAME', 'pg_wkt_send' LANGUAGE C IMMUTABLE STRICT PARALLEL SAFE;
COMMENT ON FUNCTION @extschema@.wkt_send(@extschema@.wkt) IS 'binary output: the canonical text';
CREATE FUNCTION @extschema@.wkt_typmod_in(pg_catalog.cstring[]) RETURNS pg_catalog.int4
    AS 'MODULE_PATHNAME', 'pg_wkt_typmod_in' LANGUAGE C IMMUTABLE STRICT PARALLEL SAFE;
COMMENT ON FUNCTION @extschema@.wkt_typmod_in(pg_catalog.cstring[]) IS 'the modifier of wkt(places)';
CREATE FUNCTION @extschema@.wkt_typmod_out(pg_catalog.int4) RETURNS pg_catalog.cstring
    AS 'MODULE_PATHNAME', 'pg_wkt_typmod_out' LANGUAGE C IMMUTABLE STRICT PARALLEL SAFE;
COMMENT ON FUNCTION @extschema@.wkt_typmod_out(pg_catalog.int4) IS 'the modifier as it is written';
-- Long values are stored as they are, since compressing them by pglz takes five times as long as all else.
CREATE TYPE @extschema@.wkt (
    INPUT = @extschema@.wkt_in, OUTPUT = @extschema@.wkt_out, RECEIVE = @extschema@.wkt_recv, SEND = @extschema@.wkt_send,
    TYPMOD_IN = @extschema@.wkt_typmod_in, TYPMOD_OUT = @extschema@.wkt_typmod_out,
    INTERNALLENGTH = VARIABLE, ALIGNMENT = int4, STORAGE = external, CATEGORY = 'U', COLLATABLE = false
);
COMMENT ON TYPE @extschema@.wkt IS 'a geometry as its canonical text; wkt(6): numbers of at most six places';
CREATE FUNCTION @extschema@.wkt(pg_catalog.text, pg_catalog.int4, pg_catalog.bool) RETURNS @extschema@.wkt
    AS 'MODULE_PATHNAME', 'pg_wkt_cast' LANGUAGE C IMMUTABLE STRICT PARALLEL SAFE COST 10;
COMMENT ON FUNCTION @extschema@.wkt(pg_catalog.text, pg_catalog.int4, pg_catalog.bool) IS 'the cast of a text';
CREATE FUNCTION @extschema@.wkt_support(pg_catalog.internal) RETURNS pg_catalog.internal
    AS 'MODULE_PATHNAME', 'pg_wkt_support' LANGUAGE C IMMUTABLE STRICT PARALLEL SAFE;
COMMENT ON FUNCTION @extschema@.wkt_support(pg_catalog.internal) IS 'leaves out casts to places that a value has';
CREATE FUNCTION @extschema@.wkt(@extschema@.wkt, pg_catalog.int4, pg_catalog.bool) RETURNS @extschema@.wkt
    AS 'MODULE_PATHNAME', 'pg_wkt_recast' LANGUAGE C IMMUTABLE STRICT PARALLEL SAFE SUPPORT @extschema@.wkt_support;
COMMENT ON FUNCTION @extschema@.wkt(@extschema@.wkt, pg_catalog.int4, pg_catalog.bool) IS 'checks the places of a value';
-- A text is cast explicitly: else wkt = text would compare the bytes of a text that isn't canonical. A wkt may be assigned
-- to a text. The third cast applies the modifier of a column, as that of varchar does, and rewrites no table where the
-- modifier is wider.
CREATE CAST (pg_catalog.text AS @extschema@.wkt)
    WITH FUNCTION @extschema@.wkt(pg_catalog.text, pg_catalog.int4, pg_catalog.bool);
CREATE CAST (@extschema@.wkt AS pg_catalog.text) WITHOUT FUNCTION AS ASSIGNMENT;
CREATE CAST (@extschema@.wkt AS @extschema@.wkt)
    WITH FUNCTION @extschema@.wkt(@extschema@.wkt, pg_catalog.int4, pg_catalog.bool) AS IMPLICIT;
CREATE FUNCTION @extschema@.wkt_or_null(pg_catalog.text, places pg_catalog.int4 DEFAULT 18, dialect pg_catalog.text DEFAULT '')
    RETURNS @extschema@.wkt AS 'MODULE_PATHNAME', 'pg_wkt_or_null' LANGUAGE C IMMUTABLE STRICT PARALLEL SAFE COST 10;
COMMENT ON FUNCTION @extschema@.wkt_or_null(pg_catalog.text, pg_catalog.int4, pg_catalog.text) IS 'the value of a text; null where it is refused';
CREATE FUNCTION @extschema@.length(@extschema@.wkt) RETURNS pg_catalog.int4
    AS 'byteaoctetlen' LANGUAGE internal IMMUTABLE STRICT PARALLEL SAFE;
COMMENT ON FUNCTION @extschema@.length(@extschema@.wkt) IS 'the number of characters, which are ASCII';
CREATE FUNCTION @extschema@.wkt_kind(@extschema@.wkt) RETURNS pg_catalog.text
    AS 'MODULE_PATHNAME', 'pg_wkt_kind' LANGUAGE C IMMUTABLE STRICT PARALLEL SAFE;
COMMENT ON FUNCTION @extschema@.wkt_kind(@extschema@.wkt) IS 'the kind and dimension of a value';
CREATE FUNCTION @extschema@.wkt_dimension(@extschema@.wkt) RETURNS pg_catalog.text
    AS 'MODULE_PATHNAME', 'pg_wkt_dimension' LANGUAGE C IMMUTABLE STRICT PARALLEL SAFE;
COMMENT ON FUNCTION @extschema@.wkt_dimension(@extschema@.wkt) IS 'the dimension of a value: XY, XYZ, XYM or XYZM';
CREATE FUNCTION @extschema@.wkt_digest(@extschema@.wkt) RETURNS pg_catalog.bytea
    AS 'MODULE_PATHNAME', 'pg_wkt_digest' LANGUAGE C IMMUTABLE STRICT PARALLEL SAFE COST 10;
COMMENT ON FUNCTION @extschema@.wkt_digest(@extschema@.wkt) IS 'the SHA-256 of the canonical text: a key of 32 bytes for a geometry of any length';

-- What a value holds. Paths are those of ST_DumpPoints and ST_Dump in PostGIS; numbers are exact.
CREATE FUNCTION @extschema@.wkt_points(@extschema@.wkt, OUT path pg_catalog.int4[],
    OUT x pg_catalog.numeric, OUT y pg_catalog.numeric, OUT z pg_catalog.numeric, OUT m pg_catalog.numeric) RETURNS SETOF pg_catalog.record
    AS 'MODULE_PATHNAME', 'pg_wkt_points' LANGUAGE C IMMUTABLE STRICT PARALLEL SAFE COST 100;
COMMENT ON FUNCTION @extschema@.wkt_points(@extschema@.wkt) IS 'the points of a value, a row each';
CREATE FUNCTION @extschema@.wkt_each(@extschema@.wkt, OUT path pg_catalog.int4[], OUT kind pg_catalog.text, OUT part @extschema@.wkt)
    RETURNS SETOF pg_catalog.record AS 'MODULE_PATHNAME', 'pg_wkt_each' LANGUAGE C IMMUTABLE STRICT PARALLEL SAFE COST 20 ROWS 10;
COMMENT ON FUNCTION @extschema@.wkt_each(@extschema@.wkt) IS 'the points, line strings and polygons of which a value is made, a row each';
CREATE FUNCTION @extschema@.wkt_num_points(@extschema@.wkt) RETURNS pg_catalog.int4
    AS 'MODULE_PATHNAME', 'pg_wkt_num_points' LANGUAGE C IMMUTABLE STRICT PARALLEL SAFE COST 10;
COMMENT ON FUNCTION @extschema@.wkt_num_points(@extschema@.wkt) IS 'how many points a value has';
CREATE FUNCTION @extschema@.wkt_num_parts(@extschema@.wkt) RETURNS pg_catalog.int4
    AS 'MODULE_PATHNAME', 'pg_wkt_num_parts' LANGUAGE C IMMUTABLE STRICT PARALLEL SAFE COST 10;
COMMENT ON FUNCTION @extschema@.wkt_num_parts(@extschema@.wkt) IS 'how many rows wkt_each has';
CREATE FUNCTION @extschema@.wkt_bounds(@extschema@.wkt, OUT min_x pg_catalog.numeric, OUT min_y pg_catalog.numeric,
    OUT max_x pg_catalog.numeric, OUT max_y pg_catalog.numeric, OUT min_z pg_catalog.numeric, OUT max_z pg_catalog.numeric,
    OUT min_m pg_catalog.numeric, OUT max_m pg_catalog.numeric) RETURNS pg_catalog.record
    AS 'MODULE_PATHNAME', 'pg_wkt_bounds' LANGUAGE C IMMUTABLE STRICT PARALLEL SAFE COST 20;
COMMENT ON FUNCTION @extschema@.wkt_bounds(@extschema@.wkt) IS 'the least and the greatest number of each axis; null where there is none';
-- The same as doubles: the nearest of points, and of bounds the nearest that isn't within them.
CREATE FUNCTION @extschema@.wkt_x(@extschema@.wkt) RETURNS pg_catalog.float8
    AS 'MODULE_PATHNAME', 'pg_wkt_x' LANGUAGE C IMMUTABLE STRICT PARALLEL SAFE;
COMMENT ON FUNCTION @extschema@.wkt_x(@extschema@.wkt) IS 'x of a point, as the nearest double; null where it has none';
CREATE FUNCTION @extschema@.wkt_y(@extschema@.wkt) RETURNS pg_catalog.float8
    AS 'MODULE_PATHNAME', 'pg_wkt_y' LANGUAGE C IMMUTABLE STRICT PARALLEL SAFE;
COMMENT ON FUNCTION @extschema@.wkt_y(@extschema@.wkt) IS 'y of a point, as the nearest double; null where it has none';
CREATE FUNCTION @extschema@.wkt_z(@extschema@.wkt) RETURNS pg_catalog.float8
    AS 'MODULE_PATHNAME', 'pg_wkt_z' LANGUAGE C IMMUTABLE STRICT PARALLEL SAFE;
COMMENT ON FUNCTION @extschema@.wkt_z(@extschema@.wkt) IS 'z of a point, as the nearest double; null where it has none';
CREATE FUNCTION @extschema@.wkt_m(@extschema@.wkt) RETURNS pg_catalog.float8
    AS 'MODULE_PATHNAME', 'pg_wkt_m' LANGUAGE C IMMUTABLE STRICT PARALLEL SAFE;
COMMENT ON FUNCTION @extschema@.wkt_m(@extschema@.wkt) IS 'm of a point, as the nearest double; null where it has none';
CREATE FUNCTION @extschema@.wkt_points_float8(@extschema@.wkt, OUT path pg_catalog.int4[],
    OUT x pg_catalog.float8, OUT y pg_catalog.float8, OUT z pg_catalog.float8, OUT m pg_catalog.float8) RETURNS SETOF pg_catalog.record
    AS 'MODULE_PATHNAME', 'pg_wkt_points_float8' LANGUAGE C IMMUTABLE STRICT PARALLEL SAFE COST 100;
COMMENT ON FUNCTION @extschema@.wkt_points_float8(@extschema@.wkt) IS 'the points of a value, a row each, as the nearest doubles';
CREATE FUNCTION @extschema@.wkt_bounds_float8(@extschema@.wkt, OUT min_x pg_catalog.float8, OUT min_y pg_catalog.float8,
    OUT max_x pg_catalog.float8, OUT max_y pg_catalog.float8, OUT min_z pg_catalog.float8, OUT max_z pg_catalog.float8,
    OUT min_m pg_catalog.float8, OUT max_m pg_catalog.float8) RETURNS pg_catalog.record
    AS 'MODULE_PATHNAME', 'pg_wkt_bounds_float8' LANGUAGE C IMMUTABLE STRICT PARALLEL SAFE COST 20;
COMMENT ON FUNCTION @extschema@.wkt_bounds_float8(@extschema@.wkt) IS 'the bounds of each axis, rounded outwards to doubles; null where there are none';
CREATE FUNCTION @extschema@.wkt_box(@extschema@.wkt) RETURNS pg_catalog.box
    AS 'MODULE_PATHNAME', 'pg_wkt_box' LANGUAGE C IMMUTABLE STRICT PARALLEL SAFE COST 20;
COMMENT ON FUNCTION @extschema@.wkt_box(@extschema@.wkt) IS 'the bounds of x and y, rounded outwards; null where there is no point';

-- A text that is read once: its value, or what wkt_explain says of it.
CREATE FUNCTION @extschema@.wkt_read(pg_catalog.text, places pg_catalog.int4 DEFAULT 18, dialect pg_catalog.text DEFAULT '',
    OUT value @extschema@.wkt,
    OUT place pg_catalog.int4, OUT expected pg_catalog.text, OUT cause pg_catalog.text, OUT hint pg_catalog.text,
    OUT message pg_catalog.text) RETURNS pg_catalog.record
    AS 'MODULE_PATHNAME', 'pg_wkt_read' LANGUAGE C IMMUTABLE STRICT PARALLEL SAFE COST 10;
COMMENT ON FUNCTION @extschema@.wkt_read(pg_catalog.text, pg_catalog.int4, pg_catalog.text) IS 'the value of a text, or why it is refused';

-- Compared by their bytes, in btrees and hashes, by the functions that PostgreSQL has for bytea: equality compares lengths
-- before it fetches a long value, and no index depends on a collation.
CREATE FUNCTION @extschema@.wkt_eq(@extschema@.wkt, @extschema@.wkt) RETURNS pg_catalog.bool
    AS 'MODULE_PATHNAME', 'pg_wkt_eq' LANGUAGE C IMMUTABLE STRICT LEAKPROOF PARALLEL SAFE;
COMMENT ON FUNCTION @extschema@.wkt_eq(@extschema@.wkt, @extschema@.wkt) IS 'implements =';
CREATE FUNCTION @extschema@.wkt_ne(@extschema@.wkt, @extschema@.wkt) RETURNS pg_catalog.bool
    AS 'MODULE_PATHNAME', 'pg_wkt_ne' LANGUAGE C IMMUTABLE STRICT LEAKPROOF PARALLEL SAFE;
COMMENT ON FUNCTION @extschema@.wkt_ne(@extschema@.wkt, @extschema@.wkt) IS 'implements <>';
CREATE FUNCTION @extschema@.wkt_lt(@extschema@.wkt, @extschema@.wkt) RETURNS pg_catalog.bool
    AS 'MODULE_PATHNAME', 'pg_wkt_lt' LANGUAGE C IMMUTABLE STRICT LEAKPROOF PARALLEL SAFE;
COMMENT ON FUNCTION @extschema@.wkt_lt(@extschema@.wkt, @extschema@.wkt) IS 'implements <';
CREATE FUNCTION @extschema@.wkt_le(@extschema@.wkt, @extschema@.wkt) RETURNS pg_catalog.bool
    AS 'MODULE_PATHNAME', 'pg_wkt_le' LANGUAGE C IMMUTABLE STRICT LEAKPROOF PARALLEL SAFE;
COMMENT ON FUNCTION @extschema@.wkt_le(@extschema@.wkt, @extschema@.wkt) IS 'implements <=';
CREATE FUNCTION @extschema@.wkt_gt(@extschema@.wkt, @extschema@.wkt) RETURNS pg_catalog.bool
    AS 'MODULE_PATHNAME', 'pg_wkt_gt' LANGUAGE C IMMUTABLE STRICT LEAKPROOF PARALLEL SAFE;
COMMENT ON FUNCTION @extschema@.wkt_gt(@extschema@.wkt, @extschema@.wkt) IS 'implements >';
CREATE FUNCTION @extschema@.wkt_ge(@extschema@.wkt, @extschema@.wkt) RETURNS pg_catalog.bool
    AS 'MODULE_PATHNAME', 'pg_wkt_ge' LANGUAGE C IMMUTABLE STRICT LEAKPROOF PARALLEL SAFE;
COMMENT ON FUNCTION @extschema@.wkt_ge(@extschema@.wkt, @extschema@.wkt) IS 'implements >=';
CREATE FUNCTION @extschema@.wkt_cmp(@extschema@.wkt, @extschema@.wkt) RETURNS pg_catalog.int4
    AS 'MODULE_PATHNAME', 'pg_wkt_cmp' LANGUAGE C IMMUTABLE STRICT LEAKPROOF PARALLEL SAFE;
COMMENT ON FUNCTION @extschema@.wkt_cmp(@extschema@.wkt, @extschema@.wkt) IS 'less, equal or greater: below 0, 0, above 0';
CREATE FUNCTION @extschema@.wkt_hash(@extschema@.wkt) RETURNS pg_catalog.int4
    AS 'MODULE_PATHNAME', 'pg_wkt_hash' LANGUAGE C IMMUTABLE STRICT LEAKPROOF PARALLEL SAFE;
COMMENT ON FUNCTION @extschema@.wkt_hash(@extschema@.wkt) IS 'hash of 32 bits';
CREATE FUNCTION @extschema@.wkt_hash_extended(@extschema@.wkt, pg_catalog.int8) RETURNS pg_catalog.int8
    AS 'MODULE_PATHNAME', 'pg_wkt_hash_extended' LANGUAGE C IMMUTABLE STRICT LEAKPROOF PARALLEL SAFE;
COMMENT ON FUNCTION @extschema@.wkt_hash_extended(@extschema@.wkt, pg_catalog.int8) IS 'hash of 64 bits with a seed';
CREATE OPERATOR @extschema@.= (LEFTARG = @extschema@.wkt, RIGHTARG = @extschema@.wkt, FUNCTION = @extschema@.wkt_eq,
    COMMUTATOR = OPERATOR(@extschema@.=), NEGATOR = OPERATOR(@extschema@.<>),
    RESTRICT = pg_catalog.eqsel, JOIN = pg_catalog.eqjoinsel, HASHES, MERGES);
CREATE OPERATOR @extschema@.<> (LEFTARG = @extschema@.wkt, RIGHTARG = @extschema@.wkt, FUNCTION = @extschema@.wkt_ne,
    COMMUTATOR = OPERATOR(@extschema@.<>), NEGATOR = OPERATOR(@extschema@.=),
    RESTRICT = pg_catalog.neqsel, JOIN = pg_catalog.neqjoinsel);
CREATE OPERATOR @extschema@.< (LEFTARG = @extschema@.wkt, RIGHTARG = @extschema@.wkt, FUNCTION = @extschema@.wkt_lt,
    COMMUTATOR = OPERATOR(@extschema@.>), NEGATOR = OPERATOR(@extschema@.>=),
    RESTRICT = pg_catalog.scalarltsel, JOIN = pg_catalog.scalarltjoinsel);
CREATE OPERATOR @extschema@.<= (LEFTARG = @extschema@.wkt, RIGHTARG = @extschema@.wkt, FUNCTION = @extschema@.wkt_le,
    COMMUTATOR = OPERATOR(@extschema@.>=), NEGATOR = OPERATOR(@extschema@.>),
    RESTRICT = pg_catalog.scalarlesel, JOIN = pg_catalog.scalarlejoinsel);
CREATE OPERATOR @extschema@.> (LEFTARG = @extschema@.wkt, RIGHTARG = @extschema@.wkt, FUNCTION = @extschema@.wkt_gt,
    COMMUTATOR = OPERATOR(@extschema@.<), NEGATOR = OPERATOR(@extschema@.<=),
    RESTRICT = pg_catalog.scalargtsel, JOIN = pg_catalog.scalargtjoinsel);
CREATE OPERATOR @extschema@.>= (LEFTARG = @extschema@.wkt, RIGHTARG = @extschema@.wkt, FUNCTION = @extschema@.wkt_ge,
    COMMUTATOR = OPERATOR(@extschema@.<=), NEGATOR = OPERATOR(@extschema@.<),
    RESTRICT = pg_catalog.scalargesel, JOIN = pg_catalog.scalargejoinsel);
CREATE FUNCTION @extschema@.wkt_sortsupport(pg_catalog.internal) RETURNS pg_catalog.void
    AS 'MODULE_PATHNAME', 'pg_wkt_sortsupport' LANGUAGE C IMMUTABLE STRICT PARALLEL SAFE;
COMMENT ON FUNCTION @extschema@.wkt_sortsupport(pg_catalog.internal) IS 'sorts by packed fronts first';
CREATE OPERATOR CLASS @extschema@.wkt_ops DEFAULT FOR TYPE @extschema@.wkt USING btree AS
    OPERATOR 1 @extschema@.<, OPERATOR 2 @extschema@.<=, OPERATOR 3 @extschema@.=,
    OPERATOR 4 @extschema@.>=, OPERATOR 5 @extschema@.>,
    FUNCTION 1 @extschema@.wkt_cmp(@extschema@.wkt, @extschema@.wkt),
    FUNCTION 2 @extschema@.wkt_sortsupport(pg_catalog.internal), FUNCTION 4 pg_catalog.btequalimage(pg_catalog.oid);
CREATE OPERATOR CLASS @extschema@.wkt_ops DEFAULT FOR TYPE @extschema@.wkt USING hash AS
    OPERATOR 1 @extschema@.=, FUNCTION 1 @extschema@.wkt_hash(@extschema@.wkt),
    FUNCTION 2 @extschema@.wkt_hash_extended(@extschema@.wkt, pg_catalog.int8);
CREATE OPERATOR CLASS @extschema@.wkt_minmax_ops DEFAULT FOR TYPE @extschema@.wkt USING brin AS
    OPERATOR 1 @extschema@.<, OPERATOR 2 @extschema@.<=, OPERATOR 3 @extschema@.=,
    OPERATOR 4 @extschema@.>=, OPERATOR 5 @extschema@.>,
    FUNCTION 1 pg_catalog.brin_minmax_opcinfo(pg_catalog.internal),
    FUNCTION 2 pg_catalog.brin_minmax_add_value(pg_catalog.internal, pg_catalog.internal, pg_catalog.internal, pg_catalog.internal),
    FUNCTION 3 pg_catalog.brin_minmax_consistent(pg_catalog.internal, pg_catalog.internal, pg_catalog.internal),
    FUNCTION 4 pg_catalog.brin_minmax_union(pg_catalog.internal, pg_catalog.internal, pg_catalog.internal);

-- The first and the last in that order.
CREATE FUNCTION @extschema@.wkt_smaller(@extschema@.wkt, @extschema@.wkt) RETURNS @extschema@.wkt
    AS 'MODULE_PATHNAME', 'pg_wkt_smaller' LANGUAGE C IMMUTABLE STRICT PARALLEL SAFE;
COMMENT ON FUNCTION @extschema@.wkt_smaller(@extschema@.wkt, @extschema@.wkt) IS 'the first of two in the order of the type';
CREATE FUNCTION @extschema@.wkt_larger(@extschema@.wkt, @extschema@.wkt) RETURNS @extschema@.wkt
    AS 'MODULE_PATHNAME', 'pg_wkt_larger' LANGUAGE C IMMUTABLE STRICT PARALLEL SAFE;
COMMENT ON FUNCTION @extschema@.wkt_larger(@extschema@.wkt, @extschema@.wkt) IS 'the last of two in the order of the type';
CREATE AGGREGATE @extschema@.min(@extschema@.wkt) (SFUNC = @extschema@.wkt_smaller, STYPE = @extschema@.wkt,
    SORTOP = OPERATOR(@extschema@.<), COMBINEFUNC = @extschema@.wkt_smaller, PARALLEL = SAFE);
CREATE AGGREGATE @extschema@.max(@extschema@.wkt) (SFUNC = @extschema@.wkt_larger, STYPE = @extschema@.wkt,
    SORTOP = OPERATOR(@extschema@.>), COMBINEFUNC = @extschema@.wkt_larger, PARALLEL = SAFE);
COMMENT ON AGGREGATE @extschema@.min(@extschema@.wkt) IS 'the first value in the order of the type';
COMMENT ON AGGREGATE @extschema@.max(@extschema@.wkt) IS 'the last value in the order of the type';
