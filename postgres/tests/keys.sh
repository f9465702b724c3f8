# Sourced by test.sh: the tables of keys, by the functions and by the type.
ask postgres "create database keys"
ask keys "create extension wkt" \
    "create function by_text(t text, places int) returns text language plpgsql as
         \$\$ begin return wkt_canonical(t, places); exception when invalid_text_representation then return 'refused'; end \$\$" \
    "create function by_type(t text, places int) returns text language plpgsql as
         \$\$ declare key text; begin execute format('select \$1::wkt(%s)::text', least(places, 18)) into key using t; return key;
            exception when invalid_text_representation then return 'refused'; end \$\$"

# The rules of docs/KEYS.md. The table has \n, \t, \r and \\ as COPY has them.
grep -v '^#' "$here/../tests/data/key_rules.tsv" > "$dir/rules"
chmod 644 "$dir/rules"
ask keys "create table rules (places int, t text, key text)" "copy rules from '$dir/rules'"
# The type takes what any places up to its own read, and has 18 at most.
of_type="coalesce((select k from generate_series(least(places, 18), 0, -1) p, by_text(t, p) k where k <> 'refused' limit 1), 'refused')"
is "rules: rows of the table that have another key" "" "$(ask keys "select * from (select *, by_text(t, places), by_type(t, places) from rules) r where key <> by_text or by_type <> $of_type")"
is "rules: a row is read exactly if it has a key" 0 "$(ask keys "select count(*) from rules where wkt_reads(t, places) <> (key <> 'refused')")"
is "rules: a row is null exactly if it is refused, and has an explanation" 0 "$(ask keys "select count(*) from rules
    where (places <= 18 and coalesce(wkt_or_null(t, least(places, 18))::text, 'refused') <> by_type(t, places)) or (wkt_explain(t, places) is null) <> (key <> 'refused')")"
is "rules: two rows are the same exactly if their keys are" 0 "$(ask keys "select count(*) from rules a, rules b
    where a.key <> 'refused' and b.key <> 'refused' and a.places = b.places and wkt_same(a.t, b.t, a.places) <> (a.key = b.key)")"
echo "rules: $(wc -l < "$dir/rules") keys"

# Texts in dialects. What is read without one has the same key in each, and the type takes none.
grep -v '^#' "$here/../tests/data/dialects.tsv" > "$dir/dialects"
chmod 644 "$dir/dialects"
ask keys "create table dialects (dialect text, places int, t text, srid int, key text, place int)" "copy dialects from '$dir/dialects' (null '')" \
    "update dialects set dialect = coalesce(dialect, '')" "create function in_dialect(t text, places int, dialect text) returns text language plpgsql as
         \$\$ begin return wkt_canonical(t, places, dialect); exception when invalid_text_representation then return 'refused'; end \$\$"
is "dialects: rows of the table that have another key, SRID or place" "" "$(ask keys "select d, answer, wkt_srid(t), e.place from dialects d, in_dialect(t, places, dialect) answer, wkt_explain(t, places, dialect) e
    where key <> answer or srid is distinct from wkt_srid(t) or d.place is distinct from e.place or wkt_reads(t, places, dialect) <> (key <> 'refused')")"
of_fewer="coalesce((select k from generate_series(places, 0, -1) p, in_dialect(t, p, dialect) k where k <> 'refused' limit 1), 'refused')"
is "dialects: rows that wkt_or_null and wkt_read answer otherwise" "" "$(ask keys "select d, r from dialects d, wkt_read(t, least(places, 18), dialect) r
    where places <= 18 and ((coalesce(value::text, 'refused'), r.place) is distinct from ($of_fewer, case when value is null then d.place end) or value is distinct from wkt_or_null(t, places, dialect))")"
is "dialects: two rows are the same exactly if their keys are" 0 "$(ask keys "select count(*) from dialects a, dialects b
    where a.key <> 'refused' and b.key <> 'refused' and wkt_same(a.t, b.t, 0, 'ewkt,exponents,nan') <> (a.key = b.key) and wkt_reads(a.t, 0, 'ewkt,exponents,nan') and wkt_reads(b.t, 0, 'ewkt,exponents,nan')")"
is "dialects: what is read without one has another key in all" 0 "$(ask keys "select count(*) from rules where key <> 'refused' and wkt_canonical(t, places, 'ewkt,exponents,nan') <> key")"
is "dialects: an empty list has one" 0 "$(ask keys "select count(*) from dialects where wkt_reads(t, places, '') <> wkt_reads(t, places)")"
is "dialects: the type takes one" 0 "$(ask keys "select count(*) from dialects where by_type(t, 18) <> 'refused' and not exists (select from generate_series(0, 18) p where wkt_reads(t, p))")"
echo "dialects: $(wc -l < "$dir/dialects") texts"

# Numbers as doubles: the nearest, and of bounds the nearest outside of them. Those of more places are none of the type, which
# a cast of a text without reading brings in.
grep -v '^#' "$here/../tests/data/doubles.tsv" > "$dir/doubles"
chmod 644 "$dir/doubles"
ask keys "create table doubles (number text, below float8, nearest float8, above float8)" "copy doubles from '$dir/doubles'" \
    "create function as_value(text) returns wkt language internal immutable strict as 'textsend'" \
    "create table double_points as select *, as_value(format('POINT ZM(%1\$s %1\$s %1\$s %1\$s)', number)) as at from doubles"
is "doubles: others than those of the table" "" "$(ask keys "select d.number, p, b from double_points d, wkt_points_float8(at) p, wkt_bounds_float8(at) b
    where (nearest, nearest, nearest, nearest) is distinct from (x, y, z, p.m) or (wkt_x(at), wkt_y(at), wkt_z(at), wkt_m(at)) is distinct from (x, y, z, p.m)
        or (below, below, above, above, below, above, below, above) is distinct from (min_x, min_y, max_x, max_y, min_z, max_z, min_m, max_m)")"
is "doubles: other boxes" "" "$(ask keys "select number, wkt_box(at) from double_points where array[((wkt_box(at))[0])[0], ((wkt_box(at))[1])[1]] <> array[above, below]")"
is "doubles: others than those of numeric" 0 "$(ask keys "select count(*) from double_points, wkt_points(at) p where p.x::float8 <> wkt_x(at)")"
echo "doubles: $(wc -l < "$dir/doubles") numbers"

# The keys that stores keep: a text with more after its geometry is refused here, and any other has its key.
if [ -f "$here/../tests/data/keys.tsv" ]; then
    grep -v '^#' "$here/../tests/data/keys.tsv" | sed 's/\\/\\\\/g' > "$dir/kept"
    chmod 644 "$dir/kept"
    ask keys "create table kept (t text, p0 text, p6 text, p15 text, p18 text, p24 text, p36 text)" "copy kept from '$dir/kept'" \
        "create view each_kept as select t, places, key, by_text(t, places) answer, by_type(t, places) by_type
             from kept, lateral (values (0, p0), (6, p6), (15, p15), (18, p18), (24, p24), (36, p36)) v(places, key)"
    is "kept: rows that have another key" "" "$(ask keys "select * from each_kept where by_type <> $of_type or answer <> key
        and not (answer = 'refused' and (wkt_explain(t, places)).cause = 'not_whole') limit 5")"
    echo "kept: $(ask keys "select count(*) from each_kept where answer = key") keys"
fi
