"""The names that the package shares with the other languages."""
# names.py: python (tests/gate/names.py --write makes this of docs/names.tsv)
# The words of a status, at its number.
MESSAGES = (
    "",
    "Invalid WKT format",
    "Encountered non-ascii word",
    "Invalid type encountered",
    "Unexpected word before open paren",
    "End of stream",
    "Missing open parenthesis for type",
    "Missing closing parenthesis for type",
    "Expected a number for the X coordinate",
    "Expected a number for the Y coordinate",
    "Expected a number for the Z coordinate",
    "Expected a number for the M coordinate",
    "Expected a word in GEOMETRYCOLLECTION",
    "Unable to parse input number as the desired output type",
    "Refused",
    "",
    "",
    "",
    "",
    "",
    "The text is not UTF-8",
    "A buffer has no room",
    "Out of memory",
    "There are no numbers of so many places",
    "A collection has no flat arrays",
    "A number has more units than 64 bits hold",
    "The arrays are of no geometry",
    "The offsets, the bits or the sizes are of no column",
    "The row is null",
    "The text is not refused",
    "More than white space follows the geometry",
    "A pointer is NULL",
    "The processor is not supported",
    "A size is more than PTRDIFF_MAX",
)
# The words of the statuses 1 to 3 of wkt_infer.
HEADER_MESSAGES = (
    "",
    "No kind word",
    "No space before EMPTY",
    "Neither a parenthesis nor EMPTY",
)
# The kinds, at their numbers.
KINDS = (
    "Point",
    "LineString",
    "Polygon",
    "MultiPoint",
    "MultiLineString",
    "MultiPolygon",
    "GeometryCollection",
)
# Their kind words.
KIND_WORDS = (
    "POINT",
    "LINESTRING",
    "POLYGON",
    "MULTIPOINT",
    "MULTILINESTRING",
    "MULTIPOLYGON",
    "GEOMETRYCOLLECTION",
)
# The dimensions, at their numbers.
DIMENSIONS = (
    "XY",
    "XYZ",
    "XYM",
    "XYZM",
)
# What stands after a kind word for each.
DIMENSION_WORDS = (
    "",
    "Z",
    "M",
    "ZM",
)
# What could stand where a text is refused, at its number.
EXPECTED = (
    "a kind of geometry, such as POINT,",
    "a member of the collection",
    "`(`, EMPTY, Z, M or ZM",
    "`(` or EMPTY",
    "a first number, `(` or EMPTY",
    "a first number",
    "a second number",
    "a number z",
    "a number m",
    "`,` or `)`",
    "`)`",
)
# Why a text is refused, at the number of the hint; %u is the number of places.
HINTS = (
    "",
    "the text begins with a byte order mark",
    "WKB in hexadecimal is not read; ST_AsText gives its text",
    "SRID=..; of EWKT is not read; ST_AsText leaves it out",
    "curves are not read; ST_CurveToLine gives lines",
    "triangles and surfaces are not read; polygons are",
    "exponents are not read; write 0.0000001 for 1e-7",
    "NaN and infinity are no decimals; EMPTY says that there is no point",
    "numbers have at most %u places here",
    "the number is too large",
    "a third number needs Z or M, as in POINT Z(1 2 3), and a fourth ZM",
    "what holds nothing is written EMPTY, without parentheses",
    "with 18 places the number is read",
    "commas separate coordinates, and spaces their numbers; decimals have a point",
    "NULL, None and nan are not read; leave the row out, or write POINT EMPTY",
    "quotes are not read; leave them out",
    "a no-break space is not read as a space; write a plain one",
    "a dash or a typographic minus is not read; write the plain -",
    "boxes are not read; polygons are",
    "braces are not read; ST_AsText(ST_GeomFromGeoJSON(..)) gives the text of GeoJSON",
    "a geometry begins with its kind, as in POINT(1 2)",
    "numbers stand in parentheses, as in POINT(1 2) and POLYGON((0 0,1 0,0 1,0 0))",
)
# The same as one stable word, for tables: EXPECTED.
EXPECTED_WORDS = (
    "kind",
    "member",
    "dimension",
    "opening",
    "point",
    "x",
    "y",
    "z",
    "m",
    "more",
    "closing",
)
# The same as one stable word, for tables: HINT.
HINT_WORDS = (
    "none",
    "byte_order_mark",
    "hexadecimal",
    "srid",
    "curve",
    "surface",
    "exponent",
    "no_number",
    "places",
    "large",
    "dimension",
    "empty",
    "fewer",
    "comma",
    "missing",
    "quotes",
    "no_break_space",
    "minus",
    "box",
    "braces",
    "no_kind",
    "parenthesis",
)
# Statuses.
OK = 0
LAST_REFUSAL = 14
NOT_UTF8 = 20
TOO_SMALL = 21
NO_MEMORY = 22
NO_PLACES = 23
COLLECTION = 24
TOO_LARGE = 25
NOT_ARRAYS = 26
NOT_COLUMN = 27
NULL = 28
ACCEPTED = 29
NOT_WHOLE = 30
NULL_POINTER = 31
NOT_SUPPORTED = 32
TOO_LONG = 33
# names.py: end
