// The names and numbers that every language has.
// names.py: javascript (tests/gate/names.py --write makes this of docs/names.tsv)
/** The words of a status, at its number. */
export const MESSAGES = Object.freeze([
  "",
  "Invalid WKT format",
  "Encountered non-ascii word",
  "Invalid type encountered",
  "Unexpected word before open paren",
  "End of stream",
  "Missing open parenthesis for type",
  "Missing closing parenthesis for type",
  "Expected a number for the X coordinate",
  "Expected a number for the Y coordinate",
  "Expected a number for the Z coordinate",
  "Expected a number for the M coordinate",
  "Expected a word in GEOMETRYCOLLECTION",
  "Unable to parse input number as the desired output type",
  "Refused",
  "",
  "",
  "",
  "",
  "",
  "The text is not UTF-8",
  "A buffer has no room",
  "Out of memory",
  "There are no numbers of so many places",
  "A collection has no flat arrays",
  "A number has more units than 64 bits hold",
  "The arrays are of no geometry",
  "The offsets, the bits or the sizes are of no column",
  "The row is null",
  "The text is not refused",
  "More than white space follows the geometry",
  "A pointer is NULL",
  "The processor is not supported",
  "A size is more than PTRDIFF_MAX",
]);
/** The words of the statuses 1 to 3 of wkt_infer. */
export const HEADER_MESSAGES = Object.freeze([
  "",
  "No kind word",
  "No space before EMPTY",
  "Neither a parenthesis nor EMPTY",
]);
/** The kinds, at their numbers. */
export const KINDS = Object.freeze([
  "Point",
  "LineString",
  "Polygon",
  "MultiPoint",
  "MultiLineString",
  "MultiPolygon",
  "GeometryCollection",
]);
/** Their kind words. */
export const KIND_WORDS = Object.freeze([
  "POINT",
  "LINESTRING",
  "POLYGON",
  "MULTIPOINT",
  "MULTILINESTRING",
  "MULTIPOLYGON",
  "GEOMETRYCOLLECTION",
]);
/** The dimensions, at their numbers. */
export const DIMENSIONS = Object.freeze([
  "XY",
  "XYZ",
  "XYM",
  "XYZM",
]);
/** What stands after a kind word for each. */
export const DIMENSION_WORDS = Object.freeze([
  "",
  "Z",
  "M",
  "ZM",
]);
/** What could stand where a text is refused, at its number. */
export const EXPECTED = Object.freeze([
  "a kind of geometry, such as POINT,",
  "a member of the collection",
  "`(`, EMPTY, Z, M or ZM",
  "`(` or EMPTY",
  "a first number, `(` or EMPTY",
  "a first number",
  "a second number",
  "a number z",
  "a number m",
  "`,` or `)`",
  "`)`",
]);
/** Why a text is refused, at the number of the hint; %u is the number of places. */
export const HINTS = Object.freeze([
  "",
  "the text begins with a byte order mark",
  "WKB in hexadecimal is not read; ST_AsText gives its text",
  "SRID=..; of EWKT is not read; ST_AsText leaves it out",
  "curves are not read; ST_CurveToLine gives lines",
  "triangles and surfaces are not read; polygons are",
  "exponents are not read; write 0.0000001 for 1e-7",
  "NaN and infinity are no decimals; EMPTY says that there is no point",
  "numbers have at most %u places here",
  "the number is too large",
  "a third number needs Z or M, as in POINT Z(1 2 3), and a fourth ZM",
  "what holds nothing is written EMPTY, without parentheses",
  "with 18 places the number is read",
  "commas separate coordinates, and spaces their numbers; decimals have a point",
  "NULL, None and nan are not read; leave the row out, or write POINT EMPTY",
  "quotes are not read; leave them out",
  "a no-break space is not read as a space; write a plain one",
  "a dash or a typographic minus is not read; write the plain -",
  "boxes are not read; polygons are",
  "braces are not read; ST_AsText(ST_GeomFromGeoJSON(..)) gives the text of GeoJSON",
  "a geometry begins with its kind, as in POINT(1 2)",
  "numbers stand in parentheses, as in POINT(1 2) and POLYGON((0 0,1 0,0 1,0 0))",
]);
/** The same as one stable word, for tables: EXPECTED. */
export const EXPECTED_WORDS = Object.freeze([
  "kind",
  "member",
  "dimension",
  "opening",
  "point",
  "x",
  "y",
  "z",
  "m",
  "more",
  "closing",
]);
/** The same as one stable word, for tables: HINT. */
export const HINT_WORDS = Object.freeze([
  "none",
  "byte_order_mark",
  "hexadecimal",
  "srid",
  "curve",
  "surface",
  "exponent",
  "no_number",
  "places",
  "large",
  "dimension",
  "empty",
  "fewer",
  "comma",
  "missing",
  "quotes",
  "no_break_space",
  "minus",
  "box",
  "braces",
  "no_kind",
  "parenthesis",
]);
/** Why a text has no answer. */
export const STATUS = Object.freeze({
  OK: 0, // Done
  BAD_NUMBER: 13, // of the refusals, 1 to 14: a number has too many decimals, or is too large
  LAST_REFUSAL: 14, // Refused
  NOT_UTF8: 20, // The text is not UTF-8
  TOO_SMALL: 21, // A buffer has no room
  NO_MEMORY: 22, // Out of memory
  NO_PLACES: 23, // There are no numbers of so many places
  COLLECTION: 24, // A collection has no flat arrays
  TOO_LARGE: 25, // A number has more units than 64 bits hold
  NOT_ARRAYS: 26, // The arrays are of no geometry
  NOT_COLUMN: 27, // The offsets, the bits or the sizes are of no column
  NULL: 28, // The row is null
  ACCEPTED: 29, // The text is not refused
  NOT_WHOLE: 30, // More than white space follows the geometry
  NULL_POINTER: 31, // A pointer is NULL
  NOT_SUPPORTED: 32, // The processor is not supported
  TOO_LONG: 33, // A size is more than PTRDIFF_MAX
});
// names.py: end
