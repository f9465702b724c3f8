//! The names that the crate shares with the other languages.
#![allow(dead_code, clippy::doc_markdown)]
// names.py: rust (tests/gate/names.py --write makes this of docs/names.tsv)
/// The words of a status, at its number.
pub const MESSAGES: [&str; 34] = [
    "",
    "Invalid WKT format",
    "Encountered non-ascii word",
    "Invalid type encountered",
    "Unexpected word before open paren",
    "End of stream",
    "Missing open parenthesis for type",
    "Missing closing parenthesis for type",
    "Expected a number for the X coordinate",
    "Expected a number for the Y coordinate",
    "Expected a number for the Z coordinate",
    "Expected a number for the M coordinate",
    "Expected a word in GEOMETRYCOLLECTION",
    "Unable to parse input number as the desired output type",
    "Refused",
    "",
    "",
    "",
    "",
    "",
    "The text is not UTF-8",
    "A buffer has no room",
    "Out of memory",
    "There are no numbers of so many places",
    "A collection has no flat arrays",
    "A number has more units than 64 bits hold",
    "The arrays are of no geometry",
    "The offsets, the bits or the sizes are of no column",
    "The row is null",
    "The text is not refused",
    "More than white space follows the geometry",
    "A pointer is NULL",
    "The processor is not supported",
    "A size is more than PTRDIFF_MAX",
];
/// The words of the statuses 1 to 3 of wkt_infer.
pub const HEADER_MESSAGES: [&str; 4] = [
    "",
    "No kind word",
    "No space before EMPTY",
    "Neither a parenthesis nor EMPTY",
];
/// The kinds, at their numbers.
pub const KINDS: [&str; 7] = [
    "Point",
    "LineString",
    "Polygon",
    "MultiPoint",
    "MultiLineString",
    "MultiPolygon",
    "GeometryCollection",
];
/// Their kind words.
pub const KIND_WORDS: [&str; 7] = [
    "POINT",
    "LINESTRING",
    "POLYGON",
    "MULTIPOINT",
    "MULTILINESTRING",
    "MULTIPOLYGON",
    "GEOMETRYCOLLECTION",
];
/// The dimensions, at their numbers.
pub const DIMENSIONS: [&str; 4] = ["XY", "XYZ", "XYM", "XYZM"];
/// What stands after a kind word for each.
pub const DIMENSION_WORDS: [&str; 4] = ["", "Z", "M", "ZM"];
/// What could stand where a text is refused, at its number.
pub const EXPECTED: [&str; 11] = [
    "a kind of geometry, such as POINT,",
    "a member of the collection",
    "`(`, EMPTY, Z, M or ZM",
    "`(` or EMPTY",
    "a first number, `(` or EMPTY",
    "a first number",
    "a second number",
    "a number z",
    "a number m",
    "`,` or `)`",
    "`)`",
];
/// Why a text is refused, at the number of the hint; %u is the number of places.
pub const HINTS: [&str; 22] = [
    "",
    "the text begins with a byte order mark",
    "WKB in hexadecimal is not read; ST_AsText gives its text",
    "SRID=..; of EWKT is not read; ST_AsText leaves it out",
    "curves are not read; ST_CurveToLine gives lines",
    "triangles and surfaces are not read; polygons are",
    "exponents are not read; write 0.0000001 for 1e-7",
    "NaN and infinity are no decimals; EMPTY says that there is no point",
    "numbers have at most %u places here",
    "the number is too large",
    "a third number needs Z or M, as in POINT Z(1 2 3), and a fourth ZM",
    "what holds nothing is written EMPTY, without parentheses",
    "with 18 places the number is read",
    "commas separate coordinates, and spaces their numbers; decimals have a point",
    "NULL, None and nan are not read; leave the row out, or write POINT EMPTY",
    "quotes are not read; leave them out",
    "a no-break space is not read as a space; write a plain one",
    "a dash or a typographic minus is not read; write the plain -",
    "boxes are not read; polygons are",
    "braces are not read; ST_AsText(ST_GeomFromGeoJSON(..)) gives the text of GeoJSON",
    "a geometry begins with its kind, as in POINT(1 2)",
    "numbers stand in parentheses, as in POINT(1 2) and POLYGON((0 0,1 0,0 1,0 0))",
];
/// Done.
pub const OK: u32 = 0;
/// Refused.
pub const LAST_REFUSAL: u32 = 14;
/// The text is not UTF-8.
pub const NOT_UTF8: u32 = 20;
/// A buffer has no room.
pub const TOO_SMALL: u32 = 21;
/// Out of memory.
pub const NO_MEMORY: u32 = 22;
/// There are no numbers of so many places.
pub const NO_PLACES: u32 = 23;
/// A collection has no flat arrays.
pub const COLLECTION: u32 = 24;
/// A number has more units than 64 bits hold.
pub const TOO_LARGE: u32 = 25;
/// The arrays are of no geometry.
pub const NOT_ARRAYS: u32 = 26;
/// The offsets, the bits or the sizes are of no column.
pub const NOT_COLUMN: u32 = 27;
/// The row is null.
pub const NULL: u32 = 28;
/// The text is not refused.
pub const ACCEPTED: u32 = 29;
/// More than white space follows the geometry.
pub const NOT_WHOLE: u32 = 30;
/// A pointer is NULL.
pub const NULL_POINTER: u32 = 31;
/// The processor is not supported.
pub const NOT_SUPPORTED: u32 = 32;
/// A size is more than PTRDIFF_MAX.
pub const TOO_LONG: u32 = 33;
// names.py: end
