// Texts to begin with, by their names in the page.
export const EXAMPLES = {
  'Polygon with a hole': 'POLYGON ((10 10, 110 20, 90 120, 10 120, 10 10), (30 40, 40 90, 75 80, 70 45, 30 40))',
  'Refused, and why': `POINT Z (7.1 50.73 64)
POINT (7.1 50.73 64)
SRID=4326;POINT(7.1 50.73)
POINT (1e-7 50)
LINESTRING (7.09 50.72, 7.12 50.70, 7.13, 50.74)
POLYGON ((7.05 50.70, 7.15 50.69, 7.14 50.76, 7.06 50.75, 7.05 50.70))
TRIANGLE ((0 0, 1 0, 0 1, 0 0))`,
  'One geometry, three spellings': `MULTIPOINT (8 4, 4 0, 1.50 2)
multipoint((8 4),(4 0),(1.5 2))
MULTIPOINT((08 +4), (4.0 -0), (1.5 2.00))
MULTIPOINT((4 0),(8 4),(1.5 2))`,
  Collection: `GEOMETRYCOLLECTION (
  POINT (40 10),
  LINESTRING (10 10, 20 20, 10 40, 35 48),
  POLYGON ((40 40, 20 45, 45 30, 40 40)),
  GEOMETRYCOLLECTION (MULTIPOINT (5 5, 48 48), POINT EMPTY)
)`,
  Islands: 'MULTIPOLYGON (((6 2, 14 1, 18 6, 15 12, 8 13, 3 8, 6 2), (8 5, 7 8, 11 10, 13 6, 8 5)), ((20 10, 26 9, 27 14, 22 16, 20 10)), ((9 6.5, 10.5 6.5, 10 8, 9 6.5)))',
  'Exact to the last digit': `POINT (0.1 0.100000000000000001)
POINT (0.10 0.1)
POINT (123456789012345678901234567890 1)`,
};
