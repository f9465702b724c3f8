//! Kinds of geometries, and dimensions.
use crate::names::{DIMENSION_WORDS, KINDS};
use std::fmt;

/// A kind of geometry. Its number is that of `include/wkt.h`.
#[derive(Debug, Clone, Copy, PartialEq, Eq, PartialOrd, Ord, Hash)]
#[non_exhaustive]
pub enum GeometryType {
    /// `POINT`.
    Point,
    /// `LINESTRING`, and `LINEARRING`.
    LineString,
    /// `POLYGON`.
    Polygon,
    /// `MULTIPOINT`.
    MultiPoint,
    /// `MULTILINESTRING`.
    MultiLineString,
    /// `MULTIPOLYGON`.
    MultiPolygon,
    /// `GEOMETRYCOLLECTION`.
    GeometryCollection,
}

impl GeometryType {
    const ALL: [GeometryType; 7] = [
        GeometryType::Point,
        GeometryType::LineString,
        GeometryType::Polygon,
        GeometryType::MultiPoint,
        GeometryType::MultiLineString,
        GeometryType::MultiPolygon,
        GeometryType::GeometryCollection,
    ];

    /// The kind of this number, if it is one.
    #[must_use]
    pub fn from_number(number: u32) -> Option<GeometryType> {
        GeometryType::ALL.get(number as usize).copied()
    }
}

/// Its name, as `LineString`.
impl fmt::Display for GeometryType {
    fn fmt(&self, f: &mut fmt::Formatter<'_>) -> fmt::Result {
        f.write_str(KINDS[*self as usize])
    }
}

/// The numbers of a coordinate; by default x and y. Its number is that of `include/wkt.h`.
#[derive(Debug, Clone, Copy, Default, PartialEq, Eq, PartialOrd, Ord, Hash)]
#[non_exhaustive]
pub enum Dimension {
    /// x and y.
    #[default]
    XY,
    /// x, y and z.
    XYZ,
    /// x, y and m.
    XYM,
    /// x, y, z and m.
    XYZM,
}

impl Dimension {
    const ALL: [Dimension; 4] = [
        Dimension::XY,
        Dimension::XYZ,
        Dimension::XYM,
        Dimension::XYZM,
    ];

    /// The dimension of this number, if it is one.
    #[must_use]
    pub fn from_number(number: u32) -> Option<Dimension> {
        Dimension::ALL.get(number as usize).copied()
    }

    /// How many numbers a coordinate has.
    #[must_use]
    pub fn size(self) -> usize {
        2 + self.word().len()
    }

    /// What stands after a kind word.
    pub(crate) fn word(self) -> &'static str {
        DIMENSION_WORDS[self as usize]
    }
}

/// What stands after a kind word: nothing, `Z`, `M` or `ZM`.
impl fmt::Display for Dimension {
    fn fmt(&self, f: &mut fmt::Formatter<'_>) -> fmt::Result {
        f.write_str(self.word())
    }
}
