//! A geometry as a value.
use crate::error::Error;
use crate::kinds::{Dimension, GeometryType};
use crate::number::{by_places, WktNum};
use crate::read::read;
use crate::text::canonical;
use crate::types::{
    GeometryCollection, LineString, MultiLineString, MultiPoint, MultiPolygon, Point, Polygon,
};
use crate::write::Written;
use std::fmt;
use std::str::FromStr;

/// A geometry, with the names of the crate `wkt`. Its numbers are `f64`, `i64` or [`Decimal`](crate::Decimal).
///
/// ```
/// use wkt_proved::{Decimal, Wkt};
///
/// let geometry: Wkt<Decimal<6>> = "linestring ( 1 2.50, 0.1 -3 )".parse()?;
/// assert_eq!(geometry.to_string(), "LINESTRING(1 2.5,0.1 -3)");
/// if let Wkt::LineString(line) = &geometry {
///     assert_eq!(line.coords()[0].y.units(), 2_500_000);
/// }
/// # Ok::<(), wkt_proved::Error>(())
/// ```
///
/// Two are equal if they have the same parts. Two that are written in other ways may have one canonical text, as
/// `POLYGON(EMPTY,(1 2))` and `POLYGON EMPTY`. They are ordered by kind, and then by their parts.
#[derive(Debug, Clone, PartialEq, Eq, PartialOrd, Ord, Hash)]
pub enum Wkt<T = f64> {
    /// A point, or an empty one.
    Point(Point<T>),
    /// A line string.
    LineString(LineString<T>),
    /// A polygon.
    Polygon(Polygon<T>),
    /// Several points.
    MultiPoint(MultiPoint<T>),
    /// Several line strings.
    MultiLineString(MultiLineString<T>),
    /// Several polygons.
    MultiPolygon(MultiPolygon<T>),
    /// Several geometries.
    GeometryCollection(GeometryCollection<T>),
}

/// What this is of a geometry of any kind.
macro_rules! of_each {
    ($wkt:expr, $geometry:ident => $what:expr) => {
        match $wkt {
            Wkt::Point($geometry) => $what,
            Wkt::LineString($geometry) => $what,
            Wkt::Polygon($geometry) => $what,
            Wkt::MultiPoint($geometry) => $what,
            Wkt::MultiLineString($geometry) => $what,
            Wkt::MultiPolygon($geometry) => $what,
            Wkt::GeometryCollection($geometry) => $what,
        }
    };
}
pub(crate) use of_each;

impl<T> Wkt<T> {
    /// Its dimension.
    pub fn dimension(&self) -> Dimension {
        of_each!(self, geometry => geometry.dimension())
    }

    /// Its kind.
    pub fn kind(&self) -> GeometryType {
        match self {
            Wkt::Point(_) => GeometryType::Point,
            Wkt::LineString(_) => GeometryType::LineString,
            Wkt::Polygon(_) => GeometryType::Polygon,
            Wkt::MultiPoint(_) => GeometryType::MultiPoint,
            Wkt::MultiLineString(_) => GeometryType::MultiLineString,
            Wkt::MultiPolygon(_) => GeometryType::MultiPolygon,
            Wkt::GeometryCollection(_) => GeometryType::GeometryCollection,
        }
    }
}

impl<T: WktNum> Wkt<T> {
    /// The canonical text.
    ///
    /// # Errors
    /// [`Refused`](Error::Refused), with the place in what [`Display`](fmt::Display) shows: a number is NaN or infinite, has
    /// too many digits, or is missing. `NoMemory`.
    pub fn text(&self) -> Result<String, Error> {
        text_of(self)
    }
}

/// The geometry that a text is as a whole. A number that its type doesn't hold is refused, or is [`TooLarge`](Error::TooLarge)
/// for an `i64`; that of an `f64` is the nearest to the decimal. Decimals have up to 18 digits after the point there, or as
/// many as the text needs, up to 36: numbers are below 1.7e38 then, divided by ten to that.
///
/// Collections may stand in one another 200 deep; more are [`NoForm`](Error::NoForm), since to compare, to copy and to drop
/// such a value takes stack for each level.
impl<T: WktNum> FromStr for Wkt<T> {
    type Err = Error;

    fn from_str(text: &str) -> Result<Self, Error> {
        by_places::<T, _>(text, |places| read(text, places))
    }
}

/// The canonical text of a geometry of any type.
pub(crate) fn text_of<T: WktNum>(geometry: &impl Written<T>) -> Result<String, Error> {
    let text = geometry.written()?;
    by_places::<T, _>(&text, |places| canonical(&text, places))
}

/// The canonical text. It never fails: of what has none, as of NaN, it shows what [`text`](Wkt::text) refuses.
impl<T: WktNum> fmt::Display for Wkt<T> {
    fn fmt(&self, f: &mut fmt::Formatter<'_>) -> fmt::Result {
        self.show(f)
    }
}
