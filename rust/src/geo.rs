//! Conversions from and to the types of the crate `geo-types`, over `f64` and `i64`.
//!
//! As in the crate `wkt`, z and m are left out, and an empty point is an empty `MultiPoint`, since a point of geo-types has
//! coordinates. Where memory lacks, conversions that return a `Result` say so, and the others panic.
//!
//! ```
//! use geo_types::{point, Geometry, Point};
//! use wkt_proved::{ToWkt, TryFromWkt};
//!
//! let point = Point::try_from_wkt_str("POINT(1 2.50)")?;
//! assert_eq!(point, point!(x: 1.0, y: 2.5));
//! assert_eq!(Geometry::from(point).wkt_string(), "POINT(1 2.5)");
//! # Ok::<(), wkt_proved::Error>(())
//! ```
use crate::convert::{text_of, ToWkt, TryFromWkt};
pub use crate::error::Error;
use crate::kinds::Dimension::XY;
use crate::memory::{reserve, room};
use crate::number::WktNum;
use crate::read::read;
use crate::text::canonical;
use crate::types::{
    Coord, GeometryCollection, LineString, MultiLineString, MultiPoint, MultiPolygon, Point,
    Polygon,
};
use crate::wkt::Wkt;
use crate::write::Written;
use geo_types::{CoordNum, Geometry};
use std::io::{self, Read, Write};

const EMPTY_POINT: Error = Error::NoForm("A point of geo-types can't be empty");

/// The canonical text of a geometry. A Line is written as a line string, a Rect and a Triangle as polygons.
///
/// A coordinate is the shortest decimal that is read as the same `f64`, so 0.1 is `0.1`. It isn't rounded to `places`:
/// round it before, if it has more.
///
/// ```
/// use geo_types::{line_string, Geometry};
///
/// let line = Geometry::from(line_string![(x: 1.0, y: 2.50), (x: 0.1, y: -3.0)]);
/// assert_eq!(wkt_proved::geo::to_text(&line, 6)?, "LINESTRING(1 2.5,0.1 -3)");
/// # Ok::<(), wkt_proved::Error>(())
/// ```
///
/// # Errors
/// [`Refused`](Error::Refused), with the place in the text that it writes first: a coordinate is NaN or infinite, has more
/// than `places` digits after the point, or is too large. `NoPlaces`, `NoMemory`.
pub fn to_text(geometry: &Geometry<f64>, places: u32) -> Result<String, Error> {
    canonical(&geometry.made()?.written()?, places)
}

/// The geometry that a text is, whose numbers have up to `places` digits after the point. Each becomes the nearest `f64`.
///
/// ```
/// use geo_types::{point, Geometry};
///
/// let point = wkt_proved::geo::from_text("POINT(1 2.5)", 6)?;
/// assert_eq!(point, Geometry::from(point!(x: 1.0, y: 2.5)));
/// # Ok::<(), wkt_proved::Error>(())
/// ```
///
/// # Errors
/// [`Refused`](Error::Refused), as of [`canonical`]. `NoForm`: a member of a multipoint is empty, or more than 200 collections
/// stand in one another. `NoPlaces`, `NoMemory`.
pub fn from_text(text: &str, places: u32) -> Result<Geometry<f64>, Error> {
    read::<f64>(text, places)?.try_into()
}

// Later versions of geo-types call it Coord, and keep this name.
#[allow(deprecated)]
impl<T: CoordNum> From<Coord<T>> for geo_types::Coordinate<T> {
    fn from(at: Coord<T>) -> Self {
        (at.x, at.y).into()
    }
}

impl<T: CoordNum> TryFrom<Point<T>> for geo_types::Point<T> {
    type Error = Error;

    fn try_from(point: Point<T>) -> Result<Self, Error> {
        point_of(&point)
    }
}

/// All that is made, one after the other.
fn all<T>(parts: impl ExactSizeIterator<Item = Result<T, Error>>) -> Result<Vec<T>, Error> {
    let mut all = room(parts.len())?;
    for part in parts {
        all.push(part?);
    }
    Ok(all)
}

fn point_of<T: CoordNum>(point: &Point<T>) -> Result<geo_types::Point<T>, Error> {
    let at = point.coord().ok_or(EMPTY_POINT)?;
    Ok((at.x, at.y).into())
}

fn line_of<T: CoordNum>(line: &LineString<T>) -> Result<geo_types::LineString<T>, Error> {
    let coords = line.coords().iter().map(|at| Ok((at.x, at.y).into()));
    Ok(geo_types::LineString(all(coords)?))
}

/// A ring, closed as one of geo-types is.
fn ring_of<T: CoordNum>(ring: &LineString<T>) -> Result<geo_types::LineString<T>, Error> {
    let mut ring = line_of(ring)?;
    if !ring.is_closed() {
        reserve(&mut ring.0, 1)?;
        ring.close();
    }
    Ok(ring)
}

fn polygon_of<T: CoordNum>(polygon: &Polygon<T>) -> Result<geo_types::Polygon<T>, Error> {
    let rings = polygon.rings();
    let exterior = rings
        .first()
        .map_or(Ok(geo_types::LineString(Vec::new())), ring_of)?;
    let interiors = all(rings.iter().skip(1).map(ring_of))?;
    Ok(geo_types::Polygon::new(exterior, interiors))
}

fn points_of<T: CoordNum>(points: &MultiPoint<T>) -> Result<geo_types::MultiPoint<T>, Error> {
    let points = all(points.points().iter().map(point_of));
    Ok(geo_types::MultiPoint(points?))
}

fn lines_of<T: CoordNum>(
    lines: &MultiLineString<T>,
) -> Result<geo_types::MultiLineString<T>, Error> {
    let lines = all(lines.line_strings().iter().map(line_of));
    Ok(geo_types::MultiLineString(lines?))
}

fn polygons_of<T: CoordNum>(
    polygons: &MultiPolygon<T>,
) -> Result<geo_types::MultiPolygon<T>, Error> {
    let polygons = all(polygons.polygons().iter().map(polygon_of));
    Ok(geo_types::MultiPolygon(polygons?))
}

fn members_of<T: CoordNum>(
    members: &GeometryCollection<T>,
) -> Result<geo_types::GeometryCollection<T>, Error> {
    let members = all(members.geometries().iter().map(geometry_of));
    Ok(geo_types::GeometryCollection(members?))
}

fn geometry_of<T: CoordNum>(wkt: &Wkt<T>) -> Result<Geometry<T>, Error> {
    Ok(match wkt {
        Wkt::Point(point) if point.coord().is_none() => {
            Geometry::MultiPoint(geo_types::MultiPoint(Vec::new()))
        }
        Wkt::Point(point) => Geometry::Point(point_of(point)?),
        Wkt::LineString(line) => Geometry::LineString(line_of(line)?),
        Wkt::Polygon(polygon) => Geometry::Polygon(polygon_of(polygon)?),
        Wkt::MultiPoint(points) => Geometry::MultiPoint(points_of(points)?),
        Wkt::MultiLineString(lines) => Geometry::MultiLineString(lines_of(lines)?),
        Wkt::MultiPolygon(polygons) => Geometry::MultiPolygon(polygons_of(polygons)?),
        Wkt::GeometryCollection(members) => Geometry::GeometryCollection(members_of(members)?),
    })
}

/// A conversion that only memory can fail, and that panics then.
fn sure<G>(made: Result<G, Error>) -> G {
    made.unwrap_or_else(|error| panic!("{error}"))
}

/// The conversions of kinds that have a form of their own.
macro_rules! from {
    ($($name:ident: $make:ident),*) => { $(
        impl<T: CoordNum> From<$name<T>> for geo_types::$name<T> {
            fn from(geometry: $name<T>) -> Self {
                sure($make(&geometry))
            }
        }

        impl<T: CoordNum> From<&$name<T>> for Geometry<T> {
            fn from(geometry: &$name<T>) -> Self {
                sure($make(geometry)).into()
            }
        }
    )* };
}
from!(
    LineString: line_of,
    Polygon: polygon_of,
    MultiLineString: lines_of,
    MultiPolygon: polygons_of
);

impl<T: CoordNum> TryFrom<MultiPoint<T>> for geo_types::MultiPoint<T> {
    type Error = Error;

    fn try_from(points: MultiPoint<T>) -> Result<Self, Error> {
        points_of(&points)
    }
}

impl<T: CoordNum> TryFrom<&MultiPoint<T>> for Geometry<T> {
    type Error = Error;

    fn try_from(points: &MultiPoint<T>) -> Result<Self, Error> {
        points_of(points).map(Geometry::MultiPoint)
    }
}

impl<T: CoordNum> TryFrom<GeometryCollection<T>> for geo_types::GeometryCollection<T> {
    type Error = Error;

    fn try_from(members: GeometryCollection<T>) -> Result<Self, Error> {
        members_of(&members)
    }
}

impl<T: CoordNum> TryFrom<Wkt<T>> for Geometry<T> {
    type Error = Error;

    fn try_from(wkt: Wkt<T>) -> Result<Self, Error> {
        geometry_of(&wkt)
    }
}

/// What each of the types is made of.
macro_rules! of_texts {
    ($($name:ident),*) => { $(
        impl<T: CoordNum + WktNum> TryFromWkt<T> for geo_types::$name<T> {
            type Error = Error;

            fn try_from_wkt_str(wkt_str: &str) -> Result<Self, Error> {
                wkt_str.parse::<Wkt<T>>()?.try_into()
            }

            fn try_from_wkt_reader(wkt_reader: impl Read) -> Result<Self, Error> {
                Self::try_from_wkt_str(&text_of(wkt_reader)?)
            }
        }
    )* };
}
macro_rules! of_geometries {
    ($($name:ident: $make:ident),*) => { $(
        /// [`MismatchedGeometry`](Error::MismatchedGeometry) where it is of another kind.
        impl<T: CoordNum> TryFrom<Wkt<T>> for geo_types::$name<T> {
            type Error = Error;

            fn try_from(wkt: Wkt<T>) -> Result<Self, Error> {
                $make(&$name::try_from(wkt)?)
            }
        }
    )* };
}
of_geometries!(
    Point: point_of,
    LineString: line_of,
    Polygon: polygon_of,
    MultiPoint: points_of,
    MultiLineString: lines_of,
    MultiPolygon: polygons_of,
    GeometryCollection: members_of
);
of_texts!(
    Geometry,
    Point,
    LineString,
    Polygon,
    MultiPoint,
    MultiLineString,
    MultiPolygon,
    GeometryCollection
);

fn coord<T: CoordNum>((x, y): (T, T)) -> Coord<T> {
    Coord {
        x,
        y,
        z: None,
        m: None,
    }
}

fn point<T: CoordNum>(point: &geo_types::Point<T>) -> Point<T> {
    Point::from_coord(coord(point.x_y()))
}

fn line<T: CoordNum>(line: &geo_types::LineString<T>) -> Result<LineString<T>, Error> {
    let coords = line.0.iter().map(|at| Ok(coord(at.x_y())));
    Ok(LineString::new(all(coords)?, XY))
}

fn polygon<T: CoordNum>(polygon: &geo_types::Polygon<T>) -> Result<Polygon<T>, Error> {
    if polygon.exterior().0.is_empty() {
        return Ok(Polygon::empty(XY));
    }
    let mut rings = room(1 + polygon.interiors().len())?;
    for ring in std::iter::once(polygon.exterior()).chain(polygon.interiors()) {
        rings.push(line(ring)?);
    }
    Ok(Polygon::new(rings, XY))
}

/// A geometry that becomes one of this crate.
trait Given<T: WktNum> {
    fn made(&self) -> Result<Wkt<T>, Error>;
}

/// How each of the types does.
macro_rules! given {
    ($($name:ident: $given:ident => $made:expr),* $(,)?) => { $(
        impl<T: CoordNum + WktNum> Given<T> for geo_types::$name<T> {
            fn made(&self) -> Result<Wkt<T>, Error> {
                let $given = self;
                Ok($made.into())
            }
        }

        impl<T: CoordNum + WktNum> ToWkt<T> for geo_types::$name<T> {
            fn to_wkt(&self) -> Wkt<T> {
                sure(self.made())
            }

            fn write_wkt(&self, writer: impl Write) -> io::Result<()> {
                self.made()?.write_wkt(writer)
            }
        }
    )* };
}
given! {
    Point: at => point(at),
    Line: ends => LineString::new(all([ends.start, ends.end].iter().map(|at| Ok(coord(at.x_y()))))?, XY),
    LineString: coords => line(coords)?,
    Polygon: rings => polygon(rings)?,
    Rect: corners => polygon(&corners.to_polygon())?,
    Triangle: corners => polygon(&corners.to_polygon())?,
    MultiPoint: points => MultiPoint::new(all(points.0.iter().map(|at| Ok(point(at))))?, XY),
    MultiLineString: lines => MultiLineString::new(all(lines.0.iter().map(line))?, XY),
    MultiPolygon: polygons => MultiPolygon::new(all(polygons.0.iter().map(polygon))?, XY),
    GeometryCollection: members => {
        GeometryCollection::new(all(members.0.iter().map(Given::made))?, XY)
    },
    // A Line is a line string, a Rect and a Triangle are polygons.
    Geometry: geometry => match geometry {
        Geometry::Point(it) => it.made(),
        Geometry::Line(it) => it.made(),
        Geometry::LineString(it) => it.made(),
        Geometry::Polygon(it) => it.made(),
        Geometry::Rect(it) => it.made(),
        Geometry::Triangle(it) => it.made(),
        Geometry::MultiPoint(it) => it.made(),
        Geometry::MultiLineString(it) => it.made(),
        Geometry::MultiPolygon(it) => it.made(),
        Geometry::GeometryCollection(it) => it.made(),
    }?,
}
