//! What a [`Wkt`] is made of, under the names of the crate `wkt`.
//!
//! A geometry has its own dimension, also where it is empty. Constructors don't check that its parts have the same:
//! what is written is the numbers that its dimension asks for, so parts with fewer give a text that isn't read.
use crate::error::Error;
pub use crate::kinds::{Dimension, GeometryType};
use crate::number::WktNum;
use crate::wkt::Wkt;
use crate::write::Written;
use std::fmt;

/// A coordinate.
#[derive(Debug, Clone, Copy, Default, PartialEq, Eq, PartialOrd, Ord, Hash)]
pub struct Coord<T = f64> {
    /// The first number.
    pub x: T,
    /// The second number.
    pub y: T,
    /// The height, in the dimensions XYZ and XYZM.
    pub z: Option<T>,
    /// The measure, in the dimensions XYM and XYZM.
    pub m: Option<T>,
}

impl<T> Coord<T> {
    /// The dimension of which it has the numbers.
    pub fn dimension(&self) -> Dimension {
        match (&self.z, &self.m) {
            (None, None) => Dimension::XY,
            (Some(_), None) => Dimension::XYZ,
            (None, Some(_)) => Dimension::XYM,
            (Some(_), Some(_)) => Dimension::XYZM,
        }
    }
}

/// What each kind has in common.
macro_rules! kind {
    ($name:ident, $parts:ident: $held:ty) => {
        impl<T> $name<T> {
            /// The geometry with these parts, of this dimension.
            pub fn new($parts: $held, dim: Dimension) -> Self {
                $name { $parts, dim }
            }

            /// The empty geometry of this dimension.
            #[must_use]
            pub fn empty(dim: Dimension) -> Self {
                Self::new(<$held>::default(), dim)
            }

            /// Its dimension.
            pub fn dimension(&self) -> Dimension {
                self.dim
            }

            /// Its parts and its dimension.
            pub fn into_inner(self) -> ($held, Dimension) {
                (self.$parts, self.dim)
            }
        }

        impl<T> From<$name<T>> for Wkt<T> {
            fn from(geometry: $name<T>) -> Wkt<T> {
                Wkt::$name(geometry)
            }
        }

        /// [`MismatchedGeometry`](Error::MismatchedGeometry) where it is of another kind.
        impl<T> TryFrom<Wkt<T>> for $name<T> {
            type Error = Error;

            fn try_from(wkt: Wkt<T>) -> Result<Self, Error> {
                match wkt {
                    Wkt::$name(geometry) => Ok(geometry),
                    other => Err(Error::MismatchedGeometry {
                        expected: GeometryType::$name,
                        found: other.kind(),
                    }),
                }
            }
        }

        /// Its canonical text, as of [`Wkt`].
        impl<T: WktNum> fmt::Display for $name<T> {
            fn fmt(&self, f: &mut fmt::Formatter<'_>) -> fmt::Result {
                self.show(f)
            }
        }
    };
}

/// A point, or none.
#[derive(Debug, Clone, Default, PartialEq, Eq, PartialOrd, Ord, Hash)]
pub struct Point<T = f64> {
    coord: Option<Coord<T>>,
    dim: Dimension,
}

kind!(Point, coord: Option<Coord<T>>);

impl<T> Point<T> {
    /// The point at this coordinate, of its dimension.
    pub fn from_coord(coord: Coord<T>) -> Self {
        let dim = coord.dimension();
        Point::new(Some(coord), dim)
    }

    /// Where it is, or none where it is empty.
    pub fn coord(&self) -> Option<&Coord<T>> {
        self.coord.as_ref()
    }
}

/// A kind with a list.
macro_rules! list {
    ($(#[$doc:meta])* $name:ident, $parts:ident: $part:ty, $all:ident, $from_parts:ident) => {
        $(#[$doc])*
        #[derive(Debug, Clone, Default, PartialEq, Eq, PartialOrd, Ord, Hash)]
        pub struct $name<T = f64> {
            $parts: Vec<$part>,
            dim: Dimension,
        }

        kind!($name, $parts: Vec<$part>);

        impl<T> $name<T> {
            /// The geometry with these parts, of the dimension of the first; none where there is none.
            pub fn $from_parts($parts: impl IntoIterator<Item = $part>) -> Option<Self> {
                let $parts: Vec<_> = $parts.into_iter().collect();
                let dim = $parts.first()?.dimension();
                Some($name::new($parts, dim))
            }

            /// Its parts.
            pub fn $all(&self) -> &[$part] {
                &self.$parts
            }
        }
    };
}

list! {
    /// A line string.
    LineString, coords: Coord<T>, coords, from_coords
}
list! {
    /// A polygon: its exterior, and then its interiors.
    Polygon, rings: LineString<T>, rings, from_rings
}
list! {
    /// Several points.
    MultiPoint, points: Point<T>, points, from_points
}
list! {
    /// Several line strings.
    MultiLineString, line_strings: LineString<T>, line_strings, from_line_strings
}
list! {
    /// Several polygons.
    MultiPolygon, polygons: Polygon<T>, polygons, from_polygons
}
list! {
    /// Geometries of any kinds and dimensions.
    GeometryCollection, geoms: Wkt<T>, geometries, from_geometries
}
