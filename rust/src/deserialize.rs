//! Geometries in the formats of the crate `serde`, as texts.
//!
//! A [`Wkt`] is a string there, and so are the seven kinds. A field of another type is read by its attribute
//! `#[serde(deserialize_with = "wkt_proved::deserialize_wkt")]`, whatever [`TryFromWkt`] makes of a text.
use crate::convert::TryFromWkt;
use crate::number::WktNum;
use crate::types::{
    GeometryCollection, LineString, MultiLineString, MultiPoint, MultiPolygon, Point, Polygon,
};
use crate::wkt::{text_of, Wkt};
use serde::de::{Deserialize, Deserializer, Error as _, Visitor};
use serde::ser::{Error as _, Serialize, Serializer};
use std::fmt;
use std::marker::PhantomData;

/// What is made of a string that is a text.
///
/// # Errors
/// Those of the format, and its own for a text that is refused.
pub fn deserialize_wkt<'de, D, G, T>(deserializer: D) -> Result<G, D::Error>
where
    D: Deserializer<'de>,
    G: TryFromWkt<T>,
    G::Error: fmt::Display,
{
    deserializer.deserialize_str(Text(PhantomData))
}

struct Text<G, T>(PhantomData<(G, T)>);

impl<G, T> Visitor<'_> for Text<G, T>
where
    G: TryFromWkt<T>,
    G::Error: fmt::Display,
{
    type Value = G;

    fn expecting(&self, f: &mut fmt::Formatter<'_>) -> fmt::Result {
        f.write_str("well-known text")
    }

    fn visit_str<E: serde::de::Error>(self, text: &str) -> Result<G, E> {
        G::try_from_wkt_str(text).map_err(E::custom)
    }
}

impl<'de, T: WktNum> Deserialize<'de> for Wkt<T> {
    fn deserialize<D: Deserializer<'de>>(deserializer: D) -> Result<Self, D::Error> {
        deserialize_wkt(deserializer)
    }
}

/// What each type is written as.
macro_rules! serialized {
    ($($name:ident),*) => { $(
        /// Its canonical text. What has none is an error.
        impl<T: WktNum> Serialize for $name<T> {
            fn serialize<S: Serializer>(&self, serializer: S) -> Result<S::Ok, S::Error> {
                serializer.serialize_str(&text_of(self).map_err(S::Error::custom)?)
            }
        }
    )* };
}
/// What each kind is read from.
macro_rules! deserialized {
    ($($name:ident),*) => { $(
        /// A text of another kind is an error.
        impl<'de, T: WktNum> Deserialize<'de> for $name<T> {
            fn deserialize<D: Deserializer<'de>>(deserializer: D) -> Result<Self, D::Error> {
                let wkt = Wkt::deserialize(deserializer)?;
                wkt.try_into().map_err(D::Error::custom)
            }
        }
    )* };
}
serialized!(
    Wkt,
    Point,
    LineString,
    Polygon,
    MultiPoint,
    MultiLineString,
    MultiPolygon,
    GeometryCollection
);
deserialized!(
    Point,
    LineString,
    Polygon,
    MultiPoint,
    MultiLineString,
    MultiPolygon,
    GeometryCollection
);

/// Geometries of the crate `geo-types`.
#[cfg(feature = "geo-types")]
pub mod geo_types {
    use super::{deserialize_wkt, Deserializer, WktNum};
    use ::geo_types::{CoordNum, Geometry, Point};
    use serde::de::Error;

    /// [`deserialize_wkt`] of a geometry of any kind.
    ///
    /// # Errors
    /// The same.
    pub fn deserialize_geometry<'de, D, T>(deserializer: D) -> Result<Geometry<T>, D::Error>
    where
        D: Deserializer<'de>,
        T: CoordNum + WktNum,
    {
        deserialize_wkt(deserializer)
    }

    /// A point; none where it is empty, or a multipoint without points.
    ///
    /// # Errors
    /// Those of [`deserialize_wkt`]; the text is of another kind.
    pub fn deserialize_point<'de, D, T>(deserializer: D) -> Result<Option<Point<T>>, D::Error>
    where
        D: Deserializer<'de>,
        T: CoordNum + WktNum,
    {
        match deserialize_geometry(deserializer)? {
            Geometry::MultiPoint(points) if points.0.is_empty() => Ok(None),
            other => other.try_into().map(Some).map_err(D::Error::custom),
        }
    }
}
