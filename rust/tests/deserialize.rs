//! Geometries as strings of the crate serde.
#![cfg(feature = "serde")]
use serde::de::value::{Error, StrDeserializer};
use serde::de::{Deserialize, IntoDeserializer};
use serde::Serialize;
use std::fmt;
use wkt_proved::types::{GeometryCollection, LineString, Point, Polygon};
use wkt_proved::{deserialize_wkt, Decimal, Wkt};

fn of(text: &str) -> StrDeserializer<'_, Error> {
    text.into_deserializer()
}

/// As a formatter serializes it.
struct Shown<T>(T);

impl<T: Serialize> fmt::Display for Shown<T> {
    fn fmt(&self, f: &mut fmt::Formatter<'_>) -> fmt::Result {
        self.0.serialize(f)
    }
}

#[test]
fn strings() {
    let wkt = Wkt::<Decimal<6>>::deserialize(of("point ( 1 2.50 )")).unwrap();
    assert_eq!(Shown(&wkt).to_string(), "POINT(1 2.5)");
    let read: Wkt = deserialize_wkt(of("POINT EMPTY")).unwrap();
    assert_eq!(read, Point::default().into());
    let error = Wkt::<f64>::deserialize(of("POINT(1)")).unwrap_err();
    assert_eq!(error.to_string(), "1:8: a second number was expected");
    let error =
        Wkt::<f64>::deserialize(IntoDeserializer::<Error>::into_deserializer(1_u8)).unwrap_err();
    assert_eq!(
        error.to_string(),
        "invalid type: integer `1`, expected well-known text"
    );
}

/// The seven kinds are strings, too.
#[test]
fn kinds() {
    let point = Point::<f64>::deserialize(of("point ( 1 2.50 )")).unwrap();
    assert_eq!(Shown(&point).to_string(), "POINT(1 2.5)");
    let polygon = Polygon::<Decimal<6>>::deserialize(of("POLYGON(EMPTY)")).unwrap();
    assert_eq!(Shown(&polygon).to_string(), "POLYGON EMPTY");
    let members = GeometryCollection::<i64>::from_geometries([Wkt::from(LineString::default())]);
    assert_eq!(
        Shown(members.unwrap()).to_string(),
        "GEOMETRYCOLLECTION(LINESTRING EMPTY)"
    );
    let error = Point::<f64>::deserialize(of("LINESTRING(1 2,3 4)")).unwrap_err();
    assert_eq!(
        error.to_string(),
        "A Point was expected, and not a LineString"
    );
}

#[cfg(feature = "geo-types")]
#[test]
fn by_the_names_of_the_crate_wkt() {
    use geo_types::{line_string, point, Geometry};
    use wkt_proved::{deserialize_geometry, deserialize_point};
    let geometry = deserialize_geometry(of("LINESTRING(1 2,3 4)"));
    let line = line_string![(x: 1., y: 2.), (x: 3., y: 4.)];
    assert_eq!(geometry, Ok(Geometry::LineString(line)));
    let at = |text| deserialize_point::<_, f64>(of(text));
    assert_eq!(at("POINT(1 2.50)"), Ok(Some(point!(x: 1., y: 2.5))));
    assert_eq!(at("POINT EMPTY"), Ok(None));
    assert_eq!(at("MULTIPOINT EMPTY"), Ok(None));
    assert!(at("LINESTRING EMPTY").is_err() && at("POINT(1)").is_err());
}

#[test]
fn what_has_no_text() {
    use std::fmt::Write;
    let nan = wkt_proved::types::Coord {
        x: f64::NAN,
        ..Default::default()
    };
    let wkt = Wkt::from(Point::from_coord(nan));
    assert!(write!(String::new(), "{}", Shown(wkt)).is_err());
}
