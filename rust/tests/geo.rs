//! Conversions from and to geo-types, with values worked by hand.
#![cfg(feature = "geo-types")]
use geo_types::{
    coord, line_string, point, polygon, Geometry, GeometryCollection, Line, LineString,
    MultiLineString, MultiPoint, MultiPolygon, Point, Polygon, Rect, Triangle,
};
use wkt_proved::geo::{from_text, to_text};
use wkt_proved::types::GeometryType;
use wkt_proved::{Error, Hint, ToWkt, TryFromWkt, Wkt};

fn each() -> Vec<(Geometry<f64>, &'static str)> {
    let square = polygon![
        exterior: [(x: 0., y: 0.), (x: 4., y: 0.), (x: 4., y: 4.), (x: 0., y: 0.)],
        interiors: [[(x: 1., y: 1.), (x: 2., y: 1.), (x: 2., y: 2.), (x: 1., y: 1.)]],
    ];
    let line = line_string![(x: 1., y: 2.5), (x: 0.1, y: -3.)];
    let empty = LineString::<f64>(Vec::new());
    let points = MultiPoint(vec![point!(x: 1., y: 2.), point!(x: 3., y: 4.)]);
    vec![
        (point!(x: 1., y: 2.5).into(), "POINT(1 2.5)"),
        (line.clone().into(), "LINESTRING(1 2.5,0.1 -3)"),
        (empty.clone().into(), "LINESTRING EMPTY"),
        (
            square.clone().into(),
            "POLYGON((0 0,4 0,4 4,0 0),(1 1,2 1,2 2,1 1))",
        ),
        (Polygon::new(empty.clone(), vec![]).into(), "POLYGON EMPTY"),
        (points.clone().into(), "MULTIPOINT((1 2),(3 4))"),
        (
            MultiLineString(vec![line, empty]).into(),
            "MULTILINESTRING((1 2.5,0.1 -3),EMPTY)",
        ),
        (
            MultiPolygon(vec![square]).into(),
            "MULTIPOLYGON(((0 0,4 0,4 4,0 0),(1 1,2 1,2 2,1 1)))",
        ),
        (
            Geometry::GeometryCollection(GeometryCollection(vec![
                points.into(),
                Geometry::GeometryCollection(GeometryCollection(vec![])),
                point!(x: 7., y: 8.).into(),
            ])),
            "GEOMETRYCOLLECTION(MULTIPOINT((1 2),(3 4)),GEOMETRYCOLLECTION EMPTY,POINT(7 8))",
        ),
    ]
}

#[test]
fn both_ways() {
    for (geometry, text) in each() {
        assert_eq!(to_text(&geometry, 6).as_deref(), Ok(text));
        assert_eq!(geometry.wkt_string(), text);
        assert_eq!(Geometry::try_from_wkt_str(text).as_ref(), Ok(&geometry));
        assert_eq!(geometry.to_wkt().try_into().as_ref(), Ok(&geometry));
        assert_eq!(from_text(text, 6), Ok(geometry), "{text}");
    }
}

#[test]
fn other_kinds_are_written() {
    let line = Line::new(coord! { x: 0., y: 1. }, coord! { x: 2., y: 3. });
    assert_eq!(
        to_text(&line.into(), 6).as_deref(),
        Ok("LINESTRING(0 1,2 3)")
    );
    let triangle = Triangle(
        coord! { x: 0., y: 0. },
        coord! { x: 4., y: 0. },
        coord! { x: 2., y: 4. },
    );
    let text = to_text(&triangle.into(), 6).unwrap();
    assert_eq!(text, "POLYGON((0 0,4 0,2 4,0 0))");
    let rect = Rect::new(coord! { x: 0., y: 0. }, coord! { x: 2., y: 1. });
    let back = from_text(&to_text(&rect.into(), 6).unwrap(), 6);
    assert_eq!(back, Ok(rect.to_polygon().into()));
}

#[test]
fn numbers() {
    // The nearest number, also of more digits than it has.
    let got = from_text("POINT(0.100000000000000005 123456789.012345678)", 18);
    assert_eq!(got, Ok(point!(x: 0.1, y: 123_456_789.012_345_67).into()));
    for (x, hint) in [
        (0.123_456_7, Hint::Places(6)),
        (f64::NAN, Hint::NoNumber),
        (f64::NEG_INFINITY, Hint::NoNumber),
        (1e300, Hint::Large),
    ] {
        let error = to_text(&point!(x: x, y: 0.).into(), 6).unwrap_err();
        assert_eq!(error.refusal().unwrap().hint, Some(hint), "{x}");
    }
    // As small as a number is read.
    let fine = "POINT(0.000000000000000000000000000000000001 -170)";
    let point = point!(x: 1e-36, y: -170.);
    assert_eq!(to_text(&point.into(), 36).as_deref(), Ok(fine));
    assert_eq!(from_text(fine, 36), Ok(point.into()));
    // -0 is 0.
    assert_eq!(
        to_text(&point!(x: -0., y: 0.).into(), 6).as_deref(),
        Ok("POINT(0 0)")
    );
    // z and m are left out.
    let flat = Ok(point!(x: 1., y: 2.).into());
    assert_eq!(from_text("POINT ZM(1 2 3 4)", 6), flat);
}

#[test]
fn empty_points() {
    // As in the crate wkt.
    let none = Geometry::from(MultiPoint::<f64>(vec![]));
    assert_eq!(from_text("POINT EMPTY", 6), Ok(none.clone()));
    assert_eq!(from_text("point zm empty", 6), Ok(none.clone()));
    let both = GeometryCollection(vec![point!(x: 1., y: 2.).into(), none]);
    assert_eq!(
        from_text("GEOMETRYCOLLECTION(POINT(1 2),POINT EMPTY)", 6),
        Ok(Geometry::GeometryCollection(both))
    );
}

#[test]
fn what_has_no_form() {
    for text in [
        "MULTIPOINT(EMPTY)",
        "MULTIPOINT Z(1 2 3,EMPTY)",
        "GEOMETRYCOLLECTION(MULTIPOINT(1 2,EMPTY))",
    ] {
        assert!(
            matches!(from_text(text, 6), Err(Error::NoForm(_))),
            "{text}"
        );
    }
    let error = from_text("POINT(1)", 6).unwrap_err();
    assert_eq!(error.to_string(), "1:8: a second number was expected");
}

#[test]
fn collections_in_one_another() {
    let nested = |levels: usize| {
        let (open, close) = ("GEOMETRYCOLLECTION(", ")");
        format!("{}POINT(1 2){}", open.repeat(levels), close.repeat(levels))
    };
    let deep = from_text(&nested(200), 6).unwrap();
    assert_eq!(to_text(&deep, 6), Ok(nested(200)));
    let deeper = Geometry::GeometryCollection(GeometryCollection(vec![deep]));
    assert_eq!(to_text(&deeper, 6), Ok(nested(201)));
    assert!(matches!(from_text(&nested(201), 6), Err(Error::NoForm(_))));
    assert!(matches!(
        from_text(&nested(100_000), 6),
        Err(Error::NoForm(_))
    ));
}

/// What the crate `wkt` converts parts and references by.
#[test]
fn parts_and_references() {
    use wkt_proved::types;
    let at = types::Coord {
        x: 1.,
        y: 2.5,
        z: Some(3.),
        m: None,
    };
    let here: Point<f64> = Point(at.into());
    assert_eq!(here, point!(x: 1., y: 2.5));
    let ring = types::LineString::from_coords([at, at]).unwrap();
    let line = LineString::from(ring.clone());
    assert_eq!(Geometry::from(&ring), Geometry::from(line.clone()));
    let polygon = types::Polygon::from_rings([ring.clone()]).unwrap();
    let one = Polygon::new(line.clone(), vec![]);
    assert_eq!(Geometry::from(&polygon), Geometry::from(one.clone()));
    let lines = types::MultiLineString::from_line_strings([ring]).unwrap();
    assert_eq!(Geometry::from(&lines), MultiLineString(vec![line]).into());
    let polygons = types::MultiPolygon::from_polygons([polygon]).unwrap();
    assert_eq!(Geometry::from(&polygons), MultiPolygon(vec![one]).into());
    let points = types::MultiPoint::from_points([types::Point::from_coord(at)]).unwrap();
    assert_eq!(
        Geometry::try_from(&points),
        Ok(MultiPoint(vec![here]).into())
    );
    let error: Result<Geometry<f64>, wkt_proved::geo_types_from_wkt::Error> =
        (&types::MultiPoint::new(vec![types::Point::default()], types::Dimension::XY)).try_into();
    assert!(matches!(error, Err(wkt_proved::error::Error::NoForm(_))));
}

/// A type of its own for each kind, and numbers of both types.
#[test]
fn types() {
    let line = line_string![(x: 1, y: 2), (x: 3, y: 4)];
    let text = "LINESTRING(1 2,3 4)";
    assert_eq!(LineString::try_from_wkt_str(text).as_ref(), Ok(&line));
    assert_eq!(
        LineString::try_from_wkt_reader(text.as_bytes()).as_ref(),
        Ok(&line)
    );
    assert_eq!(line.wkt_string(), text);
    let wkt: Wkt<i64> = line.to_wkt();
    let error = Point::try_from(wkt).unwrap_err();
    let (expected, found) = (GeometryType::Point, GeometryType::LineString);
    assert_eq!(error, Error::MismatchedGeometry { expected, found });
    let error = Point::<f64>::try_from_wkt_str("POINT EMPTY").unwrap_err();
    assert!(matches!(error, Error::NoForm(_)));
    let members = GeometryCollection::<i64>::try_from_wkt_str("GEOMETRYCOLLECTION(POINT(1 2))");
    assert_eq!(
        members,
        Ok(GeometryCollection(vec![point!(x: 1, y: 2).into()]))
    );
    // A polygon without an exterior has no rings.
    let empty = Polygon::new(LineString(vec![]), vec![line_string![(x: 1., y: 2.)]]);
    assert_eq!(empty.wkt_string(), "POLYGON EMPTY");
}
