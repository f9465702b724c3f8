//! Geometries as values, beside values worked by hand and the table of texts.
use std::path::Path;
use wkt_proved::types::{
    Coord, Dimension, GeometryCollection, GeometryType, LineString, MultiLineString, MultiPoint,
    MultiPolygon, Point, Polygon,
};
use wkt_proved::{canonical, wkt, Decimal, Error, Hint, ToWkt, TryFromWkt, Wkt};

fn at(x: f64, y: f64) -> Coord {
    Coord {
        x,
        y,
        ..Coord::default()
    }
}

fn line(coords: &[(f64, f64)]) -> LineString {
    LineString::new(
        coords.iter().map(|(x, y)| at(*x, *y)).collect(),
        Dimension::XY,
    )
}

fn each() -> Vec<(&'static str, Wkt, &'static str)> {
    let (xy, xyz) = (Dimension::XY, Dimension::XYZ);
    let high = |z| Coord {
        z: Some(z),
        ..at(1., 2.)
    };
    let all = Coord {
        m: Some(4.),
        ..high(3.)
    };
    let square = Polygon::new(vec![line(&[(0., 0.), (4., 0.)]), line(&[])], xy);
    vec![
        (
            "point ( 1 2.50 )",
            Point::from_coord(at(1., 2.5)).into(),
            "POINT(1 2.5)",
        ),
        (
            "POINTZM(1 2 3 4)",
            Point::from_coord(all).into(),
            "POINT ZM(1 2 3 4)",
        ),
        (
            "POINT M EMPTY",
            Point::empty(Dimension::XYM).into(),
            "POINT M EMPTY",
        ),
        (
            "LINEARRING(1 2,-.1 3)",
            line(&[(1., 2.), (-0.1, 3.)]).into(),
            "LINESTRING(1 2,-0.1 3)",
        ),
        (
            "POLYGON((0 0,4 0),EMPTY)",
            square.clone().into(),
            "POLYGON((0 0,4 0),EMPTY)",
        ),
        (
            "POLYGON(EMPTY)",
            Polygon::new(vec![line(&[])], xy).into(),
            "POLYGON EMPTY",
        ),
        (
            "MULTIPOINT Z(1 2 3,EMPTY,(1 2 5))",
            MultiPoint::new(
                vec![
                    Point::from_coord(high(3.)),
                    Point::empty(xyz),
                    Point::from_coord(high(5.)),
                ],
                xyz,
            )
            .into(),
            "MULTIPOINT Z((1 2 3),EMPTY,(1 2 5))",
        ),
        (
            "MULTILINESTRING(EMPTY,(1 2))",
            MultiLineString::new(vec![line(&[]), line(&[(1., 2.)])], xy).into(),
            "MULTILINESTRING(EMPTY,(1 2))",
        ),
        (
            "MULTIPOLYGON(((0 0,4 0),EMPTY),EMPTY)",
            MultiPolygon::new(vec![square.clone(), Polygon::empty(xy)], xy).into(),
            "MULTIPOLYGON(((0 0,4 0),EMPTY),EMPTY)",
        ),
        (
            "GEOMETRYCOLLECTION(POINT Z(1 2 3),GEOMETRYCOLLECTION M EMPTY)",
            GeometryCollection::new(
                vec![
                    Point::from_coord(high(3.)).into(),
                    GeometryCollection::empty(Dimension::XYM).into(),
                ],
                xy,
            )
            .into(),
            "GEOMETRYCOLLECTION(POINT Z(1 2 3),GEOMETRYCOLLECTION M EMPTY)",
        ),
    ]
}

#[test]
fn values_and_texts() {
    for (text, value, want) in each() {
        assert_eq!(text.parse().as_ref(), Ok(&value), "{text}");
        assert_eq!(value.to_string(), want);
        assert_eq!(value.text().as_deref(), Ok(want));
        assert_eq!(value.wkt_string(), want);
        let mut written = Vec::new();
        value.write_wkt(&mut written).unwrap();
        assert_eq!(written, want.as_bytes());
        assert_eq!(Wkt::try_from_wkt_reader(text.as_bytes()), Ok(value));
    }
}

/// The parts of a geometry, in the dimension of the first.
#[test]
fn parts() {
    let (xym, both) = (
        Dimension::XYM,
        [Point::empty(Dimension::XYM), Point::from_coord(at(1., 2.))],
    );
    let points = MultiPoint::from_points(both.clone()).unwrap();
    assert_eq!((points.points(), points.dimension()), (&both[..], xym));
    assert_eq!(points.into_inner(), (both.to_vec(), xym));
    assert_eq!(MultiPoint::<f64>::from_points([]), None);
    assert_eq!(Polygon::<f64>::from_rings([]), None);
    let collection = GeometryCollection::from_geometries([Wkt::from(both[0].clone())]).unwrap();
    assert_eq!(collection.geometries()[0].dimension(), xym);
    let wkt = Wkt::from(collection);
    assert_eq!(
        (wkt.kind(), wkt.dimension()),
        (GeometryType::GeometryCollection, xym)
    );
    let error = LineString::try_from(wkt).unwrap_err();
    let shown = "A LineString was expected, and not a GeometryCollection";
    assert_eq!(error.to_string(), shown);
}

#[test]
fn numbers() {
    let x = |text: &str| match text.parse::<Wkt>() {
        Ok(Wkt::Point(point)) => Ok(point.coord().unwrap().x),
        Ok(other) => panic!("{other}"),
        Err(error) => Err(error.refusal().unwrap().hint),
    };
    // The nearest to the decimal, and no sign of zero.
    assert_eq!(x("POINT(0.100000000000000005 1)"), Ok(0.1));
    assert_eq!(x("POINT(9007199254740993 1)"), Ok(9_007_199_254_740_992.0));
    assert_eq!(x("POINT(-0.0 1)").map(f64::to_bits), Ok(0));
    // More than 18 places are read where no number is large, and larger numbers where none has many.
    for (text, want) in [
        ("POINT(0.0000000000000000000000000000125 1)", 1.25e-29),
        ("POINT(0.000000000000000000000000000012 100000000)", 1.2e-29),
        ("POINT(180000000000000000000 1)", 1.8e20),
        ("POINT(17000000000000000000000000000000000000 .5)", 1.7e37),
    ] {
        assert_eq!(x(text), Ok(want));
    }
    for (text, hint) in [
        (
            "POINT(0.000000000000000000000000000012 1000000000)",
            Hint::Fewer,
        ),
        (
            "POINT(18000000000000000000000000000000000000 .5)",
            Hint::Large,
        ),
    ] {
        assert_eq!(x(text), Err(Some(hint)));
    }

    let whole = |text: &str| text.parse::<Wkt<i64>>().map(|wkt| wkt.to_string());
    let limits = "POINT(9223372036854775807 -9223372036854775808)";
    assert_eq!(whole(limits).as_deref(), Ok(limits));
    assert_eq!(whole("POINT(1.0 +2)").as_deref(), Ok("POINT(1 2)"));
    assert_eq!(whole("POINT(1 9223372036854775808)"), Err(Error::TooLarge));
    assert_eq!(
        whole("POINT(1 0.5)").unwrap_err().refusal().unwrap().hint,
        Some(Hint::Places(0))
    );

    let exact = "POINT(170.141183460469231731687303715884105727 0.1)";
    let fine: Wkt<Decimal<36>> = exact.parse().unwrap();
    assert_eq!(fine.to_string(), exact);
}

/// The shortest decimal that is read as the same number.
#[test]
fn shortest_numbers() {
    for number in [
        0.1,
        1e7,
        1.0 / 3.0,
        12_345_678.123_456_7,
        99_999_999.999_999_9,
        1e15,
        123_456_789.123_456_78,
        1e-7,
        1.5e-8,
        1e-18,
        1e20,
        0.300_000_000_000_000_04,
    ] {
        for number in [number, -number] {
            let point = Point::from_coord(at(number, 0.));
            let shown = format!("POINT({number} 0)");
            assert_eq!(point.to_string(), shown);
            assert_eq!(shown.parse(), Ok(Wkt::from(point)));
        }
    }
}

/// What has no text is shown, too.
#[test]
fn what_has_no_text() {
    let nan = Wkt::from(Point::from_coord(at(f64::NAN, 1.)));
    assert_eq!(nan.to_string(), "POINT(NaN 1)");
    assert_eq!(
        nan.text().unwrap_err().refusal().unwrap().hint,
        Some(Hint::NoNumber)
    );
    let error = nan.write_wkt(Vec::new()).unwrap_err();
    assert_eq!(error.kind(), std::io::ErrorKind::InvalidData);
    let flat = Wkt::from(Point::new(Some(at(1., 2.)), Dimension::XYZ));
    assert_eq!(flat.to_string(), "POINT Z(1 2)");
    let error = flat.text().unwrap_err();
    assert_eq!(error.to_string(), "1:12: a number z was expected");
    let large = Wkt::from(Point::from_coord(at(1e300, 1.)));
    assert!(large.to_string().starts_with("POINT(1000000"));
}

struct Broken;

impl std::io::Read for Broken {
    fn read(&mut self, _: &mut [u8]) -> std::io::Result<usize> {
        Err(std::io::ErrorKind::ConnectionReset.into())
    }
}

#[test]
fn refusals() {
    let error = "POINT(1)".parse::<Wkt>().unwrap_err();
    assert_eq!(error.to_string(), "1:8: a second number was expected");
    let error = "POINT(1 2) x".parse::<Wkt<i64>>().unwrap_err();
    assert_eq!(error.to_string(), "1:12: more follows the geometry");
    assert_eq!(
        Wkt::<f64>::try_from_wkt_reader(&b"\xff"[..]),
        Err(Error::NotUtf8)
    );
    let error = Wkt::<f64>::try_from_wkt_reader(Broken).unwrap_err();
    assert_eq!(error, Error::Reader(std::io::ErrorKind::ConnectionReset));
}

/// Rows of the table: a text, and its canonical text or the message of its refusal.
#[test]
fn the_table() {
    let path = Path::new(env!("CARGO_MANIFEST_DIR")).join("../crates/wkt_tables/stdin");
    let table = std::fs::read_to_string(path).unwrap();
    let mut count = 0;
    for row in table.lines() {
        let (text, want) = row.split_once('\t').unwrap();
        match text.parse::<Wkt<Decimal<18>>>() {
            Ok(wkt) => {
                assert_eq!(wkt.to_string(), want, "{text}");
                assert_eq!(want.parse::<Wkt<Decimal<18>>>().unwrap().to_string(), want);
            }
            Err(error) => {
                let why = error.refusal().unwrap();
                assert!(
                    why.message == want || why.status == 30,
                    "{text}: {error}, {want}"
                );
            }
        }
        count += 1;
    }
    assert_eq!(count, 4766);
}

/// What is shown is the text that the library writes, with each number of places of the file.
fn keys<const PLACES: u8>(column: usize) -> usize {
    let path = Path::new(env!("CARGO_MANIFEST_DIR")).join("../tests/data/keys.tsv");
    let file = std::fs::read_to_string(path).unwrap();
    let rows = file.lines().filter(|row| !row.starts_with('#'));
    let mut count = 0;
    for row in rows {
        let fields: Vec<_> = row.split('\t').collect();
        match fields[0].parse::<Wkt<Decimal<PLACES>>>() {
            Ok(wkt) => {
                assert_eq!(wkt.to_string(), fields[column], "{}", fields[0]);
                let wkt: Result<Wkt, _> = fields[0].parse();
                if let Ok(wkt) = wkt {
                    let shown = wkt.to_string();
                    assert_eq!(wkt.text().as_ref(), Ok(&shown));
                    assert_eq!(shown.parse::<Wkt>().unwrap().to_string(), shown);
                }
                count += 1;
            }
            // The keys are of what the texts begin with.
            Err(error) if error.refusal().unwrap().status == 30 => {}
            Err(_) => assert_eq!(fields[column], "refused", "{}", fields[0]),
        }
    }
    count
}

#[test]
fn the_keys() {
    let counts = [
        keys::<0>(1),
        keys::<6>(2),
        keys::<15>(3),
        keys::<18>(4),
        keys::<24>(5),
        keys::<36>(6),
    ];
    assert!(counts.iter().all(|count| *count > 150), "{counts:?}");
}

/// An `f64` is what Rust reads from the number, and of what is shown of it the same is read.
#[test]
fn nearest_numbers() {
    let mut seed = 1_u64;
    let mut next = || {
        seed ^= seed << 13;
        seed ^= seed >> 7;
        seed ^= seed << 17;
        seed
    };
    let check = |other: &str, number: &str| {
        let wkt: Wkt = format!("POINT({other} {number})").parse().unwrap();
        assert_eq!(wkt.to_string().parse().as_ref(), Ok(&wkt), "{number}");
        match wkt {
            Wkt::Point(point) => assert_eq!(Ok(point.coord().unwrap().y), number.parse()),
            other => panic!("{other}"),
        }
    };
    for _ in 0..20_000 {
        let (whole, fraction) = (next() >> (next() % 63), next() >> (next() % 63));
        let fraction = format!("{fraction}");
        let most = fraction.len().min(18);
        check("1", &format!("-{whole}.{}", &fraction[..most]));
        check("1", &format!("0.{:0>18}", &fraction[..most]));
    }
    // Beside a number with more places, and the largest ones of each number of places.
    for number in [
        "0.00000000000000006123233995736766",
        "1000.1234567890123456789012345678901",
    ] {
        check("1", number);
        check(number, "-1");
    }
    for places in 0..37 {
        let units = i128::MAX.to_string();
        let (whole, fraction) = units.split_at(units.len() - places);
        let least = format!("0.{:0>1$}", 1, places);
        check(
            if places == 0 { "1" } else { &least },
            &format!("-{whole}.{fraction}"),
        );
    }
    for number in [
        "170141183460469231731.687303715884105727",
        "-170141183460469231731.687303715884105728",
        "170141183.460469231731687303715884105727",
        "-170141183.460469231731687303715884105728",
    ] {
        check("1", number);
    }
    for number in [
        "170141183.460469231731687303715884105727",
        "-170141183.460469231731687303715884105728",
    ] {
        check("0.000000000000000000000000000001", number);
    }
}

/// What is written of two `f64`s is read again as the same, where some number of places holds both of their shortest decimals.
#[test]
fn written_numbers() {
    let mut seed = 7_u64;
    let mut next = || {
        seed ^= seed << 13;
        seed ^= seed >> 7;
        seed ^= seed << 17;
        seed
    };
    let units = |number: f64, places: usize| {
        let shown = number.to_string();
        let (whole, fraction) = shown.split_once('.').unwrap_or((&shown, ""));
        format!("{whole}{fraction:0<places$}").parse::<i128>()
    };
    let places_of = |number: f64| match number.to_string().split_once('.') {
        Some((_, fraction)) => fraction.len(),
        None => 0,
    };
    let (mut read, mut refused) = (0, 0);
    for _ in 0..20_000 {
        let [x, y] = [0, 1].map(|_| {
            let digits = u32::try_from(next() >> (next() % 32 + 32)).unwrap();
            let number =
                f64::from(digits) / 7. * 10_f64.powi(i32::try_from(next() % 60).unwrap() - 40);
            if next() % 2 == 0 {
                number
            } else {
                -number
            }
        });
        let places = places_of(x).max(places_of(y));
        let fits = places <= 36 && units(x, places).is_ok() && units(y, places).is_ok();
        let wkt = Wkt::from(Point::from_coord(at(x, y)));
        match wkt.text() {
            Ok(text) => {
                assert_eq!(text.parse().as_ref(), Ok(&wkt), "{text}");
                assert!(fits || text != format!("POINT({x} {y})"), "{text}");
                read += 1;
            }
            Err(error) => {
                assert!(!fits, "{x} {y}: {error}");
                refused += 1;
            }
        }
    }
    assert!(read > 5000 && refused > 2000, "{read} {refused}");
}

/// A refusal of an `f64` says what it was read by: 36 places.
#[test]
fn refused_numbers() {
    for (text, hint) in [
        (
            "POINT(1 0.0000000000000000000000000000000000001)",
            Hint::Places(36),
        ),
        (
            "POINT(0.000000000000000000000000000000000001 171)",
            Hint::Fewer,
        ),
        (
            "POINT(400000000000000000000000000000000000000 0)",
            Hint::Large,
        ),
    ] {
        let error = text.parse::<Wkt>().unwrap_err();
        let why = error.refusal().unwrap();
        assert_eq!((why.hint, why.places), (Some(hint), None), "{text}");
    }
    let error = "POINT(1.1234567890123456789 x)".parse::<Wkt>().unwrap_err();
    assert_eq!(error.to_string(), "1:29: a second number was expected");
}

/// Values are sorted by kind, and then by their parts.
#[test]
fn order() {
    let texts = [
        "POLYGON EMPTY",
        "POINT(2 1)",
        "LINESTRING(1 2)",
        "POINT(1 3)",
        "POINT EMPTY",
        "POINT(1 2.5)",
    ];
    let values = texts.map(|text| text.parse::<Wkt<Decimal<6>>>().unwrap());
    let sorted = std::collections::BTreeSet::from(values);
    let shown: Vec<_> = sorted.iter().map(ToString::to_string).collect();
    let want = [
        "POINT EMPTY",
        "POINT(1 2.5)",
        "POINT(1 3)",
        "POINT(2 1)",
        "LINESTRING(1 2)",
        "POLYGON EMPTY",
    ];
    assert_eq!(shown, want);
    assert!(Dimension::XY < Dimension::XYZ && GeometryType::Point < GeometryType::Polygon);
}

/// Texts of all lengths, so that short lists and long ones are read.
#[test]
fn lengths() {
    for count in 1..100 {
        let text = format!("LINESTRING({}1 2)", "1 2,".repeat(count));
        assert_eq!(text.parse::<Wkt<i64>>().unwrap().to_string(), text);
        let text = format!("MULTIPOLYGON({}EMPTY)", "EMPTY,".repeat(count));
        assert_eq!(text.parse::<Wkt<i64>>().unwrap().to_string(), text);
        let text = format!(
            "GEOMETRYCOLLECTION({}POINT EMPTY)",
            "POINT EMPTY,".repeat(count)
        );
        assert_eq!(text.parse::<Wkt<i64>>().unwrap().to_string(), text);
    }
}

/// Collections stand in one another 200 deep at most, whatever stack there is.
#[test]
fn levels() {
    let nested = |levels: usize| {
        let (open, close) = ("GEOMETRYCOLLECTION(", ")");
        format!("{}POINT(1 2){}", open.repeat(levels), close.repeat(levels))
    };
    let check = move || {
        let deep: Wkt = nested(200).parse().unwrap();
        assert_eq!(deep.clone(), deep);
        assert_eq!(deep.to_string(), nested(200));
        for levels in [201, 100_000] {
            let error = nested(levels).parse::<Wkt>().unwrap_err();
            assert!(matches!(error, Error::NoForm(_)));
        }
    };
    let thread = std::thread::Builder::new().stack_size(1024 * 1024);
    thread.spawn(check).unwrap().join().unwrap();
}

/// Whatever is done to a text, it is read if it has a canonical text, and then has that.
#[test]
fn changed_texts() {
    let texts: Vec<_> = each().iter().map(|(text, _, _)| *text).collect();
    let mut seed = 1_u32;
    let mut below = |most: usize| {
        seed = seed.wrapping_mul(1_664_525).wrapping_add(1_013_904_223);
        seed as usize / 256 % most
    };
    let (mut read, mut refused) = (0, 0);
    for _ in 0..20_000 {
        let text = texts[below(texts.len())];
        let piece = ["", "(", ")", ",", " ", "1", "-.5", "EMPTY", "Z", "\0", "é"][below(11)];
        let at = below(text.len());
        let behind = (at + below(3)).min(text.len());
        let text = [&text[..at], piece, &text[behind..]].concat();
        match (text.parse::<Wkt<Decimal<6>>>(), canonical(&text, 6)) {
            (Ok(wkt), Ok(want)) => {
                assert_eq!(wkt.text(), Ok(want), "{text}");
                read += 1;
            }
            (Err(error), Err(want)) => {
                assert_eq!(error, want, "{text}");
                refused += 1;
            }
            (got, want) => panic!("{text}: {got:?}, {want:?}"),
        }
    }
    assert!(read > 1000 && refused > 1000, "{read} {refused}");
}

#[test]
fn literals() {
    assert_eq!(wkt!(POINT(1.0 - 2.5)), Point::from_coord(at(1., -2.5)));
    assert_eq!(wkt!(LINESTRING M EMPTY), LineString::empty(Dimension::XYM));
    let text = "GEOMETRYCOLLECTION(MULTIPOINT((1 2),EMPTY),POLYGON((0 0,1 0,0 1,0 0)))";
    let collection =
        wkt!(GEOMETRYCOLLECTION(MULTIPOINT(1 2, EMPTY), POLYGON((0 0, 1 0, 0 1, 0 0))));
    assert_eq!(collection.to_string(), text);
    assert_eq!(wkt!(MULTIPOLYGON EMPTY).polygons(), []);
    assert_eq!(wkt!(MULTILINESTRING((1 2), EMPTY)).line_strings().len(), 2);
    let error = std::panic::catch_unwind(|| wkt!(POINT(1.0))).unwrap_err();
    let said = error.downcast_ref::<String>().unwrap();
    assert!(said.ends_with(": a second number was expected"), "{said}");
}
