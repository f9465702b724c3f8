//! Texts in dialects, beside the table of them.
use std::path::Path;
use wkt_proved::{arrays, explain, same, srid, Dialects, Error, Hint, NoDialect};

/// A field of the table, in which a backslash stands before what would end it.
fn unescaped(field: &str) -> String {
    let mut text = String::new();
    let mut characters = field.chars();
    while let Some(character) = characters.next() {
        text.push(match character {
            '\\' => match characters.next().unwrap() {
                'n' => '\n',
                'r' => '\r',
                't' => '\t',
                other => other,
            },
            other => other,
        });
    }
    text
}

#[test]
fn the_table() {
    let path = Path::new(env!("CARGO_MANIFEST_DIR")).join("../tests/data/dialects.tsv");
    let table = std::fs::read_to_string(path).unwrap();
    let mut count = 0;
    for row in table.lines().filter(|row| !row.starts_with('#')) {
        let fields: Vec<_> = row.split('\t').collect();
        let (text, key) = (unescaped(fields[2]), fields[4]);
        let dialects: Dialects = fields[0].parse().unwrap();
        let places = fields[1].parse().unwrap();
        let number = srid(&text).unwrap().map(|(number, _)| number.to_string());
        assert_eq!(number.as_deref().unwrap_or(""), fields[3], "{row}");
        let answer = dialects.canonical(&text, places);
        if key == "refused" {
            let why = *answer.unwrap_err().refusal().unwrap();
            assert_eq!(why.start + 1, fields[5].parse().unwrap(), "{row}");
            assert_eq!(dialects.explain(&text, places), Ok(Some(why)));
            let refused = Err(Error::Refused(why));
            assert_eq!(dialects.same(&text, "POINT(1 2)", places), refused);
            assert_eq!(dialects.arrays(&text, places), Err(Error::Refused(why)));
        } else {
            assert_eq!(answer.as_deref(), Ok(key), "{row}");
            assert_eq!(dialects.explain(&text, places), Ok(None));
            assert_eq!(dialects.same(&text, key, places), Ok(true), "{row}");
            assert_eq!(same(key, key, places), Ok(true));
            match dialects.arrays(&text, places) {
                Ok(held) => assert_eq!(held.text().as_deref(), Ok(key)),
                Err(error) => assert_eq!(arrays(key, places), Err(error), "{row}"),
            }
        }
        count += 1;
    }
    assert!(count > 80, "{count}");
}

#[test]
fn names() {
    let dialects = Dialects::NAN | Dialects::SRID;
    assert_eq!(dialects.to_string(), "srid,nan");
    assert_eq!("nan,srid".parse(), Ok(dialects));
    assert_eq!("ewkt".parse(), Ok(Dialects::EWKT));
    assert_eq!(Dialects::EWKT.to_string(), "srid,untagged");
    assert_eq!("".parse(), Ok(Dialects::NONE));
    assert_eq!(Dialects::default(), Dialects::NONE);
    assert!(Dialects::EWKT.contains(Dialects::UNTAGGED));
    assert!(!Dialects::EWKT.contains(dialects));
    for names in ["EWKT", "srid,", "srid nan", ",", "exponent"] {
        assert_eq!(names.parse::<Dialects>(), Err(NoDialect), "{names}");
    }
    assert!(NoDialect.to_string().contains("exponents"));
}

#[test]
fn places() {
    let text = "SRID=1;POINT(1e-7 2)";
    let all = Dialects::EWKT | Dialects::EXPONENTS;
    let why = all.explain(text, 6).unwrap().unwrap();
    assert_eq!((why.start, why.stop), (13, 17));
    assert_eq!(why.hint, Some(Hint::Places(6)));
    assert_eq!(all.canonical(text, 7).as_deref(), Ok("POINT(0.0000001 2)"));
    assert_eq!(all.canonical(text, 37), Err(Error::NoPlaces));
    assert_eq!(explain(text, 6).unwrap().unwrap().hint, Some(Hint::Srid));
    // An answer may be much longer than its text.
    let long = format!("LINESTRING({}1 2)", "1e19 2,".repeat(1000));
    let key = Dialects::EXPONENTS.canonical(&long, 18).unwrap();
    assert_eq!(key.matches("10000000000000000000 2").count(), 1000);
}
