//! Columns, with values worked by hand.
use wkt_proved::{
    arrays, arrays_of_column, canonical_column, message, texts_of_arrays, Column, ColumnArrays,
    Error,
};

#[test]
fn texts() {
    let rows = b"point(1 2.50)XPOINT(1 2)POINT EMPTY";
    let offsets = [0, 13, 14, 24, 35];
    let want = Column {
        texts: "POINT(1 2.5)POINT EMPTY".to_string(),
        offsets: vec![0, 12, 12, 12, 23],
        statuses: vec![0, 3, 28, 0],
    };
    let got = canonical_column(rows, &offsets, &[0b1011], 6);
    assert_eq!(got.as_ref(), Ok(&want));
    let rows_of = |row| want.row(row);
    assert_eq!(rows_of(0), Some(Ok("POINT(1 2.5)")));
    assert_eq!(rows_of(1), Some(Err(3)));
    assert_eq!(rows_of(2), Some(Err(28)));
    assert_eq!(rows_of(3), Some(Ok("POINT EMPTY")));
    assert_eq!(rows_of(4), None);
    assert_eq!(message(3), "Invalid type encountered");
    assert_eq!(message(999), "");
    for wrong in [&[0i64, 36][..], &[], &[1, 0], &[-1, 5]] {
        assert_eq!(canonical_column(rows, wrong, &[], 6), Err(Error::NotColumn));
        assert_eq!(arrays_of_column(rows, wrong, &[], 6), Err(Error::NotColumn));
    }
    let none = canonical_column(b"", &[0], &[], 6);
    assert_eq!(none.map(|column| column.offsets), Ok(vec![0]));
    assert_eq!(canonical_column(b"", &[0], &[], 37), Err(Error::NoPlaces));
}

/// A default column has no rows.
#[test]
fn no_rows() {
    assert_eq!(
        texts_of_arrays(&ColumnArrays::default()),
        Ok(Column::default())
    );
    assert_eq!(canonical_column(b"", &[0], &[], 6), Ok(Column::default()));
    assert_eq!(
        arrays_of_column(b"", &[0], &[], 0),
        Ok(ColumnArrays::default())
    );
    let texts = Column::default();
    assert_eq!(
        canonical_column(texts.texts.as_bytes(), &texts.offsets, &[], 6),
        Ok(texts)
    );
}

/// A row is one text as a whole, and bytes.
#[test]
fn rows() {
    let column = canonical_column(b"POINT(1 2) xPOINT\xff", &[0, 12, 18], &[], 6).unwrap();
    assert_eq!(column.statuses, [30, 20]);
}

#[test]
fn flat_arrays() {
    let rows = b"point(1 2.50)XPOINT(1 2)LINESTRING Z(1 2 3,4 5 6)";
    let offsets = [0, 13, 14, 24, 49];
    let want = ColumnArrays {
        places: 1,
        kinds: vec![0, 0, 0, 1],
        dimensions: vec![0, 0, 0, 1],
        statuses: vec![0, 3, 28, 0],
        numbers: vec![10, 25, 10, 20, 30, 40, 50, 60],
        number_offsets: vec![0, 2, 2, 2, 8],
        rings: vec![0, 1, 0, 2],
        ring_offsets: vec![0, 2, 2, 2, 4],
        polygons: vec![0, 1, 0, 1],
        polygon_offsets: vec![0, 2, 2, 2, 4],
    };
    assert_eq!(
        arrays_of_column(rows, &offsets, &[0b1011], 1).as_ref(),
        Ok(&want)
    );
    let back = Column {
        texts: "POINT(1 2.5)LINESTRING Z(1 2 3,4 5 6)".to_string(),
        offsets: vec![0, 12, 12, 12, 37],
        statuses: vec![0, 28, 28, 0],
    };
    assert_eq!(texts_of_arrays(&want), Ok(back));
    let wrong = ColumnArrays {
        polygon_offsets: vec![0, 2, 2, 2, 5],
        ..want.clone()
    };
    assert_eq!(texts_of_arrays(&wrong), Err(Error::NotColumn));
    let wrong = ColumnArrays {
        statuses: vec![0],
        ..want
    };
    assert_eq!(texts_of_arrays(&wrong), Err(Error::NotColumn));
}

/// The offsets of a column of this text alone.
fn one_row(text: &str) -> [i64; 2] {
    [0, i64::try_from(text.len()).unwrap()]
}

/// The rooms are too small at first.
#[test]
fn much_in_a_row() {
    let many = format!("MULTIPOINT({}EMPTY)", "EMPTY,".repeat(100));
    let held = arrays_of_column(many.as_bytes(), &one_row(&many), &[], 1).unwrap();
    assert_eq!(held.rings, arrays(&many, 1).unwrap().rings);
    let short = ".1 .1,".repeat(1000);
    let text = format!("LINESTRING({short}1 1)");
    let column = canonical_column(text.as_bytes(), &one_row(&text), &[], 1).unwrap();
    let want = format!("LINESTRING({}1 1)", "0.1 0.1,".repeat(1000));
    assert_eq!(column.row(0), Some(Ok(want.as_str())));
}
