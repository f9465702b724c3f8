//! Each allocation of a call fails, and all after it: the call says so, and the process goes on.
use std::alloc::{GlobalAlloc, Layout, System};
use std::cell::Cell;
use std::fmt::Debug;
use std::io;
use wkt_proved::types::{Coord, Point};
use wkt_proved::{
    arrays, arrays_of_column, canonical, canonical_column, explain, front, lines, read_lines, same,
    stream, texts_of_arrays, Decimal, Dialects, Error, ToWkt, TryFromWkt, Wkt,
};

thread_local! {
    /// How many allocations of this thread still have memory.
    static LEFT: Cell<usize> = const { Cell::new(usize::MAX) };
}

struct Scarce;

fn has_memory() -> bool {
    let took = |left: &Cell<usize>| match left.get() {
        usize::MAX => true,
        0 => false,
        some => {
            left.set(some - 1);
            true
        }
    };
    LEFT.try_with(took).unwrap_or(true)
}

// SAFETY: all is passed on, or there is no memory.
unsafe impl GlobalAlloc for Scarce {
    unsafe fn alloc(&self, layout: Layout) -> *mut u8 {
        if has_memory() {
            System.alloc(layout)
        } else {
            std::ptr::null_mut()
        }
    }

    unsafe fn dealloc(&self, at: *mut u8, layout: Layout) {
        System.dealloc(at, layout);
    }

    unsafe fn realloc(&self, at: *mut u8, layout: Layout, size: usize) -> *mut u8 {
        if has_memory() {
            System.realloc(at, layout, size)
        } else {
            std::ptr::null_mut()
        }
    }
}

#[global_allocator]
static MEMORY: Scarce = Scarce;

/// Whatever allocation of a call is the first to fail, it has no memory; with so many at least it answers as with ample memory.
fn each_fails<R: PartialEq + Debug>(least: usize, call: impl Fn() -> Result<R, Error>) {
    let want = call();
    let mut count = 0;
    loop {
        LEFT.with(|left| left.set(count));
        let got = call();
        LEFT.with(|left| left.set(usize::MAX));
        if got != Err(Error::NoMemory) {
            assert_eq!(got, want);
            break;
        }
        count += 1;
    }
    assert!(count >= least, "{count} allocations");
}

/// Texts of each kind: short ones, and ones with more events than a call has room for without memory.
fn texts() -> Vec<String> {
    let many = ".1 2.5,".repeat(300);
    vec![
        "point ( 1 2.50 )".to_string(),
        "POINT(1)".to_string(),
        format!("LINESTRING({many}1 1)"),
        format!("POLYGON(({many}1 1),EMPTY,({many}2 2))"),
        format!("MULTIPOINT({many}(1 1))"),
        format!("MULTILINESTRING({}({many}1 1))", "EMPTY,".repeat(300)),
        "MULTIPOLYGON(((0 0,4 0,2 4,0 0),(1 1,2 1,1 2)),EMPTY)".to_string(),
        format!(
            "GEOMETRYCOLLECTION({}GEOMETRYCOLLECTION(LINESTRING({many}1 1)))",
            "POINT(1 2),".repeat(30)
        ),
    ]
}

#[test]
fn one_text() {
    for text in texts() {
        // A point takes none, and refused texts of its length none.
        let some = usize::from(text.len() > 20);
        each_fails(1, || canonical(&text, 6));
        each_fails(1, || front(&text, 6));
        each_fails(1, || Dialects::EWKT.canonical(&text, 6));
        each_fails(0, || same(&text, &text, 6));
        each_fails(0, || explain(&text, 6));
        each_fails(some, || text.parse::<Wkt<f64>>().map(|wkt| wkt.dimension()));
        each_fails(1, || {
            Wkt::<Decimal<6>>::try_from_wkt_reader(text.as_bytes()).map(|wkt| wkt.dimension())
        });
        if let Ok(wkt) = text.parse::<Wkt<i64>>().map_err(drop) {
            each_fails(1, || wkt.text());
        }
        if let Ok(wkt) = text.parse::<Wkt>() {
            each_fails(1, || wkt.text());
            each_fails(1, || Ok(wkt.write_wkt(io::sink())?));
        }
        if !text.starts_with("GEOMETRY") {
            each_fails(1, || arrays(&text, 6));
        }
        if let Ok(arrays) = arrays(&text, 6) {
            each_fails(1, || arrays.text());
        }
    }
    let nan = Coord {
        x: f64::NAN,
        ..Coord::default()
    };
    let wkt = Wkt::from(Point::from_coord(nan));
    each_fails(1, || wkt.text());
}

#[test]
fn numbers() {
    for text in ["-1.50", "1.1234567"] {
        each_fails(1, || Ok(text.parse::<Decimal<6>>()?));
    }
}

#[test]
fn columns() {
    let rows = texts();
    let all = rows.concat().into_bytes();
    let ends = rows.iter().scan(0, |end, row| {
        *end += i64::try_from(row.len()).unwrap();
        Some(*end)
    });
    let offsets: Vec<i64> = std::iter::once(0).chain(ends).collect();
    each_fails(3, || canonical_column(&all, &offsets, &[], 6));
    each_fails(10, || arrays_of_column(&all, &offsets, &[], 6));
    let held = arrays_of_column(&all, &offsets, &[], 6).unwrap();
    each_fails(4, || texts_of_arrays(&held));
}

#[test]
fn inputs() {
    let input = texts().join("\n");
    each_fails(1, || lines(input.as_bytes(), 6));
    let streamed = || {
        stream(input.as_bytes(), io::sink(), 6)?;
        Ok(())
    };
    each_fails(2, streamed);
    let long = format!("LINESTRING({}1 1)\n", ".1 .1,".repeat(60_000));
    each_fails(4, || {
        stream(long.as_bytes(), io::sink(), 6)?;
        Ok(())
    });
    for text in [&input, &long] {
        each_fails(2, || {
            let mut count = 0;
            for line in read_lines(text.as_bytes(), 6) {
                match line? {
                    Err(Error::NoMemory) => return Err(Error::NoMemory),
                    _ => count += 1,
                }
            }
            Ok(count)
        });
    }
}

#[cfg(feature = "geo-types")]
#[test]
fn geometries() {
    use wkt_proved::geo::{from_text, to_text};
    for text in texts() {
        if let Ok(geometry) = from_text(&text, 6) {
            each_fails(usize::from(text.len() > 20), || from_text(&text, 6));
            each_fails(1, || to_text(&geometry, 6));
            each_fails(1, || Ok(geometry.write_wkt(io::sink())?));
        }
    }
    // A ring that isn't closed is closed there.
    each_fails(3, || from_text("POLYGON((0 0,4 0,2 4),(1 1,2 1))", 6));
}
