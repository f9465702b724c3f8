//! Inputs that the seeds don't hold, for they are too long, or too many: texts that end at each place of a page, with
//! nothing to be read behind it; like coordinates with a byte changed; a hundred thousand rings; numbers of ten thousand
//! digits.
use crate::c_calls::Fixed;
use crate::check;

extern "C" {
    fn mmap(at: *mut u8, size: usize, may: i32, how: i32, file: i32, from: i64) -> *mut u8;
    fn mprotect(at: *mut u8, size: usize, may: i32) -> i32;
}

const PAGE: usize = 4096;

/// Some pages, and behind them one that can't be read.
pub struct Guarded {
    at: *mut u8,
    size: usize,
}

impl Guarded {
    pub fn new(size: usize) -> Guarded {
        let size = size.next_multiple_of(PAGE);
        // Memory of no file, to be read and written.
        let at = unsafe { mmap(std::ptr::null_mut(), size + PAGE, 3, 0x22, -1, 0) };
        assert!(at as isize != -1 && unsafe { mprotect(at.add(size), PAGE, 0) } == 0);
        Guarded { at, size }
    }

    /// The bytes, so many before the page that can't be read.
    pub fn put(&self, data: &[u8], behind: usize) -> &'static [u8] {
        assert!(data.len() + behind <= self.size);
        unsafe {
            let to = self.at.add(self.size - behind - data.len());
            to.copy_from(data.as_ptr(), data.len());
            std::slice::from_raw_parts(to, data.len())
        }
    }
}

/// A text of so many bytes: of coordinates, cut off and closed or not, or a point after or before white space, or with
/// long numbers.
fn sized(size: usize, way: usize) -> Vec<u8> {
    let coords = "1.250000 2.250000,".repeat(8);
    let text = match way {
        0 => format!("LINESTRING({coords}"),
        1 => format!("multipoint zm ((1 2 3 4),{coords}"),
        2 => format!("POINT({:0<80}", "-1 .5"),
        3 => format!("{:>80}", "POINT(-1.50 +2)"),
        _ => format!("{:<80}", "POINT(1 2)"),
    };
    let mut text = text.into_bytes();
    match way {
        3 => text.drain(..text.len() - size),
        _ => text.drain(size..),
    };
    if let (0..=2, Some(last)) = (way, text.last_mut()) {
        if size % 3 > 0 {
            *last = b')';
        }
    }
    text
}

fn at_pages() {
    let pages = Guarded::new(2 * PAGE);
    for size in 0..=70 {
        for way in 0..5 {
            let text = sized(size, way);
            let fixed = Fixed::new(&text, 6);
            for behind in (way..PAGE).step_by(5).chain(0..64) {
                fixed.check(pages.put(&text, behind));
            }
        }
    }
}

const LIKE: [&str; 6] = [
    "LINESTRING(1.000001 2.000001,1.000002 2.000002,1.000003 2.000003)",
    "LINESTRING(13.377704123456789 52.516275123456789,13.377704123456780 52.516275123456780)",
    "POLYGON Z((0.5 1.5 2.5,0.5 1.5 2.5,0.5 1.5 2.5),(0.5 1.5 2.5,0.5 1.5 2.5))",
    "MULTIPOINT((-10 -20),(-10 -20),(-10 -20),-10 -20,-10 -20)",
    "GEOMETRYCOLLECTION(POINT(1.5 2.5),POINT(1.5 2.5),POINT(1.5 2.5))",
    "POINT(1.5 2.5)\nPOINT(1.5 2.5)\nPOINT(1.5 2.5)\nPOINT(1.5 2.5)",
];

fn like_lines() {
    for line in LIKE {
        for at in 0..line.len() {
            for byte in *b" ,().-+09ex\n\t\0\xc3" {
                let mut text = line.as_bytes().to_vec();
                text[at] = byte;
                check::some(&text, &[1, 4, 8, 15, 50, 53, 54, 56]);
            }
        }
    }
}

const SHORT: [&[u8]; 16] = [
    b"POINT(-0 +.5)",
    b"POINT(-0.0 +.5)",
    b"POINT(+-0 -.0)",
    b"POINT(5. -5.00)",
    b"LINESTRING(-0 -0,.5 +.5,+0 0.)",
    b"POINT(1 2)\0POINT(3 4)",
    b"POINT(1 2\0)",
    b"POINT\0(1 2)",
    b"\0POINT(1 2)",
    b"POLYGON(EMPTY,(1 2))",
    b"MULTIPOLYGON((EMPTY,(1 2)),((1 2),EMPTY))",
    b"POINT(.l .l)",
    b"LINESTRING(.l +.l,.llllllllllllllllllll .l)\nMULTIPOINT(.l .l,(.l .l),EMPTY) .l",
    b"POINT(.l .ll)",
    b"POINT(.\xc8 .l)\nPOINT(.l .l)\n\nPOINT(.l .\xc8)",
    b"GEOMETRYCOLLECTION(POLYGON((.l .l,.l .l),EMPTY),POINT M(.l .l .l)) POINT(.l",
];

/// Long texts, with the operations that are asked of them.
fn long_texts() {
    let rings = |first: &str, other: &str| format!("{first}{}", format!(",{other}").repeat(99_999));
    let digits = |digit: &str| digit.repeat(10_000);
    let texts = [
        format!("POLYGON({})", rings("EMPTY", "(1 2)")),
        format!("POLYGON({})", rings("(1 2)", "EMPTY")),
        format!("MULTIPOLYGON(({}))", rings("EMPTY", "(1 2)")),
        format!("POINT({}1 2.5{})", digits("0"), digits("0")),
        format!("POINT({} 1)", digits("9")),
        format!("POINT(1 0.{})", digits("1")),
        format!("LINESTRING(-{} {}.0,1 2)", digits("0"), digits("0")),
        format!("POINT(1 {}", digits("7")),
    ];
    for (i, text) in texts.iter().enumerate() {
        // Of those with many rings not all.
        let operations: &[u32] = if i < 3 { &[1, 15, 51, 54, 56] } else { &[0, 1, 2, 4, 8, 15, 50, 51, 53, 54, 55, 56, 57, 58] };
        check::some(text.as_bytes(), operations);
    }
}

pub fn check() {
    for text in SHORT {
        check::all(text);
    }
    at_pages();
    like_lines();
    long_texts();
    eprintln!("the fixed inputs: no difference");
}
