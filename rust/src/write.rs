//! Geometries as canonical texts.
use crate::decimal::{put_units, Digits, DIGITS_END};
use crate::error::Error;
use crate::kinds::{Dimension, GeometryType};
use crate::names::KIND_WORDS;
use crate::number::WktNum;
use crate::types::{
    Coord, GeometryCollection, LineString, MultiLineString, MultiPoint, MultiPolygon, Point,
    Polygon,
};
use crate::wkt::{of_each, Wkt};
use std::fmt;

const ROOM: usize = 512;

/// Text of ASCII on its way to a formatter or a string.
pub struct Out<'a> {
    bytes: [u8; ROOM],
    len: usize,
    to: &'a mut dyn fmt::Write,
    sent: fmt::Result,
}

impl<'a> Out<'a> {
    fn new(to: &'a mut dyn fmt::Write) -> Self {
        let bytes = [0; ROOM];
        Out {
            bytes,
            len: 0,
            to,
            sent: Ok(()),
        }
    }

    #[inline(never)]
    fn send(&mut self) {
        if self.sent.is_ok() {
            self.sent = self.to.write_str(ascii(&self.bytes[..self.len]));
        }
        self.len = 0;
    }

    fn byte(&mut self, byte: u8) {
        if self.len == ROOM {
            self.send();
        }
        self.bytes[self.len] = byte;
        self.len += 1;
    }

    fn text(&mut self, text: &str) {
        for piece in text.as_bytes().chunks(ROOM) {
            if piece.len() > ROOM - self.len {
                self.send();
            }
            self.bytes[self.len..self.len + piece.len()].copy_from_slice(piece);
            self.len += piece.len();
        }
    }

    /// Adds so many units of ten to the minus `places` as a decimal.
    #[inline]
    pub(crate) fn units(&mut self, units: i128, places: u32) {
        let mut digits = [b'0'; 2 * DIGITS_END];
        let begin = put_units(&mut digits, units, places);
        self.digits(&digits, begin);
    }

    /// Adds the digits from there to their end. So many bytes are copied always, since that takes no call.
    #[inline]
    fn digits(&mut self, digits: &Digits, begin: usize) {
        if self.len > ROOM - DIGITS_END {
            self.send();
        }
        let room = &mut self.bytes[self.len..self.len + DIGITS_END];
        room.copy_from_slice(&digits[begin..begin + DIGITS_END]);
        self.len += DIGITS_END - begin;
    }
}

impl fmt::Write for Out<'_> {
    fn write_str(&mut self, text: &str) -> fmt::Result {
        self.text(text);
        self.sent
    }
}

/// A string that fails where memory lacks.
struct Text(String);

impl fmt::Write for Text {
    fn write_str(&mut self, text: &str) -> fmt::Result {
        self.0.try_reserve(text.len()).map_err(|_| fmt::Error)?;
        self.0.push_str(text);
        Ok(())
    }
}

/// A geometry that is written in some way.
pub(crate) trait Written<T: WktNum> {
    /// Adds its canonical text.
    fn push(&self, out: &mut Out<'_>);

    /// Its text; it fails where memory lacks.
    fn written(&self) -> Result<String, Error> {
        let mut text = Text(String::new());
        self.show(&mut text).map_err(|_| Error::NoMemory)?;
        Ok(text.0)
    }

    fn show(&self, to: &mut dyn fmt::Write) -> fmt::Result {
        let mut out = Out::new(to);
        self.push(&mut out);
        out.send();
        out.sent
    }
}

/// What the library and this module write is ASCII.
fn ascii(text: &[u8]) -> &str {
    assert!(text.is_ascii());
    // SAFETY: ASCII is UTF-8.
    unsafe { std::str::from_utf8_unchecked(text) }
}

impl<T: WktNum> Written<T> for Wkt<T> {
    fn push(&self, out: &mut Out<'_>) {
        of_each!(self, geometry => geometry.push(out));
    }
}

/// What stands behind a header of this dimension.
trait Body {
    fn push_body(&self, out: &mut Out<'_>, dim: Dimension);
}

impl<T: WktNum> Body for Coord<T> {
    fn push_body(&self, out: &mut Out<'_>, dim: Dimension) {
        self.x.push(out);
        out.byte(b' ');
        self.y.push(out);
        let (z, m) = match dim {
            Dimension::XY => return,
            Dimension::XYZ => (self.z, None),
            Dimension::XYM => (None, self.m),
            Dimension::XYZM => (self.z, self.m),
        };
        for number in [z, m].into_iter().flatten() {
            out.byte(b' ');
            number.push(out);
        }
    }
}

impl<T: WktNum> Body for Wkt<T> {
    fn push_body(&self, out: &mut Out<'_>, _: Dimension) {
        self.push(out);
    }
}

/// Adds parts in parentheses, or EMPTY.
fn push_list<P: Body>(out: &mut Out<'_>, parts: &[P], dim: Dimension) {
    if parts.is_empty() {
        return out.text("EMPTY");
    }
    let mut before = b'(';
    for part in parts {
        out.byte(before);
        part.push_body(out, dim);
        before = b',';
    }
    out.byte(b')');
}

/// The rings of a polygon that are written: none where the exterior is empty.
fn filled<T>(rings: &[LineString<T>]) -> &[LineString<T>] {
    match rings.first() {
        Some(exterior) if exterior.coords().is_empty() => &[],
        _ => rings,
    }
}

/// How each kind is written, by its parts.
macro_rules! written {
    ($($name:ident: $it:ident => $parts:expr),*) => { $(
        impl<T: WktNum> Body for $name<T> {
            fn push_body(&self, out: &mut Out<'_>, dim: Dimension) {
                let $it = self;
                push_list(out, $parts, dim);
            }
        }

        impl<T: WktNum> Written<T> for $name<T> {
            fn push(&self, out: &mut Out<'_>) {
                let $it = self;
                let (parts, dim) = ($parts, self.dimension());
                out.text(KIND_WORDS[GeometryType::$name as usize]);
                if dim != Dimension::XY {
                    out.byte(b' ');
                    out.text(dim.word());
                }
                if parts.is_empty() {
                    out.byte(b' ');
                }
                push_list(out, parts, dim);
            }
        }
    )* };
}
written!(
    Point: it => it.coord().map_or(&[][..], std::slice::from_ref),
    LineString: it => it.coords(),
    Polygon: it => filled(it.rings()),
    MultiPoint: it => it.points(),
    MultiLineString: it => it.line_strings(),
    MultiPolygon: it => it.polygons(),
    GeometryCollection: it => it.geometries()
);
