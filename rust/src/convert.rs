//! Conversions from and to texts, for any type of geometries.
use crate::error::Error;
use crate::memory::{lengthen, zeros};
use crate::number::WktNum;
use crate::wkt::Wkt;
use std::io;

/// What can be made of a text: [`Wkt`], the types of the crate `geo-types` with that feature, and yours.
pub trait TryFromWkt<T>: Sized {
    /// Why there is none.
    type Error;

    /// What a text is as a whole.
    ///
    /// # Errors
    /// The text is refused, or has no form in this type.
    fn try_from_wkt_str(wkt_str: &str) -> Result<Self, Self::Error>;

    /// What the text of a reader is as a whole.
    ///
    /// # Errors
    /// The same; the reader fails; what it gives isn't UTF-8.
    fn try_from_wkt_reader(wkt_reader: impl io::Read) -> Result<Self, Self::Error>;
}

// How much of a reader is read at once at first.
const BLOCK: usize = 4096;

/// All that a reader gives.
pub(crate) fn text_of(mut reader: impl io::Read) -> Result<String, Error> {
    let (mut bytes, mut held) = (zeros(BLOCK)?, 0);
    loop {
        match reader.read(&mut bytes[held..]) {
            Ok(0) => break,
            Ok(came) => held += came,
            Err(error) if error.kind() == io::ErrorKind::Interrupted => {}
            Err(error) => return Err(error.into()),
        }
        if held == bytes.len() {
            lengthen(&mut bytes, 2 * held)?;
        }
    }
    bytes.truncate(held);
    String::from_utf8(bytes).map_err(|_| Error::NotUtf8)
}

impl<T: WktNum> TryFromWkt<T> for Wkt<T> {
    type Error = Error;

    fn try_from_wkt_str(wkt_str: &str) -> Result<Self, Error> {
        wkt_str.parse()
    }

    fn try_from_wkt_reader(wkt_reader: impl io::Read) -> Result<Self, Error> {
        text_of(wkt_reader)?.parse()
    }
}

/// What has a text: [`Wkt`], the types of the crate `geo-types` with that feature, and yours.
pub trait ToWkt<T: WktNum> {
    /// It as a geometry of this crate.
    fn to_wkt(&self) -> Wkt<T>;

    /// Its canonical text, as `Wkt` is shown.
    fn wkt_string(&self) -> String {
        self.to_wkt().to_string()
    }

    /// Writes its canonical text.
    ///
    /// # Errors
    /// Those of the writer. `InvalidData`: it has no text, since a number is NaN, infinite or too large.
    fn write_wkt(&self, mut writer: impl io::Write) -> io::Result<()> {
        writer.write_all(self.to_wkt().text()?.as_bytes())
    }
}

impl<T: WktNum> ToWkt<T> for Wkt<T> {
    fn to_wkt(&self) -> Wkt<T> {
        self.clone()
    }

    fn write_wkt(&self, mut writer: impl io::Write) -> io::Result<()> {
        writer.write_all(self.text()?.as_bytes())
    }
}

/// A geometry of this crate from a literal, which is checked where it is run: one that is refused panics. Its numbers are
/// `f64`, and has its own type, as in the crate `wkt`.
///
/// ```
/// use wkt_proved::{types::LineString, wkt};
///
/// let line: LineString = wkt!(LINESTRING Z (1.0 2.0 3.5, -4.0 5.0 6.0));
/// assert_eq!(line.coords()[1].x, -4.0);
/// assert_eq!(wkt!(POINT EMPTY).to_string(), "POINT EMPTY");
/// ```
#[macro_export]
macro_rules! wkt {
    (POINT $($rest:tt)+) => { $crate::wkt!(@Point POINT $($rest)+) };
    (LINESTRING $($rest:tt)+) => { $crate::wkt!(@LineString LINESTRING $($rest)+) };
    (POLYGON $($rest:tt)+) => { $crate::wkt!(@Polygon POLYGON $($rest)+) };
    (MULTIPOINT $($rest:tt)+) => { $crate::wkt!(@MultiPoint MULTIPOINT $($rest)+) };
    (MULTILINESTRING $($rest:tt)+) => {
        $crate::wkt!(@MultiLineString MULTILINESTRING $($rest)+)
    };
    (MULTIPOLYGON $($rest:tt)+) => { $crate::wkt!(@MultiPolygon MULTIPOLYGON $($rest)+) };
    (GEOMETRYCOLLECTION $($rest:tt)+) => {
        $crate::wkt!(@GeometryCollection GEOMETRYCOLLECTION $($rest)+)
    };
    (@$kind:ident $($text:tt)+) => {
        $crate::literal::<$crate::types::$kind>(stringify!($($text)+))
    };
}

/// The geometry of a literal.
#[doc(hidden)]
#[must_use]
pub fn literal<G: TryFrom<Wkt, Error = Error>>(text: &str) -> G {
    // Some compilers put a space behind a sign.
    let text = text.replace("- ", "-").replace("+ ", "+");
    let geometry = text.parse::<Wkt>().and_then(G::try_from);
    geometry.unwrap_or_else(|error| panic!("{text}: {error}"))
}
