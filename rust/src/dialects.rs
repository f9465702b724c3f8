//! Dialects: what other tools write beyond the grammar.
use crate::arrays::{arrays_of, Arrays};
use crate::error::{Error, Refusal};
use crate::text::{canonical_of, refusal_of, same_of, whole};
use crate::{ffi, names};
use std::fmt;
use std::ops::BitOr;
use std::str::FromStr;

/// Dialects in which a text is read: what other tools write beyond the grammar. A text that is read without them has the same
/// value with them.
///
/// ```
/// use wkt_proved::{srid, Dialects};
///
/// let text = "SRID=4326;POINT(1 2 3)";
/// assert_eq!(Dialects::EWKT.canonical(text, 6)?, "POINT Z(1 2 3)");
/// assert_eq!(srid(text)?, Some((4326, "POINT(1 2 3)")));
/// let dialects = Dialects::EXPONENTS | Dialects::NAN;
/// assert_eq!(dialects.canonical("MULTIPOINT(1e-3 2,nan nan)", 6)?, "MULTIPOINT((0.001 2),EMPTY)");
/// assert_eq!(dialects, "exponents,nan".parse().unwrap());
/// # Ok::<(), wkt_proved::Error>(())
/// ```
#[derive(Debug, Clone, Copy, Default, PartialEq, Eq, Hash)]
pub struct Dialects(u32);

impl Dialects {
    /// None of them: texts of the grammar.
    pub const NONE: Dialects = Dialects(0);
    /// `SRID=`, one to nine digits and `;` in front of a text are left out; [`srid`] reports them.
    pub const SRID: Dialects = Dialects(512);
    /// `POINT(1 2 3)` is `POINT Z(1 2 3)`, and a first coordinate of four numbers is ZM.
    pub const UNTAGGED: Dialects = Dialects(1024);
    /// `1e-7` is `0.0000001`.
    pub const EXPONENTS: Dialects = Dialects(2048);
    /// `POINT(nan nan)` is `POINT EMPTY`.
    pub const NAN: Dialects = Dialects(4096);
    /// What is called EWKT: `SRID` and `UNTAGGED`.
    pub const EWKT: Dialects = Dialects(Self::SRID.0 | Self::UNTAGGED.0);

    const NAMES: [(&'static str, Dialects); 4] = [
        ("srid", Dialects::SRID),
        ("untagged", Dialects::UNTAGGED),
        ("exponents", Dialects::EXPONENTS),
        ("nan", Dialects::NAN),
    ];

    /// Whether all of the others are among these.
    #[must_use]
    pub const fn contains(self, others: Dialects) -> bool {
        self.0 & others.0 == others.0
    }

    /// `places` for the C library.
    fn asked(self, places: u32) -> Result<u32, Error> {
        Ok(whole(places)? | self.0)
    }

    /// [`canonical`](crate::canonical) in these dialects.
    ///
    /// # Errors
    /// The same. A refusal has its place in this text.
    pub fn canonical(self, text: &str, places: u32) -> Result<String, Error> {
        canonical_of(text, self.asked(places)?)
    }

    /// [`same`](crate::same) in these dialects. A text with an SRID is the same as one with another.
    ///
    /// # Errors
    /// The same.
    pub fn same(self, one: &str, other: &str, places: u32) -> Result<bool, Error> {
        same_of(one, other, self.asked(places)?)
    }

    /// [`explain`](crate::explain) in these dialects.
    ///
    /// # Errors
    /// `NoPlaces`, `NoMemory`.
    pub fn explain(self, text: &str, places: u32) -> Result<Option<Refusal>, Error> {
        refusal_of(text, self.asked(places)?)
    }

    /// [`arrays`](crate::arrays) in these dialects.
    ///
    /// # Errors
    /// The same.
    pub fn arrays(self, text: &str, places: u32) -> Result<Arrays, Error> {
        arrays_of(text, self.asked(places)?)
    }
}

impl BitOr for Dialects {
    type Output = Dialects;

    fn bitor(self, others: Dialects) -> Dialects {
        Dialects(self.0 | others.0)
    }
}

/// Their names with commas between them, as `srid,untagged`.
impl fmt::Display for Dialects {
    fn fmt(&self, f: &mut fmt::Formatter<'_>) -> fmt::Result {
        let names = Self::NAMES.iter().filter(|(_, it)| self.contains(*it));
        let names: Vec<_> = names.map(|(name, _)| *name).collect();
        f.pad(&names.join(","))
    }
}

/// A name is that of no dialect.
#[derive(Debug, Clone, Copy, PartialEq, Eq)]
pub struct NoDialect;

impl fmt::Display for NoDialect {
    fn fmt(&self, f: &mut fmt::Formatter<'_>) -> fmt::Result {
        f.write_str("The dialects are srid, untagged, exponents, nan, and ewkt for the first two")
    }
}

impl std::error::Error for NoDialect {}

/// Reads names with commas between them. `ewkt` is `srid,untagged`; an empty text names none.
impl FromStr for Dialects {
    type Err = NoDialect;

    fn from_str(names: &str) -> Result<Self, NoDialect> {
        let mut all = Dialects::NONE;
        for name in names.split(',').filter(|_| !names.is_empty()) {
            let known = Self::NAMES.iter().find(|(it, _)| *it == name);
            all = all
                | match name {
                    "ewkt" => Dialects::EWKT,
                    _ => known.ok_or(NoDialect)?.1,
                };
        }
        Ok(all)
    }
}

/// The SRID in front of a text, as [`Dialects::SRID`] leaves it out, and what stands behind it; none where there is none. What
/// stands behind it may be anything.
///
/// # Errors
/// `NotSupported`.
pub fn srid(text: &str) -> Result<Option<(u32, &str)>, Error> {
    let (mut srid, mut end) = (0, 0);
    // SAFETY: the pointer goes with the length of its text, and nothing that is written is borrowed elsewhere.
    let status = unsafe { ffi::wkt_srid(text.as_ptr(), text.len(), &mut srid, &mut end) };
    match status {
        names::OK if end == 0 => Ok(None),
        names::OK => Ok(Some((srid, &text[end..]))),
        status => Err(Error::of_status(status)),
    }
}
