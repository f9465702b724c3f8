//! Why a call has no answer.
use crate::decimal::DecimalError;
use crate::excerpt::Excerpt;
use crate::ffi;
use crate::kinds::GeometryType;
use crate::names::{self, EXPECTED, HEADER_MESSAGES, HINTS};
use crate::text::own_text;
use std::convert::Infallible;
use std::fmt;

/// Why a call has no answer.
#[derive(Debug, Clone, Copy, PartialEq, Eq)]
#[non_exhaustive]
pub enum Error {
    /// The text is refused: where, and why.
    Refused(Refusal),
    /// Bytes that are given as a text are no UTF-8.
    NotUtf8,
    /// Out of memory.
    NoMemory,
    /// `places` is more than 36.
    NoPlaces,
    /// A collection has no flat arrays.
    Collection,
    /// A number has more units than 64 bits hold.
    TooLarge,
    /// The arrays are of no geometry.
    NotArrays,
    /// The offsets, the bits or the sizes are of no column.
    NotColumn,
    /// An input is longer than a pointer's offset can be.
    TooLong,
    /// The library is built for another processor ([`is_supported`](crate::is_supported)).
    NotSupported,
    /// The geometry has no form in the types that are asked for; the words say why.
    NoForm(&'static str),
    /// The geometry is of another kind than was asked for.
    MismatchedGeometry {
        /// The kind that was asked for.
        expected: GeometryType,
        /// The kind that it is of.
        found: GeometryType,
    },
    /// The header of a text names no kind, by [`infer_type`](crate::infer_type); the words say why.
    Header(&'static str),
    /// A text or an `f64` is no decimal.
    Decimal(DecimalError),
    /// A reader or a writer failed.
    Reader(std::io::ErrorKind),
    /// Another status of `include/wkt.h`, as a later library may have. It is shown by that library's words.
    Other(u32),
}

/// The words of a status of `include/wkt.h`, as in the lists of statuses of a column; empty where it is none. They are the
/// library's own, so a later one has words for its statuses.
#[must_use]
pub fn message(status: u32) -> &'static str {
    // SAFETY: it takes any number.
    own_text(unsafe { ffi::wkt_message(status) })
}

impl Error {
    /// The error of a status that isn't about a text.
    pub(crate) fn of_status(status: u32) -> Error {
        match status {
            names::NOT_UTF8 => Error::NotUtf8,
            names::NO_MEMORY => Error::NoMemory,
            names::NO_PLACES => Error::NoPlaces,
            names::COLLECTION => Error::Collection,
            names::TOO_LARGE => Error::TooLarge,
            names::NOT_ARRAYS => Error::NotArrays,
            names::NOT_COLUMN => Error::NotColumn,
            names::TOO_LONG => Error::TooLong,
            names::NOT_SUPPORTED => Error::NotSupported,
            status => Error::Other(status),
        }
    }

    /// The refusal, if a text is refused.
    #[must_use]
    pub fn refusal(&self) -> Option<&Refusal> {
        match self {
            Error::Refused(refusal) => Some(refusal),
            _ => None,
        }
    }
}

impl fmt::Display for Error {
    fn fmt(&self, f: &mut fmt::Formatter<'_>) -> fmt::Result {
        let status = match self {
            Error::Refused(refusal) => {
                refusal.fmt(f)?;
                return match refusal.places {
                    Some(places) => write!(f, "; places = {places} reads it"),
                    None => Ok(()),
                };
            }
            Error::NoForm(words) | Error::Header(words) => return f.write_str(words),
            Error::Decimal(error) => return error.fmt(f),
            Error::MismatchedGeometry { expected, found } => {
                return write!(f, "A {expected} was expected, and not a {found}")
            }
            Error::Reader(kind) => return write!(f, "Reading or writing failed: {kind}"),
            Error::NotUtf8 => names::NOT_UTF8,
            Error::NoMemory => names::NO_MEMORY,
            Error::NoPlaces => names::NO_PLACES,
            Error::Collection => names::COLLECTION,
            Error::TooLarge => names::TOO_LARGE,
            Error::NotArrays => names::NOT_ARRAYS,
            Error::NotColumn => names::NOT_COLUMN,
            Error::TooLong => names::TOO_LONG,
            Error::NotSupported => names::NOT_SUPPORTED,
            Error::Other(status) => *status,
        };
        match message(status) {
            "" => write!(f, "Status {status}"),
            words => f.write_str(words),
        }
    }
}

impl std::error::Error for Error {}

impl From<Infallible> for Error {
    fn from(never: Infallible) -> Error {
        match never {}
    }
}

impl From<InferError> for Error {
    fn from(error: InferError) -> Error {
        match error {
            InferError::Call(error) => error,
            InferError::NoKind => Error::Header(HEADER_MESSAGES[1]),
            InferError::NoSpace => Error::Header(HEADER_MESSAGES[2]),
            InferError::NoParen => Error::Header(HEADER_MESSAGES[3]),
        }
    }
}

impl From<DecimalError> for Error {
    fn from(error: DecimalError) -> Error {
        match error {
            DecimalError::NoMemory => Error::NoMemory,
            error => Error::Decimal(error),
        }
    }
}

/// The error of this crate that it holds, as that of [`stream`](crate::stream); else `Reader`.
impl From<std::io::Error> for Error {
    fn from(error: std::io::Error) -> Error {
        let held = error.get_ref().and_then(|held| held.downcast_ref());
        match held {
            Some(held) => *held,
            None if error.kind() == std::io::ErrorKind::OutOfMemory => Error::NoMemory,
            None => Error::Reader(error.kind()),
        }
    }
}

impl From<Error> for std::io::Error {
    fn from(error: Error) -> std::io::Error {
        let kind = match error {
            // To hold an error takes memory.
            Error::NoMemory => return std::io::ErrorKind::OutOfMemory.into(),
            Error::NoPlaces => std::io::ErrorKind::InvalidInput,
            Error::NotSupported => std::io::ErrorKind::Unsupported,
            Error::Other(_) => std::io::ErrorKind::Other,
            Error::Reader(kind) => kind,
            _ => std::io::ErrorKind::InvalidData,
        };
        std::io::Error::new(kind, error)
    }
}

/// Where and why a text is refused. It is shown as the command `wkt` shows it: `1:8: a second number was expected`, and
/// the hint in parentheses.
#[derive(Debug, Clone, Copy, PartialEq, Eq)]
#[non_exhaustive]
pub struct Refusal {
    /// Where the first lexeme that is refused begins, in bytes.
    pub start: usize,
    /// Where it ends; `start` where the text ends too early.
    pub stop: usize,
    /// The line of `start`, from 1.
    pub line: u64,
    /// The column of `start` in its line, in characters from 1.
    pub column: usize,
    /// What could come next.
    pub expected: Expected,
    /// What the text may come from, where that is known.
    pub hint: Option<Hint>,
    /// Where a number has too many places or units: with how many places the text is read, if it is with any. An [`Error`] is
    /// shown with it.
    pub places: Option<u32>,
    /// The message of the Rust crate `wkt`.
    pub message: &'static str,
    /// Its status in `include/wkt.h`.
    pub status: u32,
}

impl Refusal {
    /// The line of the text where it is refused, up to 60 characters, and below it a mark, as the command `wkt check`
    /// prints them. The text is the one that was refused.
    ///
    /// ```
    /// let text = "POINT(1)";
    /// let why = wkt_proved::explain(text, 6)?.unwrap();
    /// assert_eq!(why.mark(text), "    POINT(1)\n           ^\n");
    /// # Ok::<(), wkt_proved::Error>(())
    /// ```
    #[must_use]
    pub fn mark(&self, text: &str) -> String {
        let stop = match self.expected {
            Expected::End => self.start,
            _ => self.stop,
        };
        Excerpt::around(text, self.start, stop).to_string()
    }
}

impl fmt::Display for Refusal {
    fn fmt(&self, f: &mut fmt::Formatter<'_>) -> fmt::Result {
        write!(f, "{}:{}: ", self.line, self.column)?;
        match self.expected {
            Expected::End => f.write_str("more follows the geometry")?,
            expected => write!(f, "{expected} was expected")?,
        }
        match self.hint {
            Some(hint) => write!(f, " ({hint})"),
            None => Ok(()),
        }
    }
}

/// What could stand where a text is refused.
#[derive(Debug, Clone, Copy, PartialEq, Eq)]
#[non_exhaustive]
pub enum Expected {
    /// A kind word, with which a geometry begins.
    Kind,
    /// A kind word, with which a member of a collection begins.
    Member,
    /// What stands after a kind word alone: `Z`, `M`, `ZM`, `(` or EMPTY.
    Dimension,
    /// `(` or EMPTY.
    Opening,
    /// A member of a multipoint: a number, `(` or EMPTY.
    Point,
    /// The number x.
    X,
    /// The number y.
    Y,
    /// The number z.
    Z,
    /// The number m.
    M,
    /// `,` or `)`.
    More,
    /// `)`.
    Closing,
    /// The end of the text: more than white space follows the geometry.
    End,
    /// What a later library names by another number of `include/wkt.h`.
    Other(u32),
}

impl Expected {
    const ALL: [Expected; 11] = [
        Expected::Kind,
        Expected::Member,
        Expected::Dimension,
        Expected::Opening,
        Expected::Point,
        Expected::X,
        Expected::Y,
        Expected::Z,
        Expected::M,
        Expected::More,
        Expected::Closing,
    ];

    /// The expectation of a number of `include/wkt.h`.
    pub(crate) fn of_number(number: u32) -> Expected {
        let known = Expected::ALL.get(number as usize).copied();
        known.unwrap_or(Expected::Other(number))
    }
}

impl fmt::Display for Expected {
    fn fmt(&self, f: &mut fmt::Formatter<'_>) -> fmt::Result {
        match (self, Expected::ALL.iter().position(|one| one == self)) {
            (_, Some(number)) => f.write_str(EXPECTED[number]),
            (Expected::Other(number), _) => write!(f, "something else ({number})"),
            _ => f.write_str("the end of the text"),
        }
    }
}

/// What a text that is refused may come from: spellings of other tools, and numbers that don't fit.
#[derive(Debug, Clone, Copy, PartialEq, Eq)]
#[non_exhaustive]
pub enum Hint {
    /// A byte order mark.
    ByteOrderMark,
    /// Well-known binary in hexadecimal.
    Hexadecimal,
    /// `SRID=..;` of EWKT.
    Srid,
    /// A kind with curves.
    Curve,
    /// A kind of surface.
    Surface,
    /// A number with an exponent.
    Exponent,
    /// NaN or infinity.
    NoNumber,
    /// A number with more than so many places.
    Places(u32),
    /// A number with too many units.
    Large,
    /// A third number without Z or M, or a fourth without ZM.
    Dimension,
    /// `()`, which is written EMPTY.
    Empty,
    /// A number with too many units for so many places, which 18 places read.
    Fewer,
    /// A comma within a coordinate: a decimal comma, or one between its numbers.
    Comma,
    /// NULL, None or nan, for a missing value.
    Missing,
    /// Quotes around a text or a number.
    Quotes,
    /// A no-break space.
    NoBreakSpace,
    /// A typographic minus sign, or a dash.
    Minus,
    /// A box.
    Box,
    /// `GeoJSON`, or another text in braces.
    Braces,
    /// A number or a parenthesis in place of a kind word.
    NoKind,
    /// A number in place of a parenthesis.
    Parenthesis,
    /// What a later library names by another number of `include/wkt.h`.
    Other(u32),
}

impl Hint {
    /// The hint of a number of `include/wkt.h`, where a text was read at so many places.
    pub(crate) fn of_number(number: u32, places: u32) -> Option<Hint> {
        Some(match number {
            0 => return None,
            1 => Hint::ByteOrderMark,
            2 => Hint::Hexadecimal,
            3 => Hint::Srid,
            4 => Hint::Curve,
            5 => Hint::Surface,
            6 => Hint::Exponent,
            7 => Hint::NoNumber,
            8 => Hint::Places(places),
            9 => Hint::Large,
            10 => Hint::Dimension,
            11 => Hint::Empty,
            12 => Hint::Fewer,
            13 => Hint::Comma,
            14 => Hint::Missing,
            15 => Hint::Quotes,
            16 => Hint::NoBreakSpace,
            17 => Hint::Minus,
            18 => Hint::Box,
            19 => Hint::Braces,
            20 => Hint::NoKind,
            21 => Hint::Parenthesis,
            number => Hint::Other(number),
        })
    }

    fn number(self) -> usize {
        match self {
            Hint::ByteOrderMark => 1,
            Hint::Hexadecimal => 2,
            Hint::Srid => 3,
            Hint::Curve => 4,
            Hint::Surface => 5,
            Hint::Exponent => 6,
            Hint::NoNumber => 7,
            Hint::Places(_) => 8,
            Hint::Large => 9,
            Hint::Dimension => 10,
            Hint::Empty => 11,
            Hint::Fewer => 12,
            Hint::Comma => 13,
            Hint::Missing => 14,
            Hint::Quotes => 15,
            Hint::NoBreakSpace => 16,
            Hint::Minus => 17,
            Hint::Box => 18,
            Hint::Braces => 19,
            Hint::NoKind => 20,
            Hint::Parenthesis => 21,
            Hint::Other(number) => number as usize,
        }
    }
}

impl fmt::Display for Hint {
    fn fmt(&self, f: &mut fmt::Formatter<'_>) -> fmt::Result {
        let number = self.number();
        let words = match HINTS.get(number) {
            Some(words) => words,
            None => return write!(f, "hint {number}"),
        };
        match (self, words.split_once("%u")) {
            (Hint::Places(places), Some((before, after))) => write!(f, "{before}{places}{after}"),
            _ => f.write_str(words),
        }
    }
}

/// Why the header of a text names no kind.
#[derive(Debug, Clone, Copy, PartialEq, Eq)]
#[non_exhaustive]
pub enum InferError {
    /// The text begins with no kind word.
    NoKind,
    /// EMPTY comes first, with no space before it.
    NoSpace,
    /// There is neither a parenthesis nor EMPTY.
    NoParen,
    /// Not about the text: out of memory, or another processor.
    Call(Error),
}

impl fmt::Display for InferError {
    fn fmt(&self, f: &mut fmt::Formatter<'_>) -> fmt::Result {
        Error::from(*self).fmt(f)
    }
}

impl std::error::Error for InferError {}
