//! Exact decimals.
use crate::error::{Error, Hint};
use crate::memory::room;
use crate::wkt::Wkt;
use std::fmt;
use std::str::FromStr;

/// A decimal with up to `PLACES` digits after the point: a whole number of units of ten to the minus `PLACES`. Nothing is
/// ever rounded.
///
/// ```
/// use wkt_proved::Decimal;
///
/// let number: Decimal<6> = "+02.50".parse()?;
/// assert_eq!(number.units(), 2_500_000);
/// assert_eq!(number.to_string(), "2.5");
/// assert_eq!(number.to_f64(), 2.5);
/// # Ok::<(), wkt_proved::DecimalError>(())
/// ```
#[derive(Clone, Copy, PartialEq, Eq, PartialOrd, Ord, Hash)]
pub struct Decimal<const PLACES: u8> {
    units: i128,
}

impl<const PLACES: u8> Decimal<PLACES> {
    /// How many places: `PLACES`. Those of the library are at most 36, so a decimal of more isn't compiled:
    ///
    /// ```compile_fail
    /// assert_eq!(wkt_proved::Decimal::<37>::from_units(5).units(), 5);
    /// ```
    ///
    /// ```compile_fail
    /// assert_eq!(wkt_proved::Decimal::<37>::default().units(), 0);
    /// ```
    pub const PLACES: u32 = {
        assert!(PLACES <= 36, "decimals have at most 36 places");
        PLACES as u32
    };

    /// The decimal of so many units.
    #[must_use]
    pub const fn from_units(units: i128) -> Self {
        let _ = Self::PLACES;
        Decimal { units }
    }

    /// How many units it has.
    #[must_use]
    pub const fn units(self) -> i128 {
        self.units
    }

    /// The nearest `f64`. If two are equally near, it is the one whose last bit is 0.
    #[must_use]
    pub fn to_f64(self) -> f64 {
        nearest(self.units, Self::PLACES)
    }
}

/// Zero.
impl<const PLACES: u8> Default for Decimal<PLACES> {
    fn default() -> Self {
        Self::from_units(0)
    }
}

/// The nearest `f64` to so many units of ten to the minus `places`.
#[inline]
#[allow(
    clippy::cast_precision_loss,
    clippy::cast_possible_truncation,
    clippy::cast_possible_wrap
)]
pub(crate) fn nearest(units: i128, places: u32) -> f64 {
    let unit = POWERS[places as usize];
    let size = units.unsigned_abs();
    // With so many bits more the quotient has 62 or 63.
    let more = (62 + size.leading_zeros()).checked_sub(unit.leading_zeros());
    let (unit, more) = match (u64::try_from(unit), more) {
        (Ok(unit), Some(more)) => (unit, more),
        _ => return units_text(units, places).parse().unwrap_or(f64::NAN),
    };
    let shifted = size << more;
    let quotient = (shifted / u128::from(unit)) as u64;
    // Its last bit says whether there is a remainder, too, so it is rounded as the exact quotient would be.
    let rest = u64::from(quotient.wrapping_mul(unit) != shifted as u64);
    let rounded = (quotient | rest) as i64 as f64 * f64::from_bits(u64::from(1023 - more) << 52);
    if units < 0 {
        -rounded
    } else {
        rounded
    }
}

const POWERS: [u128; 37] = {
    let mut powers = [1; 37];
    let mut at = 1;
    while at < powers.len() {
        powers[at] = 10 * powers[at - 1];
        at += 1;
    }
    powers
};

/// Where the digits of a number end, behind a sign, a point and 39 digits at most. What stands behind them means nothing.
pub(crate) const DIGITS_END: usize = 48;
/// Digits, from the last one on; zeros at first.
pub(crate) type Digits = [u8; 2 * DIGITS_END];

/// Puts so many units of ten to the minus `places` as a decimal, and returns where it begins.
#[inline]
pub(crate) fn put_units(digits: &mut Digits, units: i128, places: u32) -> usize {
    let size = units.unsigned_abs();
    let (whole, fraction) = divided(size, places);
    let mut begin = DIGITS_END;
    if fraction != 0 {
        let (fraction, places) = without_zeros(fraction, places as usize);
        begin = put_digits(digits, begin, fraction, places) - 1;
        digits[begin] = b'.';
    }
    begin = put_digits(digits, begin, whole, 1);
    if units < 0 {
        begin -= 1;
        digits[begin] = b'-';
    }
    begin
}

/// A size divided by ten to the `places`, and the remainder.
#[inline]
#[allow(clippy::cast_possible_truncation)]
fn divided(size: u128, places: u32) -> (u128, u128) {
    let unit = POWERS[places as usize];
    match u64::try_from(size >> places) {
        // Ten is two times five, and a division of 64 bits is faster. The remainder has 64 bits, too.
        Ok(half) if places <= 19 => {
            let whole = half / 5_u64.pow(places);
            let rest = (size as u64).wrapping_sub(whole.wrapping_mul(unit as u64));
            (whole.into(), rest.into())
        }
        _ => (size / unit, size % unit),
    }
}

/// A fraction without the zeros at its end, and how many places it then has.
fn without_zeros(fraction: u128, places: usize) -> (u128, usize) {
    let (mut fraction, mut places) = (fraction, places);
    while fraction > u64::MAX.into() && fraction % 10 == 0 {
        fraction /= 10;
        places -= 1;
    }
    let mut rest = match u64::try_from(fraction) {
        Ok(rest) => rest,
        Err(_) => return (fraction, places),
    };
    for (zeros, power) in [
        (8, 100_000_000),
        (8, 100_000_000),
        (4, 10_000),
        (2, 100),
        (1, 10),
    ] {
        if rest % power == 0 {
            rest /= power;
            places -= zeros;
        }
    }
    (rest.into(), places)
}

/// Puts the digits of a number before `end`, so many at least, and returns where they begin. Zeros are there already.
#[allow(clippy::cast_possible_truncation)]
fn put_digits(digits: &mut Digits, end: usize, number: u128, least: usize) -> usize {
    let (mut begin, mut number) = (end, number);
    while number > u64::MAX.into() {
        begin -= 1;
        digits[begin] = b'0' + (number % 10) as u8;
        number /= 10;
    }
    let mut rest = number as u64;
    while rest >= 10 {
        begin -= 2;
        digits[begin..begin + 2].copy_from_slice(&PAIRS[(rest % 100) as usize]);
        rest /= 100;
    }
    if rest > 0 {
        begin -= 1;
        digits[begin] = b'0' + rest as u8;
    }
    begin.min(end - least)
}

/// The two digits of each number below a hundred.
#[allow(clippy::cast_possible_truncation)]
const PAIRS: [[u8; 2]; 100] = {
    let mut pairs = [[b'0'; 2]; 100];
    let mut at = 0;
    while at < pairs.len() {
        pairs[at] = [b'0' + (at / 10) as u8, b'0' + (at % 10) as u8];
        at += 1;
    }
    pairs
};

fn units_text(units: i128, places: u32) -> String {
    let mut digits = [b'0'; 2 * DIGITS_END];
    let begin = put_units(&mut digits, units, places);
    String::from_utf8_lossy(&digits[begin..DIGITS_END]).into_owned()
}

impl<const PLACES: u8> fmt::Display for Decimal<PLACES> {
    fn fmt(&self, f: &mut fmt::Formatter<'_>) -> fmt::Result {
        let text = units_text(self.units, Self::PLACES);
        f.pad_integral(self.units >= 0, "", text.trim_start_matches('-'))
    }
}

impl<const PLACES: u8> fmt::Debug for Decimal<PLACES> {
    fn fmt(&self, f: &mut fmt::Formatter<'_>) -> fmt::Result {
        fmt::Display::fmt(self, f)
    }
}

/// Why a text or an `f64` is no decimal of so many places.
#[derive(Debug, Clone, Copy, PartialEq, Eq)]
#[non_exhaustive]
pub enum DecimalError {
    /// It is no number in decimal digits: as an `f64` it is NaN or infinite.
    NoNumber,
    /// It has more digits after the point.
    Places,
    /// It is too large.
    Large,
    /// Out of memory.
    NoMemory,
}

impl fmt::Display for DecimalError {
    fn fmt(&self, f: &mut fmt::Formatter<'_>) -> fmt::Result {
        f.write_str(match self {
            DecimalError::NoNumber => "No number in decimal digits",
            DecimalError::Places => "The number has more digits after the point",
            DecimalError::Large => "The number is too large",
            DecimalError::NoMemory => return Error::NoMemory.fmt(f),
        })
    }
}

impl std::error::Error for DecimalError {}

/// Reads a number as the library reads it in a geometry, with nothing around it.
impl<const PLACES: u8> FromStr for Decimal<PLACES> {
    type Err = DecimalError;

    fn from_str(text: &str) -> Result<Self, DecimalError> {
        let is_of_number = |byte: u8| byte.is_ascii_digit() || b"+-.".contains(&byte);
        if !text.bytes().all(is_of_number) {
            return Err(DecimalError::NoNumber);
        }
        let mut point = room(text.len() + 9).map_err(|_| DecimalError::NoMemory)?;
        for part in ["POINT(0 ", text, ")"] {
            point.extend_from_slice(part.as_bytes());
        }
        match String::from_utf8_lossy(&point).parse() {
            Ok(Wkt::Point(point)) => point
                .coord()
                .map(|coord| coord.y)
                .ok_or(DecimalError::NoNumber),
            Err(Error::NoMemory) => Err(DecimalError::NoMemory),
            Err(Error::Refused(why)) => Err(match why.hint {
                Some(Hint::Places(_)) => DecimalError::Places,
                Some(Hint::Large | Hint::Fewer) => DecimalError::Large,
                _ => DecimalError::NoNumber,
            }),
            _ => Err(DecimalError::NoNumber),
        }
    }
}

/// The decimal that an `f64` is, with all digits of its value. So 0.5 is one of one place; 0.1 is none, since no decimal of
/// up to 36 places has its value, 0.1000000000000000055511151231257827.. The shortest decimal that is read as the same
/// `f64` is that of its text: `0.1_f64.to_string().parse()`.
impl<const PLACES: u8> TryFrom<f64> for Decimal<PLACES> {
    type Error = DecimalError;

    #[allow(clippy::cast_precision_loss, clippy::cast_possible_truncation)]
    fn try_from(number: f64) -> Result<Self, DecimalError> {
        if !number.is_finite() {
            return Err(DecimalError::NoNumber);
        }
        // A fraction of so many places times ten to their number is whole exactly if it is whole times two to it.
        let fraction = number.fract() * (1_u64 << Self::PLACES) as f64;
        if fraction.fract() != 0.0 {
            return Err(DecimalError::Places);
        }
        let most = 2_f64.powi(127);
        let whole = number.trunc();
        if whole < -most || whole >= most {
            return Err(DecimalError::Large);
        }
        let fraction = fraction as i128 * 5_i128.pow(Self::PLACES);
        (whole as i128)
            .checked_mul(10_i128.pow(Self::PLACES))
            .and_then(|units| units.checked_add(fraction))
            .map(Self::from_units)
            .ok_or(DecimalError::Large)
    }
}
