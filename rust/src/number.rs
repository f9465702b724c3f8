//! The types of numbers.
use crate::decimal::{nearest, Decimal};
use crate::error::{Error, Hint, Refusal};
use crate::text::MOST_PLACES;
use crate::write::Out;
use std::fmt::{self, Write};

/// A number of a [`Wkt`](crate::Wkt): a [`Decimal`], an `i64` or an `f64`. There are no others.
pub trait WktNum: Number {}

impl<const PLACES: u8> WktNum for Decimal<PLACES> {}
impl WktNum for i64 {}
impl WktNum for f64 {}

/// What the library's decimals have to do with a type of numbers.
pub trait Number: Copy + PartialEq + PartialOrd + fmt::Debug + fmt::Display {
    /// How many places the numbers of a text may have, unless it needs others.
    const PLACES: u32;
    /// Whether they may have as many as the text needs.
    const ANY_PLACES: bool = false;

    /// The number of so many units of ten to the minus `places`, if it is one.
    fn of_units(units: i128, places: u32) -> Option<Self>;

    /// Adds its text.
    fn push(self, out: &mut Out<'_>);
}

impl<const PLACES: u8> Number for Decimal<PLACES> {
    const PLACES: u32 = Self::PLACES;

    fn of_units(units: i128, _: u32) -> Option<Self> {
        Some(Decimal::from_units(units))
    }

    fn push(self, out: &mut Out<'_>) {
        out.units(self.units(), Self::PLACES);
    }
}

impl Number for i64 {
    const PLACES: u32 = 0;

    fn of_units(units: i128, _: u32) -> Option<Self> {
        units.try_into().ok()
    }

    fn push(self, out: &mut Out<'_>) {
        out.units(self.into(), 0);
    }
}

/// The nearest to the largest number of so many places, where its shortest decimal is larger than that, and so would not be read.
const LARGEST: [(f64, u32); 20] = [
    (17_014_118_346_046_924_000_000_000_000_000_000_000.0, 1),
    (1_701_411_834_604_692_400_000_000_000_000_000_000.0, 2),
    (170_141_183_460_469_240_000_000_000_000_000_000.0, 3),
    (17_014_118_346_046_924_000_000_000_000_000_000.0, 4),
    (1_701_411_834_604_692_500_000_000_000_000_000.0, 5),
    (1_701_411_834_604_692_400_000_000_000_000.0, 8),
    (170_141_183_460_469_240_000_000_000_000.0, 9),
    (17_014_118_346_046_924_000_000_000_000.0, 10),
    (17_014_118_346_046_924_000_000_000.0, 13),
    (170_141_183_460_469_240_000_000.0, 15),
    (1_701_411_834_604_692_400_000.0, 17),
    (170_141_183_460_469_240_000.0, 18),
    (17_014_118_346_046_924.0, 22),
    (17_014_118_346_046.924, 25),
    (1_701_411_834_604.692_4, 26),
    (170_141_183_460.469_24, 27),
    (170_141_183.460_469_25, 30),
    (17_014_118.346_046_925, 31),
    (1_701_411.834_604_692_4, 32),
    (170_141.183_460_469_24, 33),
];

/// Each is the nearest to a decimal, and is written as the shortest decimal that it is the nearest to, but for the largest.
impl Number for f64 {
    const PLACES: u32 = 18;
    const ANY_PLACES: bool = true;

    fn of_units(units: i128, places: u32) -> Option<Self> {
        Some(nearest(units, places))
    }

    #[inline]
    #[allow(clippy::cast_possible_truncation, clippy::float_cmp)]
    fn push(self, out: &mut Out<'_>) {
        // Decimals of up to 15 digits are nearest to different numbers. So one of them that a number is nearest to is its shortest.
        let units = (self * 1e7).round();
        if units.abs() < 1e15 && units / 1e7 == self {
            out.units(i128::from(units as i64), 7);
        } else {
            push_long(self, out);
        }
    }
}

/// Adds the text of an `f64` that may have more digits.
#[inline(never)]
fn push_long(number: f64, out: &mut Out<'_>) {
    let bits = number.abs().to_bits();
    match LARGEST.iter().find(|largest| largest.0.to_bits() == bits) {
        Some((_, places)) => {
            // As many digits as say which number it is, or all in front of the point.
            let left_out = (*places).min(20);
            let units = i128::MAX / 10_i128.pow(left_out);
            out.units(if number < 0.0 { -units } else { units }, places - left_out);
        }
        None => {
            // Where that fails, it is said at the end.
            let _ = write!(out, "{number}");
        }
    }
}

/// What is made of a text by the places of a number type; by as many as the text needs, where it may have any.
pub(crate) fn by_places<T: WktNum, R>(
    text: &str,
    make: impl Fn(u32) -> Result<R, Error>,
) -> Result<R, Error> {
    match make(T::PLACES) {
        Err(Error::Refused(Refusal {
            hint: Some(Hint::Places(_) | Hint::Large | Hint::Fewer),
            ..
        })) if T::ANY_PLACES => make(places_in(text).min(MOST_PLACES)),
        other => other,
    }
}

/// How many digits after the point the numbers of a text have at most, where none ends in a zero. With fewer places it isn't
/// read, and with more no larger numbers are.
pub(crate) fn places_in(text: &str) -> u32 {
    let is_of_number = |c: char| c.is_ascii_alphanumeric() || "+-.".contains(c);
    let words = text.split(|c| !is_of_number(c));
    let most = words.map(places_of).max().unwrap_or(0);
    u32::try_from(most.clamp(0, 1000)).unwrap_or(0)
}

/// That of a number, which may have an exponent.
fn places_of(number: &str) -> i64 {
    let (digits, exponent) = number.split_once(&['e', 'E'][..]).unwrap_or((number, "0"));
    let (whole, fraction) = digits.split_once('.').unwrap_or((digits, ""));
    let whole = whole.trim_start_matches(&['+', '-', '0'][..]);
    let digits = [whole, fraction].map(|part| part.trim_end_matches('0').len());
    let places = match digits.map(|len| i64::try_from(len).unwrap_or(i64::MAX)) {
        [0, 0] => return 0,
        // Zeros in front of the point count where an exponent moves it.
        [some, 0] => some - i64::try_from(whole.len()).unwrap_or(i64::MAX),
        [_, some] => some,
    };
    places.saturating_sub(exponent.parse().unwrap_or(0))
}
