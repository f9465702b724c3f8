//! Calls for one text.
use crate::error::{message, Error, Expected, Hint, InferError, Refusal};
use crate::kinds::{Dimension, GeometryType};
use crate::memory::room;
use crate::number::places_in;
use crate::{ffi, names};
use std::ffi::CStr;
use std::mem::MaybeUninit;
use std::os::raw::c_char;

/// Added to `places`, which are less, for the C library: a text is to be one geometry as a whole.
pub(crate) const WHOLE: u32 = 256;
/// The most places that numbers have.
pub(crate) const MOST_PLACES: u32 = 36;

/// The error where a later library names a kind or a dimension that isn't known here.
pub(crate) const LATER: Error = Error::NoForm("The kind or the dimension is of a later library");

/// `places` for the C library.
pub(crate) fn known(places: u32) -> Result<u32, Error> {
    if places > MOST_PLACES {
        return Err(Error::NoPlaces);
    }
    Ok(places)
}

/// The same, of whole texts.
pub(crate) fn whole(places: u32) -> Result<u32, Error> {
    Ok(known(places)? | WHOLE)
}

pub(crate) fn is_refusal(status: u32) -> bool {
    (1..=names::LAST_REFUSAL).contains(&status) || status == names::NOT_WHOLE
}

/// What a call writes: where it answers OK, so many bytes as it says. Where the room is too little, it says how much it needs.
/// The error is its status.
pub(crate) fn written(
    likely: usize,
    mut call: impl FnMut(&mut [MaybeUninit<u8>], &mut usize) -> u32,
) -> Result<String, u32> {
    let mut needed = likely;
    loop {
        let mut out = room(needed).map_err(|_| names::NO_MEMORY)?;
        match call(out.spare_capacity_mut(), &mut needed) {
            names::OK => {
                // SAFETY: so many bytes are written.
                unsafe { out.set_len(needed) };
                return Ok(String::from_utf8(out).expect("a canonical text is ASCII"));
            }
            names::TOO_SMALL => {}
            status => return Err(status),
        }
    }
}

/// Writes the canonical text, how much room it needs, and where the geometry ends; the status.
pub(crate) fn canonical_into(
    text: &[u8],
    places: u32,
    out: &mut [MaybeUninit<u8>],
    needed: &mut usize,
    end: &mut usize,
) -> u32 {
    // SAFETY: each pointer goes with the length of its slice, and nothing that is written is borrowed elsewhere.
    unsafe {
        ffi::wkt_canonical(
            text.as_ptr(),
            text.len(),
            places,
            out.as_mut_ptr().cast(),
            out.len(),
            needed,
            end,
        )
    }
}

/// The canonical text and where the geometry ends, or the status.
pub(crate) fn canonical_at(text: &str, places: u32) -> Result<(String, usize), u32> {
    let mut end = 0;
    let out = written(text.len() + 32, |out, needed| {
        canonical_into(text.as_bytes(), places, out, needed, &mut end)
    })?;
    Ok((out, end))
}

/// The error of a call for a text that answered this status.
pub(crate) fn error_of(status: u32, text: &str, places: u32) -> Error {
    if !is_refusal(status) {
        return Error::of_status(status);
    }
    match refusal_of(text, places) {
        Ok(Some(refusal)) => Error::Refused(refusal),
        Ok(None) => Error::of_status(status),
        Err(error) => error,
    }
}

/// Where and why a text is refused, as `places` for the C library says.
pub(crate) fn refusal_of(text: &str, places: u32) -> Result<Option<Refusal>, Error> {
    let (mut status, mut start, mut stop, mut expected, mut hint) = (0, 0, 0, 0, 0);
    // SAFETY: the pointer goes with the length of its text, and nothing that is written is borrowed elsewhere.
    let answer = unsafe {
        ffi::wkt_explain(
            text.as_ptr(),
            text.len(),
            places,
            &mut status,
            &mut start,
            &mut stop,
            &mut expected,
        )
    };
    let expected = match answer {
        names::ACCEPTED => return Ok(None),
        names::NOT_WHOLE => {
            status = answer;
            Expected::End
        }
        names::OK => Expected::of_number(expected),
        _ => return Err(Error::of_status(answer)),
    };
    // SAFETY: as above.
    unsafe { ffi::wkt_hint(text.as_ptr(), text.len(), places, &mut hint) };
    let hint = Hint::of_number(hint, places % WHOLE);
    let before = &text[..start];
    let line = before.rfind('\n').map_or(before, |at| &before[at + 1..]);
    Ok(Some(Refusal {
        start,
        stop,
        line: before.bytes().filter(|byte| *byte == b'\n').count() as u64 + 1,
        column: line.chars().count() + 1,
        expected,
        hint,
        places: hint.and_then(|hint| fitting_places(text, places, hint)),
        message: message(status),
        status,
    }))
}

/// With how many places a text is read that has a number with too many places or units; none where it is with none.
fn fitting_places(text: &str, places: u32, hint: Hint) -> Option<u32> {
    let fitting = places_in(text);
    let is_of_places = matches!(hint, Hint::Places(_) | Hint::Large | Hint::Fewer);
    if !is_of_places || fitting > MOST_PLACES || fitting == places % WHOLE {
        return None;
    }
    match refusal_of(text, places - places % WHOLE + fitting) {
        Ok(None) => Some(fitting),
        _ => None,
    }
}

/// The one text of the geometry that a text is.
///
/// ```
/// let key = wkt_proved::canonical("polygon((0 0, 4 0, 2.50 4, 0 0))", 6)?;
/// assert_eq!(key, "POLYGON((0 0,4 0,2.5 4,0 0))");
/// # Ok::<(), wkt_proved::Error>(())
/// ```
///
/// # Errors
/// [`Refused`](Error::Refused): the text is no geometry, or more than white space follows it. `NoPlaces`, `NoMemory`.
pub fn canonical(text: &str, places: u32) -> Result<String, Error> {
    canonical_of(text, whole(places)?)
}

/// The same, as `places` for the C library says.
pub(crate) fn canonical_of(text: &str, places: u32) -> Result<String, Error> {
    match canonical_at(text, places) {
        Ok((answer, _)) => Ok(answer),
        Err(status) => Err(error_of(status, text, places)),
    }
}

/// Whether two texts are one geometry: whether their canonical texts are the same.
///
/// # Errors
/// As of [`canonical`], of the first text that is refused.
pub fn same(one: &str, other: &str, places: u32) -> Result<bool, Error> {
    same_of(one, other, whole(places)?)
}

/// The same, as `places` for the C library says.
pub(crate) fn same_of(one: &str, other: &str, places: u32) -> Result<bool, Error> {
    let mut same = 0;
    // SAFETY: each pointer goes with the length of its text, and what is written is borrowed nowhere else.
    let status = unsafe {
        ffi::wkt_same(
            one.as_ptr(),
            one.len(),
            other.as_ptr(),
            other.len(),
            places,
            &mut same,
        )
    };
    match status {
        names::OK => Ok(same == 1),
        status if is_refusal(status) => match refusal_of(one, places)? {
            Some(refusal) => Err(Error::Refused(refusal)),
            None => Err(error_of(status, other, places)),
        },
        status => Err(Error::of_status(status)),
    }
}

/// Where and why a text is refused; none where it is a geometry.
///
/// ```
/// use wkt_proved::{explain, Expected, Hint};
///
/// let why = explain("POINT(1.1234567 2)", 6)?.unwrap();
/// assert_eq!((why.start, why.stop, why.expected), (6, 15, Expected::X));
/// assert_eq!(why.hint, Some(Hint::Places(6)));
/// # Ok::<(), wkt_proved::Error>(())
/// ```
///
/// # Errors
/// `NoPlaces`.
pub fn explain(text: &str, places: u32) -> Result<Option<Refusal>, Error> {
    refusal_of(text, whole(places)?)
}

/// The kind and the dimension that the header of a text names; the rest is not read.
///
/// # Errors
/// Each variant of [`InferError`] says when it comes.
pub fn infer_type(text: &str) -> Result<(GeometryType, Dimension), InferError> {
    let (mut kind, mut dimension) = (0, 0);
    // SAFETY: the pointer goes with the length of its text, and nothing that is written is borrowed elsewhere.
    let status = unsafe { ffi::wkt_infer(text.as_ptr(), text.len(), &mut kind, &mut dimension) };
    match (
        status,
        GeometryType::from_number(kind),
        Dimension::from_number(dimension),
    ) {
        (names::OK, Some(kind), Some(dimension)) => Ok((kind, dimension)),
        (1, _, _) => Err(InferError::NoKind),
        (2, _, _) => Err(InferError::NoSpace),
        (3, _, _) => Err(InferError::NoParen),
        (names::OK, _, _) => Err(InferError::Call(LATER)),
        (status, _, _) => Err(InferError::Call(Error::of_status(status))),
    }
}

/// Whether the library runs on this processor. Where it doesn't, every call's error is `NotSupported`.
#[must_use]
pub fn is_supported() -> bool {
    // SAFETY: it takes nothing.
    unsafe { ffi::wkt_supported() == 1 }
}

/// The version of the library that is linked.
#[must_use]
pub fn version() -> &'static str {
    // SAFETY: it takes nothing.
    own_text(unsafe { ffi::wkt_version() })
}

/// A text of the library's own.
pub(crate) fn own_text(text: *const c_char) -> &'static str {
    // SAFETY: such a text ends with 0, and stays.
    unsafe { CStr::from_ptr(text) }.to_str().unwrap_or("")
}
