//! A text as the library's events.
use crate::error::Error;
use crate::ffi::{self, WktUnits};
use crate::memory::room;
use crate::names;
use crate::text::{error_of, whole};
use std::mem::MaybeUninit;
use std::slice;

/// With its kind times 4 and its dimension added, the event with which a geometry begins.
pub(crate) const BEGIN: u64 = 1 << 63;
/// The event with which it ends.
pub(crate) const END: u64 = u64::MAX;

/// The events of a geometry, and its numbers.
#[derive(Clone, Copy)]
pub(crate) struct Events<'a> {
    pub(crate) list: &'a [u64],
    pub(crate) numbers: &'a [WktUnits],
    pub(crate) places: u32,
}

// Lists of up to so many take no memory.
const FEW: usize = 512;

/// What is made of the events of a text, which is to be one geometry as a whole.
#[inline]
pub(crate) fn with_events<R>(
    text: &str,
    places: u32,
    make: impl FnOnce(Events<'_>) -> Result<R, Error>,
) -> Result<R, Error> {
    // A text has at most so many of each. They are written before they are read.
    let most = text.len() / 2;
    if most <= FEW {
        let mut events = [MaybeUninit::uninit(); FEW];
        let mut numbers = [MaybeUninit::uninit(); FEW];
        make(read_events(text, places, &mut events, &mut numbers)?)
    } else {
        let (mut events, mut numbers) = (room(most)?, room(most)?);
        make(read_events(
            text,
            places,
            events.spare_capacity_mut(),
            numbers.spare_capacity_mut(),
        )?)
    }
}

/// Reads a text into two lists that have room for it.
fn read_events<'a>(
    text: &str,
    places: u32,
    events: &'a mut [MaybeUninit<u64>],
    numbers: &'a mut [MaybeUninit<WktUnits>],
) -> Result<Events<'a>, Error> {
    let flags = whole(places)?;
    let (mut event_count, mut number_count, mut end) = (0, 0, 0);
    // SAFETY: each pointer goes with the length of its slice, and nothing that is written is borrowed elsewhere.
    let status = unsafe {
        ffi::wkt_read_events(
            text.as_ptr(),
            text.len(),
            flags,
            events.as_mut_ptr().cast(),
            events.len(),
            numbers.as_mut_ptr().cast(),
            numbers.len(),
            &mut event_count,
            &mut number_count,
            &mut end,
        )
    };
    if status != names::OK {
        return Err(error_of(status, text, flags));
    }
    let (events, numbers) = (&events[..event_count], &numbers[..number_count]);
    // SAFETY: so many of each are written.
    let (list, numbers) = unsafe {
        (
            slice::from_raw_parts(events.as_ptr().cast(), events.len()),
            slice::from_raw_parts(numbers.as_ptr().cast(), numbers.len()),
        )
    };
    Ok(Events {
        list,
        numbers,
        places,
    })
}
