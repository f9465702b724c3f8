//! The functions for C, called as C calls them, and what include/wkt.h says of them, by the plain reader: those of one text.
use crate::check::{fail, heap_calls, heap_fail_at, heap_held};
use crate::reader::{infer, read_front, text as text_of, NoKind, Numbers, Value};
use crate::{c_arrays, c_columns, c_lines, places};
use std::fmt::Debug;
use std::ptr::null_mut;

pub type Bytes = *const u8;
pub type Room = *mut u8;

extern "C" {
    fn wkt_canonical(
        text: Bytes, n: usize, places: u32, out: Room, m: usize, needed: &mut usize, end: &mut usize,
    ) -> u32;
    fn wkt_same(one: Bytes, n: usize, other: Bytes, m: usize, places: u32, same: &mut u32) -> u32;
    fn wkt_same_ends(
        one: Bytes, n: usize, other: Bytes, m: usize, places: u32, same: &mut u32, end: &mut usize,
        other_end: &mut usize,
    ) -> u32;
    fn wkt_infer(text: Bytes, n: usize, kind: &mut u32, dimension: &mut u32) -> u32;
}

pub const NOT_UTF8: u32 = 20;
pub const SMALL: u32 = 21;
pub const MEMORY: u32 = 22;
pub const NO_PLACES: u32 = 23;
pub const COLLECTION: u32 = 24;
pub const TOO_LARGE: u32 = 25;
pub const NOT_ARRAYS: u32 = 26;
pub const NOT_COLUMN: u32 = 27;
pub const NULL_ROW: u32 = 28;
pub const ACCEPTED: u32 = 29;
pub const NOT_WHOLE: u32 = 30;
/// Added to the places where a text is to be one geometry as a whole.
pub const WHOLE: u32 = 256;

/// The places that are asked for, and the most that there are.
pub const PLACES: [u32; 5] = [0, 6, 18, 24, 36];
pub const MOST_PLACES: u32 = 36;
/// How many items stand behind each buffer, which nothing may write.
pub const BEHIND: usize = 9;

/// A buffer that is handed out, and the items behind it.
pub struct Buffer<T> {
    pub items: Vec<T>,
    size: usize,
    fill: T,
}

impl<T: Copy + PartialEq> Buffer<T> {
    pub fn new(size: usize, fill: T) -> Buffer<T> {
        Buffer { items: vec![fill; size + BEHIND], size, fill }
    }

    /// NULL where it has no item.
    pub fn at(&mut self) -> *mut T {
        if self.size == 0 { null_mut() } else { self.items.as_mut_ptr() }
    }

    /// Whether it begins so, and the rest and all behind it are as they were.
    pub fn holds(&self, front: &[T]) -> bool {
        self.items.starts_with(front) && self.items[front.len()..].iter().all(|item| *item == self.fill)
    }
}

pub fn bytes(size: usize) -> Buffer<u8> {
    Buffer::new(size, 0xa5)
}

pub fn pointer<T>(items: &[T]) -> *const T {
    if items.is_empty() { std::ptr::null() } else { items.as_ptr() }
}

/// One input of one operation.
pub struct Asked<'a> {
    op: u32,
    pub data: &'a [u8],
    pub salt: usize,
}

impl Asked<'_> {
    pub fn ensure(&self, holds: bool, why: &str, library: impl Debug, wanted: impl Debug) {
        if !holds {
            fail(self.op, self.data, &format!("{why}\n  library {library:?}\n  wanted  {wanted:?}"));
        }
    }

    /// The status of a call, after which no memory is held.
    pub fn call(&self, call: impl FnOnce() -> u32) -> u32 {
        unsafe { heap_calls = 0 };
        let status = call();
        self.ensure(unsafe { heap_held } == 0, "allocations are held after the call", status, 0);
        status
    }

    /// The same, with an allocation that fails.
    pub fn poor_call(&self, call: impl FnOnce() -> u32) -> u32 {
        let calls = unsafe { heap_calls };
        if calls > 0 {
            unsafe { heap_fail_at = (self.salt / 8) as i64 % calls };
        }
        let status = self.call(call);
        unsafe { heap_fail_at = -1 };
        status
    }

    /// A call that hands out a text, or says why there is none: with room enough, with too little, with little memory.
    /// `rest` says whether its other results are as wanted, for its status.
    pub fn hands_out(
        &self,
        wanted: Result<&[u8], u32>,
        ask: impl Fn(Room, usize, &mut usize) -> u32,
        rest: impl Fn(u32) -> bool,
    ) {
        let size = wanted.map_or(0, <[u8]>::len) + self.salt % 5;
        self.hands_out_with(size, false, wanted, &ask, &rest);
        if self.salt % 4 == 0 {
            self.hands_out_with(size, true, wanted, &ask, &rest);
        }
        if let Ok(text @ [_, ..]) = wanted {
            self.hands_out_with(self.salt % text.len(), false, wanted, &ask, &rest);
        }
    }

    fn hands_out_with(
        &self,
        room: usize,
        poor: bool,
        wanted: Result<&[u8], u32>,
        ask: impl Fn(Room, usize, &mut usize) -> u32,
        rest: impl Fn(u32) -> bool,
    ) {
        let (mut out, mut needed) = (bytes(room), usize::MAX);
        let call = || ask(out.at(), room, &mut needed);
        let status = if poor { self.poor_call(call) } else { self.call(call) };
        let length = wanted.map_or(needed, <[u8]>::len);
        let (goes, front) = match wanted {
            _ if poor && status == MEMORY => (MEMORY, &[][..]),
            Ok(_) if room < length => (SMALL, &[][..]),
            Ok(text) => (0, text),
            Err(status) => (status, &[][..]),
        };
        if status == goes && (needed == length || goes == MEMORY) && out.holds(front) && rest(status) {
            return;
        }
        let library = format!("status {status} length {needed} \"{}\"", out.items.escape_ascii());
        let wanted = format!("status {goes} length {length} \"{}\"", front.escape_ascii());
        let why = format!("a call for C with room for {room}, an allocation fails: {poor}");
        self.ensure(false, &why, library, wanted);
    }

    /// The last call took none.
    pub fn takes_no_memory(&self, what: &str) {
        self.ensure(unsafe { heap_calls } == 0, what, "takes memory", "none");
    }

    pub fn places(&self) -> u32 {
        PLACES[self.salt / 3 % PLACES.len()]
    }

    /// Those places, and for some inputs that the whole text is asked for.
    pub fn asked_places(&self) -> u32 {
        self.places() + if self.salt / (3 * PLACES.len()) % 2 == 0 { 0 } else { WHOLE }
    }
}

/// The geometry at the front of a text of bytes, and its end, or the status that says why there is none.
pub fn read(data: &[u8], places: u32) -> Result<(Value, usize), u32> {
    let text = std::str::from_utf8(data).map_err(|_| NOT_UTF8)?;
    read_front(text, Numbers::Decimal(places as usize % WHOLE as usize)).map_err(|reason| reason as u32)
}

/// Whether more than white space stands behind the geometry, where the whole text is asked for.
pub fn has_more(data: &[u8], end: usize, places: u32) -> bool {
    places >= WHOLE && !data[end..].iter().all(|byte| b" \n\r\t".contains(byte))
}

/// The canonical text as it is asked for.
pub fn canonical(data: &[u8], places: u32) -> Result<String, u32> {
    let (value, end) = read(data, places)?;
    if has_more(data, end, places) { Err(NOT_WHOLE) } else { Ok(text_of(&value)) }
}

fn check_canonical(asked: &Asked) {
    for places in [0, 6, 18, 24, MOST_PLACES, MOST_PLACES + 1] {
        check_canonical_at(asked, places);
        check_canonical_at(asked, places + WHOLE);
    }
}

fn check_canonical_at(asked: &Asked, places: u32) {
    let data = asked.data;
    let has_places = places % WHOLE <= MOST_PLACES;
    let text = if has_places { canonical(data, places) } else { Err(NO_PLACES) };
    let end = read(data, places).map_or(usize::MAX, |(_, end)| end);
    let ends_at = std::cell::Cell::new(usize::MAX);
    let ask = |out, m, needed: &mut usize| unsafe {
        let mut end = usize::MAX;
        let status = wkt_canonical(pointer(data), data.len(), places, out, m, needed, &mut end);
        ends_at.set(end);
        status
    };
    let rest = |status| ends_at.get() == if matches!(status, 0 | SMALL | NOT_WHOLE) { end } else { usize::MAX };
    asked.hands_out(text.as_ref().map(String::as_bytes).map_err(|status| *status), ask, rest);
    let bound = text.map_or(0, |text| text.len());
    asked.ensure(bound <= 2 * data.len() + 65, "the bound of a canonical text", bound, data.len());
}

/// The input with one of its digits changed, or, if it has none, without its last byte.
pub fn changed(data: &[u8], salt: usize) -> Vec<u8> {
    let mut data = data.to_vec();
    let digits: Vec<usize> = (0..data.len()).filter(|at| data[*at].is_ascii_digit()).collect();
    if digits.is_empty() {
        data.pop();
    } else {
        data[digits[salt % digits.len()]] = b'0' + (salt / 11 % 10) as u8;
    }
    data
}

/// The results of a comparison: the status, whether the two are the same, and the two ends.
type Compared = (u32, u32, usize, usize);

/// What wkt_same_ends may answer for two texts.
fn comparisons(one: &[u8], other: &[u8], places: u32) -> Vec<Compared> {
    let none = |status| (status, 9, usize::MAX, usize::MAX);
    match (read(one, places), read(other, places)) {
        (Ok((mine, end)), Ok((theirs, other_end))) => {
            let more = has_more(one, end, places) || has_more(other, other_end, places);
            let same = (text_of(&mine) == text_of(&theirs)) as u32;
            vec![if more { (NOT_WHOLE, 9, end, other_end) } else { (0, same, end, other_end) }]
        }
        (Err(mine), Err(theirs)) => vec![none(mine), none(theirs)],
        (Err(status), _) | (_, Err(status)) => vec![none(status)],
    }
}

fn check_same(asked: &Asked) {
    let places = asked.asked_places();
    let mine = canonical(asked.data, places).unwrap_or_default();
    let others = [mine.into_bytes(), changed(asked.data, asked.salt)];
    for other in others {
        check_same_with(asked, &other, places);
    }
}

fn check_same_with(asked: &Asked, other: &[u8], places: u32) {
    let wanted = comparisons(asked.data, other, places);
    let (one, n, m) = (pointer(asked.data), asked.data.len(), other.len());
    let ask = |compared: &mut Compared| unsafe {
        wkt_same_ends(one, n, pointer(other), m, places, &mut compared.1, &mut compared.2, &mut compared.3)
    };
    let mut compared = (0, 9, usize::MAX, usize::MAX);
    compared.0 = asked.call(|| ask(&mut compared));
    asked.ensure(wanted.contains(&compared), "wkt_same_ends", (compared, other), &wanted);
    let mut poor = (0, 9, usize::MAX, usize::MAX);
    poor.0 = asked.poor_call(|| ask(&mut poor));
    asked.ensure(poor.0 == MEMORY || poor == compared, "wkt_same_ends without memory", (poor, other), compared);
    let mut same = 9;
    let status = asked.call(|| unsafe { wkt_same(one, n, pointer(other), m, places, &mut same) });
    asked.ensure((status, same) == (compared.0, compared.1), "wkt_same", (status, same, other), compared);
}

fn check_infer(asked: &Asked) {
    let wanted = match std::str::from_utf8(asked.data).map(infer) {
        Err(_) => Err(NOT_UTF8),
        Ok(Err(NoKind::Prefix(_))) => Err(1),
        Ok(Err(NoKind::NoSpace)) => Err(2),
        Ok(Err(NoKind::NoParenthesis)) => Err(3),
        Ok(Ok((kind, dimension))) => Ok((kind as u32, dimension as u32)),
    };
    let ask = |kind: &mut u32, dimension: &mut u32| unsafe {
        wkt_infer(pointer(asked.data), asked.data.len(), kind, dimension)
    };
    let (mut kind, mut dimension) = (9, 9);
    let status = asked.call(|| ask(&mut kind, &mut dimension));
    let library = if status == 0 { Ok((kind, dimension)) } else { Err(status) };
    asked.ensure(library == wanted, "wkt_infer", library, wanted);
    let status = asked.poor_call(|| ask(&mut kind, &mut dimension));
    asked.ensure(status == MEMORY || status == wanted.err().unwrap_or(0), "wkt_infer without memory", status, wanted);
}
/// A text with what wkt_canonical and wkt_lines say of it.
pub struct Fixed {
    text: Vec<u8>,
    places: u32,
    wanted: Result<String, u32>,
    end: usize,
    lines: Vec<u8>,
}

impl Fixed {
    pub fn new(text: &[u8], places: u32) -> Fixed {
        let end = read(text, places).map_or(usize::MAX, |(_, end)| end);
        let lines = c_lines::answers(text, places);
        Fixed { text: text.to_vec(), places, wanted: canonical(text, places), end, lines }
    }

    /// They say it of the same text at that place.
    pub fn check(&self, at: &[u8]) {
        let asked = Asked { op: 50, data: at, salt: 1 };
        let mut out = [0; 256];
        let (mut needed, mut end) = (0, usize::MAX);
        let (text, n) = (at.as_ptr(), at.len());
        let status = unsafe { wkt_canonical(text, n, self.places, out.as_mut_ptr(), 256, &mut needed, &mut end) };
        let fits = match &self.wanted {
            Ok(text) => status == 0 && out[..needed] == *text.as_bytes() && end == self.end,
            Err(why) => status == *why,
        };
        asked.ensure(fits && at == self.text, "wkt_canonical at a page's end", (status, out.escape_ascii()), &self.wanted);
        c_lines::check_whole(&asked, self.places, &self.lines);
    }
}

/// The operations on the functions for C.
pub const OPERATIONS: std::ops::RangeInclusive<u32> = 50..=58;

pub fn check(op: u32, data: &[u8], salt: usize) {
    let asked = Asked { op, data, salt };
    match op {
        50 => check_canonical(&asked),
        51 => check_same(&asked),
        52 => check_infer(&asked),
        53 => c_lines::check_lines(&asked),
        54 => c_arrays::check_arrays(&asked),
        55 => c_columns::check_texts(&asked),
        56 => places::check_explain(&asked),
        57 => c_lines::check_lines_some(&asked),
        _ => c_columns::check_arrays(&asked),
    }
}
