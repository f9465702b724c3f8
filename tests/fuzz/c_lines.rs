//! wkt_lines, and wkt_lines_some piece by piece.
use crate::c_calls::{bytes, pointer, Asked, Bytes, Room, MEMORY, MOST_PLACES, NO_PLACES, SMALL};
use crate::reader::{output, Numbers};

extern "C" {
    fn wkt_lines(input: Bytes, n: usize, places: u32, out: Room, m: usize, needed: &mut usize) -> u32;
    fn wkt_lines_some(
        input: Bytes, n: usize, places: u32, last: u32, out: Room, m: usize, taken: &mut usize, written: &mut usize,
    ) -> u32;
}

pub fn check_lines(asked: &Asked) {
    let (data, places) = (asked.data, asked.places());
    let wanted = output(data, Numbers::Decimal(places as usize));
    let ask = |out, m, needed: &mut usize| unsafe { wkt_lines(pointer(data), data.len(), places, out, m, needed) };
    asked.hands_out(Ok(&wanted), ask, |_| true);
}

/// The answers to all lines.
pub fn answers(input: &[u8], places: u32) -> Vec<u8> {
    output(input, Numbers::Decimal(places as usize))
}

/// wkt_lines with room enough.
pub fn check_whole(asked: &Asked, places: u32, wanted: &[u8]) {
    let (mut out, mut needed) = ([0; 256], 0);
    let (input, n) = (asked.data.as_ptr(), asked.data.len());
    let status = unsafe { wkt_lines(input, n, places, out.as_mut_ptr(), 256, &mut needed) };
    let fits = status == 0 && out[..needed] == *wanted;
    asked.ensure(fits, "wkt_lines at a page's end", (status, out.escape_ascii()), wanted.escape_ascii());
}

/// What a call of wkt_lines_some returned, and what stands in its buffer, behind which nothing may be written.
struct Given {
    status: u32,
    taken: usize,
    written: usize,
    out: Vec<u8>,
}

fn some(asked: &Asked, input: &[u8], places: u32, last: bool, room: usize, poor: bool) -> Given {
    let (mut out, mut taken, mut written) = (bytes(room), usize::MAX, usize::MAX);
    let ask = || unsafe {
        let last = if last { 1 + asked.salt as u32 % 5 } else { 0 };
        wkt_lines_some(pointer(input), input.len(), places, last, out.at(), room, &mut taken, &mut written)
    };
    let status = if poor { asked.poor_call(ask) } else { asked.call(ask) };
    asked.ensure(out.items[room..].iter().all(|byte| *byte == 0xa5), "wkt_lines_some writes past its room", room, status);
    let kept = status == 0 || (taken, written) == (usize::MAX, usize::MAX);
    asked.ensure(kept, "wkt_lines_some changes sizes", (taken, written), status);
    Given { status, taken, written, out: out.items }
}

/// The answers to pieces of the input, one after the other, are those to all of it; and none is taken where the answer to
/// the first line has no room.
pub fn check_lines_some(asked: &Asked) {
    let (data, places) = (asked.data, asked.places());
    let numbers = Numbers::Decimal(places as usize);
    let mut at = 0;
    while at < data.len() {
        let size = 1 + (asked.salt / 5 + at) % (data.len() - at);
        let (piece, last) = (&data[at..at + size], at + size == data.len());
        // The bytes of the first line; all of them, where the input ends within it.
        let first = piece.iter().position(|byte| *byte == b'\n').map(|feed| feed + 1);
        let Some(first) = first.or(if last { Some(size) } else { None }) else {
            let none = some(asked, piece, places, last, 99, false);
            let library = (none.status, none.taken, none.written);
            asked.ensure(library == (0, 0, 0), "wkt_lines_some of no whole line", library, (at, size));
            // More is put behind it.
            return check_rest(asked, &data[at..], places);
        };
        let answer = output(&piece[..first], numbers);
        let small = some(asked, piece, places, last, answer.len() - 1, false).status;
        asked.ensure(small == SMALL, "wkt_lines_some with too little room", small, (at, size));
        let room = answer.len() + asked.salt % 50;
        let given = some(asked, piece, places, last, room, false);
        let fits = given.status == 0 && given.taken >= first && given.taken <= size && given.written <= room;
        asked.ensure(fits, "wkt_lines_some", (given.status, given.taken, given.written), (at, size, room));
        check_taken(asked, piece, last, &given, numbers);
        at += given.taken;
    }
    let none = some(asked, b"", places, true, 0, false);
    asked.ensure((none.status, none.taken) == (0, 0), "wkt_lines_some of nothing", none.status, 0);
    let status = some(asked, data, MOST_PLACES + 1, true, 9, false).status;
    asked.ensure(status == NO_PLACES, "wkt_lines_some of too many places", status, NO_PLACES);
}

/// What was taken are whole lines, and what was written are their answers.
fn check_taken(asked: &Asked, piece: &[u8], last: bool, given: &Given, numbers: Numbers) {
    let taken = &piece[..given.taken];
    let whole = taken.ends_with(b"\n") || (last && taken.len() == piece.len());
    asked.ensure(whole, "wkt_lines_some takes a part of a line", given.taken, piece.len());
    let (answers, wanted) = (&given.out[..given.written], output(taken, numbers));
    asked.ensure(answers == wanted, "wkt_lines_some", answers.escape_ascii(), wanted.escape_ascii());
}

/// All that is left at once, and the same where an allocation fails.
fn check_rest(asked: &Asked, rest: &[u8], places: u32) {
    let numbers = Numbers::Decimal(places as usize);
    let wanted = output(rest, numbers);
    let given = some(asked, rest, places, true, wanted.len(), false);
    let fits = given.status == 0 && given.taken == rest.len() && given.out[..given.written] == wanted;
    asked.ensure(fits, "wkt_lines_some of the rest", (given.status, given.taken), rest.len());
    let poor = some(asked, rest, places, true, wanted.len(), true);
    asked.ensure(matches!(poor.status, 0 | MEMORY), "wkt_lines_some without memory", poor.status, 0);
    if poor.status == 0 {
        check_taken(asked, rest, true, &poor, numbers);
    }
}
