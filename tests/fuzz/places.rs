//! wkt_explain, and where the plain reader's lexemes stop being the beginning of a geometry, by docs/GRAMMAR.md.
use crate::c_calls::{has_more, pointer, Asked, Bytes, ACCEPTED, MOST_PLACES, NOT_UTF8, NOT_WHOLE, NO_PLACES, WHOLE};
use crate::reader::{dimension_word, is_empty, kind_of, read_front, Lexeme, Numbers, Reader};

extern "C" {
    fn wkt_explain(
        text: Bytes, n: usize, places: u32, message: &mut u32, start: &mut usize, stop: &mut usize, expected: &mut u32,
    ) -> u32;
}

// What could stand at a place, by its number in include/wkt.h.
const KIND: u32 = 0;
const MEMBER: u32 = 1;
const DIMENSION: u32 = 2;
const OPENING: u32 = 3;
const POINT: u32 = 4;
const X: u32 = 5;
const MORE: u32 = 9;
const CLOSING: u32 = 10;
/// The numbers after the first of a coordinate, by its dimension.
const OTHERS: [&[u32]; 4] = [&[6], &[6, 7], &[6, 8], &[6, 7, 8]];

/// From where to where a lexeme is too much, and what could stand in its place.
type Place = (usize, usize, u32);

struct Walk<'a> {
    reader: Reader<'a>,
}

impl Walk<'_> {
    fn stuck<T>(&self, expected: u32) -> Result<T, Place> {
        let (start, stop) = self.reader.next_place();
        Err((start, stop, expected))
    }

    fn geometry(&mut self, first: u32) -> Result<(), Place> {
        let Lexeme::Word(word) = self.reader.peek().0 else { return self.stuck(first) };
        let Some((kind, joined)) = kind_of(word) else { return self.stuck(first) };
        self.reader.take();
        let (mut dim, mut opening) = (joined.unwrap_or(0), OPENING);
        if joined.is_none() {
            match self.reader.peek().0 {
                Lexeme::Word(word) if dimension_word(word).is_some() => {
                    dim = dimension_word(word).unwrap();
                    self.reader.take();
                }
                _ => opening = DIMENSION,
            }
        }
        let path = |it: &mut Self| it.framed(OPENING, true, &|it| it.coord(dim, X));
        match kind {
            0 => self.framed(opening, false, &|it| it.coord(dim, X)),
            1 => self.framed(opening, true, &|it| it.coord(dim, X)),
            2 | 4 => self.framed(opening, true, &path),
            3 => self.framed(opening, true, &|it| it.member(dim)),
            5 => self.framed(opening, true, &|it| it.framed(OPENING, true, &path)),
            _ => self.framed(opening, true, &|it| it.geometry(MEMBER)),
        }
    }

    /// EMPTY, or an item or many in parentheses.
    fn framed(&mut self, opening: u32, many: bool, item: &dyn Fn(&mut Self) -> Result<(), Place>) -> Result<(), Place> {
        match self.reader.peek().0 {
            Lexeme::Word(word) if is_empty(word) => {
                self.reader.take();
                return Ok(());
            }
            Lexeme::Open => self.reader.take(),
            _ => return self.stuck(opening),
        };
        loop {
            item(self)?;
            match self.reader.peek().0 {
                Lexeme::Close => {
                    self.reader.take();
                    return Ok(());
                }
                Lexeme::Comma if many => self.reader.take(),
                _ => return self.stuck(if many { MORE } else { CLOSING }),
            };
        }
    }

    fn member(&mut self, dim: usize) -> Result<(), Place> {
        match self.reader.peek().0 {
            Lexeme::Word(word) if is_empty(word) => self.framed(OPENING, false, &|_| Ok(())),
            Lexeme::Open => self.framed(OPENING, false, &|it| it.coord(dim, X)),
            _ => self.coord(dim, POINT),
        }
    }

    fn coord(&mut self, dim: usize, first: u32) -> Result<(), Place> {
        for expected in std::iter::once(&first).chain(OTHERS[dim]) {
            match self.reader.peek().0 {
                number @ Lexeme::Number(_) if !self.reader.is_bad(number) => self.reader.take(),
                _ => return self.stuck(*expected),
            };
        }
        Ok(())
    }
}

/// What wkt_explain leaves of what it doesn't set.
const UNSET: usize = usize::MAX;
const UNSAID: u32 = 99;

/// What wkt_explain says: its status, the message, from where to where, and what could come next.
fn explained(data: &[u8], places: u32) -> (u32, u32, Place) {
    let status = |status| (status, UNSAID, (UNSET, UNSET, UNSAID));
    if places % WHOLE > MOST_PLACES {
        return status(NO_PLACES);
    }
    let Ok(text) = std::str::from_utf8(data) else {
        return status(NOT_UTF8);
    };
    let numbers = Numbers::Decimal((places % WHOLE) as usize);
    let place = Walk { reader: Reader::new(text, numbers) }.geometry(KIND);
    match (read_front(text, numbers), place) {
        (Ok((_, end)), Ok(())) if has_more(data, end, places) => {
            let white = data[end..].iter().take_while(|byte| b" \n\r\t".contains(byte)).count();
            (NOT_WHOLE, UNSAID, (end + white, data.len(), UNSAID))
        }
        (Ok(_), Ok(())) => status(ACCEPTED),
        (Err(message), Err(place)) => (0, message as u32, place),
        (front, place) => panic!("the plain reader and its places differ: {:?}, {place:?}, {text:?}", front.is_ok()),
    }
}

pub fn check_explain(asked: &Asked) {
    for places in [0, 6, 18, MOST_PLACES, MOST_PLACES + 1, 6 + WHOLE, MOST_PLACES + 1 + WHOLE] {
        let wanted = explained(asked.data, places);
        let (mut message, mut place) = (UNSAID, (UNSET, UNSET, UNSAID));
        let ask = || unsafe {
            let (text, n) = (pointer(asked.data), asked.data.len());
            wkt_explain(text, n, places, &mut message, &mut place.0, &mut place.1, &mut place.2)
        };
        let status = asked.call(ask);
        asked.takes_no_memory("wkt_explain");
        let library = (status, message, place);
        asked.ensure(library == wanted, "wkt_explain", library, wanted);
    }
}
