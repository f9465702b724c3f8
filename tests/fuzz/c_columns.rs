//! The calls for whole columns: of texts, of arrays, and back.
use crate::c_arrays::{arrays, changed_arrays, text_of_arrays, Arrays};
use crate::c_calls::{
    canonical, has_more, pointer, read, Asked, Buffer, Bytes, Room, MEMORY, NOT_COLUMN, NOT_WHOLE, NULL_ROW, SMALL, WHOLE,
};

/// What wkt_column_arrays returns beside the arrays.
#[repr(C)]
#[derive(Clone, Copy, Debug, Default, PartialEq)]
struct Sizes {
    numbers: usize,
    rings: usize,
    polygons: usize,
}

extern "C" {
    fn wkt_column_canonical(
        texts: Bytes, texts_len: usize, offsets: *const i64, offsets_len: usize, valid: Bytes, valid_len: usize,
        places: u32, out: Room, out_len: usize, ends: *mut i64, ends_len: usize, statuses: *mut u32,
        statuses_len: usize, needed: &mut usize,
    ) -> u32;
    fn wkt_column_arrays(
        texts: Bytes, texts_len: usize, offsets: *const i64, offsets_len: usize, valid: Bytes, valid_len: usize,
        places: u32, sizes: &mut Sizes, kinds: *mut u32, kinds_len: usize, dimensions: *mut u32, dimensions_len: usize,
        numbers: *mut i64, numbers_len: usize, number_offsets: *mut i64, number_offsets_len: usize, rings: *mut usize,
        rings_len: usize, ring_offsets: *mut i64, ring_offsets_len: usize, polygons: *mut usize, polygons_len: usize,
        polygon_offsets: *mut i64, polygon_offsets_len: usize, statuses: *mut u32, statuses_len: usize,
    ) -> u32;
    fn wkt_column_from_arrays(
        kinds: *const u32, kinds_len: usize, dimensions: *const u32, dimensions_len: usize, numbers: *const i64,
        numbers_len: usize, number_offsets: *const i64, number_offsets_len: usize, rings: *const usize,
        rings_len: usize, ring_offsets: *const i64, ring_offsets_len: usize, polygons: *const usize,
        polygons_len: usize, polygon_offsets: *const i64, polygon_offsets_len: usize, valid: Bytes, valid_len: usize,
        places: u32, out: Room, out_len: usize, ends: *mut i64, ends_len: usize, statuses: *mut u32,
        statuses_len: usize, needed: &mut usize,
    ) -> u32;
}

/// A column: the lines of the input are its rows, and bits of the salt say which are null.
#[derive(Clone, Debug)]
struct Column<'a> {
    texts: &'a [u8],
    offsets: Vec<i64>,
    valid: Vec<u8>,
}

impl Column<'_> {
    fn new(data: &[u8], salt: usize) -> Column<'_> {
        let lines = data.split_inclusive(|byte| *byte == b'\n').scan(0, |end, line| {
            *end += line.len() as i64;
            Some(*end)
        });
        let mut offsets: Vec<i64> = std::iter::once(0).chain(lines).collect();
        if salt % 5 == 0 && offsets.len() > 1 {
            offsets.remove(salt / 5 % offsets.len());
        }
        let bits = |i: usize| (salt.wrapping_mul(i + 7) >> 3) as u8 | (salt >> 2) as u8;
        let valid = if salt % 3 == 0 { vec![] } else { (0..offsets.len().div_ceil(8)).map(bits).collect() };
        Column { texts: data, offsets, valid }
    }

    fn rows(&self) -> usize {
        self.offsets.len() - 1
    }

    fn row(&self, row: usize) -> &[u8] {
        &self.texts[self.offsets[row] as usize..self.offsets[row + 1] as usize]
    }

    fn is_null(&self, row: usize) -> bool {
        !self.valid.is_empty() && self.valid[row / 8] & (1 << (row % 8)) == 0
    }

    /// The text of all rows, where each begins, and their statuses.
    fn answers(&self, places: u32) -> (Vec<u8>, Vec<i64>, Vec<u32>) {
        joined((0..self.rows()).map(|row| if self.is_null(row) { Err(NULL_ROW) } else { canonical(self.row(row), places) }))
    }
}

/// The texts of rows in one, where each begins, and the statuses.
fn joined(rows: impl Iterator<Item = Result<String, u32>>) -> (Vec<u8>, Vec<i64>, Vec<u32>) {
    let (mut text, mut ends, mut statuses) = (vec![], vec![0], vec![]);
    for row in rows {
        text.extend(row.as_deref().unwrap_or("").bytes());
        statuses.push(row.err().unwrap_or(0));
        ends.push(text.len() as i64);
    }
    (text, ends, statuses)
}

pub fn check_texts(asked: &Asked) {
    let places = asked.asked_places();
    let column = Column::new(asked.data, asked.salt);
    let (text, ends, statuses) = column.answers(places);
    check_column_call(asked, &column, places, Ok((&text, &ends, &statuses)), [ends.len(), statuses.len()]);
    // An offset that goes back or past the texts, too few bits, or too little room for the answers.
    let mut wrong = column.clone();
    let mut room = [ends.len(), statuses.len()];
    let last = ends.len() - 1;
    match asked.salt / 7 % 5 {
        0 => wrong.offsets[last] = asked.data.len() as i64 + 1,
        1 if last > 0 => wrong.offsets[last - 1] = -1,
        2 if last > 0 => wrong.offsets[last - 1] = wrong.offsets[last] + 1,
        3 if last > 0 => room[1] -= 1,
        4 if last > 8 => wrong.valid = vec![255],
        _ => room[0] -= 1,
    }
    check_column_call(asked, &wrong, places, Err(NOT_COLUMN), room);
}

type Answers<'a> = (&'a [u8], &'a [i64], &'a [u32]);

fn check_column_call(asked: &Asked, column: &Column, places: u32, wanted: Result<Answers, u32>, room: [usize; 2]) {
    hands_out_column(asked, wanted, room, |out, m, needed, answers| unsafe {
        wkt_column_canonical(
            pointer(column.texts), column.texts.len(), pointer(&column.offsets), column.offsets.len(),
            pointer(&column.valid), column.valid.len(), places, out, m, answers.0.at(), room[0], answers.1.at(), room[1],
            needed,
        )
    });
}

/// The offsets and the statuses that a call hands out.
type Answered = (Buffer<i64>, Buffer<u32>);

/// A call that hands out the texts of a column, with buffers of that room for their offsets and statuses.
fn hands_out_column(
    asked: &Asked,
    wanted: Result<Answers, u32>,
    room: [usize; 2],
    call: impl Fn(Room, usize, &mut usize, &mut Answered) -> u32,
) {
    let buffers = std::cell::RefCell::new((Buffer::new(0, -7i64), Buffer::new(0, 77u32)));
    let ask = |out, m, needed: &mut usize| {
        let mut answers = (Buffer::new(room[0], -7i64), Buffer::new(room[1], 77u32));
        let status = call(out, m, needed, &mut answers);
        *buffers.borrow_mut() = answers;
        status
    };
    let rest = |status| {
        let answers = buffers.borrow();
        match wanted {
            Ok((_, ends, statuses)) if status == 0 => answers.0.holds(ends) && answers.1.holds(statuses),
            _ => answers.0.holds(&[]) && answers.1.holds(&[]),
        }
    };
    asked.hands_out(wanted.map(|(text, _, _)| text), ask, rest);
}


/// The arrays of all rows, as wkt_column_arrays hands them out, and the statuses.
#[derive(Clone, Debug, Default, PartialEq)]
struct Rows {
    kinds: Vec<u32>,
    dimensions: Vec<u32>,
    numbers: Vec<i64>,
    rings: Vec<usize>,
    polygons: Vec<usize>,
    ends: [Vec<i64>; 3],
    statuses: Vec<u32>,
}

/// The arrays of a row, or why it has none.
fn row_arrays(column: &Column, row: usize, places: u32) -> Result<Arrays, u32> {
    if column.is_null(row) {
        return Err(NULL_ROW);
    }
    let text = column.row(row);
    let (value, end) = read(text, places)?;
    let arrays = arrays(&value, places % WHOLE)?;
    if has_more(text, end, places) { Err(NOT_WHOLE) } else { Ok(arrays) }
}

impl Rows {
    fn of(rows: impl Iterator<Item = Result<Arrays, u32>>) -> Rows {
        let mut all = Rows { ends: [vec![0], vec![0], vec![0]], ..Rows::default() };
        for row in rows {
            all.statuses.push(row.as_ref().err().copied().unwrap_or(0));
            let none = Arrays { kind: 0, dimension: 0, numbers: vec![], rings: vec![], polygons: vec![] };
            let one = row.unwrap_or(none);
            all.kinds.push(one.kind);
            all.dimensions.push(one.dimension);
            all.numbers.extend(one.numbers);
            all.rings.extend(one.rings);
            all.polygons.extend(one.polygons);
            let sizes = [all.numbers.len(), all.rings.len(), all.polygons.len()];
            for (ends, size) in all.ends.iter_mut().zip(sizes) {
                ends.push(size as i64);
            }
        }
        all
    }

    fn sizes(&self) -> Sizes {
        Sizes { numbers: self.numbers.len(), rings: self.rings.len(), polygons: self.polygons.len() }
    }
}

/// The nine buffers of a call of wkt_column_arrays, and the sizes that it returned.
struct Filled {
    sizes: Sizes,
    kinds: Buffer<u32>,
    dimensions: Buffer<u32>,
    numbers: Buffer<i64>,
    rings: Buffer<usize>,
    polygons: Buffer<usize>,
    ends: [Buffer<i64>; 3],
    statuses: Buffer<u32>,
}

/// How long they are: numbers, rings and polygons, and of each sort of offsets, kinds, dimensions and statuses.
#[derive(Clone, Copy, Debug)]
struct Rooms {
    sizes: Sizes,
    ends: [usize; 3],
    rows: [usize; 3],
}

impl Filled {
    fn new(room: Rooms) -> Filled {
        Filled {
            sizes: Sizes::default(),
            kinds: Buffer::new(room.rows[0], 77),
            dimensions: Buffer::new(room.rows[1], 77),
            numbers: Buffer::new(room.sizes.numbers, i64::MIN + 5),
            rings: Buffer::new(room.sizes.rings, 1 << 60),
            polygons: Buffer::new(room.sizes.polygons, 1 << 60),
            ends: room.ends.map(|size| Buffer::new(size, -7)),
            statuses: Buffer::new(room.rows[2], 77),
        }
    }

    fn ask(&mut self, column: &Column, places: u32, room: Rooms) -> u32 {
        let [number_ends, ring_ends, polygon_ends] = &mut self.ends;
        unsafe {
            wkt_column_arrays(
                pointer(column.texts), column.texts.len(), pointer(&column.offsets), column.offsets.len(),
                pointer(&column.valid), column.valid.len(), places, &mut self.sizes, self.kinds.at(), room.rows[0],
                self.dimensions.at(), room.rows[1], self.numbers.at(), room.sizes.numbers, number_ends.at(),
                room.ends[0], self.rings.at(), room.sizes.rings, ring_ends.at(), room.ends[1], self.polygons.at(),
                room.sizes.polygons, polygon_ends.at(), room.ends[2], self.statuses.at(), room.rows[2],
            )
        }
    }

    fn holds(&self, rows: &Rows) -> bool {
        let ends = self.ends.iter().zip(&rows.ends).all(|(ours, theirs)| ours.holds(theirs));
        self.kinds.holds(&rows.kinds)
            && self.dimensions.holds(&rows.dimensions)
            && self.numbers.holds(&rows.numbers)
            && self.rings.holds(&rows.rings)
            && self.polygons.holds(&rows.polygons)
            && ends
            && self.statuses.holds(&rows.statuses)
    }

    fn is_untouched(&self) -> bool {
        self.holds(&Rows::default())
    }
}

pub fn check_arrays(asked: &Asked) {
    let places = asked.asked_places();
    let column = Column::new(asked.data, asked.salt);
    let rows = Rows::of((0..column.rows()).map(|row| row_arrays(&column, row, places)));
    let count = column.rows();
    let room = Rooms { sizes: rows.sizes(), ends: [count + 1; 3], rows: [count; 3] };
    check_fill(asked, &column, places, &rows, room);
    let mut less = room;
    let sizes = [&mut less.sizes.numbers, &mut less.sizes.rings, &mut less.sizes.polygons];
    let short = sizes.into_iter().filter(|size| **size > 0).nth(asked.salt % 3);
    if short.map(|size| *size -= 1).is_some() {
        check_fill(asked, &column, places, &rows, less);
    }
    check_wrong_column(asked, &column, places, room);
    check_back(asked, &column, places % WHOLE);
}

fn check_fill(asked: &Asked, column: &Column, places: u32, rows: &Rows, room: Rooms) {
    for poor in [false, true] {
        let mut filled = Filled::new(room);
        let call = |filled: &mut Filled| filled.ask(column, places, room);
        let status = if poor { asked.poor_call(|| call(&mut filled)) } else { asked.call(|| call(&mut filled)) };
        let sized = filled.sizes == rows.sizes();
        let fits = match status {
            MEMORY => poor && filled.is_untouched() && filled.sizes == Sizes::default(),
            SMALL => room.sizes != rows.sizes() && sized && filled.is_untouched(),
            status => status == 0 && room.sizes == rows.sizes() && sized && filled.holds(rows),
        };
        asked.ensure(fits, "wkt_column_arrays", (status, poor, filled.sizes, filled.statuses.items), (rows, room, column));
    }
}

/// An offset that goes back or past the texts, or a buffer that has one item too many or too few.
fn check_wrong_column(asked: &Asked, column: &Column, places: u32, mut room: Rooms) {
    let mut wrong = column.clone();
    let last = wrong.offsets.len() - 1;
    match asked.salt / 7 % 4 {
        0 => wrong.offsets[last] = asked.data.len() as i64 + 1,
        1 if last > 0 => wrong.offsets[last - 1] = wrong.offsets[last] + 1,
        2 => room.ends[asked.salt % 3] -= 1,
        _ => room.rows[asked.salt % 3] += 1,
    }
    let mut filled = Filled::new(room);
    let status = asked.call(|| filled.ask(&wrong, places, room));
    let fits = status == NOT_COLUMN && filled.sizes == Sizes::default() && filled.is_untouched();
    asked.ensure(fits, "wkt_column_arrays of no column", (status, filled.sizes), (wrong, room));
}

/// The texts of the rows' arrays, of some of which one thing is changed.
fn check_back(asked: &Asked, column: &Column, places: u32) {
    let given: Vec<Result<Arrays, u32>> = (0..column.rows())
        .map(|row| row_arrays(column, row, places))
        .enumerate()
        .map(|(row, arrays)| arrays.map(|one| if row % 3 == 1 { changed_arrays(one, asked.salt + row) } else { one }))
        .collect();
    let rows = Rows::of(given.iter().cloned());
    let none = Arrays { kind: 0, dimension: 0, numbers: vec![], rings: vec![], polygons: vec![] };
    let (text, ends, statuses) = joined(given.iter().enumerate().map(|(row, arrays)| match column.is_null(row) {
        true => Err(NULL_ROW),
        false => text_of_arrays(arrays.as_ref().unwrap_or(&none), places),
    }));
    let wanted = Ok((&text[..], &ends[..], &statuses[..]));
    check_back_call(asked, &rows, &column.valid, places, wanted, [ends.len(), statuses.len()]);
    let mut wrong = rows.clone();
    match (asked.salt / 5 % 3, wrong.kinds.len()) {
        (0, 1..) => wrong.ends[asked.salt % 3][0] = -1,
        (1, 1..) => *wrong.ends[asked.salt % 3].last_mut().unwrap() += 1,
        _ => wrong.kinds.push(0),
    }
    check_back_call(asked, &wrong, &column.valid, places, Err(NOT_COLUMN), [ends.len(), statuses.len()]);
}

fn check_back_call(asked: &Asked, rows: &Rows, valid: &[u8], places: u32, wanted: Result<Answers, u32>, room: [usize; 2]) {
    hands_out_column(asked, wanted, room, |out, m, needed, answers| unsafe {
        let [number_ends, ring_ends, polygon_ends] = &rows.ends;
        wkt_column_from_arrays(
            pointer(&rows.kinds), rows.kinds.len(), pointer(&rows.dimensions), rows.dimensions.len(),
            pointer(&rows.numbers), rows.numbers.len(), pointer(number_ends), number_ends.len(), pointer(&rows.rings),
            rows.rings.len(), pointer(ring_ends), ring_ends.len(), pointer(&rows.polygons), rows.polygons.len(),
            pointer(polygon_ends), polygon_ends.len(), pointer(valid), valid.len(), places, out, m, answers.0.at(), room[0],
            answers.1.at(), room[1], needed,
        )
    });
}
