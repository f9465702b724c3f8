//! Columns of texts and of arrays.
use crate::error::Error;
use crate::memory::{lengthen, zeros};
use crate::text::{known, whole, written};
use crate::{ffi, names};
use std::mem::MaybeUninit;

/// The canonical texts of a column; by default of no rows.
#[derive(Debug, Clone, PartialEq, Eq)]
pub struct Column {
    /// The texts, one after the other.
    pub texts: String,
    /// Where each row's text begins, and the end of the last.
    pub offsets: Vec<i64>,
    /// 0 of each row that has a text; else the status of `include/wkt.h` that says why it has none, and its text is
    /// empty. [`message`](crate::message) has its words.
    pub statuses: Vec<u32>,
}

impl Default for Column {
    fn default() -> Column {
        Column {
            texts: String::new(),
            offsets: vec![0],
            statuses: Vec::new(),
        }
    }
}

impl Column {
    /// The text of a row, or the status of a row that has none; none where there is no such row.
    pub fn row(&self, row: usize) -> Option<Result<&str, u32>> {
        let status = *self.statuses.get(row)?;
        if status != names::OK {
            return Some(Err(status));
        }
        let from = usize::try_from(*self.offsets.get(row)?).ok()?;
        let to = usize::try_from(*self.offsets.get(row + 1)?).ok()?;
        self.texts.get(from..to).map(Ok)
    }
}

/// The arrays of a column. What [`Arrays`](crate::Arrays) calls the numbers of a geometry are, of row i, those from
/// `number_offsets[i]` to `number_offsets[i + 1]` in `numbers`; so its rings and its polygons. By default it has no rows.
#[derive(Debug, Clone, PartialEq, Eq)]
pub struct ColumnArrays {
    /// How many digits after the point the units of the numbers stand for.
    pub places: u32,
    /// The number of each row's [`GeometryType`](crate::GeometryType); 0 of a row without arrays.
    pub kinds: Vec<u32>,
    /// The number of each row's [`Dimension`](crate::Dimension); 0 of a row without arrays.
    pub dimensions: Vec<u32>,
    /// The numbers of all rows.
    pub numbers: Vec<i64>,
    /// Where each row's numbers begin, and the end of the last.
    pub number_offsets: Vec<i64>,
    /// The offsets of rings of all rows.
    pub rings: Vec<usize>,
    /// Where each row's offsets of rings begin, and the end of the last.
    pub ring_offsets: Vec<i64>,
    /// The offsets of polygons of all rows.
    pub polygons: Vec<usize>,
    /// Where each row's offsets of polygons begin, and the end of the last.
    pub polygon_offsets: Vec<i64>,
    /// 0 of each row that has arrays; else the status that says why it has none.
    pub statuses: Vec<u32>,
}

impl Default for ColumnArrays {
    fn default() -> ColumnArrays {
        ColumnArrays {
            places: 0,
            kinds: Vec::new(),
            dimensions: Vec::new(),
            numbers: Vec::new(),
            number_offsets: vec![0],
            rings: Vec::new(),
            ring_offsets: vec![0],
            polygons: Vec::new(),
            polygon_offsets: vec![0],
            statuses: Vec::new(),
        }
    }
}

/// The canonical texts of a column of whole texts, in the layout of Arrow's `large_utf8`: row i is the bytes of `texts` from offset
/// i to offset i + 1, and bit `i % 8` of byte `i / 8` of `valid` is 0 where it is null. No byte of `valid`: no row is.
///
/// ```
/// let column = wkt_proved::canonical_column(b"point(1 2.50)POINT(1 x)", &[0, 13, 23], &[], 6)?;
/// assert_eq!(column.row(0), Some(Ok("POINT(1 2.5)")));
/// assert_eq!(column.row(1), Some(Err(9)));
/// assert_eq!(wkt_proved::message(9), "Expected a number for the Y coordinate");
/// # Ok::<(), wkt_proved::Error>(())
/// ```
///
/// # Errors
/// `NotColumn`: an offset is less than the one before it, or past the texts. `NoPlaces`, `NoMemory`.
pub fn canonical_column(
    texts: &[u8],
    offsets: &[i64],
    valid: &[u8],
    places: u32,
) -> Result<Column, Error> {
    let places = whole(places)?;
    let rows = offsets.len().saturating_sub(1);
    let likely = texts.len() + texts.len() / 4 + 64;
    // SAFETY: each pointer goes with the length of its slice, and nothing that is written is borrowed elsewhere.
    column_of(rows, offsets.len(), likely, |column, out, needed| unsafe {
        ffi::wkt_column_canonical(
            texts.as_ptr(),
            texts.len(),
            offsets.as_ptr(),
            offsets.len(),
            valid.as_ptr(),
            valid.len(),
            places,
            out.as_mut_ptr().cast(),
            out.len(),
            column.offsets.as_mut_ptr(),
            column.offsets.len(),
            column.statuses.as_mut_ptr(),
            column.statuses.len(),
            needed,
        )
    })
}

/// The column that a call writes, of so many rows and offsets.
fn column_of(
    rows: usize,
    offsets: usize,
    likely: usize,
    mut call: impl FnMut(&mut Column, &mut [MaybeUninit<u8>], &mut usize) -> u32,
) -> Result<Column, Error> {
    let mut column = Column {
        texts: String::new(),
        offsets: zeros(offsets)?,
        statuses: zeros(rows)?,
    };
    let texts = written(likely, |out, needed| call(&mut column, out, needed));
    column.texts = texts.map_err(Error::of_status)?;
    Ok(column)
}

/// The flat arrays of a column of whole texts, which is given as to [`canonical_column`]. They are those of the values as
/// they are read; for the same arrays of the same key, give it the column of canonical texts.
///
/// # Errors
/// As of [`canonical_column`].
pub fn arrays_of_column(
    texts: &[u8],
    offsets: &[i64],
    valid: &[u8],
    places: u32,
) -> Result<ColumnArrays, Error> {
    let flags = whole(places)?;
    let rows = offsets.len().saturating_sub(1);
    let mut sizes = ffi::WktColumnSizes {
        numbers: texts.len() / 8 + 8,
        rings: 2 * rows + 8,
        polygons: 2 * rows + 8,
    };
    let mut held = ColumnArrays {
        places,
        kinds: zeros(rows)?,
        dimensions: zeros(rows)?,
        statuses: zeros(rows)?,
        number_offsets: zeros(offsets.len())?,
        ring_offsets: zeros(offsets.len())?,
        polygon_offsets: zeros(offsets.len())?,
        numbers: Vec::new(),
        rings: Vec::new(),
        polygons: Vec::new(),
    };
    loop {
        lengthen(&mut held.numbers, sizes.numbers)?;
        lengthen(&mut held.rings, sizes.rings)?;
        lengthen(&mut held.polygons, sizes.polygons)?;
        match fill(texts, offsets, valid, flags, &mut sizes, &mut held) {
            names::OK => {}
            names::TOO_SMALL => continue,
            status => return Err(Error::of_status(status)),
        }
        held.numbers.truncate(sizes.numbers);
        held.rings.truncate(sizes.rings);
        held.polygons.truncate(sizes.polygons);
        return Ok(held);
    }
}

/// Fills the arrays of a column; its status.
fn fill(
    texts: &[u8],
    offsets: &[i64],
    valid: &[u8],
    places: u32,
    sizes: &mut ffi::WktColumnSizes,
    held: &mut ColumnArrays,
) -> u32 {
    // SAFETY: each pointer goes with the length of its slice, and nothing that is written is borrowed elsewhere.
    unsafe {
        ffi::wkt_column_arrays(
            texts.as_ptr(),
            texts.len(),
            offsets.as_ptr(),
            offsets.len(),
            valid.as_ptr(),
            valid.len(),
            places,
            sizes,
            held.kinds.as_mut_ptr(),
            held.kinds.len(),
            held.dimensions.as_mut_ptr(),
            held.dimensions.len(),
            held.numbers.as_mut_ptr(),
            held.numbers.len(),
            held.number_offsets.as_mut_ptr(),
            held.number_offsets.len(),
            held.rings.as_mut_ptr(),
            held.rings.len(),
            held.ring_offsets.as_mut_ptr(),
            held.ring_offsets.len(),
            held.polygons.as_mut_ptr(),
            held.polygons.len(),
            held.polygon_offsets.as_mut_ptr(),
            held.polygon_offsets.len(),
            held.statuses.as_mut_ptr(),
            held.statuses.len(),
        )
    }
}

/// The canonical texts of the arrays of a column. Of a row whose status isn't 0 the status is then 28, and 26 where a
/// row's arrays are of no geometry.
///
/// # Errors
/// `NotColumn`: the offsets or the sizes are of no column. `NoPlaces`, `NoMemory`.
pub fn texts_of_arrays(arrays: &ColumnArrays) -> Result<Column, Error> {
    let places = known(arrays.places)?;
    let rows = arrays.kinds.len();
    if arrays.statuses.len() != rows {
        return Err(Error::NotColumn);
    }
    let mut valid: Vec<u8> = zeros((rows + 7) / 8)?;
    for (i, status) in arrays.statuses.iter().enumerate() {
        valid[i / 8] |= u8::from(*status == names::OK) << (i % 8);
    }
    let likely = 12 * arrays.numbers.len() + 24 * rows + 64;
    // SAFETY: each pointer goes with the length of its slice, and nothing that is written is borrowed elsewhere.
    column_of(rows, rows + 1, likely, |column, out, needed| unsafe {
        ffi::wkt_column_from_arrays(
            arrays.kinds.as_ptr(),
            arrays.kinds.len(),
            arrays.dimensions.as_ptr(),
            arrays.dimensions.len(),
            arrays.numbers.as_ptr(),
            arrays.numbers.len(),
            arrays.number_offsets.as_ptr(),
            arrays.number_offsets.len(),
            arrays.rings.as_ptr(),
            arrays.rings.len(),
            arrays.ring_offsets.as_ptr(),
            arrays.ring_offsets.len(),
            arrays.polygons.as_ptr(),
            arrays.polygons.len(),
            arrays.polygon_offsets.as_ptr(),
            arrays.polygon_offsets.len(),
            valid.as_ptr(),
            valid.len(),
            places,
            out.as_mut_ptr().cast(),
            out.len(),
            column.offsets.as_mut_ptr(),
            column.offsets.len(),
            column.statuses.as_mut_ptr(),
            column.statuses.len(),
            needed,
        )
    })
}
