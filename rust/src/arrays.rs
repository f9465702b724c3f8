//! A geometry as flat arrays.
use crate::error::Error;
use crate::kinds::{Dimension, GeometryType};
use crate::memory::room;
use crate::text::{error_of, known, whole, written, LATER, WHOLE};
use crate::{ffi, names};

/// A geometry that is no collection as flat arrays.
///
/// A line string, a line and a point (of one coordinate, or none if it is empty) count as a ring, and the rings of each
/// kind but `MultiPolygon` as one polygon: a Point has `rings` 0, 1 and `polygons` 0, 1.
#[derive(Debug, Clone, PartialEq, Eq)]
pub struct Arrays {
    /// Its kind; no collection.
    pub kind: GeometryType,
    /// Its dimension.
    pub dimension: Dimension,
    /// How many digits after the point the units of the numbers stand for.
    pub places: u32,
    /// The numbers, coordinate after coordinate: whole units of ten to the minus `places`. With 16 places they hold up to
    /// 922.3, with 18 up to 9.22, and with 19 and more no whole number but 0.
    pub numbers: Vec<i64>,
    /// Where each ring begins among the coordinates, and the end of the last.
    pub rings: Vec<usize>,
    /// Where each polygon begins among the rings, and the end of the last.
    pub polygons: Vec<usize>,
}

/// The geometry that a text is as flat arrays.
///
/// The arrays are those of the value as it is read. So `POLYGON(EMPTY,(1 2))` has other arrays than `POLYGON EMPTY`, which is
/// its canonical text. For the same arrays of the same key, take those of [`canonical`](crate::canonical).
///
/// ```
/// use wkt_proved::{arrays, Dimension};
///
/// let line = arrays("LINESTRING Z(1 2 3.5,4 5 6)", 1)?;
/// assert_eq!(line.dimension, Dimension::XYZ);
/// assert_eq!(line.numbers, [10, 20, 35, 40, 50, 60]);
/// assert_eq!(line.text()?, "LINESTRING Z(1 2 3.5,4 5 6)");
/// # Ok::<(), wkt_proved::Error>(())
/// ```
///
/// # Errors
/// [`Refused`](Error::Refused), as of [`canonical`](crate::canonical). `Collection`, `TooLarge`, `NoPlaces`, `NoMemory`.
pub fn arrays(text: &str, places: u32) -> Result<Arrays, Error> {
    arrays_of(text, whole(places)?)
}

/// The same, as `places` for the C library says.
pub(crate) fn arrays_of(text: &str, flags: u32) -> Result<Arrays, Error> {
    let mut sizes = ffi::WktSizes {
        numbers: text.len() / 2 + 4,
        rings: 8,
        polygons: 8,
        ..Default::default()
    };
    loop {
        let mut numbers: Vec<i64> = room(sizes.numbers)?;
        let mut rings: Vec<usize> = room(sizes.rings)?;
        let mut polygons: Vec<usize> = room(sizes.polygons)?;
        // SAFETY: each pointer goes with the room of its list, and nothing that is written is borrowed elsewhere.
        let status = unsafe {
            ffi::wkt_arrays(
                text.as_ptr(),
                text.len(),
                flags,
                &mut sizes,
                numbers.as_mut_ptr(),
                numbers.capacity(),
                rings.as_mut_ptr(),
                rings.capacity(),
                polygons.as_mut_ptr(),
                polygons.capacity(),
            )
        };
        match status {
            names::OK => {}
            names::TOO_SMALL => continue,
            status => return Err(error_of(status, text, flags)),
        }
        // SAFETY: so many of each are written.
        unsafe {
            numbers.set_len(sizes.numbers);
            rings.set_len(sizes.rings);
            polygons.set_len(sizes.polygons);
        }
        return Ok(Arrays {
            kind: GeometryType::from_number(sizes.kind).ok_or(LATER)?,
            dimension: Dimension::from_number(sizes.dimension).ok_or(LATER)?,
            places: flags % WHOLE,
            numbers,
            rings,
            polygons,
        });
    }
}

impl Arrays {
    /// The canonical text of the geometry.
    ///
    /// # Errors
    /// `NotArrays`: the arrays are of no geometry, as two numbers where a coordinate has three. `NoPlaces`, `NoMemory`.
    pub fn text(&self) -> Result<String, Error> {
        let places = known(self.places)?;
        // SAFETY: each pointer goes with the length of its slice, and nothing that is written is borrowed elsewhere.
        written(16 * self.numbers.len() + 32, |out, needed| unsafe {
            ffi::wkt_from_arrays(
                self.kind as u32,
                self.dimension as u32,
                self.numbers.as_ptr(),
                self.numbers.len(),
                self.rings.as_ptr(),
                self.rings.len(),
                self.polygons.as_ptr(),
                self.polygons.len(),
                places,
                out.as_mut_ptr().cast(),
                out.len(),
                needed,
            )
        })
        .map_err(Error::of_status)
    }
}
