//! The geometry that a text begins with.
use crate::error::Error;
use crate::text::{canonical_at, error_of, is_refusal, known};

/// The geometry that a text begins with.
#[derive(Debug, Clone, PartialEq, Eq)]
pub struct Front {
    /// Its canonical text.
    pub text: String,
    /// Where it ends in the text, in bytes.
    pub end: usize,
}

// How much of a text is tried first: most geometries are shorter.
const FIRST: usize = 512;

/// The first so many bytes of a text, or some fewer, so that no character is cut.
fn beginning(text: &str, most: usize) -> &str {
    let mut end = most.min(text.len());
    while !text.is_char_boundary(end) {
        end -= 1;
    }
    &text[..end]
}

/// The geometry that a text begins with, whatever follows it.
///
/// It looks at little more than that geometry. So a text of many geometries is read in time that grows with its length:
///
/// ```
/// let mut rest = "POINT(1 2), POINT EMPTY, point(3 4.0)";
/// let mut keys = Vec::new();
/// while !rest.is_empty() {
///     let front = wkt_proved::front(rest, 6)?;
///     rest = rest[front.end..].trim_start_matches([',', ' ']);
///     keys.push(front.text);
/// }
/// assert_eq!(keys, ["POINT(1 2)", "POINT EMPTY", "POINT(3 4)"]);
/// # Ok::<(), wkt_proved::Error>(())
/// ```
///
/// # Errors
/// [`Refused`](Error::Refused): no geometry comes next. `NoPlaces`, `NoMemory`.
pub fn front(text: &str, places: u32) -> Result<Front, Error> {
    let places = known(places)?;
    let mut most = FIRST;
    loop {
        let piece = beginning(text, most);
        let is_all = piece.len() == text.len();
        match canonical_at(piece, places) {
            // A word at the piece's end might go on behind it.
            Ok((text, end)) if is_all || end < piece.len() => return Ok(Front { text, end }),
            Err(status) if is_all || !is_refusal(status) => {
                return Err(error_of(status, piece, places))
            }
            // What is refused within the piece is refused for good. Which message it has may depend on what follows.
            Err(status) if is_refused_within(piece, status, places) => {
                return Err(error_of(status, text, places))
            }
            _ => most = most.saturating_mul(2),
        }
    }
}

fn is_refused_within(piece: &str, status: u32, places: u32) -> bool {
    match error_of(status, piece, places) {
        Error::Refused(refusal) => refusal.stop < piece.len(),
        _ => false,
    }
}
