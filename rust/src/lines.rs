//! Inputs line by line.
use crate::error::Error;
use crate::memory::{lengthen, reserve, zeros};
use crate::text::{canonical, known, written};
use crate::{ffi, names};
use std::io::{self, BufRead, Read, Write};

/// For each line the canonical text of the geometry that it begins with, or `refused`, and a line feed: what the program
/// `wktstream` writes, if `places` is 18.
///
/// # Errors
/// `NoPlaces`, `NoMemory`.
pub fn lines(input: &[u8], places: u32) -> Result<String, Error> {
    let places = known(places)?;
    let likely = input.len() + input.len() / 4 + 64;
    // SAFETY: each pointer goes with the length of its slice, and nothing that is written is borrowed elsewhere.
    written(likely, |out, needed| unsafe {
        ffi::wkt_lines(
            input.as_ptr(),
            input.len(),
            places,
            out.as_mut_ptr().cast(),
            out.len(),
            needed,
        )
    })
    .map_err(Error::of_status)
}

// How much of an input is read and written at once, where its lines are shorter.
const BLOCK: usize = 128 * 1024;

/// Copies an input to an output, each line answered as by [`lines`], in buffers of 128 KiB, or as the longest line needs.
///
/// # Errors
/// Those of the input and the output. What the library refuses, as `NoPlaces`, is the source of an error.
pub fn stream(mut input: impl Read, mut output: impl Write, places: u32) -> io::Result<()> {
    let places = known(places)?;
    let (mut block, mut answers) = (zeros(BLOCK)?, zeros(BLOCK)?);
    let mut held = 0;
    loop {
        let came = match input.read(&mut block[held..]) {
            Ok(came) => came,
            Err(error) if error.kind() == io::ErrorKind::Interrupted => continue,
            Err(error) => return Err(error),
        };
        let is_last = came == 0;
        let ends_line = block[held..held + came].contains(&b'\n');
        held += came;
        // A call looks at all that it is given. So a line that comes in pieces is passed on once, when its end is there.
        if is_last || ends_line {
            let taken = write_answers(&block[..held], places, is_last, &mut answers, &mut output)?;
            block.copy_within(taken..held, 0);
            held -= taken;
        }
        if is_last {
            return output.flush();
        }
        if held == block.len() {
            lengthen(&mut block, 2 * held)?;
        }
    }
}

/// Writes the answers to all whole lines of an input: how many bytes these are.
fn write_answers(
    input: &[u8],
    places: u32,
    is_last: bool,
    answers: &mut Vec<u8>,
    output: &mut impl Write,
) -> io::Result<usize> {
    let mut done = 0;
    loop {
        let rest = &input[done..];
        match some_lines(rest, places, is_last, answers) {
            Ok((0, _)) => return Ok(done),
            Ok((taken, made)) => {
                output.write_all(&answers[..made])?;
                done += taken;
            }
            Err(names::TOO_SMALL) => {
                // As long as the answer to a line can be, so that each line is tried twice at most.
                let end = rest.iter().position(|byte| *byte == b'\n');
                let most = 2 * end.unwrap_or(rest.len()) + 8;
                let len = most.max(2 * answers.len());
                lengthen(answers, len)?;
            }
            Err(status) => return Err(Error::of_status(status).into()),
        }
    }
}

/// Answers as many whole lines as fit: how many bytes they are, and how many their answers.
fn some_lines(
    input: &[u8],
    places: u32,
    is_last: bool,
    out: &mut [u8],
) -> Result<(usize, usize), u32> {
    let (mut taken, mut made) = (0, 0);
    // SAFETY: each pointer goes with the length of its slice, and nothing that is written is borrowed elsewhere.
    let status = unsafe {
        ffi::wkt_lines_some(
            input.as_ptr(),
            input.len(),
            places,
            u32::from(is_last),
            out.as_mut_ptr(),
            out.len(),
            &mut taken,
            &mut made,
        )
    };
    match status {
        names::OK => Ok((taken, made)),
        status => Err(status),
    }
}

/// The canonical text of each line of a reader. Made by [`read_lines`].
#[derive(Debug)]
pub struct Lines<R> {
    reader: R,
    places: u32,
    number: u64,
    line: Vec<u8>,
}

/// The canonical text of each line of a reader, each line a text as a whole; or why it has none. The line of a refusal is
/// that of the input.
///
/// ```
/// let input = b"point(1 2.50)\nPOINT(1)\n";
/// let mut lines = wkt_proved::read_lines(&input[..], 6);
/// assert_eq!(lines.next().unwrap()?, Ok("POINT(1 2.5)".to_string()));
/// let why = lines.next().unwrap()?.unwrap_err();
/// assert_eq!(why.to_string(), "2:8: a second number was expected");
/// assert!(lines.next().is_none());
/// # Ok::<(), std::io::Error>(())
/// ```
///
/// Its items are `Err` where the reader fails, or memory lacks for a line. If it is asked on, the line that it was in goes on where the reader does.
pub fn read_lines<R: BufRead>(reader: R, places: u32) -> Lines<R> {
    Lines {
        reader,
        places,
        number: 0,
        line: Vec::new(),
    }
}

// How much of a line is taken from its reader at once.
const PIECE: usize = 8 * 1024;

/// Adds what a reader gives, up to the end of a line or its own.
fn read_line(reader: &mut impl BufRead, line: &mut Vec<u8>) -> io::Result<()> {
    loop {
        let most = match reader.fill_buf() {
            Ok(held) => held.len().min(PIECE),
            Err(error) if error.kind() == io::ErrorKind::Interrupted => continue,
            Err(error) => return Err(error),
        };
        // So what is read here takes no more memory.
        reserve(line, most)?;
        let came = reader.take(most as u64).read_until(b'\n', line)?;
        if came == 0 || line.ends_with(b"\n") {
            return Ok(());
        }
    }
}

impl<R: BufRead> Iterator for Lines<R> {
    type Item = io::Result<Result<String, Error>>;

    fn next(&mut self) -> Option<Self::Item> {
        // What was read of a line before the reader failed is still there.
        match read_line(&mut self.reader, &mut self.line) {
            Ok(()) if self.line.is_empty() => return None,
            Ok(()) => self.number += 1,
            Err(error) => return Some(Err(error)),
        }
        if self.line.last() == Some(&b'\n') {
            self.line.pop();
        }
        let answer = match std::str::from_utf8(&self.line) {
            Ok(text) => canonical(text, self.places),
            Err(_) => Err(Error::NotUtf8),
        };
        self.line.clear();
        Some(Ok(answer.map_err(|error| match error {
            Error::Refused(mut refusal) => {
                refusal.line = self.number;
                Error::Refused(refusal)
            }
            error => error,
        })))
    }
}
