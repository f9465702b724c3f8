//! The same program over the Rust crate `wkt`, with `f64` numbers: each line of standard input is answered with the
//! text of the geometry that it begins with, or with `refused`.
use std::io::{Read, Write};
use std::str::FromStr;

use wkt::Wkt;

fn answer(line: &[u8]) -> Option<String> {
    let text = std::str::from_utf8(line).ok()?;
    let geometry = Wkt::<f64>::from_str(text).ok()?;
    Some(geometry.to_string())
}

fn main() -> std::io::Result<()> {
    let mut input = Vec::new();
    std::io::stdin().lock().read_to_end(&mut input)?;
    let mut out = Vec::new();
    for line in input.strip_suffix(b"\n").unwrap_or(&input).split(|byte| *byte == b'\n') {
        out.extend_from_slice(answer(line).as_deref().unwrap_or("refused").as_bytes());
        out.push(b'\n');
    }
    std::io::stdout().lock().write_all(&out)
}
