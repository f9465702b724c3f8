//! What a text is as a value, for `tests/by_hand/rust_values.py`: of each line of standard input, which is the bytes of a text
//! in hexadecimal, a row of four fields: over `f64` the value and its text, or the message twice, and so over `i64`. The
//! program `bench/rust/src/bin/values.rs` is the same over the crate `wkt`.
use std::io::{self, BufRead, Write};
use wkt_proved::{Error, Wkt, WktNum};

fn fields<T: WktNum>(text: &str) -> String {
    match text.parse::<Wkt<T>>() {
        Ok(value) => format!("{value:?}\t{value}"),
        Err(Error::Refused(why)) => format!("{}\t{why}", why.message),
        Err(error) => format!("{error}\t{error}"),
    }
}

fn main() -> io::Result<()> {
    let mut out = io::BufWriter::new(io::stdout().lock());
    for line in io::stdin().lock().lines() {
        let line = line?;
        let digits = line.as_bytes().chunks_exact(2);
        let bytes = digits.map(|pair| {
            std::str::from_utf8(pair).map_or(Ok(0), |pair| u8::from_str_radix(pair, 16))
        });
        let bytes: Vec<u8> = bytes.map(|byte| byte.expect("two digits")).collect();
        match std::str::from_utf8(&bytes) {
            Ok(text) => writeln!(out, "{}\t{}", fields::<f64>(text), fields::<i64>(text))?,
            Err(_) => writeln!(out, "not UTF-8\t\tnot UTF-8\t")?,
        }
    }
    out.flush()
}
