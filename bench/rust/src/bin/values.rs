//! The program of `rust/examples/values.rs` over the Rust crate `wkt`, with the same input and the same fields. Where the
//! crate panics, a field is `panic`.
use std::fmt::Display;
use std::io::{self, BufRead, Write};
use std::panic::{catch_unwind, RefUnwindSafe};
use std::str::FromStr;

use wkt::{Wkt, WktNum};

fn fields<T: WktNum + FromStr + Default + Display + RefUnwindSafe>(text: &str) -> String {
    match Wkt::<T>::from_str(text) {
        Ok(value) => {
            let shown = catch_unwind(|| value.to_string());
            format!("{value:?}\t{}", shown.unwrap_or_else(|_| "panic".to_string()))
        }
        Err(message) => format!("{message}\t{message}"),
    }
}

fn main() -> io::Result<()> {
    std::panic::set_hook(Box::new(|_| {}));
    let mut out = io::BufWriter::new(io::stdout().lock());
    for line in io::stdin().lock().lines() {
        let line = line?;
        let digits = line.as_bytes().chunks_exact(2);
        let bytes = digits.map(|pair| std::str::from_utf8(pair).map_or(Ok(0), |pair| u8::from_str_radix(pair, 16)));
        let bytes: Vec<u8> = bytes.map(|byte| byte.expect("two digits")).collect();
        match std::str::from_utf8(&bytes) {
            Ok(text) => writeln!(out, "{}\t{}", fields::<f64>(text), fields::<i64>(text))?,
            Err(_) => writeln!(out, "not UTF-8\t\tnot UTF-8\t")?,
        }
    }
    out.flush()
}
