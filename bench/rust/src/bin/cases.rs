//! What the Rust crate `wkt` answers to each line of standard input, over `f64`: the text that it writes of the geometry
//! that it reads, or its message, or `panic`.
use std::io::{BufRead, Write};
use std::panic::catch_unwind;
use std::str::FromStr;

use wkt::Wkt;

fn answer(text: &str) -> String {
    match Wkt::<f64>::from_str(text) {
        Ok(geometry) => catch_unwind(|| geometry.to_string()).unwrap_or_else(|_| "panic".to_string()),
        Err(message) => message.to_string(),
    }
}

fn main() -> std::io::Result<()> {
    std::panic::set_hook(Box::new(|_| {}));
    let mut out = std::io::stdout().lock();
    for line in std::io::stdin().lock().split(b'\n') {
        let line = line?;
        writeln!(out, "{}", std::str::from_utf8(&line).map_or("not UTF-8".to_string(), answer))?;
    }
    Ok(())
}
