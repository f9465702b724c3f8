//! What `bench/operations.sh` counts: `operations decimal|i64 OPERATION < LINES`, with the arguments and the output of the
//! program `bench/rust/src/bin/operations.rs`. `decimal` stands for `Decimal<18>`, or for `f64` where FLOATS is set.
use std::io::Read;
use wkt_proved::{Decimal, Wkt, WktNum};

/// Does the operation to a line, and returns the size of its answer.
fn answer<T: WktNum>(operation: &str, line: &str) -> Option<usize> {
    if operation == "lines" {
        return Some(line.len());
    }
    let geometry: Wkt<T> = line.parse().ok()?;
    match operation {
        "parse" => Some(geometry.dimension().size()),
        "to_string" | "display" | "canonical" => Some(geometry.to_string().len()),
        _ => panic!("{operation} is none of the operations"),
    }
}

fn run<T: WktNum>(operation: &str, text: &str) {
    let sizes = text.lines().map(|line| answer::<T>(operation, line));
    let (mut lines, mut answered, mut size) = (0, 0, 0);
    for one in sizes {
        lines += 1;
        answered += usize::from(one.is_some());
        size += one.unwrap_or(0);
    }
    println!("{operation}: {answered} of {lines} lines answered, {size} in all");
}

fn main() -> std::io::Result<()> {
    let words: Vec<String> = std::env::args().skip(1).collect();
    let mut text = String::new();
    std::io::stdin().lock().read_to_string(&mut text)?;
    for operation in &words[1..] {
        match words[0].as_str() {
            "decimal" if std::env::var_os("FLOATS").is_some() => run::<f64>(operation, &text),
            "decimal" => run::<Decimal<18>>(operation, &text),
            _ => run::<i64>(operation, &text),
        }
    }
    Ok(())
}
