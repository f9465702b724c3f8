//! What `wkt_tables count` does, over the Rust crate `wkt`, with the same arguments and the same output:
//! `operations decimal|i64 OPERATION.. < LINES`, where `decimal` stands for `f64`.
use std::fmt::Display;
use std::hint::black_box;
use std::io::Read;
use std::str::FromStr;

use geo_types::{CoordNum, Geometry};
use wkt::to_wkt::write_geometry;
use wkt::types::Dimension;
use wkt::{infer_type, ToWkt, TryFromWkt, Wkt};

/// What is done to a line, as in `crates/wkt_tables/src/operations.rt`.
#[derive(Clone, Copy)]
enum Operation {
    Lines,
    Parse,
    ToString,
    Display,
    Push,
    ToFlat,
    Canonical,
    Flat,
    ToWkt,
    WktString,
    WriteWkt,
    Infer,
}

impl Operation {
    fn named(word: &str) -> Option<Operation> {
        match word {
            "lines" => Some(Operation::Lines),
            "parse" => Some(Operation::Parse),
            "to_string" => Some(Operation::ToString),
            "display" => Some(Operation::Display),
            "push" => Some(Operation::Push),
            "to_flat" => Some(Operation::ToFlat),
            "canonical" => Some(Operation::Canonical),
            "flat" => Some(Operation::Flat),
            "to_wkt" => Some(Operation::ToWkt),
            "wkt_string" => Some(Operation::WktString),
            "write_wkt" => Some(Operation::WriteWkt),
            "infer" => Some(Operation::Infer),
            _ => None,
        }
    }
}

trait Number: CoordNum + FromStr + Default + Display {}

impl<T: CoordNum + FromStr + Default + Display> Number for T {}

/// Does the operation to a line, and returns the size of its answer, as `wkt_tables` has it. What the crate doesn't
/// have is done by what it has: a canonical text by reading and writing.
fn answer<T: Number>(operation: Operation, line: &str, buffer: &mut Vec<u8>) -> Option<usize> {
    match operation {
        Operation::Lines => Some(line.len()),
        Operation::Parse
        | Operation::ToString
        | Operation::Display
        | Operation::Push
        | Operation::ToFlat
        | Operation::Canonical => {
            let geometry = Wkt::<T>::from_str(line).ok()?;
            black_box(&geometry);
            from_wkt(operation, geometry)
        }
        Operation::Flat | Operation::ToWkt | Operation::WktString | Operation::WriteWkt => {
            let flat = Geometry::<T>::try_from_wkt_str(line).ok()?;
            from_flat(operation, black_box(&flat), buffer)
        }
        Operation::Infer => {
            let (_, dimension) = black_box(infer_type(line).ok()?);
            Some(if dimension == Dimension::XY { 2 } else { 3 })
        }
    }
}

fn from_wkt<T: Number>(operation: Operation, geometry: Wkt<T>) -> Option<usize> {
    match operation {
        Operation::ToString | Operation::Display | Operation::Canonical => {
            Some(black_box(geometry.to_string()).len())
        }
        Operation::Push => {
            let mut text = String::new();
            write_geometry(&mut text, &geometry).ok()?;
            Some(black_box(text).len())
        }
        Operation::ToFlat => Some(size_of_flat(&Geometry::<T>::try_from(geometry).ok()?)),
        _ => Some(1),
    }
}

fn from_flat<T: Number>(
    operation: Operation,
    flat: &Geometry<T>,
    buffer: &mut Vec<u8>,
) -> Option<usize> {
    match operation {
        Operation::ToWkt => Some(size_of_wkt(&flat.to_wkt())),
        Operation::WktString => Some(black_box(flat.wkt_string()).len()),
        Operation::WriteWkt => {
            flat.write_wkt(&mut *buffer).ok()?;
            Some(black_box(buffer).len())
        }
        _ => Some(1),
    }
}

#[inline(never)]
fn size_of_wkt<T: Number>(geometry: &Wkt<T>) -> usize {
    match black_box(geometry).dimension() {
        Dimension::XY => 2,
        Dimension::XYZ | Dimension::XYM => 3,
        Dimension::XYZM => 4,
    }
}

#[inline(never)]
fn size_of_flat<T: Number>(geometry: &Geometry<T>) -> usize {
    match black_box(geometry) {
        Geometry::Point(_) => 1,
        _ => 0,
    }
}

/// Prints how many lines were answered, of how many, and the size of all answers.
fn run<T: Number>(word: &str, text: &str) {
    let operation = Operation::named(word).expect("an operation");
    let (mut lines, mut answered, mut size) = (0u64, 0u64, 0usize);
    let mut buffer = Vec::new();
    for line in text.lines() {
        lines += 1;
        buffer.clear();
        if let Some(it) = answer::<T>(operation, line, &mut buffer) {
            answered += 1;
            size += it;
        }
    }
    println!("{word}: {answered} of {lines} lines answered, {size} in all");
}

fn main() -> std::io::Result<()> {
    let words: Vec<String> = std::env::args().skip(1).collect();
    let (number, operations) = words
        .split_first()
        .expect("name decimal or i64, and operations");
    let mut text = String::new();
    std::io::stdin().lock().read_to_string(&mut text)?;
    for word in operations {
        match number.as_str() {
            "decimal" => run::<f64>(word, &text),
            "i64" => run::<i64>(word, &text),
            _ => panic!("name decimal or i64, and operations"),
        }
    }
    Ok(())
}
