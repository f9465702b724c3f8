//! The Rust crate: rust ROWS
use std::io::{self, BufReader, Write};
use wkt_proved as wkt;

struct Row {
    n: usize,
    places: u32,
    whole: bool,
    bytes: Vec<u8>,
    other: Option<String>,
    dialects: String,
}

fn unhex(text: &str) -> Vec<u8> {
    let digit = |at: usize| u8::from_str_radix(&text[at..at + 2], 16).unwrap();
    (0..text.len()).step_by(2).map(digit).collect()
}

fn rows() -> Vec<Row> {
    let file = std::fs::read_to_string(std::env::args().nth(1).unwrap()).unwrap();
    let row = |(n, line): (usize, &str)| {
        let parts: Vec<&str> = line.split('\t').collect();
        Row {
            n,
            places: parts[0].parse().unwrap(),
            whole: parts[1] == "1",
            bytes: unhex(parts[2]),
            other: String::from_utf8(unhex(parts[3])).ok(),
            dialects: parts[4].to_string(),
        }
    };
    file.lines().enumerate().map(row).collect()
}

fn say(form: &str, n: usize, answer: impl std::fmt::Display) {
    writeln!(io::stdout(), "{form}\t{n}\t{answer}").unwrap();
}

fn status(error: wkt::Error) -> String {
    match error {
        wkt::Error::Refused(why) => format!("!{}", why.status),
        wkt::Error::NotUtf8 => "!20".to_string(),
        wkt::Error::Collection => "!24".to_string(),
        wkt::Error::TooLarge => "!25".to_string(),
        error => format!("!{error}"),
    }
}

fn or_status<T>(answer: Result<T, wkt::Error>, words: impl Fn(T) -> String) -> String {
    answer.map_or_else(status, words)
}

fn joined<T: ToString>(parts: &[T]) -> String {
    parts.iter().map(T::to_string).collect::<Vec<_>>().join(",")
}

type Parts<'a> = (&'a [i64], &'a [usize], &'a [usize]);

fn arrays_words(kind: wkt::GeometryType, dimension: wkt::Dimension, parts: Parts) -> String {
    let words = (joined(parts.0), joined(parts.1), joined(parts.2));
    format!("{kind} {dimension:?} {} {} {}", words.0, words.1, words.2)
}

fn explained(why: Result<Option<wkt::Refusal>, wkt::Error>) -> String {
    let words = why.unwrap().map(|it| {
        let hint = it.hint.map_or(String::new(), |it| it.to_string());
        format!("{} {} {} {}|{hint}", it.status, it.start, it.stop, it.expected)
    });
    words.unwrap_or_else(|| "-".to_string())
}

/// Calls of one text; the crate asks for whole texts, but for `front` and `infer_type`.
fn single(row: &Row, text: &str) {
    let (n, places) = (row.n, row.places);
    let front = wkt::front(text, places);
    say("front.one", n, or_status(front, |it| format!("{} {}", it.end, it.text)));
    #[cfg(dialects)]
    say_srid(n, text);
    let kind = wkt::infer_type(text).map(|(kind, dimension)| format!("{kind} {dimension:?}"));
    let words = ["", "No kind word", "No space before EMPTY", "Neither a parenthesis nor EMPTY"];
    let number = |error: wkt::InferError| words.iter().position(|it| *it == error.to_string()).unwrap();
    say("infer.one", n, kind.unwrap_or_else(|error| format!("!{}", number(error))));
    if !row.whole {
        return;
    }
    say("canonical.one", n, or_status(wkt::canonical(text, places), |it| it));
    say("explain.one", n, explained(wkt::explain(text, places)));
    if let Some(other) = &row.other {
        let same = wkt::same(text, other, places);
        say("same.one", n, same.map_or("!", |it| if it { "t" } else { "f" }));
    }
    let held = wkt::arrays(text, places);
    if let Ok(arrays) = &held {
        say("back.one", n, or_status(arrays.text(), |it| it));
    }
    let words = |it: wkt::Arrays| arrays_words(it.kind, it.dimension, (&it.numbers, &it.rings, &it.polygons));
    say("arrays.one", n, or_status(held, words));
}

#[cfg(dialects)]
fn say_srid(n: usize, text: &str) {
    say("srid.one", n, wkt::srid(text).unwrap().map_or_else(|| "null".to_string(), |it| it.0.to_string()));
}

/// The same of one whole text in dialects, where the crate has calls in them.
#[cfg(dialects)]
fn in_dialects(row: &Row, text: &str) {
    let (n, places, dialects) = (row.n, row.places, row.dialects.parse::<wkt::Dialects>().unwrap());
    say_srid(n, text);
    if !row.whole {
        return;
    }
    say("canonical.one", n, or_status(dialects.canonical(text, places), |it| it));
    say("explain.one", n, explained(dialects.explain(text, places)));
    if let Some(other) = &row.other {
        let same = dialects.same(text, other, places);
        say("same.one", n, same.map_or("!", |it| if it { "t" } else { "f" }));
    }
    let words = |it: wkt::Arrays| arrays_words(it.kind, it.dimension, (&it.numbers, &it.rings, &it.polygons));
    say("arrays.one", n, or_status(dialects.arrays(text, places), words));
}

/// Calls of many: columns of whole texts, and lines.
fn many(rows: &[&Row], places: u32, whole: bool) {
    let mut lines = Vec::new();
    for row in rows {
        lines.extend(row.bytes.iter().map(|it| if *it == b'\n' { b' ' } else { *it }));
        lines.push(b'\n');
    }
    for (row, answer) in rows.iter().zip(wkt::lines(&lines, places).unwrap().lines()) {
        say("line.all", row.n, answer);
    }
    let mut streamed = Vec::new();
    wkt::stream(&lines[..], &mut streamed, places).unwrap();
    for (row, answer) in rows.iter().zip(String::from_utf8(streamed).unwrap().lines()) {
        say("line.stream", row.n, answer);
    }
    if !whole {
        return;
    }
    let reader = BufReader::with_capacity(1400, &lines[..]);
    for (row, answer) in rows.iter().zip(wkt::read_lines(reader, places)) {
        say("canonical.read_lines", row.n, or_status(answer.unwrap(), |it| it));
    }
    let (mut texts, mut offsets) = (Vec::new(), vec![0]);
    for row in rows {
        texts.extend(&row.bytes);
        offsets.push(texts.len() as i64);
    }
    let column = wkt::canonical_column(&texts, &offsets, &[], places).unwrap();
    let held = wkt::arrays_of_column(&texts, &offsets, &[], places).unwrap();
    let back = wkt::texts_of_arrays(&held).unwrap();
    let cut = |offsets: &[i64], i: usize| offsets[i] as usize..offsets[i + 1] as usize;
    for (i, row) in rows.iter().enumerate() {
        let said = |column: &wkt::Column| column.row(i).unwrap().map_or_else(|s| format!("!{s}"), str::to_string);
        say("canonical.column", row.n, said(&column));
        let mut words = format!("!{}", held.statuses[i]);
        if held.statuses[i] == 0 {
            let parts = (
                &held.numbers[cut(&held.number_offsets, i)],
                &held.rings[cut(&held.ring_offsets, i)],
                &held.polygons[cut(&held.polygon_offsets, i)],
            );
            let kind = wkt::GeometryType::from_number(held.kinds[i]).unwrap();
            let dimension = wkt::Dimension::from_number(held.dimensions[i]).unwrap();
            words = arrays_words(kind, dimension, parts);
            say("back.column", row.n, said(&back));
        }
        say("arrays.column", row.n, words);
    }
}

fn main() {
    let (rows, others): (Vec<Row>, Vec<Row>) = rows().into_iter().partition(|it| it.dialects.is_empty());
    #[cfg(dialects)]
    for row in &others {
        if let Ok(text) = std::str::from_utf8(&row.bytes) {
            in_dialects(row, text);
        }
    }
    drop(others);
    for row in &rows {
        if let Ok(text) = std::str::from_utf8(&row.bytes) {
            single(row, text);
        }
    }
    for places in 0..=36 {
        for whole in [true, false] {
            let group: Vec<&Row> = rows.iter().filter(|it| it.places == places && it.whole == whole).collect();
            many(&group, places, whole);
        }
    }
}
