//! What is asked of the library for one input, and compared with the plain reader.
use crate::c_calls;
use crate::fixed::Guarded;
use crate::reader::{self, infer, message, output, read_front, text as text_of, whole, NoKind, Numbers, Reader, Value};
use std::sync::OnceLock;

extern "C" {
    // The function of program.txt: a slice is a pointer and a length.
    fn wkt_fuzz(
        op: u32,
        text: *const u8,
        text_len: usize,
        out: *mut u8,
        out_len: usize,
        needed: *mut usize,
        end: *mut usize,
    ) -> u32;
    pub static mut heap_held: i64;
    pub static mut heap_calls: i64;
    pub static mut heap_fail_at: i64;
}

const ROOM: usize = 1 << 20;
const NO_END: usize = usize::MAX;
/// The first and the last of the operations that read the front over a number type.
const FRONTS: std::ops::RangeInclusive<u32> = 1..=14;
const OPERATIONS: [u32; 33] = [
    0, 1, 2, 3, 4, 5, 6, 7, 8, 9, 10, 11, 12, 13, 14, 15, 16, 17, 18, 19, 20, 21, 22, 23, 24, 30, 31, 32, 33, 34, 40, 41,
    42,
];

#[derive(Clone, PartialEq, Eq)]
pub struct Said {
    status: u32,
    answer: Vec<u8>,
    end: usize,
}

impl std::fmt::Debug for Said {
    fn fmt(&self, f: &mut std::fmt::Formatter) -> std::fmt::Result {
        write!(f, "status {} end {} answer \"{}\"", self.status, self.end as isize, self.answer.escape_ascii())
    }
}

fn said(status: u32, answer: &[u8], end: usize) -> Said {
    Said { status, answer: answer.to_vec(), end }
}

fn refused(reason: usize) -> Said {
    said(1, message(reason).as_bytes(), NO_END)
}

/// What the library says; no allocation is held after the call.
fn library(op: u32, text: &[u8]) -> Said {
    library_with(op, text, NO_END)
}

/// The same, with something for the operation to begin with.
fn library_with(op: u32, text: &[u8], mut end: usize) -> Said {
    static mut OUT: [u8; ROOM] = [0; ROOM];
    let mut needed = 0;
    unsafe {
        heap_calls = 0;
        let out = &raw mut OUT as *mut u8;
        let status = wkt_fuzz(op, text.as_ptr(), text.len(), out, ROOM, &mut needed, &mut end);
        assert!(status != 3 && needed <= ROOM, "no room at operation {op}");
        let held = heap_held;
        if held != 0 {
            fail(op, text, &format!("{held} allocations are held after the call"));
        }
        Said { status, answer: std::slice::from_raw_parts(out, needed).to_vec(), end }
    }
}

fn numbers(op: u32) -> Numbers {
    match op {
        1 => Numbers::Decimal(18),
        2 => Numbers::Decimal(0),
        3 => Numbers::Decimal(36),
        4 => Numbers::Decimal(6),
        18 | 19 => Numbers::Long,
        5 => whole::<i8>(),
        6 => whole::<i16>(),
        7 => whole::<i32>(),
        8 => whole::<i64>(),
        9 => whole::<i128>(),
        10 => whole::<u8>(),
        11 => whole::<u16>(),
        12 => whole::<u32>(),
        13 => whole::<u64>(),
        _ => whole::<u128>(),
    }
}

fn front(text: &str, numbers: Numbers) -> Said {
    match read_front(text, numbers) {
        Ok((value, end)) => said(0, text_of(&value).as_bytes(), end),
        Err(reason) => refused(reason),
    }
}

fn header(text: &str) -> Said {
    match infer(text) {
        Ok((kind, dimension)) => said(0, b"", kind * 4 + dimension),
        Err(NoKind::Prefix(prefix)) => said(1, prefix.as_bytes(), 1),
        Err(NoKind::NoSpace) => said(1, b"", 2),
        Err(NoKind::NoParenthesis) => said(1, b"", 3),
    }
}

/// Every geometry of a text, one after the other, until one is refused or, of a stream of lexemes, none is left.
fn fronts(text: &str, stream: bool) -> Said {
    let mut out = vec![];
    let mut reader = Reader::new(text, Numbers::Decimal(18));
    while !(stream && reader.is_at_end()) {
        match reader.geometry(false) {
            Ok(value) => {
                out.extend(text_of(&value).into_bytes());
                out.push(b'\n');
            }
            Err(reason) => {
                out.extend(message(reason).as_bytes());
                return said(1, &out, NO_END);
            }
        }
    }
    said(0, &out, NO_END)
}

/// A text that is one geometry, with white space around it; else where that geometry ends.
fn whole_text(text: &str) -> Said {
    match read_front(text, Numbers::Decimal(18)) {
        Err(reason) => refused(reason),
        Ok((_, end)) if text[end..].contains(|c| !" \n\r\t".contains(c)) => said(5, b"", end),
        Ok((value, _)) => said(0, text_of(&value).as_bytes(), NO_END),
    }
}

/// Whether the two geometries that a text begins with are one.
fn pair(text: &str) -> Said {
    let read = |text| read_front(text, Numbers::Decimal(18));
    match read(text).and_then(|(one, end)| read(&text[end..]).map(|(other, _)| text_of(&one) == text_of(&other))) {
        Ok(same) => said(0, b"", same as usize),
        Err(reason) => refused(reason),
    }
}

/// The geometry at the front of the data and, if there is one, the same with one thing changed.
fn doubled(data: &[u8], salt: usize) -> Vec<u8> {
    let read = std::str::from_utf8(data).ok().and_then(|text| read_front(text, Numbers::Decimal(18)).ok());
    let front = &data[..read.map_or(data.len(), |(_, end)| end)];
    [front, b" ", &c_calls::changed(front, salt)].concat()
}

fn flat_path(path: &reader::Path) -> reader::Path {
    path.iter().map(|coord| coord[..2].to_vec()).collect()
}

fn flat_rings(rings: &[reader::Path]) -> Vec<reader::Path> {
    let closed = |ring: &reader::Path| {
        let mut ring = flat_path(ring);
        if ring.first() != ring.last() {
            ring.push(ring[0].clone());
        }
        ring
    };
    rings.iter().map(closed).collect()
}

/// The two-dimensional value (docs/CALLING.md): z and m are dropped, rings are closed, an empty Point is an empty
/// MultiPoint; none where a MultiPoint has an empty member.
fn flat_value(value: &Value) -> Option<Value> {
    Some(match value {
        Value::Point(_, None) => Value::MultiPoint(0, vec![]),
        Value::Point(_, Some(coord)) => Value::Point(0, Some(coord[..2].to_vec())),
        Value::LineString(_, path) => Value::LineString(0, flat_path(path)),
        Value::Polygon(_, rings) => Value::Polygon(0, flat_rings(rings)),
        Value::MultiPoint(_, members) => {
            let flat = |member: &Option<reader::Coord>| member.as_ref().map(|coord| Some(coord[..2].to_vec()));
            Value::MultiPoint(0, members.iter().map(flat).collect::<Option<_>>()?)
        }
        Value::MultiLineString(_, paths) => Value::MultiLineString(0, paths.iter().map(flat_path).collect()),
        Value::MultiPolygon(_, all) => Value::MultiPolygon(0, all.iter().map(|rings| flat_rings(rings)).collect()),
        Value::Collection(_, members) => {
            Value::Collection(0, members.iter().map(flat_value).collect::<Option<_>>()?)
        }
    })
}

fn flat(text: &str, numbers: Numbers) -> Said {
    match read_front(text, numbers) {
        Err(reason) => refused(reason),
        Ok((value, _)) => match flat_value(&value) {
            None => said(5, b"", NO_END),
            Some(value) => said(0, text_of(&value).as_bytes(), NO_END),
        },
    }
}

/// A line, a rectangle and a triangle of the first coordinates of a path or a first ring, and a collection of them.
fn shapes(text: &str) -> Said {
    let read = read_front(text, Numbers::Decimal(18));
    let path = match &read {
        Err(reason) => return refused(*reason),
        Ok((Value::LineString(_, path), _)) => path.clone(),
        Ok((Value::Polygon(_, paths) | Value::MultiLineString(_, paths), _)) => {
            paths.first().cloned().unwrap_or_default()
        }
        Ok(_) => vec![],
    };
    let [a, b, c, ..] = &flat_path(&path)[..] else {
        return said(5, b"", NO_END);
    };
    let by_units = |number: &String| reader::units(number, 18);
    let on = |axis: usize| {
        let (one, other) = (&a[axis], &b[axis]);
        if by_units(one) < by_units(other) { (one, other) } else { (other, one) }
    };
    let ((x, to_x), (y, to_y)) = (on(0), on(1));
    let corner = |x: &String, y: &String| vec![x.clone(), y.clone()];
    let around = vec![corner(to_x, y), corner(to_x, to_y), corner(x, to_y), corner(x, y), corner(to_x, y)];
    let shapes = [
        Value::LineString(0, vec![a.clone(), b.clone()]),
        Value::Polygon(0, vec![around]),
        Value::Polygon(0, vec![vec![a.clone(), b.clone(), c.clone(), a.clone()]]),
    ];
    let mut texts: Vec<String> = shapes.iter().map(text_of).collect();
    texts.push(text_of(&Value::Collection(0, shapes.to_vec())));
    said(0, texts.join("\n").as_bytes(), NO_END)
}

fn lines(op: u32, data: &[u8]) -> Said {
    said(0, &output(data, if op == 18 { numbers(op) } else { Numbers::Decimal(18) }), NO_END)
}

/// Of a sink that takes so many bytes and then fails, at each byte of a short output.
fn cut_short(op: u32, data: &[u8], salt: usize) {
    let whole = wanted(op, data).answer;
    let step = if whole.len() < 40 { 1 } else { 1 + whole.len() / 5 + salt % 7 };
    for most in (0..whole.len()).step_by(step) {
        let cut = said(9, &whole[..most], most);
        same(op, data, &library_with(op, data, most), &cut, "a sink that fails");
    }
}

fn wanted(op: u32, data: &[u8]) -> Said {
    let Ok(text) = std::str::from_utf8(data) else {
        return if matches!(op, 0 | 15..=18) { lines(op, data) } else { said(2, b"", NO_END) };
    };
    match op {
        0 | 15..=18 => lines(op, data),
        20 => header(text),
        21 => fronts(text, true),
        22 => fronts(text, false),
        23 => whole_text(text),
        24 => pair(text),
        42 => shapes(text),
        30 | 32 | 33 => flat(text, Numbers::Decimal(18)),
        31 => flat(text, whole::<i64>()),
        34 | 40 | 41 => Said { end: NO_END, ..front(text, Numbers::Decimal(18)) },
        _ => front(text, numbers(op)),
    }
}

pub fn fail(op: u32, text: &[u8], why: &str) -> ! {
    let why: String = why.chars().take(4000).collect();
    let front = &text[..text.len().min(4000)];
    eprintln!("DIFFERENCE operation {op}: {why}\n  text of {} bytes \"{}\"", text.len(), front.escape_ascii());
    std::process::abort()
}

fn same(op: u32, text: &[u8], library: &Said, wanted: &Said, what: &str) {
    if library != wanted {
        fail(op, text, &format!("{what}\n  library {library:?}\n  wanted  {wanted:?}"));
    }
}

fn asked() -> &'static [u32] {
    static ASKED: OnceLock<Vec<u32>> = OnceLock::new();
    ASKED.get_or_init(|| match std::env::var("WKT_FUZZ_OPERATIONS") {
        Ok(words) => words.split(',').map(|word| word.parse().expect("a number")).collect(),
        Err(_) => OPERATIONS.into_iter().chain(c_calls::OPERATIONS).collect(),
    })
}

/// Some text of the data's own.
fn junk(data: &[u8], salt: usize) -> String {
    let from = data.len() * (salt % 7) / 7;
    String::from_utf8_lossy(&data[from..]).chars().take(40).collect()
}

/// With one allocation that fails, the answer is that or out of memory, and nothing is held.
fn with_little_memory(op: u32, data: &[u8], ours: &Said, salt: usize) {
    library(op, data);
    let calls = unsafe { heap_calls };
    if calls == 0 {
        return;
    }
    unsafe { heap_fail_at = (salt / 8) as i64 % calls };
    let poor = library(op, data);
    unsafe { heap_fail_at = -1 };
    // 6: the text of what was read didn't fit into the string of the answer.
    if poor.status != 4 && poor.status != 6 && poor != *ours {
        fail(op, data, &format!("with an allocation that fails {poor:?}\n  wanted {ours:?}"));
    }
}

/// What was read and written reads back as itself to its end, and is read so whatever follows it.
fn at_a_front(op: u32, data: &[u8], ours: &Said, salt: usize) {
    let fixed = said(0, &ours.answer, ours.answer.len());
    same(op, &ours.answer, &library(op, &ours.answer), &fixed, "the answer isn't read back as itself");
    let beginning = &data[..ours.end];
    same(op, beginning, &library(op, beginning), ours, "the front alone is read otherwise");
    let after_mark = ["", " ", "\0", ","];
    let after_run = [" ", "\n", "\0", ")"];
    let glue = if beginning.ends_with(b")") { after_mark[salt % 4] } else { after_run[salt % 4] };
    let longer = [beginning, glue.as_bytes(), junk(data, salt / 4).as_bytes()].concat();
    same(op, &longer, &library(op, &longer), ours, "what follows the front changes it");
}

/// The input where nothing can be read behind it.
fn guarded(data: &[u8]) -> &'static [u8] {
    static mut PAGES: Option<Guarded> = None;
    let pages = unsafe { (*(&raw mut PAGES)).get_or_insert_with(|| Guarded::new(ROOM)) };
    pages.put(data, 0)
}

pub fn all(data: &[u8]) {
    some(data, asked());
}

/// The same by those operations.
pub fn some(data: &[u8], operations: &[u32]) {
    let data = guarded(data);
    let salt = data.iter().fold(0usize, |sum, byte| sum.wrapping_mul(31).wrapping_add(*byte as usize));
    for &op in operations {
        // Each geometry of a text is read from a text of its own: many of them take long.
        if op == 22 && data.len() > 512 {
            continue;
        }
        if c_calls::OPERATIONS.contains(&op) {
            c_calls::check(op, data, salt);
            continue;
        }
        one(op, data, salt);
    }
}

fn one(op: u32, data: &[u8], salt: usize) {
    if op == 24 {
        let pair = doubled(data, salt);
        same(op, &pair, &library(op, &pair), &wanted(op, &pair), "same_geometry");
    }
    let ours = library(op, data);
    same(op, data, &ours, &wanted(op, data), "the library and the plain reader differ");
    if matches!(op, 16 | 17) {
        // The sink takes memory too.
        return cut_short(op, data, salt);
    }
    if ours.status == 0 && FRONTS.contains(&op) {
        at_a_front(op, data, &ours, salt);
    }
    if salt % 8 == op as usize % 8 {
        with_little_memory(op, data, &ours, salt);
    }
}
