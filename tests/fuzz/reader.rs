//! A plain reader and writer of well-known text, from docs/GRAMMAR.md alone: what the fuzz compares the library with. It
//! goes by recursion, makes a `String` of each number, and shares nothing with the library. For short lists alone there is
//! a program that tries every cut of the lexemes: `crates/wkt_tests/src/short_texts/reference.rt`.

pub const KINDS: [&str; 7] =
    ["POINT", "LINESTRING", "POLYGON", "MULTIPOINT", "MULTILINESTRING", "MULTIPOLYGON", "GEOMETRYCOLLECTION"];
pub const DIMENSIONS: [&str; 4] = ["", "Z", "M", "ZM"];
/// The messages of a coordinate's places, by its dimension.
const AXES: [&[usize]; 4] = [&[8, 9], &[8, 9, 10], &[8, 9, 11], &[8, 9, 10, 11]];

/// The text of the one number of `Long` (crates/wkt_test_support).
const LONG: &str = ".llllllllllllllllllll";

/// A number type: what it reads is kept as the text that it prints.
#[derive(Clone, Copy)]
pub enum Numbers {
    Decimal(usize),
    /// One number, of two texts.
    Long,
    Whole(fn(&str) -> Option<String>),
}

/// A whole-number type of std, which reads and prints as the library's do.
pub fn whole<T: std::str::FromStr + ToString>() -> Numbers {
    Numbers::Whole(|run| run.parse::<T>().ok().map(|number| number.to_string()))
}

impl Numbers {
    /// The number of a run, which loses one plus.
    pub fn read(self, run: &str) -> Option<String> {
        let run = run.strip_prefix('+').unwrap_or(run);
        match self {
            Numbers::Decimal(places) => decimal(places, run),
            Numbers::Long => [".l", LONG].contains(&run).then(|| LONG.to_string()),
            Numbers::Whole(read) => read(run),
        }
    }
}

/// A decimal: a sign or none, and digits with at most one point, of which those past the places are zeros.
fn decimal(places: usize, run: &str) -> Option<String> {
    let negative = run.starts_with('-');
    let body = run.strip_prefix(['-', '+']).unwrap_or(run);
    let (before, after) = body.split_once('.').unwrap_or((body, ""));
    let digits = |text: &str| text.bytes().all(|byte| byte.is_ascii_digit());
    if before.len() + after.len() == 0 || !digits(before) || !digits(after) {
        return None;
    }
    let (kept, rest) = after.split_at(after.len().min(places));
    if rest.bytes().any(|byte| byte != b'0') {
        return None;
    }
    let mut units = 0u128;
    for digit in before.bytes().chain(kept.bytes()).chain(std::iter::repeat_n(b'0', places - kept.len())) {
        units = units.checked_mul(10)?.checked_add(u128::from(digit - b'0'))?;
    }
    if units > (1 << 127) || (units == 1 << 127 && !negative) {
        return None;
    }
    let ten = 10u128.pow(places as u32);
    let mut text = format!("{}{}", if negative && units > 0 { "-" } else { "" }, units / ten);
    let fraction = format!("{:0places$}", units % ten);
    let fraction = if places == 0 { "" } else { fraction.trim_end_matches('0') };
    if !fraction.is_empty() {
        text = format!("{text}.{fraction}");
    }
    Some(text)
}

/// The units of a number that is no larger than a decimal of so many places may be.
pub fn units(number: &str, places: usize) -> i128 {
    let (before, after) = number.split_once('.').unwrap_or((number, ""));
    format!("{before}{after:0<places$}").parse().expect("a decimal")
}

pub type Coord = Vec<String>;
pub type Path = Vec<Coord>;

/// A geometry; what holds nothing is EMPTY. The number is that of its dimension.
#[derive(Clone, PartialEq)]
pub enum Value {
    Point(usize, Option<Coord>),
    LineString(usize, Path),
    Polygon(usize, Vec<Path>),
    MultiPoint(usize, Vec<Option<Coord>>),
    MultiLineString(usize, Vec<Path>),
    MultiPolygon(usize, Vec<Vec<Path>>),
    Collection(usize, Vec<Value>),
}

/// The number of a message.
pub type Refused = usize;

/// The text of a message; docs/names.tsv has a row for each.
pub fn message(refused: Refused) -> &'static str {
    let row = format!("message\t{refused}\t");
    let named = include_str!("../../docs/names.tsv").lines().find_map(|line| line.strip_prefix(&row));
    named.and_then(|rest| rest.split('\t').nth(1)).expect("a message of that number")
}

#[derive(Clone, Copy, PartialEq)]
pub enum Lexeme<'a> {
    Open,
    Close,
    Comma,
    Number(&'a str),
    Word(&'a str),
    End,
}

/// The lexemes of a text, the first of which is looked at or taken.
pub struct Reader<'a> {
    text: &'a str,
    at: usize,
    numbers: Numbers,
}

impl<'a> Reader<'a> {
    pub fn new(text: &'a str, numbers: Numbers) -> Reader<'a> {
        Reader { text: text.split('\0').next().unwrap_or(""), at: 0, numbers }
    }

    /// Where the last lexeme that was taken ended.
    pub fn end(&self) -> usize {
        self.at
    }

    pub fn is_at_end(&self) -> bool {
        self.peek().0 == Lexeme::End
    }

    /// The next lexeme, and its end.
    pub fn peek(&self) -> (Lexeme<'a>, usize) {
        let rest = self.text[self.at..].trim_start_matches([' ', '\n', '\r', '\t']);
        let start = self.text.len() - rest.len();
        let lexeme = match rest.chars().next() {
            None => return (Lexeme::End, self.at),
            Some('(') => Lexeme::Open,
            Some(')') => Lexeme::Close,
            Some(',') => Lexeme::Comma,
            Some(first) => {
                let run = &rest[..rest.find([' ', '\n', '\r', '\t', '(', ')', ',']).unwrap_or(rest.len())];
                let number = first.is_ascii_digit() || ".-+".contains(first);
                return (if number { Lexeme::Number(run) } else { Lexeme::Word(run) }, start + run.len());
            }
        };
        (lexeme, start + 1)
    }

    /// Where the next lexeme stands: at the text's end where there is none.
    pub fn next_place(&self) -> (usize, usize) {
        match self.peek() {
            (Lexeme::End, _) => (self.text.len(), self.text.len()),
            (Lexeme::Number(run) | Lexeme::Word(run), end) => (end - run.len(), end),
            (_, end) => (end - 1, end),
        }
    }

    pub fn take(&mut self) -> Lexeme<'a> {
        let (lexeme, end) = self.peek();
        self.at = end;
        lexeme
    }

    pub fn is_bad(&self, lexeme: Lexeme) -> bool {
        matches!(lexeme, Lexeme::Number(run) if self.numbers.read(run).is_none())
    }

    /// The geometry that the lexemes begin with; `inside` says that it is a member of a collection.
    pub fn geometry(&mut self, inside: bool) -> Result<Value, Refused> {
        let word = match self.take() {
            Lexeme::Word(word) => word,
            other if self.is_bad(other) => return Err(13),
            _ => return Err(if inside { 12 } else { 1 }),
        };
        let Some((kind, joined)) = kind_of(word) else {
            return Err(if !inside && !word.is_ascii() { 2 } else { 3 });
        };
        let dim = match joined {
            Some(dim) => dim,
            None => self.dimension()?,
        };
        Ok(match kind {
            0 => Value::Point(dim, self.framed(|it| it.coord(dim))?),
            1 => Value::LineString(dim, self.path(dim)?),
            2 => Value::Polygon(dim, self.paths(dim)?),
            3 => Value::MultiPoint(dim, self.framed_list(|it| it.member(dim))?),
            4 => Value::MultiLineString(dim, self.paths(dim)?),
            5 => Value::MultiPolygon(dim, self.framed_list(|it| it.paths(dim))?),
            _ => Value::Collection(dim, self.framed_list(|it| it.geometry(true))?),
        })
    }

    /// The dimension after a kind word alone.
    fn dimension(&mut self) -> Result<usize, Refused> {
        match self.peek().0 {
            Lexeme::Word(word) => {
                let dim = dimension_word(word);
                if dim.is_some() {
                    self.take();
                }
                if dim.is_none() && !is_empty(word) { Err(4) } else { Ok(dim.unwrap_or(0)) }
            }
            Lexeme::End => Err(5),
            other if self.is_bad(other) => Err(5),
            _ => Ok(0),
        }
    }

    /// EMPTY, or a body in parentheses.
    fn framed<X>(&mut self, body: impl FnOnce(&mut Self) -> Result<X, Refused>) -> Result<Option<X>, Refused> {
        match self.take() {
            Lexeme::Word(word) if is_empty(word) => Ok(None),
            Lexeme::Open => self.closed(body).map(Some),
            other => Err(if self.is_bad(other) { 13 } else { 6 }),
        }
    }

    /// A body, whose error gives way to that of the closing place.
    fn closed<X>(&mut self, body: impl FnOnce(&mut Self) -> Result<X, Refused>) -> Result<X, Refused> {
        let result = body(self);
        match self.take() {
            Lexeme::Close => result,
            other => Err(if self.is_bad(other) { 13 } else { 7 }),
        }
    }

    fn list<X>(&mut self, mut item: impl FnMut(&mut Self) -> Result<X, Refused>) -> Result<Vec<X>, Refused> {
        let mut items = vec![item(self)?];
        while self.peek().0 == Lexeme::Comma {
            self.take();
            items.push(item(self)?);
        }
        Ok(items)
    }

    fn framed_list<X>(&mut self, item: impl FnMut(&mut Self) -> Result<X, Refused>) -> Result<Vec<X>, Refused> {
        Ok(self.framed(|it| it.list(item))?.unwrap_or_default())
    }

    fn coord(&mut self, dim: usize) -> Result<Coord, Refused> {
        let mut coord = vec![];
        for axis in AXES[dim] {
            match self.take() {
                Lexeme::Number(run) => coord.push(self.numbers.read(run).ok_or(13usize)?),
                _ => return Err(*axis),
            }
        }
        Ok(coord)
    }

    fn path(&mut self, dim: usize) -> Result<Path, Refused> {
        self.framed_list(|it| it.coord(dim))
    }

    fn paths(&mut self, dim: usize) -> Result<Vec<Path>, Refused> {
        self.framed_list(|it| it.path(dim))
    }

    /// A member of a multipoint.
    fn member(&mut self, dim: usize) -> Result<Option<Coord>, Refused> {
        match self.peek().0 {
            Lexeme::Open => self.framed(|it| it.coord(dim)),
            Lexeme::Word(word) if is_empty(word) => self.framed(|it| it.coord(dim)),
            _ => self.coord(dim).map(Some),
        }
    }
}

/// The dimension of Z, M or ZM.
pub fn dimension_word(word: &str) -> Option<usize> {
    (1..4).find(|dim| word.eq_ignore_ascii_case(DIMENSIONS[*dim]))
}

pub fn is_empty(word: &str) -> bool {
    word.eq_ignore_ascii_case("EMPTY")
}

/// The kind of a kind word, and the dimension that is joined to it, if one is.
pub fn kind_of(word: &str) -> Option<(usize, Option<usize>)> {
    if word.eq_ignore_ascii_case("LINEARRING") {
        return Some((1, None));
    }
    for (kind, name) in KINDS.iter().enumerate() {
        for (dim, letters) in DIMENSIONS.iter().enumerate() {
            if word.eq_ignore_ascii_case(&format!("{name}{letters}")) {
                return Some((kind, if dim == 0 { None } else { Some(dim) }));
            }
        }
    }
    None
}

/// The geometry at the front of a text, and its end.
pub fn read_front(text: &str, numbers: Numbers) -> Result<(Value, usize), Refused> {
    let mut reader = Reader::new(text, numbers);
    let value = reader.geometry(false)?;
    Ok((value, reader.end()))
}

fn in_parentheses<X>(items: &[X], text: impl Fn(&X) -> String) -> String {
    if items.is_empty() {
        return "EMPTY".to_string();
    }
    format!("({})", items.iter().map(text).collect::<Vec<_>>().join(","))
}

fn coord_text(coord: &Coord) -> String {
    coord.join(" ")
}

fn point_text(coord: &Option<Coord>) -> String {
    in_parentheses(coord.as_slice(), coord_text)
}

fn path_text(path: &Path) -> String {
    in_parentheses(path, coord_text)
}

/// The rings of a polygon, which is empty where its exterior is.
fn rings_text(rings: &Vec<Path>) -> String {
    if rings.first().is_some_and(Vec::is_empty) { "EMPTY".to_string() } else { in_parentheses(rings, path_text) }
}

/// The canonical text of a value.
pub fn text(value: &Value) -> String {
    let (kind, dim, body) = match value {
        Value::Point(dim, coord) => (0, dim, point_text(coord)),
        Value::LineString(dim, path) => (1, dim, path_text(path)),
        Value::Polygon(dim, rings) => (2, dim, rings_text(rings)),
        Value::MultiPoint(dim, members) => (3, dim, in_parentheses(members, point_text)),
        Value::MultiLineString(dim, paths) => (4, dim, in_parentheses(paths, path_text)),
        Value::MultiPolygon(dim, polygons) => (5, dim, in_parentheses(polygons, rings_text)),
        Value::Collection(dim, members) => (6, dim, in_parentheses(members, text)),
    };
    let header = [KINDS[kind], if *dim == 0 { "" } else { " " }, DIMENSIONS[*dim]].concat();
    format!("{header}{}{body}", if body == "EMPTY" { " " } else { "" })
}

/// Why a header names no kind.
pub enum NoKind {
    Prefix(String),
    NoSpace,
    NoParenthesis,
}

/// The kind and the dimension that a header names, by `infer_type`'s rule (docs of that call).
pub fn infer(text: &str) -> Result<(usize, usize), NoKind> {
    let text = text.trim_start().to_ascii_uppercase();
    let (end, by_empty) = match (text.find('('), text.find("EMPTY")) {
        (None, None) => return Err(NoKind::NoParenthesis),
        (Some(open), Some(empty)) if empty < open => (empty, true),
        (None, Some(empty)) => (empty, true),
        (Some(open), _) => (open, false),
    };
    let header = &text[..end];
    if by_empty && !header.contains([' ', '\n', '\r', '\t']) {
        return Err(NoKind::NoSpace);
    }
    let words = KINDS.iter().enumerate().map(|(kind, word)| (*word, kind)).chain([("LINEARRING", 1)]);
    for (word, kind) in words {
        if let Some(rest) = header.strip_prefix(word) {
            return Ok((kind, [3, 1, 2].into_iter().find(|dim| rest.contains(DIMENSIONS[*dim])).unwrap_or(0)));
        }
    }
    Err(NoKind::Prefix(header.to_string()))
}

/// What the programs print for an input, which go by decimals of 18 places.
pub fn output(input: &[u8], numbers: Numbers) -> Vec<u8> {
    let mut out = vec![];
    for line in input.strip_suffix(b"\n").unwrap_or(input).split(|byte| *byte == b'\n') {
        if input.is_empty() {
            break;
        }
        let read = std::str::from_utf8(line).ok().and_then(|line| read_front(line, numbers).ok());
        out.extend(read.map_or("refused".to_string(), |(value, _)| text(&value)).into_bytes());
        out.push(b'\n');
    }
    out
}
