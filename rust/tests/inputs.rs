//! Inputs line by line, and what the command `wkt` prints of refusals.
use std::io::{self, Read, Write};
use std::path::Path;
use wkt_proved::{canonical, explain, lines, read_lines, stream, Error};

#[test]
fn many_lines() {
    assert_eq!(
        lines(b"point(1 2.50)\nnonsense\n", 18).as_deref(),
        Ok("POINT(1 2.5)\nrefused\n")
    );
    assert_eq!(lines(b"", 18).as_deref(), Ok(""));
    assert_eq!(lines(b"", 37), Err(Error::NoPlaces));
}

/// Gives so many bytes a call, each call interrupted once.
struct Slow<'a>(&'a [u8], usize, bool);

impl Read for Slow<'_> {
    fn read(&mut self, to: &mut [u8]) -> io::Result<usize> {
        self.2 = !self.2;
        if self.2 {
            return Err(io::ErrorKind::Interrupted.into());
        }
        let count = self.1.min(to.len());
        self.0.read(&mut to[..count])
    }
}

/// A short line, a line that no buffer holds at first, and a last line without its end.
fn long_input() -> (Vec<u8>, Vec<u8>) {
    let many = ".1 .1,".repeat(60_000);
    let input = format!("point(1 2.50) x\nLINESTRING({many}1 1)\nno\nPOINT EMPTY");
    let written = "0.1 0.1,".repeat(60_000);
    let output = format!("POINT(1 2.5)\nLINESTRING({written}1 1)\nrefused\nPOINT EMPTY\n");
    (input.into_bytes(), output.into_bytes())
}

#[test]
fn streams() {
    let (input, want) = long_input();
    for piece in [7, 4096, 1 << 20] {
        let mut output = Vec::new();
        stream(Slow(&input, piece, false), &mut output, 18).unwrap();
        assert!(output == want, "{piece} bytes a call");
    }
    let mut output = Vec::new();
    stream(io::empty(), &mut output, 18).unwrap();
    assert!(output.is_empty());
    let error = stream(io::empty(), &mut output, 37).unwrap_err();
    assert_eq!(error.kind(), io::ErrorKind::InvalidInput);
}

/// The microseconds that this process has had of a processor: by the clock other programs count, too.
fn processor_time() -> i64 {
    extern "C" {
        fn clock() -> i64;
    }
    // SAFETY: it takes nothing, and changes nothing.
    unsafe { clock() }
}

/// A line of 32 MB that comes in pieces takes a second; it would take a minute if each of them were passed on.
#[test]
fn a_long_line_in_pieces() {
    let many = "1234567.5 76543.25,".repeat((32 << 20) / 19);
    let input = format!("LINESTRING({many}1 1)\n");
    let mut output = Vec::new();
    let start = processor_time();
    stream(Slow(input.as_bytes(), 1400, false), &mut output, 18).unwrap();
    assert!(processor_time() - start < 15_000_000);
    assert!(output == input.as_bytes());
}

/// Fails after that many bytes were written.
struct Full(usize);

impl Write for Full {
    fn write(&mut self, bytes: &[u8]) -> io::Result<usize> {
        let count = bytes.len().min(self.0);
        self.0 -= count;
        if count == 0 {
            return Err(io::ErrorKind::BrokenPipe.into());
        }
        Ok(count)
    }

    fn flush(&mut self) -> io::Result<()> {
        Ok(())
    }
}

struct Broken;

impl Read for Broken {
    fn read(&mut self, _: &mut [u8]) -> io::Result<usize> {
        Err(io::ErrorKind::ConnectionReset.into())
    }
}

#[test]
fn failing_ends() {
    let (input, _) = long_input();
    let error = stream(&input[..], Full(100), 18).unwrap_err();
    assert_eq!(error.kind(), io::ErrorKind::BrokenPipe);
    let error = stream(Broken, io::sink(), 18).unwrap_err();
    assert_eq!(error.kind(), io::ErrorKind::ConnectionReset);
    let mut lines = read_lines(io::BufReader::new(Broken), 18);
    let error = lines.next().unwrap().unwrap_err();
    assert_eq!(error.kind(), io::ErrorKind::ConnectionReset);
}

/// Gives these pieces, the last first, and fails where one is empty.
struct Pieces(Vec<&'static str>);

impl Read for Pieces {
    fn read(&mut self, to: &mut [u8]) -> io::Result<usize> {
        match self.0.pop() {
            Some("") => Err(io::ErrorKind::WouldBlock.into()),
            piece => piece.unwrap_or("").as_bytes().read(to),
        }
    }
}

/// A line that the reader fails in is answered whole: its end alone may be another geometry.
#[test]
fn a_reader_that_goes_on() {
    let pieces = vec!["", "POINT EMPTY", "POINT(1 2)\n", "", "MULTI"];
    let mut lines = read_lines(io::BufReader::new(Pieces(pieces)), 18);
    for want in [
        canonical("MULTIPOINT(1 2)", 18),
        canonical("POINT EMPTY", 18),
    ] {
        let error = lines.next().unwrap().unwrap_err();
        assert_eq!(error.kind(), io::ErrorKind::WouldBlock);
        assert_eq!(lines.next().unwrap().unwrap(), want);
    }
    assert!(lines.next().is_none());
}

#[test]
fn lines_of_a_reader() {
    let input = b"point(1 2.50)\r\n\xff\n\nPOINT(1 2) x\nPOINT EMPTY";
    let got: Vec<_> = read_lines(&input[..], 18)
        .map(|line| line.unwrap())
        .collect();
    assert_eq!(got[0].as_deref(), Ok("POINT(1 2.5)"));
    assert_eq!(got[1], Err(Error::NotUtf8));
    let shown = |row: usize| got[row].as_ref().unwrap_err().to_string();
    assert_eq!(
        shown(2),
        "3:1: a kind of geometry, such as POINT, was expected"
    );
    assert_eq!(shown(3), "4:12: more follows the geometry");
    assert_eq!(got[4].as_deref(), Ok("POINT EMPTY"));
    assert_eq!(got.len(), 5);
}

/// What `wkt check` prints of a stored case, by [`explain`] of each line.
fn printed(name: &str, input: &str, places: u32) -> String {
    let (mut out, mut refused, mut count) = (String::new(), 0, 0);
    for (at, line) in input.lines().enumerate() {
        count += 1;
        if let Some(why) = explain(line, places).unwrap() {
            let shown = why.to_string();
            let shown = shown.strip_prefix("1:").unwrap();
            out += &[name, &format!(":{}:{shown}\n", at + 1), &why.mark(line)].concat();
            refused += 1;
        }
    }
    let lines = if count == 1 { "line" } else { "lines" };
    out + &format!("{refused} of {count} {lines} refused\n")
}

/// The lines of a case of a transcript that begin with the mark; `tests/gate/command.sh` says what they are.
fn marked(transcript: &str, case: &str, mark: &str) -> String {
    let (_, from) = transcript
        .split_once(&format!("# {case}\n"))
        .expect("the case is there");
    let lines = from.lines().take_while(|line| !line.starts_with("# "));
    let texts = lines.filter_map(|line| line.strip_prefix(mark));
    texts
        .map(|text| plain(text.strip_prefix(' ').unwrap_or(text)))
        .collect()
}

/// A text of a transcript as the command gets it, with the end of its line.
fn plain(text: &str) -> String {
    let (text, end) = match text.strip_suffix("\\c") {
        Some(text) => (text, ""),
        None => (text, "\n"),
    };
    let mut out = Vec::new();
    let mut rest = text;
    while let Some((before, escaped)) = rest.split_once('\\') {
        out.extend_from_slice(before.as_bytes());
        rest = if let Some(behind) = escaped.strip_prefix('\\') {
            out.push(b'\\');
            behind
        } else {
            out.push(u8::from_str_radix(&escaped[1..3], 16).unwrap());
            &escaped[3..]
        };
    }
    out.extend_from_slice(rest.as_bytes());
    String::from_utf8(out).unwrap() + end
}

/// What isn't printable is shown by its number, and the mark stands below that.
#[test]
fn excerpts() {
    for (text, line, mark) in [
        (
            "POINT(\x1b[31m1 2)",
            "POINT(\\x1b[31m1 2)",
            "      ^^^^^^^^^",
        ),
        (
            "\tPOINT(1\u{202e} 2)",
            "\tPOINT(1\\u{202e} 2)",
            "\t      ^^^^^^^^^",
        ),
        ("POINT(é x\0\u{2028}", "POINT(é x\\x00\\u{2028}", "      ^"),
        (
            "\u{9b}\u{a0}\u{200b}\u{feff}\re\u{301} 日\\\"'",
            "\\u{9b}\\u{a0}\\u{200b}\\u{feff}\\x0de\u{301} 日\\\"'",
            "^^^^^^^^^^^^^^^^^^^^^^^^^^^^",
        ),
    ] {
        let why = explain(text, 6).unwrap().unwrap();
        assert_eq!(why.mark(text), format!("    {line}\n    {mark}\n"));
    }
}

#[test]
fn as_the_command_shows_it() {
    let path = Path::new(env!("CARGO_MANIFEST_DIR")).join("../tests/data/command/check.txt");
    let transcript = std::fs::read_to_string(path).unwrap();
    for (case, name, input, places) in [
        ("check-columns", "standard input", "<", 18),
        ("check-control", "standard input", "<", 18),
        ("check-control-others", "standard input", "<", 18),
        ("check-unseen", "standard input", "<", 18),
        ("check-long", "standard input", "<", 18),
        ("check-places", "standard input", "<", 1),
        ("check-hints", "hints.wkt", "|", 18),
    ] {
        assert_eq!(
            printed(name, &marked(&transcript, case, input), places),
            marked(&transcript, case, ">"),
            "{case}"
        );
    }
}
