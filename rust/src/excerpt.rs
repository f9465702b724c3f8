//! The part of a line around a place, and a mark under it, as the command `wkt` prints them.
use std::fmt;

// How many characters of a line are shown, and how many of them before the place where more follow.
const WIDTH: usize = 60;
const BEFORE: usize = 30;

/// The part of a line around a place.
pub(crate) struct Excerpt<'a> {
    before: &'a str,
    marked: &'a str,
    after: &'a str,
    begins_line: bool,
    ends_line: bool,
}

/// The last so many characters of a text, or all of it.
fn last(text: &str, most: usize) -> &str {
    let from = text.char_indices().rev().take(most).last();
    &text[from.map_or(text.len(), |(at, _)| at)..]
}

/// The first so many characters of a text, or all of it.
fn first(text: &str, most: usize) -> &str {
    let to = text.char_indices().nth(most);
    &text[..to.map_or(text.len(), |(at, _)| at)]
}

impl<'a> Excerpt<'a> {
    /// The line around the bytes from `start` to `stop`: up to 60 characters of it. A place that is in no text, or within
    /// a character, is taken for the text's end.
    pub(crate) fn around(text: &'a str, start: usize, stop: usize) -> Excerpt<'a> {
        let (front, rest) = match text.get(..start) {
            Some(front) => (front, &text[start..]),
            None => (text, ""),
        };
        let before = &front[front.rfind('\n').map_or(0, |at| at + 1)..];
        let line = &rest[..rest.find('\n').unwrap_or(rest.len())];
        let shown = first(line, WIDTH - last(before, BEFORE).chars().count());
        let begun = last(before, WIDTH - shown.chars().count());
        let marked = rest.get(..stop.saturating_sub(start)).unwrap_or(rest);
        let marked = &shown[..marked.len().min(shown.len())];
        let ends_line = shown.len() == line.len();
        let after = &shown[marked.len()..];
        Excerpt {
            before: begun,
            marked,
            after: match after.strip_suffix('\r') {
                Some(after) if ends_line => after,
                _ => after,
            },
            begins_line: begun.len() == before.len(),
            ends_line,
        }
    }
}

/// The text as it is shown: what isn't printable by its number, as `\x1b` or `\u{202e}`, since it could move or hide the rest.
fn shown(text: &str) -> String {
    let one = |c| match u32::from(c) {
        _ if is_plain(c) => c.to_string(),
        number @ 0..=0x7f => format!("\\x{number:02x}"),
        number => format!("\\u{{{number:x}}}"),
    };
    text.chars().map(one).collect()
}

/// Whether a character is shown as it is. The others, but for the tab and the space, are those that Unicode calls controls
/// (Cc), `White_Space`, `Default_Ignorable_Code_Point`, and the marks of annotations (U+FFF9 to U+FFFB).
fn is_plain(c: char) -> bool {
    !matches!(
        c,
        '\0'..='\x08' | '\x0a'..='\x1f' | '\x7f'..='\u{a0}' | '\u{ad}' | '\u{34f}' | '\u{61c}'
        | '\u{115f}'..='\u{1160}' | '\u{1680}' | '\u{17b4}'..='\u{17b5}' | '\u{180b}'..='\u{180f}'
        | '\u{2000}'..='\u{200f}' | '\u{2028}'..='\u{202f}' | '\u{205f}'..='\u{206f}' | '\u{3000}'
        | '\u{3164}' | '\u{fe00}'..='\u{fe0f}' | '\u{feff}' | '\u{ffa0}' | '\u{fff0}'..='\u{fffb}'
        | '\u{1bca0}'..='\u{1bca3}' | '\u{1d173}'..='\u{1d17a}' | '\u{e0000}'..='\u{e0fff}'
    )
}

impl fmt::Display for Excerpt<'_> {
    fn fmt(&self, f: &mut fmt::Formatter<'_>) -> fmt::Result {
        let (dots, blanks) = if self.begins_line {
            ("", "")
        } else {
            ("...", "   ")
        };
        let more = if self.ends_line { "" } else { "..." };
        let (before, marked, after) = (shown(self.before), shown(self.marked), shown(self.after));
        writeln!(f, "    {dots}{before}{marked}{after}{more}")?;
        let white = |c: char| if c == '\t' { c } else { ' ' };
        let indent: String = before.chars().map(white).collect();
        let marks = "^".repeat(marked.chars().count().max(1));
        writeln!(f, "    {blanks}{indent}{marks}")
    }
}
