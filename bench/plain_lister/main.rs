//! An ordinary lister of the tokens of Python 3.11, by which `pyast tokens FILE` is measured.
//!
//! It is written as one writes such a program by hand, without contracts and crates. Its listing of
//! a source in UTF-8 is that of `pyast tokens`, byte for byte. It holds the source whole, has no
//! options, looks for no declared encoding, and takes for the letters of names past ASCII what the
//! standard library does. At a fault it ends after the entries before it, with status 1.

use std::error::Error;
use std::io::{self, Write};
use std::{env, fs};

/// The listing is written when there are so many bytes of it.
const PORTION: usize = 1 << 15;

type Answer<T> = Result<T, Box<dyn Error>>;

/// A row, counted from 1, and a column, counted in characters from 0.
#[derive(Clone, Copy)]
struct Place {
    row: usize,
    column: usize,
}

/// The lines of the listing, written to standard output by portions.
struct Listing {
    lines: Vec<u8>,
}

impl Listing {
    /// Writes what is held.
    fn flush(&mut self) -> Answer<()> {
        io::stdout().write_all(&self.lines)?;
        self.lines.clear();
        Ok(())
    }

    /// Appends the line of an entry.
    fn push(&mut self, kind: &str, from: Place, to: Place, text: &str) -> Answer<()> {
        let start = self.lines.len();
        self.push_number(from.row, b',');
        self.push_number(from.column, b'-');
        self.push_number(to.row, b',');
        self.push_number(to.column, b':');
        self.fill(self.lines.len() - start, 20);
        self.lines.extend_from_slice(kind.as_bytes());
        self.fill(kind.len(), 15);
        let start = self.lines.len();
        self.push_repr(text)?;
        self.fill(char_count(&self.lines[start..]), 15);
        self.lines.push(b'\n');
        if self.lines.len() >= PORTION {
            self.flush()?;
        }
        Ok(())
    }

    /// Appends blanks after so many characters, up to a width.
    fn fill(&mut self, count: usize, width: usize) {
        let length = self.lines.len() + width.saturating_sub(count);
        self.lines.resize(length, b' ');
    }

    /// Appends a number and what stands after it.
    fn push_number(&mut self, mut number: usize, after: u8) {
        let mut digits = [after; 21];
        let mut at = 20;
        while number > 0 || at == 20 {
            at -= 1;
            digits[at] = b'0' + (number % 10) as u8;
            number /= 10;
        }
        self.lines.extend_from_slice(&digits[at..]);
    }

    /// Appends a text as Python's `repr` shows it.
    fn push_repr(&mut self, text: &str) -> Answer<()> {
        let is_double = text.contains('\'') && !text.contains('"');
        let quote = if is_double { b'"' } else { b'\'' };
        let is_plain = |byte| matches!(byte, b' '..=b'~') && byte != b'\\' && byte != quote;
        self.lines.push(quote);
        if text.bytes().all(is_plain) {
            self.lines.extend_from_slice(text.as_bytes());
        } else {
            for c in text.chars() {
                match c {
                    '\n' => self.lines.extend_from_slice(b"\\n"),
                    '\r' => self.lines.extend_from_slice(b"\\r"),
                    '\t' => self.lines.extend_from_slice(b"\\t"),
                    _ if c == '\\' || c == quote as char => self.lines.extend([b'\\', c as u8]),
                    ' '..='~' => self.lines.push(c as u8),
                    _ if is_printable(c) => write!(self.lines, "{c}")?,
                    '\0'..='\u{ff}' => write!(self.lines, "\\x{:02x}", c as u32)?,
                    '\u{100}'..='\u{ffff}' => write!(self.lines, "\\u{:04x}", c as u32)?,
                    _ => write!(self.lines, "\\U{:08x}", c as u32)?,
                }
            }
        }
        self.lines.push(quote);
        Ok(())
    }
}

/// Whether a character past ASCII is printable: the standard library escapes others. It escapes a
/// mark too, but at the front of a text alone.
fn is_printable(c: char) -> bool {
    !c.is_ascii() && format!("x{c}").escape_debug().count() == 2
}

/// How many characters begin in some bytes of a text.
fn char_count(bytes: &[u8]) -> usize {
    bytes.iter().filter(|&&byte| byte & 0xC0 != 0x80).count()
}

/// Lists a source: where it stands in its text, and the brackets and columns that are open there.
struct Lister<'a> {
    text: &'a str,
    at: usize,
    place: Place,
    depth: usize,
    levels: Vec<usize>,
    listing: Listing,
}

impl Lister<'_> {
    /// Lists the whole source.
    fn list(&mut self) -> Answer<()> {
        let start = Place { row: 0, column: 0 };
        self.listing.push("ENCODING", start, start, "utf-8")?;
        let mut is_joined = false;
        while self.at < self.text.len() {
            if self.depth > 0 || is_joined || self.begin_line()? {
                is_joined = self.rest_of_line()?;
            }
        }
        let Place { row, column } = self.place;
        let last = self.text.rsplit('\n').next().unwrap_or("");
        if self.depth > 0 || is_joined {
            return Err(self.fault("EOF in multi-line statement"));
        }
        if column > 0 && !last.trim_start_matches([' ', '\t', '\x0c']).starts_with('#') {
            let after = Place { row, column: column + 1 };
            self.listing.push("NEWLINE", self.place, after, "")?;
        }
        let end = Place { row: row + usize::from(column > 0), column: 0 };
        for _ in 1..self.levels.len() {
            self.listing.push("DEDENT", end, end, "")?;
        }
        self.listing.push("ENDMARKER", end, end, "")
    }

    /// Lists the front of a line that is measured, and all of it where it has no token. Answers
    /// whether it has one.
    fn begin_line(&mut self) -> Answer<bool> {
        let bytes = self.text.as_bytes();
        let (from, start, mut width) = (self.at, self.place, 0);
        loop {
            match bytes.get(self.at) {
                Some(b' ') => width += 1,
                Some(b'\t') => width = width / 8 * 8 + 8,
                Some(b'\x0c') => width = 0,
                _ => break,
            }
            self.at += 1;
        }
        if self.at == bytes.len() {
            // Such a last line counts for nothing: the end stands where it begins.
            return Ok(false);
        }
        self.place.column = self.at - from;
        if matches!(bytes[self.at], b'#' | b'\n' | b'\r') {
            self.comment()?;
            self.line_end("NL")?;
            return Ok(false);
        }
        let deepest = self.levels.last().copied().unwrap_or(0);
        if width > deepest {
            self.levels.push(width);
            let blanks = &self.text[from..self.at];
            self.listing.push("INDENT", start, self.place, blanks)?;
        } else if !self.levels.contains(&width) {
            return Err(self.fault("unindent does not match any outer indentation level"));
        }
        while self.levels.last() > Some(&width) {
            self.levels.pop();
            self.listing.push("DEDENT", self.place, self.place, "")?;
        }
        Ok(true)
    }

    /// Lists the rest of a line, with its end. Answers whether a backslash joins the next one.
    fn rest_of_line(&mut self) -> Answer<bool> {
        let bytes = self.text.as_bytes();
        while let Some(&byte) = bytes.get(self.at) {
            match byte {
                b' ' | b'\t' | b'\x0c' => {
                    self.at += 1;
                    self.place.column += 1;
                }
                b'\n' | b'\r' => {
                    self.line_end(if self.depth > 0 { "NL" } else { "NEWLINE" })?;
                    return Ok(false);
                }
                b'#' => self.comment()?,
                b'\\' if line_end_length(&bytes[self.at + 1..]) > 0 => {
                    self.next_line(self.at + 1 + line_end_length(&bytes[self.at + 1..]));
                    return Ok(true);
                }
                b'\'' | b'"' => self.string(self.at)?,
                b'0'..=b'9' => self.entry("NUMBER", number_end(bytes, self.at))?,
                b'.' if bytes.get(self.at + 1).is_some_and(u8::is_ascii_digit) => {
                    self.entry("NUMBER", number_end(bytes, self.at))?;
                }
                b'a'..=b'z' | b'A'..=b'Z' | b'_' | 0x80.. => self.name()?,
                _ => self.operator()?,
            }
        }
        Ok(false)
    }

    /// A fault where the lister stands.
    fn fault(&self, why: &str) -> Box<dyn Error> {
        format!("{}:{}: {why}", self.place.row, self.place.column).into()
    }

    /// Lists an entry of one line that ends at an offset.
    fn entry(&mut self, kind: &str, end: usize) -> Answer<()> {
        let (from, text) = (self.place, &self.text[self.at..end]);
        self.place.column += char_count(text.as_bytes());
        self.at = end;
        self.listing.push(kind, from, self.place, text)
    }

    /// Goes on to the next line, which begins at an offset.
    fn next_line(&mut self, start: usize) {
        self.at = start;
        self.place = Place { row: self.place.row + 1, column: 0 };
    }

    /// Lists the end of a line; at the end of the text it is empty, and the line goes on.
    fn line_end(&mut self, kind: &str) -> Answer<()> {
        let length = line_end_length(&self.text.as_bytes()[self.at..]);
        if length == 0 && self.at < self.text.len() {
            return Err(self.fault("carriage return without line feed"));
        }
        self.entry(kind, self.at + length)?;
        if length > 0 {
            self.next_line(self.at);
        }
        Ok(())
    }

    /// Lists the comment that stands here, if one does.
    fn comment(&mut self) -> Answer<()> {
        let rest = &self.text[self.at..];
        match rest.find(['\n', '\r']).unwrap_or(rest.len()) {
            0 => Ok(()),
            length => self.entry("COMMENT", self.at + length),
        }
    }

    /// Lists a name, or the literal that it is the prefix of.
    fn name(&mut self) -> Answer<()> {
        let bytes = self.text.as_bytes();
        let mut end = self.at;
        while bytes.get(end).is_some_and(|byte| byte.is_ascii_alphanumeric() || *byte == b'_') {
            end += 1;
        }
        if bytes.get(end).is_some_and(|byte| !byte.is_ascii()) {
            let is_after = |c: char| !c.is_alphanumeric() && c != '_';
            end += self.text[end..].find(is_after).unwrap_or(self.text.len() - end);
        }
        if matches!(bytes.get(end), Some(b'\'' | b'"')) && is_prefix(&self.text[self.at..end]) {
            return self.string(end);
        }
        if end == self.at {
            return Err(self.fault("unexpected character"));
        }
        self.entry("NAME", end)
    }

    /// Lists a literal from its prefix on; its first quote is at an offset.
    fn string(&mut self, opener: usize) -> Answer<()> {
        let bytes = self.text.as_bytes();
        let quote = bytes[opener];
        let is_triple = bytes[opener..].starts_with(&[quote; 3]);
        let length = if is_triple { 3 } else { 1 };
        let closes = |at: usize| !is_triple || bytes[at..].starts_with(&[quote; 3]);
        let mut end = opener + length;
        loop {
            match bytes.get(end) {
                None => return Err(self.fault("string literal that isn't ended")),
                Some(byte) if *byte == quote && closes(end) => break,
                Some(b'\n') if !is_triple => return Err(self.fault("unterminated string literal")),
                Some(b'\\') => end += 1 + line_end_length(&bytes[end + 1..]).max(1),
                Some(_) => end += 1,
            }
        }
        end += length;
        let (from, text) = (self.place, &self.text[self.at..end]);
        let Some(last) = text.rfind('\n') else {
            return self.entry("STRING", end);
        };
        self.place.row += text.bytes().filter(|&byte| byte == b'\n').count();
        self.place.column = char_count(&text.as_bytes()[last + 1..]);
        self.at = end;
        self.listing.push("STRING", from, self.place, text)
    }

    fn operator(&mut self) -> Answer<()> {
        let rest = &self.text.as_bytes()[self.at..];
        match rest[0] {
            b'(' | b'[' | b'{' => self.depth += 1,
            b')' | b']' | b'}' if self.depth > 0 => self.depth -= 1,
            b')' | b']' | b'}' => return Err(self.fault("unmatched closing bracket")),
            _ => {}
        }
        match operator_length(rest) {
            0 => Err(self.fault("unexpected character")),
            length => self.entry("OP", self.at + length),
        }
    }
}

/// How long the line end is that stands at the front of some bytes: 0 where none does.
fn line_end_length(bytes: &[u8]) -> usize {
    usize::from(bytes.starts_with(b"\n")) + 2 * usize::from(bytes.starts_with(b"\r\n"))
}

/// How long the operator is that stands at the front of some bytes: 0 where none does.
fn operator_length(bytes: &[u8]) -> usize {
    match bytes {
        [b'*', b'*', b'=', ..] | [b'/', b'/', b'=', ..] | [b'.', b'.', b'.', ..] => 3,
        [b'<', b'<', b'=', ..] | [b'>', b'>', b'=', ..] => 3,
        [b'*', b'*', ..] | [b'/', b'/', ..] | [b'<', b'<', ..] | [b'>', b'>', ..] => 2,
        [b'-', b'>', ..] | [b'!' | b'%' | b'&' | b'*' | b'+' | b'-' | b'/', b'=', ..] => 2,
        [b':' | b'<' | b'=' | b'>' | b'@' | b'^' | b'|', b'=', ..] => 2,
        [b'%' | b'&' | b'(' | b')' | b'*' | b'+' | b',' | b'-' | b'.' | b'/', ..] => 1,
        [b':' | b';' | b'<' | b'=' | b'>' | b'@' | b'[' | b']' | b'^', ..] => 1,
        [b'{' | b'|' | b'}' | b'~', ..] => 1,
        _ => 0,
    }
}

/// Whether a text is the prefix of a literal.
fn is_prefix(text: &str) -> bool {
    ["r", "u", "b", "f", "br", "rb", "fr", "rf"].iter().any(|one| one.eq_ignore_ascii_case(text))
}

/// The end of some digits, each perhaps after a `_`.
fn digits_end(bytes: &[u8], mut at: usize, is_digit: fn(&u8) -> bool) -> usize {
    loop {
        at += match &bytes[at..] {
            [b'_', byte, ..] if is_digit(byte) => 2,
            [byte, ..] if is_digit(byte) => 1,
            _ => return at,
        };
    }
}

/// The end of digits that begin with one, or where they would begin.
fn decimal_end(bytes: &[u8], at: usize) -> usize {
    match bytes.get(at) {
        Some(b'0'..=b'9') => digits_end(bytes, at, u8::is_ascii_digit),
        _ => at,
    }
}

/// The end of a number.
fn number_end(bytes: &[u8], start: usize) -> usize {
    let is_digit: Option<fn(&u8) -> bool> = match &bytes[start..] {
        [b'0', b'x' | b'X', ..] => Some(u8::is_ascii_hexdigit),
        [b'0', b'o' | b'O', ..] => Some(|byte| matches!(byte, b'0'..=b'7')),
        [b'0', b'b' | b'B', ..] => Some(|byte| matches!(byte, b'0' | b'1')),
        _ => None,
    };
    if let Some(is_digit) = is_digit {
        let end = digits_end(bytes, start + 2, is_digit);
        return if end > start + 2 { end } else { start + 1 };
    }
    let whole = decimal_end(bytes, start);
    let mut end = whole;
    if bytes.get(end) == Some(&b'.') {
        end = decimal_end(bytes, end + 1);
    }
    if let Some(b'e' | b'E') = bytes.get(end) {
        let digits = end + if let Some(b'+' | b'-') = bytes.get(end + 1) { 2 } else { 1 };
        let after = decimal_end(bytes, digits);
        end = if after > digits { after } else { end };
    }
    match bytes.get(end) {
        Some(b'j' | b'J') => end + 1,
        // A whole number begins with 0 only where it is 0.
        _ if end == whole && bytes[start] == b'0' => digits_end(bytes, start, |byte| *byte == b'0'),
        _ => end,
    }
}

fn main() -> Answer<()> {
    let path = env::args_os().nth(1).ok_or("usage: plain_lister FILE")?;
    let bytes = fs::read(path)?;
    let whole = std::str::from_utf8(&bytes)?;
    let mut lister = Lister {
        text: whole.strip_prefix('\u{feff}').unwrap_or(whole),
        at: 0,
        place: Place { row: 1, column: 0 },
        depth: 0,
        levels: vec![0],
        listing: Listing { lines: Vec::with_capacity(2 * PORTION) },
    };
    let listed = lister.list();
    lister.listing.flush()?;
    listed
}
