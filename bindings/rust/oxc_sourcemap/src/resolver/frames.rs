//! The frames of stack traces, as V8, Firefox, Safari and Hermes print them, in time linear in the text.

use std::borrow::Cow;
use std::ops::Range;

/// The most bytes of a URL or path of a frame; longer ones are no frames.
pub const MOST_URL: usize = 4096;

const ADDRESS: &[u8] = b"address at ";
/// The sign before the places of Vitest, and a space.
const SIGN: &[u8] = "❯ ".as_bytes();

/// A place in generated code that a trace names.
///
/// ```
/// use oxc_sourcemap::resolver::Frame;
/// let frame = Frame::new("https://example.com/app.js", 1, 14).with_debug_id("85314830-023f-4cf1-a267-535f4e37bb17");
/// assert_eq!((frame.line, frame.column, frame.span), (1, 14, 0..0));
/// ```
#[derive(Clone, Debug, PartialEq, Eq)]
#[non_exhaustive]
pub struct Frame {
    /// The URL or path of the code.
    pub url: String,
    /// The line in the code, from 1 on. (0 and numbers past those of maps are such that no map has.)
    pub line: u64,
    /// The column in the code, from 1 on, in UTF-16 code units.
    pub column: u64,
    /// Where the place, `URL:LINE:COLUMN`, stands in the text, in bytes.
    pub span: Range<usize>,
    /// The debug id of the code, if it is known.
    pub debug_id: Option<String>,
}

impl Frame {
    /// A frame that stands in no text, at a line and a column that count from 1.
    ///
    /// ```
    /// use oxc_sourcemap::resolver::Frame;
    /// assert_eq!(Frame::new("app.js", 1, 14).url, "app.js");
    /// ```
    pub fn new(url: impl Into<String>, line: u64, column: u64) -> Frame {
        Frame { url: url.into(), line, column, span: 0..0, debug_id: None }
    }

    /// The same frame of a code with this debug id.
    ///
    /// ```
    /// use oxc_sourcemap::resolver::Frame;
    /// assert_eq!(Frame::new("app.js", 1, 14).with_debug_id("..").debug_id.as_deref(), Some(".."));
    /// ```
    pub fn with_debug_id(self, debug_id: impl Into<String>) -> Frame {
        Frame { debug_id: Some(debug_id.into()), ..self }
    }
}

/// The frames of a trace or a log, in order, which lie apart.
///
/// ```
/// use oxc_sourcemap::resolver::frames_in;
/// let frames: Vec<_> = frames_in("Error: x\n    at f (https://h/app.js:1:14)\ng@https://h/b.js:2:1").collect();
/// assert_eq!((frames[0].url.as_str(), frames[0].line, frames[0].column), ("https://h/app.js", 1, 14));
/// assert_eq!(frames[1].span, 44..62);
/// ```
pub fn frames_in(text: &str) -> impl Iterator<Item = Frame> + '_ {
    places_in(text.as_bytes()).map(|it| it.frame())
}

/// A frame of a text that need not be UTF-8.
pub(super) struct Place<'t> {
    pub url: &'t [u8],
    pub line: u64,
    pub column: u64,
    pub span: Range<usize>,
}

impl<'t> Place<'t> {
    /// The URL; one that is not UTF-8 has U+FFFD for what is none.
    pub fn text(&self) -> Cow<'t, str> {
        String::from_utf8_lossy(self.url)
    }

    pub fn frame(&self) -> Frame {
        Frame { span: self.span.clone(), ..Frame::new(self.text(), self.line, self.column) }
    }
}

pub(super) fn places_in(text: &[u8]) -> impl Iterator<Item = Place<'_>> {
    let (mut from, mut line) = (0, None::<Line<'_>>);
    std::iter::from_fn(move || {
        while let Some(numbers) = numbers_from(text, from) {
            from = numbers.end;
            let line = match &mut line {
                Some(line) if numbers.at < line.end => line,
                other => other.insert(Line::around(text, numbers.at)),
            };
            if let Some(place) = line.place(&numbers) {
                return Some(place);
            }
        }
        from = text.len();
        None
    })
}

/// A line and a column, `:1:14`, and where they stand.
struct Numbers {
    at: usize,
    end: usize,
    line: u64,
    column: u64,
}

/// Up to ten digits from a place on: their value, and where they end.
fn digits(text: &[u8], at: usize) -> Option<(u64, usize)> {
    let length = text[at..].iter().take(11).take_while(|it| it.is_ascii_digit()).count();
    let value = text[at..at + length].iter().fold(0, |sum, it| 10 * sum + u64::from(it - b'0'));
    (1..=10).contains(&length).then_some((value, at + length))
}

fn numbers_at(text: &[u8], at: usize) -> Option<Numbers> {
    let (line, colon) = digits(text, at + 1)?;
    if text.get(colon) != Some(&b':') {
        return None;
    }
    let (column, end) = digits(text, colon + 1)?;
    (text.get(end) != Some(&b':')).then_some(Numbers { at, end, line, column })
}

fn numbers_from(text: &[u8], from: usize) -> Option<Numbers> {
    let colons = text[from..].iter().enumerate().filter(|it| *it.1 == b':');
    colons.map(|it| from + it.0).find_map(|at| numbers_at(text, at))
}

fn find(text: &[u8], part: &[u8]) -> Option<usize> {
    text.windows(part.len()).position(|it| it == part)
}

fn rfind(text: &[u8], part: &[u8]) -> Option<usize> {
    text.windows(part.len()).rposition(|it| it == part)
}

/// The character that begins at a place; none at the end, or if there is none in UTF-8.
fn char_at(text: &[u8], at: usize) -> Option<char> {
    let part = &text[at..text.len().min(at + 4)];
    part.utf8_chunks().next()?.valid().chars().next()
}

/// The character that ends at a place.
fn char_before(text: &[u8], at: usize) -> Option<char> {
    let begin = (1..=at.min(4)).map(|it| at - it).find(|it| text[*it] & 0xC0 != 0x80)?;
    char_at(text, begin).filter(|it| it.len_utf8() == at - begin)
}

fn is_space(it: char) -> bool {
    it.is_whitespace() || ('\x1c'..='\x1f').contains(&it)
}

/// Where the white space from a place on ends, or the line.
fn behind_spaces(text: &[u8], mut at: usize, end: usize) -> usize {
    while at < end {
        match char_at(&text[..end], at) {
            Some(it) if it != '\n' && is_space(it) => at += it.len_utf8(),
            _ => break,
        }
    }
    at
}

/// Where the text of the innermost bracket begins that is open at `at`, from `low` on.
fn opening(text: &[u8], low: usize, at: usize) -> Option<usize> {
    let begin = low + rfind(&text[low..at], b"(")?;
    if !text[begin..at].contains(&b')') {
        return Some(begin + 1);
    }
    let mut opened = Vec::new();
    for (index, byte) in text[low..at].iter().enumerate() {
        match byte {
            b'(' => opened.push(low + index + 1),
            b')' => drop(opened.pop()),
            _ => {}
        }
    }
    opened.pop()
}

/// Whether a name in a frame is that of a file: engines put others in brackets, and a number is that of a clock.
fn names_file(url: &[u8]) -> bool {
    let others: [&[u8]; 5] = [b"<", b"[", b"node:", b"internal/", b"eval at "];
    if others.iter().any(|it| url.starts_with(it)) || find(url, b" > ").is_some() || url.contains(&0) {
        return false;
    }
    url.utf8_chunks().any(|it| it.valid().chars().any(char::is_alphabetic))
}

/// Whether a name behind other words is that of a file.
fn is_path(url: &[u8]) -> bool {
    let second = url.utf8_chunks().flat_map(|it| it.valid().chars()).nth(1);
    let is_root = url.starts_with(b"/") || second == Some(':') || find(url, b"://").is_some();
    is_root || !url.contains(&b' ') && url.iter().any(|it| b"./\\".contains(it))
}

/// Whether a word begins as a URL, or a path from the root.
fn is_place(word: &[u8]) -> bool {
    let is_letter = word.first().is_some_and(u8::is_ascii_alphabetic);
    let is_drive = is_letter && word.get(1) == Some(&b':') && word.get(2).is_some_and(|it| b"\\/".contains(it));
    let scheme = word.iter().take_while(|it| it.is_ascii_alphanumeric() || b"+.-".contains(it)).count();
    word.starts_with(b"/") || is_drive || is_letter && scheme > 1 && word[scheme..].starts_with(b"://")
}

/// A line of a text, and where what is still to be read of it begins.
struct Line<'t> {
    text: &'t [u8],
    end: usize,
    low: usize,
    /// Where the first word begins, and whether that is `at`.
    head: usize,
    is_call: bool,
    /// Where the first `at` stands that is a word, behind a bracket too, as React prints it; the end if there is none.
    first_at: usize,
}

impl<'t> Line<'t> {
    fn around(text: &'t [u8], at: usize) -> Line<'t> {
        let low = text[..at].iter().rposition(|it| *it == b'\n').map_or(0, |it| it + 1);
        let end = text[at..].iter().position(|it| *it == b'\n').map_or(text.len(), |it| at + it);
        let head = behind_spaces(text, low, end);
        let ats = (low..end).filter(|it| text[*it..end].starts_with(b"at "));
        let is_word = |at: &usize| *at == 0 || char_before(text, *at).is_some_and(|it| is_space(it) || it == '(');
        let first_at = ats.into_iter().find(is_word).unwrap_or(end);
        Line { text, end, low, head, is_call: text[head..].starts_with(b"at "), first_at }
    }

    /// From where on a URL that ends at `at` is looked for.
    fn low_for(&self, at: usize) -> usize {
        self.low.max(at.saturating_sub(MOST_URL))
    }

    /// Whether nothing stands behind a place but white space, and the bracket that begins the properties of an error.
    fn is_last(&self, end: usize) -> bool {
        let mut at = behind_spaces(self.text, end, self.end);
        if self.text[at..self.end].starts_with(b"{") {
            at = behind_spaces(self.text, at + 1, self.end);
        }
        at >= self.end
    }

    /// Where the file of `at f (FILE:1:2)` begins, and whether it is of bytecode, whose columns count from 0.
    fn in_brackets(&self, at: usize) -> Option<(usize, bool)> {
        let start = opening(self.text, self.low_for(at), at).filter(|it| self.first_at <= *it)?;
        let rest = &self.text[start..];
        if rest.starts_with(ADDRESS) {
            return Some((start + ADDRESS.len(), true));
        }
        Some((start + if rest.starts_with(b"at ") { 3 } else { 0 }, false))
    }

    /// Where the file of `at FILE:1:2` begins.
    fn behind_at(&self, at: usize) -> Option<usize> {
        let start = if self.is_call && self.low <= self.head {
            self.head + 3
        } else if self.first_at < at {
            let low = self.low_for(at);
            low + rfind(&self.text[low..at], b" at ")? + 4
        } else {
            return None;
        };
        Some(start + if self.text[start..].starts_with(b"async ") { 6 } else { 0 })
    }

    /// Where the file of a place at the end of a line begins, as `f@FILE:1:2`, a URL or a path alone, or behind the sign of Vitest.
    fn at_end(&self, at: usize) -> Option<usize> {
        let rest = &self.text[self.low..at];
        let word = rest.iter().rposition(|it| b" \t".contains(it)).map_or(0, |it| it + 1);
        if rfind(rest, SIGN).is_some() {
            return Some(self.low + word);
        }
        let sign = rest.iter().position(|it| *it == b'@').filter(|it| find(&rest[..*it], b":/").is_none());
        sign.map(|it| it + 1).or(is_place(&rest[word..]).then_some(word)).map(|it| self.low + it)
    }

    /// Where the file of these numbers begins, whether its columns count from 0, and whether the form of the line shows that it is one.
    fn start(&self, numbers: &Numbers) -> Option<(usize, bool, bool)> {
        if self.text.get(numbers.end) == Some(&b')') {
            return self.in_brackets(numbers.at).map(|(start, is_bytecode)| (start, is_bytecode, true));
        }
        match self.behind_at(numbers.at) {
            Some(start) => Some((start, false, self.is_call && self.low <= self.head)),
            None if !self.is_call && self.is_last(numbers.end) => Some((self.at_end(numbers.at)?, false, true)),
            None => None,
        }
    }

    /// Whether a place may end in front of what follows it.
    fn is_end(&self, end: usize) -> bool {
        end == self.text.len() || char_at(self.text, end).is_some_and(|it| is_space(it) || "),;".contains(it))
    }

    /// The frame with these numbers, if it is one.
    fn place(&mut self, numbers: &Numbers) -> Option<Place<'t>> {
        if !self.is_end(numbers.end) {
            return None;
        }
        let found = self.start(numbers);
        self.low = numbers.end;
        let (start, is_bytecode, is_framed) = found?;
        if start >= numbers.at || numbers.at - start > MOST_URL {
            return None;
        }
        let url = &self.text[start..numbers.at];
        let column = numbers.column + u64::from(is_bytecode);
        let is_file = names_file(url) && (is_framed || is_path(url));
        is_file.then_some(Place { url, line: numbers.line, column, span: start..numbers.end })
    }
}
