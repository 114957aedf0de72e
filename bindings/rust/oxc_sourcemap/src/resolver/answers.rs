//! What frames resolve to, and what can go wrong.

use std::fmt::{self, Write};
use std::io;

use super::frames::Frame;
use super::names::Refused;

/// Why a frame is not resolved; [`Unresolved::detail`] has more.
///
/// ```
/// use oxc_sourcemap::resolver::Reason;
/// assert_eq!(Reason::NoMap.to_string(), "no map");
/// ```
#[derive(Clone, Copy, Debug, PartialEq, Eq, Hash, PartialOrd, Ord)]
#[non_exhaustive]
pub enum Reason {
    /// No base contains its URL.
    Outside,
    /// A path with `..`, a control character or a backslash, one that is too long, or a link out of the folder; or an invalid debug id.
    Refused,
    /// The store has neither the code nor a map of its name.
    NotThere,
    /// The store has the code, but no map of it.
    NoMap,
    /// The map cannot be read.
    BadMap,
    /// The map has another debug id.
    OtherBuild,
    /// The code or the map has more bytes than the limit.
    TooLarge,
    /// The map has no mapping at the position.
    Nothing,
    /// The mapping at the position has no source.
    Unmapped,
    /// The line or column is 0, or above 4294967295.
    Position,
    /// The trace has more frames than the limit.
    Frames,
    /// The trace took longer than the limit before this frame.
    Time,
    /// The store failed. The next trace asks it again.
    Store,
}

impl Reason {
    pub(super) const ALL: [Reason; 13] = [
        Reason::Outside,
        Reason::Refused,
        Reason::NotThere,
        Reason::NoMap,
        Reason::BadMap,
        Reason::OtherBuild,
        Reason::TooLarge,
        Reason::Nothing,
        Reason::Unmapped,
        Reason::Position,
        Reason::Frames,
        Reason::Time,
        Reason::Store,
    ];

    /// The reason in one or two words, as the resolvers of the other bindings have it.
    ///
    /// ```
    /// use oxc_sourcemap::resolver::Reason;
    /// assert_eq!(Reason::TooLarge.as_str(), "too large");
    /// ```
    pub fn as_str(self) -> &'static str {
        match self {
            Reason::Outside => "outside",
            Reason::Refused => "refused",
            Reason::NotThere => "not there",
            Reason::NoMap => "no map",
            Reason::BadMap => "bad map",
            Reason::OtherBuild => "other build",
            Reason::TooLarge => "too large",
            Reason::Nothing => "nothing",
            Reason::Unmapped => "unmapped",
            Reason::Position => "position",
            Reason::Frames => "frames",
            Reason::Time => "time",
            Reason::Store => "store",
        }
    }
}

impl fmt::Display for Reason {
    fn fmt(&self, f: &mut fmt::Formatter<'_>) -> fmt::Result {
        f.write_str(self.as_str())
    }
}

/// An unresolved frame, and why: the reason, and a detail in words.
///
/// ```
/// use oxc_sourcemap::resolver::{Frame, Options, Reason, Resolver};
/// let resolver = Resolver::new(std::collections::HashMap::new(), "", Options::default())?;
/// let error = resolver.resolve_frame(Frame::new("app.js", 1, 14)).original.unwrap_err();
/// assert_eq!(error.reason, Reason::NotThere);
/// assert_eq!(error.to_string(), "not there: there is no app.js, and no app.js.map");
/// # Ok::<(), oxc_sourcemap::resolver::Error>(())
/// ```
#[derive(Clone, Debug, PartialEq, Eq)]
#[non_exhaustive]
#[allow(missing_docs)]
pub struct Unresolved {
    pub reason: Reason,
    pub detail: String,
}

impl fmt::Display for Unresolved {
    fn fmt(&self, f: &mut fmt::Formatter<'_>) -> fmt::Result {
        write!(f, "{}: {}", self.reason, self.detail)
    }
}

impl std::error::Error for Unresolved {}

/// The original position of a frame.
#[derive(Clone, Debug, PartialEq, Eq)]
#[non_exhaustive]
pub struct Origin {
    /// The source, as the map lists it and with the source root before it.
    pub source: String,
    /// The line in the source, from 0 on.
    pub line: u32,
    /// The column in the source, from 0 on, in UTF-16 code units.
    pub column: u32,
    /// The name of the mapping, which is that of a function where the tool that made the map gave it one.
    pub name: Option<String>,
    /// The id of the source in the map.
    pub source_id: u32,
}

/// The original place as traces print it, with a line and a column from 1. A source with a quote, a control character or a mark of text
/// direction is a JSON string.
impl fmt::Display for Origin {
    fn fmt(&self, f: &mut fmt::Formatter<'_>) -> fmt::Result {
        let (line, column) = (u64::from(self.line) + 1, u64::from(self.column) + 1);
        if !self.source.chars().any(is_hidden) {
            return write!(f, "{}:{line}:{column}", self.source);
        }
        f.write_char('"')?;
        self.source.chars().try_for_each(|it| quoted(f, it))?;
        write!(f, "\":{line}:{column}")
    }
}

/// C0, DEL and C1, the marks of text direction, and quotes.
fn is_hidden(it: char) -> bool {
    it == '"' || is_mark(it) || it < ' '
}

fn is_mark(it: char) -> bool {
    matches!(it, '\x7f'..='\u{9f}' | '\u{61c}' | '\u{200e}' | '\u{200f}' | '\u{202a}'..='\u{202e}' | '\u{2066}'..='\u{2069}')
}

/// A character of a JSON string.
fn quoted(f: &mut fmt::Formatter<'_>, it: char) -> fmt::Result {
    match it {
        '"' | '\\' => write!(f, "\\{it}"),
        '\n' => f.write_str("\\n"),
        '\r' => f.write_str("\\r"),
        '\t' => f.write_str("\\t"),
        '\x08' => f.write_str("\\b"),
        '\x0c' => f.write_str("\\f"),
        it if it < ' ' || is_mark(it) => write!(f, "\\u{:04x}", u32::from(it)),
        it => f.write_char(it),
    }
}

/// What a frame resolves to.
///
/// ```
/// use std::collections::HashMap;
/// use oxc_sourcemap::resolver::{Frame, Options, Resolver};
/// let map = br#"{"version":3,"sources":["a.ts"],"names":["run"],"mappings":"AAAA,aACEA"}"#.to_vec();
/// let resolver = Resolver::new(HashMap::from([("app.js.map".into(), map)]), "", Options::default())?;
/// let found = resolver.resolve_frame(Frame::new("app.js", 1, 14));
/// assert_eq!(found.map.as_deref(), Some("app.js.map"));
/// let origin = found.original?;
/// assert_eq!((origin.source.as_str(), origin.line, origin.column, origin.name.as_deref()), ("a.ts", 1, 2, Some("run")));
/// assert_eq!(origin.to_string(), "a.ts:2:3");
/// # Ok::<(), Box<dyn std::error::Error>>(())
/// ```
#[derive(Clone, Debug, PartialEq, Eq)]
#[non_exhaustive]
pub struct Resolved {
    /// The frame that was asked for.
    pub frame: Frame,
    /// Its original position, or why that is not known.
    pub original: Result<Origin, Unresolved>,
    /// The name of the map in the store, if one was searched.
    pub map: Option<String>,
}

impl Resolved {
    pub(super) fn not(frame: Frame, reason: Reason, detail: impl Into<String>) -> Resolved {
        Resolved { frame, original: Err(Unresolved { reason, detail: detail.into() }), map: None }
    }

    /// Why the frame is not resolved, if it is not.
    pub fn reason(&self) -> Option<Reason> {
        self.original.as_ref().err().map(|it| it.reason)
    }

    /// The original place as traces print it, as [`Origin`] is shown, if the frame is resolved.
    pub fn place(&self) -> Option<String> {
        self.original.as_ref().ok().map(Origin::to_string)
    }
}

/// A text with the places of these frames, in order, replaced by the original ones; all else stays.
///
/// ```
/// use oxc_sourcemap::resolver::{Options, Resolver, replace_frames};
/// let resolver = Resolver::new(std::collections::HashMap::new(), "", Options::default())?;
/// let text = "f@app.js:1:14";
/// assert_eq!(replace_frames(text, &resolver.resolve_trace(text, &Default::default())?), text);
/// # Ok::<(), oxc_sourcemap::resolver::Error>(())
/// ```
///
/// # Panics
///
/// If a span is past the end of the text, inside of a character, or begins before the one in front ends: the frames are of another text.
pub fn replace_frames(text: &str, frames: &[Resolved]) -> String {
    let (mut out, mut last) = (String::with_capacity(text.len()), 0);
    for it in frames {
        if let Ok(origin) = &it.original {
            out.push_str(&text[last..it.frame.span.start]);
            // (a String takes all that is written)
            let _ = write!(out, "{origin}");
            last = it.frame.span.end;
        }
    }
    out + &text[last..]
}

/// The same for a text that need not be UTF-8.
pub(super) fn replace_in_bytes(text: &[u8], frames: &[Resolved]) -> Vec<u8> {
    let (mut out, mut last) = (Vec::with_capacity(text.len()), 0);
    for it in frames {
        if let Some(place) = it.place() {
            out.extend_from_slice(&text[last..it.frame.span.start]);
            out.extend_from_slice(place.as_bytes());
            last = it.frame.span.end;
        }
    }
    out.extend_from_slice(&text[last..]);
    out
}

/// Why a resolver is not made, or a trace not read.
///
/// ```
/// use oxc_sourcemap::resolver::{Error, Limits, Options, Resolver};
/// let options = Options { limits: Limits { trace_bytes: 8, ..Limits::default() }, ..Options::default() };
/// let resolver = Resolver::new(std::collections::HashMap::new(), "", options)?;
/// let error = resolver.resolve_text("f@app.js:1:14").unwrap_err();
/// assert!(matches!(error, Error::TooLarge { length: 13, limit: 8 }));
/// assert_eq!(error.to_string(), "the trace has 13 bytes, and the limit is 8");
/// # Ok::<(), Error>(())
/// ```
#[derive(Debug)]
#[non_exhaustive]
pub enum Error {
    /// A trace has more bytes than the limit.
    #[allow(missing_docs)]
    TooLarge { length: usize, limit: usize },
    /// A base is a URL or path that is refused.
    Base(Refused),
    /// Compiled maps can be written only beside the maps of a folder.
    NoFolder,
    /// The folder for compiled maps does not exist, and cannot be made.
    Cache(io::Error),
}

impl fmt::Display for Error {
    fn fmt(&self, f: &mut fmt::Formatter<'_>) -> fmt::Result {
        match self {
            Error::TooLarge { length, limit } => write!(f, "the trace has {length} bytes, and the limit is {limit}"),
            Error::Base(refused) => write!(f, "a base is {refused}"),
            Error::NoFolder => f.write_str("compiled maps can be written beside the maps of a folder alone"),
            Error::Cache(error) => write!(f, "the folder for compiled maps: {error}"),
        }
    }
}

impl std::error::Error for Error {
    fn source(&self) -> Option<&(dyn std::error::Error + 'static)> {
        match self {
            Error::Base(refused) => Some(refused),
            Error::Cache(error) => Some(error),
            Error::TooLarge { .. } | Error::NoFolder => None,
        }
    }
}
