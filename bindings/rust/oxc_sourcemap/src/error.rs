//! Errors, and where in a text they are.

use std::{error, fmt};

use oxc_sourcemap_sys as sys;
use sys::smap_fault;

use crate::raw::Told;

/// The result of a call that may fail.
pub type Result<T, E = Error> = std::result::Result<T, E>;

/// Why a call fails. Its text is that of the library.
///
/// ```
/// use oxc_sourcemap::{Error, SourceMap};
/// let error = SourceMap::from_json_string(r#"{"version":3,"sources":[],"mappings":"AA"}"#).unwrap_err();
/// assert_eq!(error, Error::BadSegmentSize(2));
/// assert_eq!(error.to_string(), "Mapping segment had an unsupported size of 2");
/// ```
#[derive(Clone, Copy, Debug, PartialEq, Eq, Hash)]
#[non_exhaustive]
pub enum Error {
    /// A number in the mappings ends in a digit with the continuation bit.
    VlqLeftover,
    /// A segment without a number. No call returns this.
    VlqNoValues,
    /// A number in the mappings is too large.
    VlqOverflow,
    /// The text is not JSON, or not that of a source map.
    BadJson(JsonFault),
    /// A segment has this number of fields; 0 if a column or a line is negative.
    BadSegmentSize(u32),
    /// A source id is out of range.
    BadSourceReference(u32),
    /// A name id is out of range.
    BadNameReference(u32),
    /// There is no memory left.
    OutOfMemory,
    /// A line, column, id, count or text is above its limit.
    TooLarge,
    /// The first token that lies on a line before that of the token before.
    LineOrder(usize),
    /// The first chunk that does not fit the tokens. No call of this crate returns this.
    BadChunks(usize),
    /// The number of sources of the first map of a composition, above 1.
    SeveralSources(usize),
    /// Tokens are not sorted by generated line and column.
    Unsorted,
    /// A plan is deeper than 64.
    TooDeep,
    /// The words are no plan.
    Words,
    /// The number of a text that a plan names, and that does not exist.
    NoText(usize),
    /// The first section of an indexed map that begins before the end of those before it.
    SectionOrder(usize),
    /// The first input of a remapping whose tokens go back in lines.
    InputLineOrder(usize),
    /// The index of the first bad byte of base64, in the unescaped data of a data URL.
    BadBase64(usize),
    /// How many bytes of the text in a data URL come before the first that is not UTF-8.
    BadDataUtf8(usize),
    /// Bytes are not a compiled map.
    Compiled(CompiledError),
    /// A text of scopes has this fault.
    BadScopes(ScopesFault),
    /// The member `scopes` of a map is neither a text nor null.
    ScopesNotText,
    /// The scopes of an indexed map are not read.
    ScopesIndexed,
    /// How many bytes come before the first that is not UTF-8.
    NotUtf8(usize),
    /// The lengths of two lists differ.
    Lengths,
    /// The map has no index of sources: [`SourceMap::index_sources`](crate::SourceMap::index_sources) makes it.
    NoIndex,
    /// A file cannot be read: the error of the system, or 0 if it is no plain file.
    NoFile(i32),
    /// Another code of the library, which this crate does not know.
    Unknown(u32),
}

/// What is wrong with a JSON text.
#[derive(Clone, Copy, Debug, PartialEq, Eq, Hash)]
#[non_exhaustive]
pub enum JsonFault {
    /// It is not JSON.
    Reading,
    /// A field is missing or has the wrong type.
    Shape(Field),
    /// The version, which is not 3.
    Version(u32),
}

/// Why bytes are not a compiled map.
#[derive(Clone, Copy, Debug, PartialEq, Eq, Hash)]
#[non_exhaustive]
pub enum CompiledError {
    /// They do not begin as a compiled map does, or are fewer than 8.
    NotCompiled,
    /// The version, which is not 1.
    Version(u32),
    /// The number of bytes is not the one that they state, as in a truncated file.
    Length,
    /// The parts take more bytes than there are.
    Sizes,
}

/// A fault of a text of scopes.
#[derive(Clone, Copy, Debug, PartialEq, Eq, Hash)]
pub struct ScopesFault {
    /// What is wrong.
    pub kind: ScopesFaultKind,
    /// The byte of the text at which the item at fault begins; where a scope or a range is left open, the length of the text.
    pub byte: usize,
}

/// What is wrong with an item of a text of scopes.
#[derive(Clone, Copy, Debug, PartialEq, Eq, Hash)]
#[non_exhaustive]
pub enum ScopesFaultKind {
    /// A byte is no base64 digit.
    NotADigit,
    /// Its last number ends in a digit after which another has to follow.
    CutShort,
    /// A number has more than seven digits, or with it a line, a column or a source is above its limit.
    TooLarge,
    /// It is empty, or lacks a number.
    MissingNumber,
    /// An index refers to no name, scope or value.
    BadIndex,
    /// It is an end, variables, values, sub-ranges or a call site, but what it needs is not open.
    NothingOpen,
    /// A source without scopes comes within the scopes of another.
    NotClosed,
    /// More than 1024 scopes or ranges are nested.
    TooDeep,
    /// The text ends, and a scope or a range has no end.
    LeftOpen,
    /// It is sub-ranges of a value that has some already.
    SplitTwice,
    /// Another one, which this crate does not know.
    Unknown(u32),
}

const SCOPES_FAULTS: [(ScopesFaultKind, u32); 10] = [
    (ScopesFaultKind::NotADigit, sys::SMAP_SCOPES_NOT_A_DIGIT),
    (ScopesFaultKind::CutShort, sys::SMAP_SCOPES_CUT_SHORT),
    (ScopesFaultKind::TooLarge, sys::SMAP_SCOPES_TOO_LARGE),
    (ScopesFaultKind::MissingNumber, sys::SMAP_SCOPES_MISSING_NUMBER),
    (ScopesFaultKind::BadIndex, sys::SMAP_SCOPES_BAD_INDEX),
    (ScopesFaultKind::NothingOpen, sys::SMAP_SCOPES_NOTHING_OPEN),
    (ScopesFaultKind::NotClosed, sys::SMAP_SCOPES_NOT_CLOSED),
    (ScopesFaultKind::TooDeep, sys::SMAP_SCOPES_TOO_DEEP),
    (ScopesFaultKind::LeftOpen, sys::SMAP_SCOPES_LEFT_OPEN),
    (ScopesFaultKind::SplitTwice, sys::SMAP_SCOPES_SPLIT_TWICE),
];

impl ScopesFaultKind {
    fn of(number: u32) -> ScopesFaultKind {
        let known = SCOPES_FAULTS.iter().find(|row| row.1 == number);
        known.map_or(ScopesFaultKind::Unknown(number), |row| row.0)
    }

    fn number(self) -> u32 {
        match self {
            ScopesFaultKind::Unknown(number) => number,
            kind => SCOPES_FAULTS.iter().find(|row| row.0 == kind).map_or(0, |row| row.1),
        }
    }
}

/// A field of the JSON text of a map.
#[derive(Clone, Copy, Debug, PartialEq, Eq, Hash)]
#[non_exhaustive]
pub enum Field {
    /// The value itself.
    Object,
    /// `version`
    Version,
    /// `file`
    File,
    /// `mappings`
    Mappings,
    /// `sourceRoot`
    SourceRoot,
    /// `sources`
    Sources,
    /// `sourcesContent`
    SourcesContent,
    /// `names`
    Names,
    /// `debugId`
    DebugId,
    /// `ignoreList`
    IgnoreList,
    /// `x_google_ignoreList`
    GoogleIgnoreList,
    /// `sections` of an indexed map
    Sections,
    /// `offset` of a section
    Offset,
    /// `map` of a section
    Map,
    /// Another one, which this crate does not know.
    Unknown(u32),
}

const FIELDS: [(Field, u32); 14] = [
    (Field::Object, sys::SMAP_FIELD_OBJECT),
    (Field::Version, sys::SMAP_FIELD_VERSION),
    (Field::File, sys::SMAP_FIELD_FILE),
    (Field::Mappings, sys::SMAP_FIELD_MAPPINGS),
    (Field::SourceRoot, sys::SMAP_FIELD_SOURCE_ROOT),
    (Field::Sources, sys::SMAP_FIELD_SOURCES),
    (Field::SourcesContent, sys::SMAP_FIELD_SOURCES_CONTENT),
    (Field::Names, sys::SMAP_FIELD_NAMES),
    (Field::DebugId, sys::SMAP_FIELD_DEBUG_ID),
    (Field::IgnoreList, sys::SMAP_FIELD_IGNORE_LIST),
    (Field::GoogleIgnoreList, sys::SMAP_FIELD_GOOGLE_IGNORE_LIST),
    (Field::Sections, sys::SMAP_FIELD_SECTIONS),
    (Field::Offset, sys::SMAP_FIELD_OFFSET),
    (Field::Map, sys::SMAP_FIELD_MAP),
];

impl Field {
    fn of(number: u32) -> Field {
        FIELDS.iter().find(|row| row.1 == number).map_or(Field::Unknown(number), |row| row.0)
    }

    fn number(self) -> u32 {
        match self {
            Field::Unknown(number) => number,
            field => FIELDS.iter().find(|row| row.0 == field).map_or(0, |row| row.1),
        }
    }
}

impl Error {
    fn of(fault: &smap_fault) -> Error {
        let (number, index) = (fault.detail as u32, fault.detail as usize);
        match fault.code {
            sys::SMAP_VLQ_LEFTOVER => Error::VlqLeftover,
            sys::SMAP_VLQ_NO_VALUES => Error::VlqNoValues,
            sys::SMAP_VLQ_OVERFLOW => Error::VlqOverflow,
            sys::SMAP_JSON_READING => Error::BadJson(JsonFault::Reading),
            sys::SMAP_JSON_SHAPE => Error::BadJson(JsonFault::Shape(Field::of(fault.field))),
            sys::SMAP_JSON_VERSION => Error::BadJson(JsonFault::Version(number)),
            sys::SMAP_BAD_SEGMENT_SIZE => Error::BadSegmentSize(number),
            sys::SMAP_BAD_SOURCE_REFERENCE => Error::BadSourceReference(number),
            sys::SMAP_BAD_NAME_REFERENCE => Error::BadNameReference(number),
            sys::SMAP_OUT_OF_MEMORY => Error::OutOfMemory,
            sys::SMAP_TOO_LARGE => Error::TooLarge,
            sys::SMAP_LINE_ORDER => Error::LineOrder(index),
            sys::SMAP_BAD_CHUNKS => Error::BadChunks(index),
            sys::SMAP_SEVERAL_SOURCES => Error::SeveralSources(index),
            sys::SMAP_UNSORTED => Error::Unsorted,
            sys::SMAP_TOO_DEEP => Error::TooDeep,
            sys::SMAP_WORDS => Error::Words,
            sys::SMAP_NO_TEXT => Error::NoText(index),
            sys::SMAP_SECTION_ORDER => Error::SectionOrder(index),
            sys::SMAP_INPUT_LINE_ORDER => Error::InputLineOrder(index),
            sys::SMAP_BAD_BASE64 => Error::BadBase64(index),
            sys::SMAP_BAD_DATA_UTF8 => Error::BadDataUtf8(index),
            sys::SMAP_NOT_COMPILED => Error::Compiled(CompiledError::NotCompiled),
            sys::SMAP_COMPILED_VERSION => Error::Compiled(CompiledError::Version(number)),
            sys::SMAP_COMPILED_LENGTH => Error::Compiled(CompiledError::Length),
            sys::SMAP_COMPILED_SIZES => Error::Compiled(CompiledError::Sizes),
            sys::SMAP_BAD_SCOPES => {
                Error::BadScopes(ScopesFault { kind: ScopesFaultKind::of(fault.field), byte: index })
            }
            sys::SMAP_SCOPES_NOT_TEXT => Error::ScopesNotText,
            sys::SMAP_SCOPES_INDEXED => Error::ScopesIndexed,
            sys::SMAP_NOT_UTF8 => Error::NotUtf8(index),
            sys::SMAP_LENGTHS => Error::Lengths,
            sys::SMAP_NO_INDEX => Error::NoIndex,
            sys::SMAP_NO_FILE => Error::NoFile(number as i32),
            code => Error::Unknown(code),
        }
    }

    /// The error as the library has it, for its message. The inverse of `of`.
    fn told(self) -> smap_fault {
        let fault = |code, detail| smap_fault { code, detail, ..smap_fault::default() };
        match self {
            Error::VlqLeftover => fault(sys::SMAP_VLQ_LEFTOVER, 0),
            Error::VlqNoValues => fault(sys::SMAP_VLQ_NO_VALUES, 0),
            Error::VlqOverflow => fault(sys::SMAP_VLQ_OVERFLOW, 0),
            Error::BadJson(json) => json.told(),
            Error::BadSegmentSize(size) => fault(sys::SMAP_BAD_SEGMENT_SIZE, size.into()),
            Error::BadSourceReference(id) => fault(sys::SMAP_BAD_SOURCE_REFERENCE, id.into()),
            Error::BadNameReference(id) => fault(sys::SMAP_BAD_NAME_REFERENCE, id.into()),
            Error::OutOfMemory => fault(sys::SMAP_OUT_OF_MEMORY, 0),
            Error::TooLarge => fault(sys::SMAP_TOO_LARGE, 0),
            Error::LineOrder(index) => fault(sys::SMAP_LINE_ORDER, index as u64),
            Error::BadChunks(index) => fault(sys::SMAP_BAD_CHUNKS, index as u64),
            Error::SeveralSources(count) => fault(sys::SMAP_SEVERAL_SOURCES, count as u64),
            Error::Unsorted => fault(sys::SMAP_UNSORTED, 0),
            Error::TooDeep => fault(sys::SMAP_TOO_DEEP, 0),
            Error::Words => fault(sys::SMAP_WORDS, 0),
            Error::NoText(number) => fault(sys::SMAP_NO_TEXT, number as u64),
            Error::SectionOrder(index) => fault(sys::SMAP_SECTION_ORDER, index as u64),
            Error::InputLineOrder(index) => fault(sys::SMAP_INPUT_LINE_ORDER, index as u64),
            Error::BadBase64(index) => fault(sys::SMAP_BAD_BASE64, index as u64),
            Error::BadDataUtf8(index) => fault(sys::SMAP_BAD_DATA_UTF8, index as u64),
            Error::Compiled(error) => error.told(),
            Error::BadScopes(error) => error.told(),
            Error::ScopesNotText => fault(sys::SMAP_SCOPES_NOT_TEXT, 0),
            Error::ScopesIndexed => fault(sys::SMAP_SCOPES_INDEXED, 0),
            Error::NotUtf8(index) => fault(sys::SMAP_NOT_UTF8, index as u64),
            Error::Lengths => fault(sys::SMAP_LENGTHS, 0),
            Error::NoIndex => fault(sys::SMAP_NO_INDEX, 0),
            Error::NoFile(reason) => fault(sys::SMAP_NO_FILE, reason as u64),
            Error::Unknown(code) => fault(code, 0),
        }
    }
}

impl JsonFault {
    fn told(self) -> smap_fault {
        let (code, field, detail) = match self {
            JsonFault::Reading => (sys::SMAP_JSON_READING, 0, 0),
            JsonFault::Shape(field) => (sys::SMAP_JSON_SHAPE, field.number(), 0),
            JsonFault::Version(version) => (sys::SMAP_JSON_VERSION, 0, version.into()),
        };
        smap_fault { code, field, detail, ..smap_fault::default() }
    }
}

impl CompiledError {
    fn told(self) -> smap_fault {
        let (code, detail) = match self {
            CompiledError::NotCompiled => (sys::SMAP_NOT_COMPILED, 0),
            CompiledError::Version(version) => (sys::SMAP_COMPILED_VERSION, version.into()),
            CompiledError::Length => (sys::SMAP_COMPILED_LENGTH, 0),
            CompiledError::Sizes => (sys::SMAP_COMPILED_SIZES, 0),
        };
        smap_fault { code, detail, ..smap_fault::default() }
    }
}

impl ScopesFault {
    fn told(self) -> smap_fault {
        let (field, detail) = (self.kind.number(), self.byte as u64);
        smap_fault { code: sys::SMAP_BAD_SCOPES, field, detail, ..smap_fault::default() }
    }
}

/// The words that a call writes to a buffer, which is long enough for most. None if it writes none.
pub(crate) fn words(mut call: impl FnMut(*mut std::ffi::c_char, usize) -> usize) -> Option<String> {
    let mut bytes = vec![0u8; 200];
    let len = call(bytes.as_mut_ptr().cast(), bytes.len());
    if len > bytes.len() {
        bytes.resize(len, 0);
        call(bytes.as_mut_ptr().cast(), bytes.len());
    }
    bytes.truncate(len);
    String::from_utf8(bytes).ok().filter(|words| !words.is_empty())
}

/// The message of the library, or the name of the code where memory for it is refused.
fn message(fault: &smap_fault) -> String {
    // SAFETY: the fault and the buffer are live, and the buffer has this length.
    let said = words(|at, len| unsafe { sys::smap_message(fault, at, len) });
    said.unwrap_or_else(|| format!("{} ({})", code_name(fault.code), fault.code))
}

/// The name of a code.
fn code_name(code: u32) -> &'static str {
    // SAFETY: the call gives a constant that ends with a zero byte.
    let name = unsafe { std::ffi::CStr::from_ptr(sys::smap_code_name(code)) };
    name.to_str().unwrap_or("SMAP_UNKNOWN")
}

impl fmt::Display for Error {
    fn fmt(&self, f: &mut fmt::Formatter<'_>) -> fmt::Result {
        f.write_str(&message(&self.told()))
    }
}

impl error::Error for Error {
    fn source(&self) -> Option<&(dyn error::Error + 'static)> {
        match self {
            Error::BadJson(json) => Some(json),
            _ => None,
        }
    }
}

impl fmt::Display for JsonFault {
    fn fmt(&self, f: &mut fmt::Formatter<'_>) -> fmt::Result {
        let words = message(&self.told());
        f.write_str(words.strip_prefix("JSON parsing error: ").unwrap_or(&words))
    }
}

impl error::Error for JsonFault {}

impl fmt::Display for CompiledError {
    fn fmt(&self, f: &mut fmt::Formatter<'_>) -> fmt::Result {
        f.write_str(&message(&self.told()))
    }
}

impl error::Error for CompiledError {}

impl fmt::Display for ScopesFault {
    fn fmt(&self, f: &mut fmt::Formatter<'_>) -> fmt::Result {
        f.write_str(&message(&self.told()))
    }
}

impl error::Error for ScopesFault {}

impl From<Told> for Error {
    fn from(told: Told) -> Error {
        Error::of(&told.0)
    }
}

/// An error of a text that was read, and where in the text it is.
///
/// ```
/// use oxc_sourcemap::{Error, SourceMap, Spot};
/// let fault = SourceMap::read(br#"{"version":3,"sources":["a.ts"],"mappings":"AAAA,GAASA"}"#).unwrap_err();
/// assert_eq!(fault.error(), Error::BadNameReference(0));
/// assert_eq!(fault.place().unwrap().spot, Spot::Segment { line: 0, segment: 1, byte: 5 });
/// assert_eq!(fault.place_text().unwrap(), "line 0, segment 1 (byte 5)");
/// assert_eq!(fault.to_string(), "Reference to non-existing name at position 0, in line 0, segment 1 (byte 5)");
/// ```
#[derive(Clone, Copy, PartialEq, Eq)]
pub struct Fault(smap_fault);

/// Where in a text an error is.
#[derive(Clone, Copy, Debug, PartialEq, Eq)]
#[non_exhaustive]
pub struct Place {
    /// The number of the text, of several.
    pub text: Option<usize>,
    /// The number of the section, in an indexed map.
    pub section: Option<usize>,
    /// The place in the text or the section.
    pub spot: Spot,
}

/// A place in the text of a map.
#[derive(Clone, Copy, Debug, PartialEq, Eq)]
#[non_exhaustive]
pub enum Spot {
    /// A segment of the mappings: its generated line, its number on that line, and its first byte in the mappings.
    #[allow(missing_docs)]
    Segment { line: usize, segment: usize, byte: usize },
    /// The text is not JSON from about here on: the line, how many of its bytes come before, and how many of the text.
    #[allow(missing_docs)]
    Reading { line: usize, column: usize, byte: usize },
    /// A member of the map.
    Member(Field),
    /// An entry of a member that is a list.
    #[allow(missing_docs)]
    Entry { field: Field, entry: usize },
    /// Another kind, which this crate does not know.
    Unknown(u32),
}

impl Fault {
    /// Why the text is refused.
    pub fn error(&self) -> Error {
        Error::of(&self.0)
    }

    /// Where it is, if that is known.
    pub fn place(&self) -> Option<Place> {
        let place = &self.0.place;
        let told = |number: u64| (number != sys::SMAP_NOT_TOLD).then_some(number as usize);
        let (line, column, byte) = (place.line as usize, place.column as usize, place.byte as usize);
        let spot = match place.kind {
            sys::SMAP_PLACE_NONE => return None,
            sys::SMAP_PLACE_SEGMENT => Spot::Segment { line, segment: column, byte },
            sys::SMAP_PLACE_READING => Spot::Reading { line, column, byte },
            sys::SMAP_PLACE_MEMBER => Spot::Member(Field::of(place.field)),
            sys::SMAP_PLACE_ENTRY => Spot::Entry { field: Field::of(place.field), entry: place.entry as usize },
            kind => Spot::Unknown(kind),
        };
        Some(Place { text: told(place.text), section: told(place.section), spot })
    }

    /// The place as a message, if it is known.
    pub fn place_text(&self) -> Option<String> {
        // SAFETY: the fault and the buffer are live, and the buffer has this length.
        words(|at, len| unsafe { sys::smap_place_message(&self.0, at, len) })
    }

    /// The actual cause at the place, where the error names another: `a column below 0` for a segment of size 0. The text is the one that
    /// was refused with this fault.
    pub fn reason_text(&self, text: &str) -> Option<String> {
        // SAFETY: the text, the fault and the buffer are live, and have these lengths.
        words(|at, len| unsafe { sys::smap_reason_message(text.as_ptr().cast(), text.len(), &self.0, at, len) })
    }
}

impl fmt::Debug for Fault {
    fn fmt(&self, f: &mut fmt::Formatter<'_>) -> fmt::Result {
        f.debug_struct("Fault").field("error", &self.error()).field("place", &self.place()).finish()
    }
}

impl fmt::Display for Fault {
    fn fmt(&self, f: &mut fmt::Formatter<'_>) -> fmt::Result {
        f.write_str(&message(&self.0))?;
        self.place_text().map_or(Ok(()), |place| write!(f, ", in {place}"))
    }
}

impl error::Error for Fault {
    fn source(&self) -> Option<&(dyn error::Error + 'static)> {
        None
    }
}

impl From<Told> for Fault {
    fn from(told: Told) -> Fault {
        Fault(told.0)
    }
}

impl From<Fault> for Error {
    fn from(fault: Fault) -> Error {
        fault.error()
    }
}

#[cfg(test)]
mod tests {
    use super::*;

    // Codes that no call returns to this crate are still distinguished, with their messages.
    #[test]
    fn every_code_has_its_error() {
        for code in (1..=29).chain([101, 102, 104, 106]) {
            let fault = smap_fault { code, ..smap_fault::default() };
            let error = Error::of(&fault);
            assert!(!matches!(error, Error::Unknown(_)), "{code}");
            assert_eq!(error.told(), fault, "{code}");
        }
        for code in [30, 100, 103, 105, 107, 108, 4_000_000_000] {
            assert_eq!(Error::of(&smap_fault { code, ..smap_fault::default() }), Error::Unknown(code));
            assert_eq!(Error::Unknown(code).told().code, code);
        }
    }

    #[test]
    fn every_fault_of_scopes_has_its_kind() {
        for field in 0..12 {
            let fault = smap_fault { code: 27, field, detail: 7, ..smap_fault::default() };
            let Error::BadScopes(error) = Error::of(&fault) else { panic!("{field}") };
            assert_eq!(matches!(error.kind, ScopesFaultKind::Unknown(_)), field == 0 || field == 11);
            assert_eq!((Error::of(&fault).told(), error.byte), (fault, 7));
        }
    }

    #[test]
    fn an_unknown_field_and_an_unknown_place_keep_their_number() {
        assert_eq!((Field::of(77), Field::Unknown(77).number()), (Field::Unknown(77), 77));
        let mut fault = smap_fault { code: 5, field: 77, ..smap_fault::default() };
        fault.place.kind = 9;
        let fault = Fault(fault);
        assert_eq!(fault.error(), Error::BadJson(JsonFault::Shape(Field::Unknown(77))));
        assert_eq!(fault.place().unwrap().spot, Spot::Unknown(9));
    }

    #[test]
    fn words_of_any_length_are_whole() {
        for len in [1, 199, 200, 201, 202, 1000] {
            let said = "abcdefg".repeat(143)[..len].to_string();
            let written = words(|at, room| {
                let fits = said.len().min(room);
                // SAFETY: there is room for so many bytes.
                unsafe { std::ptr::copy_nonoverlapping(said.as_ptr().cast(), at, fits) };
                said.len()
            });
            assert_eq!(written.as_deref(), Some(&*said));
        }
        assert_eq!(words(|_, _| 0), None);
    }

    #[test]
    fn codes_have_names() {
        assert_eq!((code_name(12), code_name(999)), ("SMAP_LINE_ORDER", "SMAP_UNKNOWN"));
    }
}
