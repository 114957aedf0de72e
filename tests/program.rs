//! The program's worked examples, and readers and writers that fail.
use crate::helpers::same;
use oxc_sourcemap::{Error, JsonFault, PlanError};
use smap_run::{Command, Failure, Port, RunError, read_words, run, run_where, take_where};
use std::alloc::{AllocError, Global};
use std::fmt::Debug;
use std::io;
use std::io::{ErrorKind, Read, Write};
use std::process::Abort;
use std::test::Fail;

/// Words after the program's name, an input, and what is written or the error.
type Run = (
    &'static [&'static str],
    &'static str,
    Result<&'static str, RunError>,
);

/// Texts of mappings.
const MAPPINGS: &[Run] = &[
    (&["mappings", "0", "0"], "gD,!C", Ok("gD,/C\n")),
    (&["mappings", "0", "0"], "gD,!C\n", Ok("gD,/C\n")),
    (&["mappings", "00", "000"], "G,D", Ok("G,D\n")),
    (&["mappings", "1", "4294967295"], "AAAAA", Ok("AAAAA\n")),
    (&["mappings", "0", "0"], "", Ok("\n")),
    (&["mappings", "0", "0"], "\n", Ok("\n")),
    (
        &["mappings", "0", "0"],
        "AA",
        Err(RunError::Plan(PlanError::Map(Error::BadSegmentSize(2)))),
    ),
    (
        &["mappings", "0", "0"],
        "A\n\n",
        Err(RunError::Plan(PlanError::Map(Error::VlqLeftover))),
    ),
];

/// Words that are no command.
const NO_COMMANDS: &[Run] = &[
    (&["mappings", "0"], "A", Err(RunError::Arguments)),
    (&["mappings", "0", "0", "0"], "A", Err(RunError::Arguments)),
    (&["mappings", "+1", "0"], "A", Err(RunError::Arguments)),
    (&["mappings", "", "0"], "A", Err(RunError::Arguments)),
    (
        &["mappings", "0", "4294967296"],
        "A",
        Err(RunError::Arguments),
    ),
    (&["mapping", "0", "0"], "A", Err(RunError::Arguments)),
    (&["normalise", "0"], "{}", Err(RunError::Arguments)),
    (&["url", "0"], "{}", Err(RunError::Arguments)),
    (&[], "A", Err(RunError::Arguments)),
];

fn runs() -> [&'static [Run]; 2] {
    [MAPPINGS, NO_COMMANDS]
}

/// A JSON text, and what `normalise` writes, or the text of its error.
type Normalised = (&'static str, Result<&'static str, &'static str>);

/// Maps that are written.
const WRITTEN: &[Normalised] = &[
    (
        r#"{"mappings":"gD,!C","version":3,"sources":["a.js"],"x_google_ignoreList":[0],"extra":1}"#,
        Ok(r#"{"version":3,"names":[],"sources":["a.js"],"ignoreList":[0],"mappings":"gD,/C"}"#),
    ),
    (
        r#"{"version":3,"sources":["a.js","b.js"],"mappings":"","ignoreList":[0],"x_google_ignoreList":false}"#,
        Ok(r#"{"version":3,"names":[],"sources":["a.js","b.js"],"ignoreList":[0],"mappings":""}"#),
    ),
    (
        r#"{"version":3,"file":"a\"b\\c\t\u0001\u0008\n\f\r\u001F\u007f\/é\ud83d\ude00","sources":[],"mappings":""}"#,
        Ok(
            "{\"version\":3,\"file\":\"a\\\"b\\\\c\\t\\u0001\\b\\n\\f\\r\\u001f\u{7f}/é😀\",\"names\":[],\"sources\":[],\"mappings\":\"\"}",
        ),
    ),
    (
        r#"{"version":3,"file":"a\"b\\c\t\u0001","names":[],"sources":[],"mappings":""}"#,
        Ok(r#"{"version":3,"file":"a\"b\\c\t\u0001","names":[],"sources":[],"mappings":""}"#),
    ),
    (
        r#"{"version":3,"names":[],"sources":[],"mappings":""}"#,
        Ok(r#"{"version":3,"names":[],"sources":[],"mappings":""}"#),
    ),
    (
        r#"{"debugId":"d","ignoreList":[],"names":["x"],"sourcesContent":[null,"A"],"sources":["a","b"],"sourceRoot":"r","mappings":"AAAAA","file":"f","version":3}"#,
        Ok(
            r#"{"version":3,"file":"f","sourceRoot":"r","names":["x"],"sources":["a","b"],"sourcesContent":[null,"A"],"ignoreList":[],"mappings":"AAAAA","debugId":"d"}"#,
        ),
    ),
    (
        r#"{"version":3,"sources":["a"],"sourcesContent":[null],"mappings":"","file":null}"#,
        Ok(r#"{"version":3,"names":[],"sources":["a"],"mappings":""}"#),
    ),
];

/// Maps that are not read.
const NOT_READ: &[Normalised] = &[
    ("{", Err("JSON parsing error: the text is not JSON")),
    ("[3]", Err("JSON parsing error: the value is not an object")),
    (
        r#"{"version":2}"#,
        Err("JSON parsing error: unsupported source map version: 2"),
    ),
    (
        r#"{"version":2,"sources":["a.js"],"mappings":""}"#,
        Err("JSON parsing error: unsupported source map version: 2"),
    ),
    (
        r#"{"version":3,"sources":[],"mappings":"","names":null}"#,
        Err("JSON parsing error: field names is missing or has the wrong type"),
    ),
    (
        r#"{"version":3,"sources":["a.js","b.js"],"mappings":"","ignoreList":null,"x_google_ignoreList":[3]}"#,
        Err("Reference to non-existing source at position 3"),
    ),
    (
        r#"{"version":3,"sources":["a.js","b.js"],"mappings":"","ignoreList":[0.5]}"#,
        Err("JSON parsing error: field ignoreList is missing or has the wrong type"),
    ),
];

/// Indexed maps.
const INDEXED: &[Normalised] = &[
    (
        r#"{"version":3,"file":"out.js","sections":[{"offset":{"line":0,"column":0},"map":{"version":3,"sources":["a.js"],"mappings":"AAAA,IAAI"}},{"offset":{"line":0,"column":10},"map":{"version":3,"sources":["b.js"],"mappings":"AAAA;AACA"}}]}"#,
        Ok(
            r#"{"version":3,"file":"out.js","names":[],"sources":["a.js","b.js"],"mappings":"AAAA,IAAI,MCAJ;AACA"}"#,
        ),
    ),
    (
        r#"{"version":3,"file":"out.js","sections":[{"offset":{"line":0,"column":0},"map":{"version":3,"sources":["a.js"],"mappings":"AAAA,IAAI"}},{"offset":{"line":0,"column":4},"map":{"version":3,"sources":["b.js"],"mappings":"AAAA;AACA"}}]}"#,
        Ok(
            r#"{"version":3,"file":"out.js","names":[],"sources":["a.js","b.js"],"mappings":"AAAA,IAAI,ACAJ;AACA"}"#,
        ),
    ),
    (
        r#"{"version":3,"file":"out.js","sections":[{"offset":{"line":0,"column":0},"map":{"version":3,"sources":["a.js"],"mappings":"AAAA,IAAI"}},{"offset":{"line":0,"column":3},"map":{"version":3,"sources":["b.js"],"mappings":"AAAA;AACA"}}]}"#,
        Err("Section 1 begins before the end of what is in front of it"),
    ),
    (
        r#"{"version":3,"file":"out.js","sections":[{"offset":{"line":0,"column":0},"map":{"version":3,"sources":["a.js"],"mappings":"AAAA,IAAI"}},{"offset":{"line":0,"column":4294967295},"map":{"version":3,"sources":["b.js"],"mappings":"C"}}]}"#,
        Err("A line, an id or a count is too large"),
    ),
    (
        r#"{"version":3,"file":"out.js","sections":[{"offset":{"line":0,"column":0},"map":{"version":3,"sources":["a.js"],"mappings":"AAAA,IAAI"}},{"offset":{"line":0,"column":10},"url":"b.map"}]}"#,
        Err("JSON parsing error: field map is missing or has the wrong type"),
    ),
    (
        r#"{"version":3,"sections":[0]}"#,
        Err("JSON parsing error: field sections is missing or has the wrong type"),
    ),
    (
        r#"{"version":3,"sections":[{}]}"#,
        Err("JSON parsing error: field offset is missing or has the wrong type"),
    ),
];

fn normalised() -> [&'static [Normalised]; 3] {
    [WRITTEN, NOT_READ, INDEXED]
}

/// The JSON text of a map, and its data URL: without padding, and with one and two symbols of it.
const URLS: &[(&str, &str)] = &[
    (
        r#"{"version":3,"sources":[],"mappings":""}"#,
        "data:application/json;charset=utf-8;base64,eyJ2ZXJzaW9uIjozLCJuYW1lcyI6W10sInNvdXJjZXMiOltdLCJtYXBwaW5ncyI6IiJ9\n",
    ),
    (
        r#"{"version":3,"names":[],"sources":[],"mappings":""}"#,
        "data:application/json;charset=utf-8;base64,eyJ2ZXJzaW9uIjozLCJuYW1lcyI6W10sInNvdXJjZXMiOltdLCJtYXBwaW5ncyI6IiJ9\n",
    ),
    (
        r#"{"version":3,"file":"","names":[],"sources":[],"mappings":""}"#,
        "data:application/json;charset=utf-8;base64,eyJ2ZXJzaW9uIjozLCJmaWxlIjoiIiwibmFtZXMiOltdLCJzb3VyY2VzIjpbXSwibWFwcGluZ3MiOiIifQ==\n",
    ),
    (
        r#"{"version":3,"file":"a","names":[],"sources":[],"mappings":""}"#,
        "data:application/json;charset=utf-8;base64,eyJ2ZXJzaW9uIjozLCJmaWxlIjoiYSIsIm5hbWVzIjpbXSwic291cmNlcyI6W10sIm1hcHBpbmdzIjoiIn0=\n",
    ),
    (
        r#"{"version":3,"file":"ab?>~","names":[],"sources":[],"mappings":""}"#,
        "data:application/json;charset=utf-8;base64,eyJ2ZXJzaW9uIjozLCJmaWxlIjoiYWI/Pn4iLCJuYW1lcyI6W10sInNvdXJjZXMiOltdLCJtYXBwaW5ncyI6IiJ9\n",
    ),
    (
        r#"{"version":3,"file":"ab","names":[],"sources":["ÿ>?"],"mappings":""}"#,
        "data:application/json;charset=utf-8;base64,eyJ2ZXJzaW9uIjozLCJmaWxlIjoiYWIiLCJuYW1lcyI6W10sInNvdXJjZXMiOlsiw78+PyJdLCJtYXBwaW5ncyI6IiJ9\n",
    ),
];

/// The words after `trace`, the JSON text of a map, and what is written or the error.
const TRACES: &[(&[&str], &str, Result<&str, RunError>)] = &[
    (
        &["trace", "0", "3"],
        r#"{"version":3,"sources":["coolstuff.js"],"names":["x"],"mappings":"AAAA,GAAIA"}"#,
        Ok("\"coolstuff.js\":0:4 \"x\"\n"),
    ),
    (
        &["trace", "0", "2"],
        r#"{"version":3,"sources":["coolstuff.js"],"names":["x"],"mappings":"AAAA,GAAIA"}"#,
        Ok("\"coolstuff.js\":0:0\n"),
    ),
    (
        &["trace", "0", "3"],
        r#"{"version":3,"sources":[],"mappings":"G"}"#,
        Ok("unmapped\n"),
    ),
    (
        &["trace", "0", "2"],
        r#"{"version":3,"sources":[],"mappings":"G"}"#,
        Ok("nothing\n"),
    ),
    (
        &["trace", "9", "0"],
        r#"{"version":3,"sources":[],"mappings":"G"}"#,
        Ok("nothing\n"),
    ),
    (
        &["trace", "0", "11"],
        r#"{"version":3,"file":"out.js","sections":[{"offset":{"line":0,"column":0},"map":{"version":3,"sources":["a.js"],"mappings":"AAAA,IAAI"}},{"offset":{"line":0,"column":10},"map":{"version":3,"sources":["b.js"],"mappings":"AAAA;AACA"}}]}"#,
        Ok("\"b.js\":0:0\n"),
    ),
    (
        &["trace", "0", "0"],
        r#"{"version":3,"sources":[],"mappings":"G,D"}"#,
        Err(RunError::Plan(PlanError::Unsorted)),
    ),
    (
        &["trace", "0", "0"],
        "{",
        Err(RunError::Plan(PlanError::Map(Error::BadJson(JsonFault::Reading)))),
    ),
    (&["trace", "0"], "{}", Err(RunError::Arguments)),
    (&["trace", "0", "-1"], "{}", Err(RunError::Arguments)),
];

/// Errors, with their texts and the status that the program ends with.
const ERRORS: &[(RunError, &str, u8)] = &[
    (RunError::Read, "read failed", 1),
    (RunError::Write, "write failed", 1),
    (RunError::Utf8, "input is not UTF-8", 1),
    (RunError::Arguments, "bad arguments", 2),
    (
        RunError::Plan(PlanError::Unsorted),
        "Tokens are not in order of line and column",
        1,
    ),
    (RunError::NoText(9), "no text 9", 1),
    (
        RunError::Plan(PlanError::TooDeep),
        "The plan is deeper than 64",
        1,
    ),
    (
        RunError::Plan(PlanError::Map(Error::BadSegmentSize(2))),
        "Mapping segment had an unsupported size of 2",
        1,
    ),
    (
        RunError::Plan(PlanError::Map(Error::OutOfMemory)),
        "Out of memory",
        1,
    ),
];

/// Gives one byte at each call, but fails once, at the call of this number (the first is 0).
#[derive(Drop)]
struct FailingReader<'a> {
    rest: &'a [u8],
    calls: u64,
    fails_at: u64,
}

impl<'a> Read for FailingReader<'a> {
    fn read(&mut self, buf: &mut [u8]) -> io::Result<usize> {
        let call = self.calls;
        self.calls = self.calls.saturating_add(1);
        if call == self.fails_at {
            return Err(io::Error::from(ErrorKind::Other));
        }
        let room = buf.len().min(1);
        self.rest.read(&mut buf[..room])
    }
}

/// Takes one byte at each call, but fails once, or takes none, at the call of this number (the first is 0).
#[derive(Drop)]
struct FailingWriter {
    taken: Vec<u8>,
    calls: u64,
    fails_at: u64,
    takes_none: bool,
}

impl Write for FailingWriter {
    fn write(&mut self, buf: &[u8]) -> io::Result<usize> {
        let call = self.calls;
        self.calls = self.calls.saturating_add(1);
        if call == self.fails_at && self.takes_none {
            return Ok(0);
        }
        if call == self.fails_at {
            return Err(io::Error::from(ErrorKind::Other));
        }
        let part = buf.len().min(1);
        self.taken.write(&buf[..part])
    }

    fn flush(&mut self) -> io::Result<()> {
        Ok(())
    }
}

/// Copies of words.
pub fn strings(alloc: Global, words: &[&str]) -> Result<Vec<String>, AllocError> {
    let mut all = Vec::new(alloc);
    for word in words {
        all.push(String::from_str(alloc, word)?)?;
    }
    Ok(all)
}

/// Runs the command on the input, and adds what it writes.
pub fn run_command(
    alloc: Global,
    command: &Command<'_>,
    input: &[u8],
    written: &mut Vec<u8>,
) -> Result<(), RunError> {
    let mut reader = Port::new(input);
    let mut writer = Port::new(Vec::new(alloc));
    let result = run(alloc, command, &mut reader, &mut writer);
    written.append(&mut writer.into_inner())?;
    result
}

/// Reads the words, runs the command on the input, and adds what it writes.
fn run_words(
    alloc: Global,
    words: &[&str],
    input: &[u8],
    written: &mut Vec<u8>,
) -> Result<(), RunError> {
    let words = strings(alloc, words)?;
    let command = read_words(words.as_slice())?;
    run_command(alloc, &command, input, written)
}

/// Asserts what the words write, or their error, where nothing is written.
pub fn answers(
    rt: &impl Abort,
    alloc: Global,
    words: &[&str],
    input: &[u8],
    want: Result<&str, RunError>,
) {
    let mut written = Vec::new(alloc);
    let result = run_words(alloc, words, input, &mut written);
    same(rt, "error", result.err(), want.err());
    same(
        rt,
        "written",
        written.as_slice(),
        want.unwrap_or("").as_bytes(),
    );
}

/// Asserts that the words write this text and a line feed.
pub fn answers_line(rt: &impl Abort, alloc: Global, words: &[&str], input: &str, text: &str) {
    let mut written = Vec::new(alloc);
    let result = run_words(alloc, words, input.as_bytes(), &mut written);
    same(rt, input, result, Ok(()));
    let line = written.as_slice().split_last();
    same(rt, input, line, Some((&b'\n', text.as_bytes())));
}

fn these_answer(rt: &impl Abort, alloc: Global, rows: &[Run]) {
    for (words, input, want) in rows {
        answers(rt, alloc, words, input.as_bytes(), *want);
    }
}

#[test]
fn commands_answer(rt: HostRuntime) {
    for rows in runs() {
        these_answer(&rt, rt.alloc(), rows);
    }
}

/// Asserts the text and the status of an error.
fn is_told_as(
    rt: &impl Abort,
    alloc: Global,
    error: RunError,
    text: &str,
    status: u8,
) -> Result<(), Fail> {
    same(rt, "text", format!(in alloc; "{error}")?.as_str(), text);
    same(rt, text, error.status(), status);
    Ok(())
}

/// Asserts that a text is not normalised, for this reason.
fn is_not_normalised(
    rt: &impl Abort,
    alloc: Global,
    input: &str,
    message: &str,
) -> Result<(), Fail> {
    let mut written = Vec::new(alloc);
    let result = run_words(alloc, &["normalise"], input.as_bytes(), &mut written);
    assert!(rt; written.is_empty());
    let Err(error) = result else {
        return Ok(assert!(rt; false, "{input}"));
    };
    is_told_as(rt, alloc, error, message, 1)
}

fn is_normalised(rt: &impl Abort, alloc: Global, row: &Normalised) -> Result<(), Fail> {
    let (input, want) = *row;
    match want {
        Ok(text) => {
            answers_line(rt, alloc, &["normalise"], input, text);
            // What is written is read, and written as the same text.
            answers_line(rt, alloc, &["normalise"], text, text);
            Ok(())
        }
        Err(message) => is_not_normalised(rt, alloc, input, message),
    }
}

fn these_are_normalised(rt: &impl Abort, alloc: Global, rows: &[Normalised]) -> Result<(), Fail> {
    for row in rows {
        is_normalised(rt, alloc, row)?;
    }
    Ok(())
}

#[test]
fn maps_are_normalised(rt: HostRuntime) -> Result<(), Fail> {
    for rows in normalised() {
        these_are_normalised(&rt, rt.alloc(), rows)?;
    }
    Ok(())
}

#[test]
fn a_map_has_a_data_url(rt: HostRuntime) {
    for (text, url) in URLS {
        answers(&rt, rt.alloc(), &["url"], text.as_bytes(), Ok(*url));
    }
}

#[test]
fn positions_are_traced(rt: HostRuntime) {
    for (words, text, want) in TRACES {
        answers(&rt, rt.alloc(), words, text.as_bytes(), *want);
    }
}

#[test]
fn input_is_utf8(rt: HostRuntime) {
    let words = ["mappings", "0", "0"];
    answers(
        &rt,
        rt.alloc(),
        words.as_slice(),
        b"A\xff",
        Err(RunError::Utf8),
    );
}

/// Runs the words, the first of which asks for the place of an error, and adds what they write.
fn run_asked(
    alloc: Global,
    words: &[&str],
    input: &[u8],
    written: &mut Vec<u8>,
) -> Result<(), Failure> {
    let words = strings(alloc, words).map_err(RunError::from)?;
    let (is_where, words) = take_where(words.as_slice());
    let command = read_words(if is_where { words } else { &[] })?;
    let mut reader = Port::new(input);
    let mut writer = Port::new(Vec::new(alloc));
    let result = run_where(alloc, &command, &mut reader, &mut writer);
    written.append(&mut writer.into_inner()).map_err(RunError::from)?;
    result
}

/// Words after `--where`, an input, and the place of the error, with what is really wrong there; tests/reference/fault_places.py has
/// the places.
const PLACES: &[(&[&str], &str, Option<&str>)] = &[
    (&["mappings", "0", "1"], "AAAA;AACA,AA\n", Some("line 1, segment 1 (byte 10)")),
    (&["mappings", "0", "1"], "AAAA;AACA,A\n", None),
    (&["normalise"], r#"{"version":3,"sources":["a.js",7],"mappings":""}"#, Some("entry 1 of sources")),
    (&["normalise"], "{", Some("line 0, column 1 (byte 1)")),
    (&["url"], r#"{"version":3,"sections":[{"offset":{"line":0}}]}"#, Some("section 0, offset")),
    (&["trace", "0", "0"], r#"{"version":3,"sources":[],"mappings":"G,D"}"#, None),
    (
        &["plan", "join", "2", "@1", "0", "@0", "1"],
        "{\"version\":3,\"sources\":[\"a.js\"],\"mappings\":\"AAAA,AA\"}\n---\n{\"version\":3,\"sources\":[\"a.js\"],\"mappings\":\"AAAA\"}",
        Some("text 0, line 0, segment 1 (byte 5)"),
    ),
    // Both texts are bad, and the second is read first.
    (
        &["plan", "compose", "@1", "@0"],
        "{\"version\":3,\"sources\":[\"a.js\"],\"mappings\":\"A,AA\"}\n---\n{\"version\":3,\"sources\":[\"a.js\"],\"mappings\":\"A;A,AA\"}",
        Some("text 1, line 1, segment 1 (byte 4)"),
    ),
    // A join that is not sorted comes before the bad text.
    (
        &["plan", "compose", "join", "2", "@0", "1", "@0", "0", "@1"],
        "{\"version\":3,\"sources\":[\"a.js\"],\"mappings\":\"A\"}\n---\n{",
        None,
    ),
    (&["plan", "@1"], "{}", None),
    // What the error does not tell.
    (&["mappings", "0", "1"], "AAAA,DAAA\n", Some("line 0, segment 1 (byte 5): a column below 0")),
    (&["mappings", "0", "1"], "A;AEAA\n", Some("line 1, segment 0 (byte 2): the source id is 2")),
    (&["trace", "0", "0"], r#"{"version":3.0,"sources":[],"mappings":""}"#, Some("version: a whole number that is not written in digits alone")),
    (&["url"], r#"{"version":3,"sources":["\ud800"],"mappings":""}"#, Some("line 0, column 24 (byte 24): a lone surrogate")),
    (
        &["plan", "compose", "@0", "@1"],
        "{\"version\":3,\"sources\":[\"a.js\"],\"mappings\":\"A\"}\n---\n{\"version\":3,\"sources\":[\"a.js\"],\"mappings\":\"A; A\"}",
        Some("text 1, line 1, segment 0 (byte 2): a byte that is no digit: 0x20"),
    ),
];

#[test]
fn places_are_told_where_asked(rt: HostRuntime) -> Result<(), Fail> {
    let alloc = rt.alloc();
    for (words, input, wanted) in PLACES {
        let mut asked = Vec::new(alloc);
        asked.push("--where")?;
        asked.extend_from_slice(words)?;
        let (mut written, mut plain) = (Vec::new(alloc), Vec::new(alloc));
        let result = run_asked(alloc, asked.as_slice(), input.as_bytes(), &mut written);
        let alone = run_words(alloc, words, input.as_bytes(), &mut plain);
        same(&rt, input, written.as_slice(), plain.as_slice());
        match result {
            Ok(()) => same(&rt, input, (Ok(()), None), (alone, *wanted)),
            Err(Failure { error, place, reason }) => {
                same(&rt, input, Err(error), alone);
                let told = match (place, reason) {
                    (Some(place), Some(reason)) => Some(format!(in alloc; "{place}: {reason}")?),
                    (Some(place), None) => Some(place.to_string(alloc)?),
                    (None, _) => None,
                };
                same(&rt, input, told.as_ref().map(|told| told.as_str()), *wanted);
            }
        }
    }
    Ok(())
}

#[test]
fn errors_have_a_text_and_a_status(rt: HostRuntime) -> Result<(), Fail> {
    for (error, text, status) in ERRORS {
        is_told_as(&rt, rt.alloc(), *error, text, *status)?;
    }
    Ok(())
}

/// The read after the last byte, of number 5, is the last one.
fn a_read_fails(rt: &impl Abort, alloc: Global, fails_at: u64) {
    let mut reader = Port::new(FailingReader {
        rest: b"gD,!C",
        calls: 0,
        fails_at,
    });
    let mut writer = Port::new(Vec::new(alloc));
    let result = run(alloc, &Command::Mappings(0, 0), &mut reader, &mut writer);
    let error = if fails_at < 6 {
        Some(RunError::Read)
    } else {
        None
    };
    same(rt, "error", result.err(), error);
    same(rt, "reader", reader.failed(), fails_at < 6);
    same(rt, "writer", writer.failed(), false);
    let wanted = if fails_at < 6 { "" } else { "gD,/C\n" };
    let written = writer.into_inner();
    same(rt, "written", written.as_slice(), wanted.as_bytes());
}

#[test]
fn a_failed_read_is_told_and_nothing_is_written(rt: HostRuntime) {
    for fails_at in 0..7 {
        a_read_fails(&rt, rt.alloc(), fails_at);
    }
}

/// Nothing is written after the call that failed.
fn a_write_fails(rt: &impl Abort, alloc: Global, fails_at: u64, takes_none: bool) {
    let input: &[u8] = b"gD,!C";
    let mut reader = Port::new(input);
    let mut writer = Port::new(FailingWriter {
        taken: Vec::new(alloc),
        calls: 0,
        fails_at,
        takes_none,
    });
    let result = run(alloc, &Command::Mappings(0, 0), &mut reader, &mut writer);
    let error = if fails_at < 6 {
        Some(RunError::Write)
    } else {
        None
    };
    same(rt, "error", result.err(), error);
    same(rt, "reader", reader.failed(), false);
    same(rt, "writer", writer.failed(), fails_at < 6);
    let taken = writer.into_inner().taken;
    let wanted = b"gD,/C\n".get(..fails_at.min(6) as usize);
    same(rt, "written", Some(taken.as_slice()), wanted);
}

#[test]
fn a_failed_write_is_told_and_a_beginning_stands(rt: HostRuntime) {
    for takes_none in [false, true] {
        for fails_at in 0..7 {
            a_write_fails(&rt, rt.alloc(), fails_at, takes_none);
        }
    }
}

/// A writer that counts how often it is flushed.
#[derive(Drop)]
struct FlushedWriter {
    flushes: u32,
}

impl Write for FlushedWriter {
    fn write(&mut self, buf: &[u8]) -> io::Result<usize> {
        Ok(buf.len())
    }

    fn flush(&mut self) -> io::Result<()> {
        self.flushes = self.flushes.saturating_add(1);
        Err(io::Error::from(ErrorKind::Other))
    }
}

#[test]
fn a_flush_is_handed_on_and_sets_no_flag(rt: HostRuntime) {
    let mut writer = Port::new(FlushedWriter { flushes: 0 });
    same(&rt, "refused", writer.flush().is_err(), true);
    same(&rt, "failed", writer.failed(), false);
    same(&rt, "flushes", writer.into_inner().flushes, 1);
}
