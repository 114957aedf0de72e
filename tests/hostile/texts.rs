//! Hostile texts, and plans that nest as deep as they may.
use crate::helpers::{is_text, same};
use oxc_sourcemap::{
    Error, JsonFault, Plan, PlanError, PositionError, Result, SourceMap, TextPositions,
    decode_mappings, encode_mappings, evaluate, push_json_string, read_found,
};
use std::alloc::{AllocError, Global};
use std::process::Abort;

/// A text, for one name and one source, and its canonical text.
type Text = (&'static str, Result<&'static str>);

/// Texts that are read.
const READ: &[Text] = &[
    ("+/////H,D", Ok("+/////H,D")),
    ("ggggB,éC", Ok("ggggB,//C")),
    ("B,B", Ok("A,A")),
    ("+/////H;+/////H", Ok("+/////H;+/////H")),
    (";;;;", Ok("")),
    ("A,A,A;A", Ok("A,A,A;A")),
    (",;,;A,;", Ok(";;A")),
];

/// Texts with a number that does not end or is too large.
const BAD_NUMBERS: &[Text] = &[
    ("+/////H,C", Err(Error::VlqOverflow)),
    ("AA+/////HA,AACA", Err(Error::VlqOverflow)),
    ("\u{0}", Err(Error::VlqLeftover)),
    ("AAAA\u{0}", Err(Error::VlqLeftover)),
    ("\r\n", Err(Error::VlqLeftover)),
    ("AAggggggIA", Err(Error::VlqOverflow)),
    ("AAA+/////H,AAAC", Err(Error::VlqOverflow)),
    ("😀", Err(Error::VlqLeftover)),
    ("gggggggggggggA", Err(Error::VlqOverflow)),
    ("ggggggggggggH", Err(Error::VlqOverflow)),
    ("hggggggggggggA", Err(Error::VlqOverflow)),
];

/// Texts with a segment of another size, or with an id that names nothing.
const BAD_SEGMENTS: &[Text] = &[
    ("A\nA", Err(Error::BadSegmentSize(2))),
    ("D", Err(Error::BadSegmentSize(0))),
    ("AAAAA,AAAAD", Err(Error::BadNameReference(4294967295))),
    ("AAAAC", Err(Error::BadNameReference(1))),
    ("ADAA", Err(Error::BadSourceReference(0))),
    ("ACAA", Err(Error::BadSourceReference(0))),
    ("+/////H+/////H", Err(Error::BadSegmentSize(2))),
    ("AAAAAAAA", Err(Error::BadSegmentSize(8))),
];

fn texts() -> [&'static [Text]; 3] {
    [READ, BAD_NUMBERS, BAD_SEGMENTS]
}

/// The canonical text of what a text reads as.
fn rewritten(alloc: Global, text: &str) -> Result<String> {
    let tokens = decode_mappings(alloc, text, 1, 1)?;
    let mut out = String::new(alloc);
    encode_mappings(tokens.as_slice(), None, &mut out)?;
    Ok(out)
}

fn these_are_read_or_refused(rt: &impl Abort, alloc: Global, rows: &[Text]) {
    for (text, wanted) in rows {
        is_text(rt, text, &rewritten(alloc, text), *wanted);
    }
}

#[test]
fn texts_are_read_or_refused(rt: HostRuntime) {
    for rows in texts() {
        these_are_read_or_refused(&rt, rt.alloc(), rows);
    }
}

/// JSON texts, and why no map is read.
const NOT_READ: &[(&str, Error)] = &[
    ("", Error::BadJson(JsonFault::Reading)),
    ("\u{0}", Error::BadJson(JsonFault::Reading)),
    ("{} {}", Error::BadJson(JsonFault::Reading)),
    ("nul", Error::BadJson(JsonFault::Reading)),
    (
        r#"{"version":3,"mappings":"\ud800","sources":[]}"#,
        Error::BadJson(JsonFault::Reading),
    ),
    (
        r#"{"version":4294967295}"#,
        Error::BadJson(JsonFault::Version(4294967295)),
    ),
    (
        r#"{"version":3,"mappings":"A\u0000","sources":[]}"#,
        Error::VlqLeftover,
    ),
    (
        r#"{"version":3,"mappings":"AACA","sources":["a"],"ignoreList":[4294967295]}"#,
        Error::BadSourceReference(4294967295),
    ),
];

#[test]
fn json_texts_are_refused(rt: HostRuntime) {
    for (text, error) in NOT_READ {
        let read = SourceMap::from_json_string(rt.alloc(), text);
        same(&rt, text, read.err(), Some(*error));
    }
}

/// JSON texts of hostile `mappings`, for one name and one source: where the exact reader reads one, `read_found` does.
#[test]
fn what_is_read_is_found(rt: HostRuntime) -> Result<()> {
    for (text, _) in texts().iter().flat_map(|rows| rows.iter()) {
        let mut json = String::from_str(rt.alloc(), r#"{"version":3,"names":["n"],"sources":["s"],"mappings":"#)?;
        push_json_string(text, &mut json)?;
        json.push_str("}")?;
        let read = SourceMap::from_json_string(rt.alloc(), json.as_str());
        let found = read_found(rt.alloc(), json.as_str());
        if read.is_ok() {
            same(&rt, text, found.is_ok(), true);
        }
    }
    Ok(())
}

/// Of texts that the exact reader refuses, a bad version, a text that is not JSON and a fault of the mappings are refused, too.
#[test]
fn json_texts_are_not_found(rt: HostRuntime) {
    for (text, error) in NOT_READ {
        let found = read_found(rt.alloc(), text);
        let is_mended = *error == Error::BadSourceReference(4294967295);
        same(&rt, text, found.err(), if is_mended { None } else { Some(*error) });
    }
}

/// A plan of so many rewrites of a text that is not JSON.
fn rewrites(alloc: Global, count: u32) -> std::result::Result<Plan<'static>, AllocError> {
    let mut plan = Plan::Read("x");
    for _ in 0..count {
        plan = Plan::Rewrite(Box::new(alloc, plan)?);
    }
    Ok(plan)
}

fn is_not_evaluated(rt: &impl Abort, alloc: Global, plan: &Plan<'_>, wanted: PlanError) {
    same(rt, "error", evaluate(alloc, plan).err(), Some(wanted));
}

#[test]
fn a_plan_is_at_most_64_deep(rt: HostRuntime) -> std::result::Result<(), AllocError> {
    let reading = PlanError::Map(Error::BadJson(JsonFault::Reading));
    for (count, wanted) in [(64, PlanError::TooDeep), (63, reading)] {
        is_not_evaluated(&rt, rt.alloc(), &rewrites(rt.alloc(), count)?, wanted);
    }
    Ok(())
}

/// A text, repeated this often, has so many units and lines each time.
const REPEATED: &[(&str, u32, u32)] = &[("\r", 1, 1), ("\r\n", 2, 1), ("😀", 2, 0), ("\u{0}\u{2028}", 2, 1)];
const TIMES: u32 = 65536;

fn repeated(alloc: Global, text: &str) -> Result<String> {
    let mut all = String::new(alloc);
    for _ in 0..TIMES {
        all.push_str(text)?;
    }
    Ok(all)
}

/// What follows a line end begins a line. Without line ends all is one line.
fn positions_are_found(rt: &impl Abort, positions: &TextPositions<'_>, units: u32, lines: u32) {
    for i in 0..TIMES + 1 {
        let position = if lines == 0 { (0, i * units) } else { (i * lines, 0) };
        same(rt, "position", positions.position(i * units), Ok(position));
        same(rt, "offset", positions.offset(position.0, position.1), Ok(i * units));
    }
    let past = [positions.position(TIMES * units + 1), positions.position(4294967295)];
    same(rt, "past", past, [Err(PositionError::PastText); 2]);
    let none = [positions.offset(TIMES * lines + 1, 0), positions.offset(4294967295, 4294967295)];
    same(rt, "no line", none, [Err(PositionError::NoLine); 2]);
    let last = TIMES * lines;
    let past = [positions.offset(0, 4294967295), positions.offset(last, 4294967295)];
    same(rt, "past the line", past, [Err(PositionError::PastLine); 2]);
}

#[test]
fn positions_in_texts_of_line_ends_and_pairs(rt: HostRuntime) -> Result<()> {
    for (text, units, lines) in REPEATED {
        let all = repeated(rt.alloc(), text)?;
        positions_are_found(&rt, &TextPositions::new(rt.alloc(), all.as_str())?, *units, *lines);
    }
    Ok(())
}
