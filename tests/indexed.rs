//! Indexed maps: sections read into one map, from JSON values and from JSON texts.
use crate::helpers::{has_text, same};
use oxc_sourcemap::{
    Error, Field, JsonFault, Result, decode_from_string, decode_value, file_from_value,
};
use serde_json::Value;
use std::alloc::Global;
use std::process::Abort;

/// What is looked at, a JSON text, and the JSON text of the map that is read from it, or why there is none.
type Read = (&'static str, &'static str, Result<&'static str>);

/// Where sections may begin.
#[rattlefmt::skip]
const PLACED: &[Read] = &[
    ("two sections on one line",
     r#"{"version":3,"file":"out.js","sections":[{"offset":{"line":0,"column":0},"map":{"version":3,"sources":["a.js"],"mappings":"AAAA,IAAI"}},{"offset":{"line":0,"column":10},"map":{"version":3,"sources":["b.js"],"mappings":"AAAA;AACA"}}]}"#,
     Ok(r#"{"version":3,"file":"out.js","names":[],"sources":["a.js","b.js"],"mappings":"AAAA,IAAI,MCAJ;AACA"}"#)),
    ("a section where the one before it ends",
     r#"{"version":3,"file":"out.js","sections":[{"offset":{"line":0,"column":0},"map":{"version":3,"sources":["a.js"],"mappings":"AAAA,IAAI"}},{"offset":{"line":0,"column":4},"map":{"version":3,"sources":["b.js"],"mappings":"AAAA;AACA"}}]}"#,
     Ok(r#"{"version":3,"file":"out.js","names":[],"sources":["a.js","b.js"],"mappings":"AAAA,IAAI,ACAJ;AACA"}"#)),
    ("a section before the last token",
     r#"{"version":3,"file":"out.js","sections":[{"offset":{"line":0,"column":0},"map":{"version":3,"sources":["a.js"],"mappings":"AAAA,IAAI"}},{"offset":{"line":0,"column":3},"map":{"version":3,"sources":["b.js"],"mappings":"AAAA;AACA"}}]}"#,
     Err(Error::SectionOrder(1))),
    ("a section on a line below, whose column is smaller",
     r#"{"version":3,"file":"out.js","sections":[{"offset":{"line":0,"column":7},"map":{"version":3,"sources":["a.js"],"mappings":"AAAA,IAAI"}},{"offset":{"line":2,"column":1},"map":{"version":3,"sources":["b.js"],"mappings":"AAAA;AACA"}}]}"#,
     Ok(r#"{"version":3,"file":"out.js","names":[],"sources":["a.js","b.js"],"mappings":"OAAA,IAAI;;CCAJ;AACA"}"#)),
    ("a section before the offset of one without tokens",
     r#"{"version":3,"file":"out.js","sections":[{"offset":{"line":0,"column":0},"map":{"version":3,"sources":["a.js"],"mappings":"AAAA,IAAI"}},{"offset":{"line":3,"column":5},"map":{"version":3,"sources":[],"mappings":""}},{"offset":{"line":3,"column":4},"map":{"version":3,"sources":["b.js"],"mappings":"AAAA;AACA"}}]}"#,
     Err(Error::SectionOrder(2))),
    ("equal offsets",
     r#"{"version":3,"file":"out.js","sections":[{"offset":{"line":1,"column":1},"map":{"version":3,"sources":[],"mappings":""}},{"offset":{"line":1,"column":1},"map":{"version":3,"sources":["a.js"],"mappings":"AAAA,IAAI"}}]}"#,
     Ok(r#"{"version":3,"file":"out.js","names":[],"sources":["a.js"],"mappings":";CAAA,IAAI"}"#)),
    ("a section before the last token, after the offset in front",
     r#"{"version":3,"sections":[{"offset":{"line":0,"column":0},"map":{"version":3,"sources":["a.js"],"mappings":"AAAA;IAAA"}},{"offset":{"line":1,"column":3},"map":{"version":3,"sources":[],"mappings":""}}]}"#,
     Err(Error::SectionOrder(1))),
    ("columns of line 0 alone",
     r#"{"version":3,"sections":[{"offset":{"line":0,"column":5},"map":{"version":3,"sources":[],"mappings":"A;A"}},{"offset":{"line":1,"column":7},"map":{"version":3,"sources":[],"mappings":"A;A"}}]}"#,
     Ok(r#"{"version":3,"names":[],"sources":[],"mappings":"K;A,O;A"}"#)),
    ("the order before the map",
     r#"{"version":3,"file":"out.js","sections":[{"offset":{"line":1,"column":0},"map":{"version":3,"sources":["a.js"],"mappings":"AAAA,IAAI"}},{"offset":{"line":0,"column":0},"map":3}]}"#,
     Err(Error::SectionOrder(1))),
];

/// What of the sections, and of the value around them, is in the map.
#[rattlefmt::skip]
const JOINED: &[Read] = &[
    ("no sections",
     r#"{"version":3,"sections":[]}"#,
     Ok(r#"{"version":3,"names":[],"sources":[],"mappings":""}"#)),
    ("a null list of sections is none",
     r#"{"version":3,"sources":["a.js"],"sections":null,"mappings":"AAAA"}"#,
     Ok(r#"{"version":3,"names":[],"sources":["a.js"],"mappings":"AAAA"}"#)),
    ("keys beside sections are not looked at",
     r#"{"version":3,"sources":7,"mappings":false,"debugId":[],"names":null,"ignoreList":[9],"sections":[{"offset":{"line":0,"column":0},"map":{"version":3,"sources":["a.js"],"mappings":"AAAA,IAAI"}}]}"#,
     Ok(r#"{"version":3,"names":[],"sources":["a.js"],"mappings":"AAAA,IAAI"}"#)),
    ("the file is that of the outer value",
     r#"{"version":3,"file":"out.js","sections":[{"offset":{"line":0,"column":0},"map":{"version":3,"file":"in.js","sourceRoot":"r","debugId":"d","sources":["a.js"],"mappings":"AAAA"}}]}"#,
     Ok(r#"{"version":3,"file":"out.js","names":[],"sources":["a.js"],"mappings":"AAAA"}"#)),
    ("no file",
     r#"{"version":3,"sections":[{"offset":{"line":0,"column":0},"map":{"version":3,"file":"in.js","sources":["a.js"],"mappings":"AAAA"}}]}"#,
     Ok(r#"{"version":3,"names":[],"sources":["a.js"],"mappings":"AAAA"}"#)),
    ("names, contents and ignore lists",
     r#"{"version":3,"file":"out.js","sections":[{"offset":{"line":0,"column":0},"map":{"version":3,"sources":["a.js","b.js"],"sourcesContent":["A"],"names":["x"],"mappings":"AAAAA,CCAA","ignoreList":[1]}},{"offset":{"line":1,"column":2},"map":{"version":3,"sources":["c.js"],"sourcesContent":["C","EXTRA"],"names":["y","x"],"mappings":"AAAAC","x_google_ignoreList":[0,0]}}]}"#,
     Ok(r#"{"version":3,"file":"out.js","names":["x","y","x"],"sources":["a.js","b.js","c.js"],"sourcesContent":["A",null,"C"],"ignoreList":[1,2,2],"mappings":"AAAAA,CCAA;ECAAE"}"#)),
    ("a first token that repeats the last one",
     r#"{"version":3,"file":"out.js","sections":[{"offset":{"line":0,"column":0},"map":{"version":3,"sources":[],"mappings":"A,C"}},{"offset":{"line":0,"column":1},"map":{"version":3,"sources":[],"mappings":"A,C"}}]}"#,
     Ok(r#"{"version":3,"file":"out.js","names":[],"sources":[],"mappings":"A,C,C"}"#)),
    ("unsorted columns in a section",
     r#"{"version":3,"file":"out.js","sections":[{"offset":{"line":0,"column":0},"map":{"version":3,"sources":[],"mappings":"I,D"}},{"offset":{"line":0,"column":3},"map":{"version":3,"sources":[],"mappings":"A"}}]}"#,
     Ok(r#"{"version":3,"file":"out.js","names":[],"sources":[],"mappings":"I,D"}"#)),
    ("an empty ignore list",
     r#"{"version":3,"sections":[{"offset":{"line":0,"column":0},"map":{"version":3,"sources":["a.js"],"mappings":"AAAA"}},{"offset":{"line":1,"column":0},"map":{"version":3,"sources":["b.js"],"ignoreList":[],"mappings":"AAAA"}}]}"#,
     Ok(r#"{"version":3,"names":[],"sources":["a.js","b.js"],"ignoreList":[],"mappings":"AAAA;ACAA"}"#)),
    ("a map whose sections is null",
     r#"{"version":3,"file":"out.js","sections":[{"offset":{"line":0,"column":0},"map":{"version":3,"sections":null,"sources":["a.js"],"mappings":"AAAA"}}]}"#,
     Ok(r#"{"version":3,"file":"out.js","names":[],"sources":["a.js"],"mappings":"AAAA"}"#)),
];

/// What is wrong with the value around the sections.
#[rattlefmt::skip]
const OUTER: &[Read] = &[
    ("another version",
     r#"{"version":2,"sections":[{"offset":{"line":0,"column":0},"map":{"version":3,"sources":["a.js"],"mappings":"AAAA,IAAI"}}]}"#,
     Err(Error::BadJson(JsonFault::Version(2)))),
    ("a file of the wrong type comes before the sections",
     r#"{"version":3,"file":1,"sections":1}"#,
     Err(Error::BadJson(JsonFault::Shape(Field::File)))),
    ("sections that are no list",
     r#"{"version":3,"sections":{}}"#,
     Err(Error::BadJson(JsonFault::Shape(Field::Sections)))),
    ("sections of false",
     r#"{"version":3,"sections":false,"sources":[],"mappings":""}"#,
     Err(Error::BadJson(JsonFault::Shape(Field::Sections)))),
    ("a section that is no object",
     r#"{"version":3,"file":"out.js","sections":[3]}"#,
     Err(Error::BadJson(JsonFault::Shape(Field::Sections)))),
];

/// What is wrong with an offset.
#[rattlefmt::skip]
const OFFSETS: &[Read] = &[
    ("a section without an offset",
     r#"{"version":3,"file":"out.js","sections":[{"map":{"version":3,"sources":["a.js"],"mappings":"AAAA,IAAI"}}]}"#,
     Err(Error::BadJson(JsonFault::Shape(Field::Offset)))),
    ("an offset that is a list",
     r#"{"version":3,"file":"out.js","sections":[{"offset":[0,0],"map":{"version":3,"sources":["a.js"],"mappings":"AAAA,IAAI"}}]}"#,
     Err(Error::BadJson(JsonFault::Shape(Field::Offset)))),
    ("an offset without a column",
     r#"{"version":3,"file":"out.js","sections":[{"offset":{"line":0},"map":{"version":3,"sources":["a.js"],"mappings":"AAAA,IAAI"}}]}"#,
     Err(Error::BadJson(JsonFault::Shape(Field::Offset)))),
    ("a line that is no whole number",
     r#"{"version":3,"file":"out.js","sections":[{"offset":{"line":0.5,"column":0},"map":{"version":3,"sources":["a.js"],"mappings":"AAAA,IAAI"}}]}"#,
     Err(Error::BadJson(JsonFault::Shape(Field::Offset)))),
    ("a column above 4294967295",
     r#"{"version":3,"file":"out.js","sections":[{"offset":{"line":0,"column":4294967296},"map":{"version":3,"sources":["a.js"],"mappings":"AAAA,IAAI"}}]}"#,
     Err(Error::BadJson(JsonFault::Shape(Field::Offset)))),
    ("a negative line",
     r#"{"version":3,"file":"out.js","sections":[{"offset":{"line":-1,"column":0},"map":{"version":3,"sources":["a.js"],"mappings":"AAAA,IAAI"}}]}"#,
     Err(Error::BadJson(JsonFault::Shape(Field::Offset)))),
    ("the shape of the offset before the order",
     r#"{"version":3,"file":"out.js","sections":[{"offset":{"line":1,"column":0},"map":{"version":3,"sources":["a.js"],"mappings":"AAAA,IAAI"}},{"offset":{"line":0,"column":"0"},"map":{"version":3,"sources":["a.js"],"mappings":"AAAA,IAAI"}}]}"#,
     Err(Error::BadJson(JsonFault::Shape(Field::Offset)))),
    ("a column of 3.0",
     r#"{"version":3,"sections":[{"offset":{"line":0,"column":3.0},"map":{"version":3,"sources":[],"mappings":""}}]}"#,
     Err(Error::BadJson(JsonFault::Shape(Field::Offset)))),
];

/// What is wrong with the map of a section.
#[rattlefmt::skip]
const MAPS: &[Read] = &[
    ("a url in place of a map",
     r#"{"version":3,"file":"out.js","sections":[{"offset":{"line":0,"column":0},"map":{"version":3,"sources":["a.js"],"mappings":"AAAA,IAAI"}},{"offset":{"line":0,"column":10},"url":"b.map"}]}"#,
     Err(Error::BadJson(JsonFault::Shape(Field::Map)))),
    ("a map that is null",
     r#"{"version":3,"file":"out.js","sections":[{"offset":{"line":0,"column":0},"map":null}]}"#,
     Err(Error::BadJson(JsonFault::Shape(Field::Map)))),
    ("a section that is an indexed map",
     r#"{"version":3,"file":"out.js","sections":[{"offset":{"line":0,"column":0},"map":{"version":3,"file":"out.js","sections":[{"offset":{"line":0,"column":0},"map":{"version":3,"sources":["a.js"],"mappings":"AAAA,IAAI"}}]}}]}"#,
     Err(Error::BadJson(JsonFault::Shape(Field::Map)))),
    ("the version of a map",
     r#"{"version":3,"file":"out.js","sections":[{"offset":{"line":0,"column":0},"map":{"version":3,"sources":["a.js"],"mappings":"AAAA,IAAI"}},{"offset":{"line":0,"column":10},"map":{"version":4}}]}"#,
     Err(Error::BadJson(JsonFault::Version(4)))),
    ("the shape of a map",
     r#"{"version":3,"file":"out.js","sections":[{"offset":{"line":0,"column":0},"map":{"version":3,"sources":["a.js"],"mappings":"AAAA,IAAI"}},{"offset":{"line":0,"column":10},"map":{"version":3,"sources":[null],"mappings":""}}]}"#,
     Err(Error::BadJson(JsonFault::Shape(Field::Sources)))),
    ("the ignore list of a map",
     r#"{"version":3,"file":"out.js","sections":[{"offset":{"line":0,"column":0},"map":{"version":3,"sources":["a.js"],"mappings":"AAAA,IAAI"}},{"offset":{"line":0,"column":10},"map":{"version":3,"sources":["b.js"],"mappings":"","ignoreList":[1]}}]}"#,
     Err(Error::BadSourceReference(1))),
    ("the mappings of a map",
     r#"{"version":3,"file":"out.js","sections":[{"offset":{"line":0,"column":0},"map":{"version":3,"sources":["a.js"],"mappings":"AAAA,IAAI"}},{"offset":{"line":0,"column":10},"map":{"version":3,"sources":["b.js"],"mappings":"ACAA"}}]}"#,
     Err(Error::BadSourceReference(0))),
    ("a map whose sections is false",
     r#"{"version":3,"sections":[{"offset":{"line":0,"column":0},"map":{"version":3,"sections":false,"sources":[],"mappings":""}}]}"#,
     Err(Error::BadJson(JsonFault::Shape(Field::Map)))),
];

/// Maps past the limits, and which error comes first.
#[rattlefmt::skip]
const LIMITS: &[Read] = &[
    ("a column past the limit",
     r#"{"version":3,"file":"out.js","sections":[{"offset":{"line":0,"column":0},"map":{"version":3,"sources":["a.js"],"mappings":"AAAA,IAAI"}},{"offset":{"line":0,"column":4294967295},"map":{"version":3,"sources":["b.js"],"mappings":"C"}}]}"#,
     Err(Error::TooLarge)),
    ("a line past the limit",
     r#"{"version":3,"file":"out.js","sections":[{"offset":{"line":4294967295,"column":0},"map":{"version":3,"sources":["b.js"],"mappings":"AAAA;AACA"}}]}"#,
     Err(Error::TooLarge)),
    ("the first fault is reported",
     r#"{"version":3,"file":"out.js","sections":[{"offset":{"line":0,"column":0},"map":{"version":3,"sources":["b.js"],"mappings":"AC"}},3]}"#,
     Err(Error::BadSegmentSize(2))),
    ("too large before a fault of a later section",
     r#"{"version":3,"sections":[{"offset":{"line":4294967295,"column":0},"map":{"version":3,"sources":[],"mappings":"A;A"}},3]}"#,
     Err(Error::TooLarge)),
    ("a fault of the mappings before too large",
     r#"{"version":3,"sections":[{"offset":{"line":4294967295,"column":0},"map":{"version":3,"sources":[],"mappings":"A;AC"}}]}"#,
     Err(Error::BadSegmentSize(2))),
];

/// A JSON text, and the file that is read from it.
type File = (&'static str, Result<Option<&'static str>>);

#[rattlefmt::skip]
const FILES: &[File] = &[
    (r#"{"version":3,"file":"a.js","sections":[7]}"#, Ok(Some("a.js"))),
    (r#"{"version":3,"file":"","mappings":7}"#, Ok(Some(""))),
    (r#"{"version":3,"file":null}"#, Ok(None)),
    (r#"{"version":3}"#, Ok(None)),
    (r#"{"version":3,"file":7}"#, Err(Error::BadJson(JsonFault::Shape(Field::File)))),
    (r#"{"version":4,"file":7}"#, Err(Error::BadJson(JsonFault::Version(4)))),
    (r#"{"file":"a.js"}"#, Err(Error::BadJson(JsonFault::Shape(Field::Version)))),
    ("[]", Err(Error::BadJson(JsonFault::Shape(Field::Object)))),
];

fn tables() -> [&'static [Read]; 6] {
    [PLACED, JOINED, OUTER, OFFSETS, MAPS, LIMITS]
}

fn texts_are_read(rt: &impl Abort, alloc: Global, rows: &[Read]) {
    for (what, text, wanted) in rows {
        has_text(rt, alloc, what, &decode_from_string(alloc, text), *wanted);
    }
}

#[test]
fn sections_are_joined(rt: HostRuntime) {
    for rows in tables() {
        texts_are_read(&rt, rt.alloc(), rows);
    }
}

fn values_are_read(rt: &impl Abort, alloc: Global, rows: &[Read]) -> Result<()> {
    for (what, text, wanted) in rows {
        let value = Value::from_str(alloc, text)?;
        has_text(rt, alloc, what, &decode_value(alloc, &value), *wanted);
    }
    Ok(())
}

#[test]
fn sections_of_values_are_joined(rt: HostRuntime) -> Result<()> {
    for rows in tables() {
        values_are_read(&rt, rt.alloc(), rows)?;
    }
    Ok(())
}

fn is_file(
    rt: &impl Abort,
    what: &str,
    found: &Result<Option<String>>,
    wanted: Result<Option<&str>>,
) {
    match found {
        Ok(file) => same(rt, what, Ok(file.as_deref()), wanted),
        Err(fault) => same(rt, what, Err(*fault), wanted),
    }
}

fn has_file(
    rt: &impl Abort,
    alloc: Global,
    text: &str,
    wanted: Result<Option<&str>>,
) -> Result<()> {
    let value = Value::from_str(alloc, text)?;
    is_file(rt, text, &file_from_value(alloc, &value), wanted);
    Ok(())
}

#[test]
fn the_file_is_looked_at_first(rt: HostRuntime) -> Result<()> {
    for (text, wanted) in FILES {
        has_file(&rt, rt.alloc(), text, *wanted)?;
    }
    Ok(())
}
