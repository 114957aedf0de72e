//! The shape of the JSON value of a map: what each key may hold, and which fault is reported.
use crate::helpers::{has_text, same};
use oxc_sourcemap::{Error, Field, JSONSourceMap, JsonFault, Result, SourceMap, decode_value};
use serde_json::Value;
use std::alloc::Global;
use std::process::Abort;

/// A key and its value, as JSON.
type Member = (&'static str, &'static str);

/// Stands for the value of a key that is left out.
const MISSING: &str = "";

/// The object of a map. Its keys stand in the reverse of the order in which they are looked at, so that the fault of a key
/// which is looked at first is the last one in the text.
const GOOD: &[Member] = &[
    ("a key that no map has", "[7]"),
    ("x_google_ignoreList", "[1]"),
    ("ignoreList", "null"),
    ("debugId", r#""d""#),
    ("names", r#"["n"]"#),
    ("sourcesContent", r#"["A",null]"#),
    ("sources", r#"["a.js","b.js"]"#),
    ("sourceRoot", r#""r""#),
    ("mappings", r#""AAAA""#),
    ("file", r#""f.js""#),
    ("version", "3"),
];

/// The value that a key gets in place of the good one.
fn changed_to(changes: &[Member], key: &str) -> Option<&'static str> {
    for (changed, value) in changes {
        if *changed == key {
            return Some(value);
        }
    }
    None
}

fn push_member(text: &mut String, key: &str, value: &str) -> Result<()> {
    if value == MISSING {
        return Ok(());
    }
    let comma = if text.as_str() == "{" { "" } else { "," };
    for part in [comma, "\"", key, "\":", value] {
        text.push_str(part)?;
    }
    Ok(())
}

/// The text of the good object with these changes.
fn text_with(alloc: Global, changes: &[Member]) -> Result<String> {
    let mut text = String::from_str(alloc, "{")?;
    for (key, good) in GOOD {
        push_member(&mut text, key, changed_to(changes, key).unwrap_or(good))?;
    }
    text.push_str("}")?;
    Ok(text)
}

/// Why a text gives no fields, no map by its value, and no map.
fn faults_of(alloc: Global, text: &str) -> Result<[Option<Error>; 3]> {
    let value = Value::from_str(alloc, text)?;
    Ok([
        JSONSourceMap::from_value(alloc, &value).err(),
        decode_value(alloc, &value).err(),
        SourceMap::from_json_string(alloc, text).err(),
    ])
}

/// Asserts that a text has this fault, in each way in which it is read.
fn is_misshapen(rt: &impl Abort, alloc: Global, text: &str, fault: JsonFault) -> Result<()> {
    let wanted = [Some(Error::BadJson(fault)); 3];
    same(rt, text, faults_of(alloc, text)?, wanted);
    Ok(())
}

/// A key, values of it that are wrong, and the field that is then at fault.
type Wrong = (&'static str, &'static [&'static str], Field);

const ABSENT: &[&str] = &[MISSING, "null"];

/// The last two would be 3 if they were cut to 32 and to 64 bits.
const NO_VERSIONS: &[&str] = &[
    r#""3""#,
    "true",
    "[3]",
    r#"{"3":3}"#,
    "3.0",
    "3e0",
    "-3",
    "4294967299",
    "18446744073709551619",
];

const NO_STRINGS: &[&str] = &["0", "true", r#"["x"]"#, r#"{"x":"x"}"#];

const NO_LISTS: &[&str] = &["0", "true", r#""x""#, r#"{"0":0}"#];

const NO_LISTS_OF_STRINGS: &[&str] = &[
    "[0]",
    "[true]",
    r#"[["x"]]"#,
    r#"[{"x":"x"}]"#,
    r#"["x",0]"#,
];

const WITH_NULLS: &[&str] = &["[null]", r#"["x",null]"#];

const NO_LISTS_OF_IDS: &[&str] = &[
    "[null]",
    "[true]",
    r#"["0"]"#,
    "[[0]]",
    r#"[{"0":0}]"#,
    "[0.5]",
    "[0.0]",
    "[0e0]",
    "[-0]",
    "[-1]",
    "[4294967296]",
    "[18446744073709551616]",
    "[0,0.5]",
];

const WRONG: &[Wrong] = &[
    ("version", ABSENT, Field::Version),
    ("version", NO_VERSIONS, Field::Version),
    ("file", NO_STRINGS, Field::File),
    ("mappings", ABSENT, Field::Mappings),
    ("mappings", NO_STRINGS, Field::Mappings),
    ("sourceRoot", NO_STRINGS, Field::SourceRoot),
    ("sources", ABSENT, Field::Sources),
    ("sources", NO_LISTS, Field::Sources),
    ("sources", NO_LISTS_OF_STRINGS, Field::Sources),
    ("sources", WITH_NULLS, Field::Sources),
    ("sourcesContent", NO_LISTS, Field::SourcesContent),
    ("sourcesContent", NO_LISTS_OF_STRINGS, Field::SourcesContent),
    ("names", &["null"], Field::Names),
    ("names", NO_LISTS, Field::Names),
    ("names", NO_LISTS_OF_STRINGS, Field::Names),
    ("names", WITH_NULLS, Field::Names),
    ("debugId", NO_STRINGS, Field::DebugId),
    ("ignoreList", NO_LISTS, Field::IgnoreList),
    ("ignoreList", NO_LISTS_OF_IDS, Field::IgnoreList),
    ("x_google_ignoreList", NO_LISTS, Field::GoogleIgnoreList),
    (
        "x_google_ignoreList",
        NO_LISTS_OF_IDS,
        Field::GoogleIgnoreList,
    ),
];

fn are_wrong(rt: &impl Abort, alloc: Global, wrong: &Wrong) -> Result<()> {
    let (key, values, field) = *wrong;
    for value in values {
        let text = text_with(alloc, &[(key, *value)])?;
        is_misshapen(rt, alloc, text.as_str(), JsonFault::Shape(field))?;
    }
    Ok(())
}

#[test]
fn a_field_that_is_missing_or_of_the_wrong_type_is_reported(rt: HostRuntime) -> Result<()> {
    for wrong in WRONG {
        are_wrong(&rt, rt.alloc(), wrong)?;
    }
    Ok(())
}

#[test]
fn a_value_that_is_no_object_is_reported(rt: HostRuntime) -> Result<()> {
    for text in [
        "null",
        "true",
        "3",
        r#""x""#,
        "[]",
        r#"[{"version":3,"sources":[],"mappings":""}]"#,
    ] {
        is_misshapen(&rt, rt.alloc(), text, JsonFault::Shape(Field::Object))?;
    }
    Ok(())
}

#[test]
fn another_version_is_reported(rt: HostRuntime) -> Result<()> {
    for (value, version) in [("0", 0), ("2", 2), ("4", 4), ("4294967295", 4294967295)] {
        let text = text_with(rt.alloc(), &[("version", value)])?;
        is_misshapen(&rt, rt.alloc(), text.as_str(), JsonFault::Version(version))?;
    }
    Ok(())
}

/// Members that are wrong, in the order in which they are looked at, and their faults.
const ORDER: &[(Member, JsonFault)] = &[
    (("version", "2"), JsonFault::Version(2)),
    (("file", "0"), JsonFault::Shape(Field::File)),
    (("mappings", MISSING), JsonFault::Shape(Field::Mappings)),
    (("sourceRoot", "0"), JsonFault::Shape(Field::SourceRoot)),
    (("sources", MISSING), JsonFault::Shape(Field::Sources)),
    (
        ("sourcesContent", "0"),
        JsonFault::Shape(Field::SourcesContent),
    ),
    (("names", "null"), JsonFault::Shape(Field::Names)),
    (("debugId", "0"), JsonFault::Shape(Field::DebugId)),
    (("ignoreList", "0"), JsonFault::Shape(Field::IgnoreList)),
    (
        ("x_google_ignoreList", "0"),
        JsonFault::Shape(Field::GoogleIgnoreList),
    ),
];

/// Asserts that the first of these members is reported, with each of the others.
fn the_first_is_reported(
    rt: &impl Abort,
    alloc: Global,
    members: &[(Member, JsonFault)],
) -> Result<()> {
    let Some(((first, fault), others)) = members.split_first() else {
        return Ok(());
    };
    for (other, _) in others {
        let text = text_with(alloc, &[*first, *other])?;
        is_misshapen(rt, alloc, text.as_str(), *fault)?;
    }
    Ok(())
}

#[test]
fn of_two_faults_that_of_the_earlier_field_is_reported(rt: HostRuntime) -> Result<()> {
    for start in 0..ORDER.len() {
        the_first_is_reported(&rt, rt.alloc(), &ORDER[start..])?;
    }
    Ok(())
}

/// Changes after which the object has its shape and is no map, and the fault.
const NO_MAPS: &[(&[Member], Error)] = &[
    (&[("ignoreList", "[2]")], Error::BadSourceReference(2)),
    (&[("ignoreList", "[1,5,9]")], Error::BadSourceReference(5)),
    (
        &[("x_google_ignoreList", "[2]")],
        Error::BadSourceReference(2),
    ),
    (
        &[("ignoreList", "[2]"), ("x_google_ignoreList", "[0]")],
        Error::BadSourceReference(2),
    ),
    (
        &[("ignoreList", "[2]"), ("mappings", r#""AC""#)],
        Error::BadSourceReference(2),
    ),
    (&[("mappings", r#""AC""#)], Error::BadSegmentSize(2)),
    (
        &[("names", MISSING), ("mappings", r#""AAAAA""#)],
        Error::BadNameReference(0),
    ),
];

#[test]
fn ids_and_mappings_are_no_part_of_the_shape(rt: HostRuntime) -> Result<()> {
    for (changes, fault) in NO_MAPS {
        let text = text_with(rt.alloc(), changes)?;
        let wanted = [None, Some(*fault), Some(*fault)];
        let faults = faults_of(rt.alloc(), text.as_str())?;
        same(&rt, text.as_str(), faults, wanted);
    }
    Ok(())
}

#[test]
fn the_shape_is_looked_at_before_ids_and_mappings(rt: HostRuntime) -> Result<()> {
    for (key, field) in [
        ("debugId", Field::DebugId),
        ("x_google_ignoreList", Field::GoogleIgnoreList),
    ] {
        let text = text_with(rt.alloc(), &[(key, "0"), ("mappings", r#""AC""#)])?;
        is_misshapen(&rt, rt.alloc(), text.as_str(), JsonFault::Shape(field))?;
    }
    let text = text_with(rt.alloc(), &[("debugId", "0"), ("ignoreList", "[2]")])?;
    is_misshapen(
        &rt,
        rt.alloc(),
        text.as_str(),
        JsonFault::Shape(Field::DebugId),
    )
}

/// A key, values of it that mean the same, and the JSON text of the map.
type Taken = (&'static str, &'static [&'static str], &'static str);

const TAKEN: &[Taken] = &[
    (
        "version",
        &["3"],
        r#"{"version":3,"file":"f.js","sourceRoot":"r","names":["n"],"sources":["a.js","b.js"],"sourcesContent":["A",null],"ignoreList":[1],"mappings":"AAAA","debugId":"d"}"#,
    ),
    (
        "file",
        ABSENT,
        r#"{"version":3,"sourceRoot":"r","names":["n"],"sources":["a.js","b.js"],"sourcesContent":["A",null],"ignoreList":[1],"mappings":"AAAA","debugId":"d"}"#,
    ),
    (
        "mappings",
        &[r#""""#],
        r#"{"version":3,"file":"f.js","sourceRoot":"r","names":["n"],"sources":["a.js","b.js"],"sourcesContent":["A",null],"ignoreList":[1],"mappings":"","debugId":"d"}"#,
    ),
    (
        "sourceRoot",
        ABSENT,
        r#"{"version":3,"file":"f.js","names":["n"],"sources":["a.js","b.js"],"sourcesContent":["A",null],"ignoreList":[1],"mappings":"AAAA","debugId":"d"}"#,
    ),
    (
        "sourceRoot",
        &[r#""""#],
        r#"{"version":3,"file":"f.js","sourceRoot":"","names":["n"],"sources":["a.js","b.js"],"sourcesContent":["A",null],"ignoreList":[1],"mappings":"AAAA","debugId":"d"}"#,
    ),
    (
        "sources",
        &[r#"["c.js","","c.js"]"#],
        r#"{"version":3,"file":"f.js","sourceRoot":"r","names":["n"],"sources":["c.js","","c.js"],"sourcesContent":["A",null],"ignoreList":[1],"mappings":"AAAA","debugId":"d"}"#,
    ),
    (
        "sourcesContent",
        &[MISSING, "null", "[]", "[null]", "[null,null]"],
        r#"{"version":3,"file":"f.js","sourceRoot":"r","names":["n"],"sources":["a.js","b.js"],"ignoreList":[1],"mappings":"AAAA","debugId":"d"}"#,
    ),
    (
        "sourcesContent",
        &[r#"[null,"","C"]"#],
        r#"{"version":3,"file":"f.js","sourceRoot":"r","names":["n"],"sources":["a.js","b.js"],"sourcesContent":[null,"","C"],"ignoreList":[1],"mappings":"AAAA","debugId":"d"}"#,
    ),
    (
        "names",
        &[MISSING, "[]"],
        r#"{"version":3,"file":"f.js","sourceRoot":"r","names":[],"sources":["a.js","b.js"],"sourcesContent":["A",null],"ignoreList":[1],"mappings":"AAAA","debugId":"d"}"#,
    ),
    (
        "debugId",
        ABSENT,
        r#"{"version":3,"file":"f.js","sourceRoot":"r","names":["n"],"sources":["a.js","b.js"],"sourcesContent":["A",null],"ignoreList":[1],"mappings":"AAAA"}"#,
    ),
];

fn has_each_text(rt: &impl Abort, alloc: Global, text: &str, wanted: &str) -> Result<()> {
    let value = Value::from_str(alloc, text)?;
    let fields = JSONSourceMap::from_value(alloc, &value)?;
    for read in [
        SourceMap::from_json(alloc, fields),
        decode_value(alloc, &value),
        SourceMap::from_json_string(alloc, text),
    ] {
        has_text(rt, alloc, text, &read, Ok(wanted));
    }
    Ok(())
}

fn are_taken(rt: &impl Abort, alloc: Global, taken: &Taken) -> Result<()> {
    let (key, values, wanted) = *taken;
    for value in values {
        let text = text_with(alloc, &[(key, *value)])?;
        has_each_text(rt, alloc, text.as_str(), wanted)?;
    }
    Ok(())
}

#[test]
fn what_a_key_holds_is_in_the_map(rt: HostRuntime) -> Result<()> {
    for taken in TAKEN {
        are_taken(&rt, rt.alloc(), taken)?;
    }
    Ok(())
}

/// Only the fields of a value tell an empty list of contents from none.
#[test]
fn contents_that_are_missing_or_null_are_none(rt: HostRuntime) -> Result<()> {
    for (contents, count) in [
        (MISSING, None),
        ("null", None),
        ("[]", Some(0)),
        ("[null]", Some(1)),
    ] {
        let text = text_with(rt.alloc(), &[("sourcesContent", contents)])?;
        let value = Value::from_str(rt.alloc(), text.as_str())?;
        let fields = JSONSourceMap::from_value(rt.alloc(), &value)?;
        let found = fields.sources_content.as_deref().map(|list| list.len());
        same(&rt, contents, found, count);
    }
    Ok(())
}

const IGNORE_LIST: Error = Error::BadJson(JsonFault::Shape(Field::IgnoreList));

const OLDER_KEY: Error = Error::BadJson(JsonFault::Shape(Field::GoogleIgnoreList));

/// The values of `ignoreList` and of `x_google_ignoreList`, and the ignore list of the map.
type Ignored = (&'static str, &'static str, Result<Option<&'static [u32]>>);

const IGNORED: &[Ignored] = &[
    (MISSING, MISSING, Ok(None)),
    (MISSING, "null", Ok(None)),
    (MISSING, "[]", Ok(Some(&[]))),
    (MISSING, "[1]", Ok(Some(&[1]))),
    (MISSING, "[0.5]", Err(OLDER_KEY)),
    ("null", MISSING, Ok(None)),
    ("null", "null", Ok(None)),
    ("null", "[]", Ok(Some(&[]))),
    ("null", "[1]", Ok(Some(&[1]))),
    ("null", "[0.5]", Err(OLDER_KEY)),
    ("[0]", MISSING, Ok(Some(&[0]))),
    ("[0]", "null", Ok(Some(&[0]))),
    ("[0]", "[1]", Ok(Some(&[0]))),
    ("[0]", "[2]", Ok(Some(&[0]))),
    ("[0]", "[0.5]", Ok(Some(&[0]))),
    ("[]", MISSING, Ok(Some(&[]))),
    ("[]", "null", Ok(Some(&[]))),
    ("[]", "[1]", Ok(Some(&[]))),
    ("[]", "false", Ok(Some(&[]))),
    ("[0,1,0]", "[1]", Ok(Some(&[0, 1, 0]))),
    ("false", MISSING, Err(IGNORE_LIST)),
    ("false", "null", Err(IGNORE_LIST)),
    ("false", "[1]", Err(IGNORE_LIST)),
    ("false", "[0.5]", Err(IGNORE_LIST)),
];

fn fields_ignore(
    rt: &impl Abort,
    text: &str,
    found: &Result<JSONSourceMap>,
    wanted: Result<Option<&[u32]>>,
) {
    match found {
        Ok(fields) => same(rt, text, Ok(fields.ignore_list.as_deref()), wanted),
        Err(error) => same(rt, text, Err(*error), wanted),
    }
}

fn map_ignores(
    rt: &impl Abort,
    text: &str,
    found: &Result<SourceMap<'_>>,
    wanted: Result<Option<&[u32]>>,
) {
    match found {
        Ok(map) => same(rt, text, Ok(map.get_ignore_list()), wanted),
        Err(error) => same(rt, text, Err(*error), wanted),
    }
}

fn is_ignored(rt: &impl Abort, alloc: Global, ignored: &Ignored) -> Result<()> {
    let (list, older, wanted) = *ignored;
    let text = text_with(
        alloc,
        &[("ignoreList", list), ("x_google_ignoreList", older)],
    )?;
    let text = text.as_str();
    let value = Value::from_str(alloc, text)?;
    fields_ignore(rt, text, &JSONSourceMap::from_value(alloc, &value), wanted);
    map_ignores(rt, text, &decode_value(alloc, &value), wanted);
    map_ignores(rt, text, &SourceMap::from_json_string(alloc, text), wanted);
    Ok(())
}

#[test]
fn the_older_key_is_looked_at_where_there_is_no_ignore_list(rt: HostRuntime) -> Result<()> {
    for ignored in IGNORED {
        is_ignored(&rt, rt.alloc(), ignored)?;
    }
    Ok(())
}
