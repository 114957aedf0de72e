//! JSON texts that are read, and those that are refused.

use super::{json, read, token};
use oxc_sourcemap::{Error, Field, JSONSourceMap, JsonFault, SourceMap, Token, decode_mappings};

fn error(text: &str) -> Error {
    SourceMap::from_json_string(text).unwrap_err()
}

fn mappings_error(mappings: &str, names: usize, sources: usize) -> Error {
    decode_mappings(mappings, names, sources).unwrap_err().error()
}

#[test]
fn names_of_tokens_are_found_in_order() {
    let map = read(
        r#"{
            "version": 3,
            "sources": ["coolstuff.js"],
            "sourceRoot": "x",
            "names": ["x","alert"],
            "mappings": "AAAA,GAAIA,GAAI,EACR,IAAIA,GAAK,EAAG,CACVC,MAAM",
            "ignoreList": [0]
        }"#,
    );
    assert_eq!((map.get_source_root(), map.get_ignore_list()), (Some("x"), Some(&[0][..])));
    let named: Vec<_> =
        map.get_source_view_tokens().filter(|it| it.get_name().is_some()).map(|it| it.to_tuple()).collect();
    let source = Some("coolstuff.js");
    assert_eq!(named, [(source, 0, 4, Some("x")), (source, 1, 4, Some("x")), (source, 2, 2, Some("alert"))]);
}

#[test]
fn optional_members_may_be_missing_or_null() {
    for members in [
        r#""sources":[],"mappings":"""#,
        r#""names":[],"sources":[],"sourcesContent":[null],"mappings":"""#,
        r#""file":null,"sourceRoot":null,"sources":[],"sourcesContent":null,"mappings":"","debugId":null,"ignoreList":null,"x":{}"#,
    ] {
        let text = json(members);
        let map = read(&text);
        assert_eq!((map.get_file(), map.get_source_root(), map.get_debug_id()), (None, None, None), "{text}");
        assert_eq!((map.get_names().len(), map.get_ignore_list()), (0, None), "{text}");
    }
}

#[test]
fn the_ignore_list_of_the_standard_comes_before_the_older_one() {
    let rows: &[(&str, Option<&[u32]>)] = &[
        ("", None),
        (r#","ignoreList":[0]"#, Some(&[0])),
        (r#","x_google_ignoreList":[1]"#, Some(&[1])),
        (r#","ignoreList":[0],"x_google_ignoreList":[1]"#, Some(&[0])),
        (r#","x_google_ignoreList":[1],"ignoreList":[0]"#, Some(&[0])),
        (r#","ignoreList":[],"x_google_ignoreList":[1]"#, Some(&[])),
        (r#","ignoreList":[0],"x_google_ignoreList":[3]"#, Some(&[0])),
        (r#","ignoreList":[0],"x_google_ignoreList":false"#, Some(&[0])),
        (r#","x_google_ignoreList":false,"ignoreList":[]"#, Some(&[])),
        (r#","ignoreList":[0],"x_google_ignoreList":[-1]"#, Some(&[0])),
        (r#","ignoreList":null,"x_google_ignoreList":[1]"#, Some(&[1])),
        (r#","ignoreList":null,"x_google_ignoreList":null"#, None),
        (r#","x_google_ignoreList":null"#, None),
        (r#","ignoreList":[]"#, Some(&[])),
        (r#","x_google_ignoreList":[]"#, Some(&[])),
    ];
    for (members, wanted) in rows {
        let text = json(&format!(r#""sources":["a.js","b.js"],"mappings":""{members}"#));
        let map = read(&text);
        assert_eq!(map.get_ignore_list(), *wanted, "{text}");
        assert_eq!(SourceMap::from_json(map.to_json()).unwrap().get_ignore_list(), *wanted, "{text}");
    }
}

#[test]
fn ignore_lists_of_another_shape_are_refused() {
    let wrong = |field| Error::BadJson(JsonFault::Shape(field));
    for (members, wanted) in [
        (r#""ignoreList":false"#, wrong(Field::IgnoreList)),
        (r#""ignoreList":[-1]"#, wrong(Field::IgnoreList)),
        (r#""ignoreList":[0.5]"#, wrong(Field::IgnoreList)),
        (r#""ignoreList":[4294967296]"#, wrong(Field::IgnoreList)),
        (r#""ignoreList":false,"x_google_ignoreList":[0]"#, wrong(Field::IgnoreList)),
        (r#""x_google_ignoreList":false"#, wrong(Field::GoogleIgnoreList)),
        (r#""ignoreList":null,"x_google_ignoreList":[-1]"#, wrong(Field::GoogleIgnoreList)),
        (r#""ignoreList":[3]"#, Error::BadSourceReference(3)),
        (r#""x_google_ignoreList":[3]"#, Error::BadSourceReference(3)),
        (r#""ignoreList":[3],"x_google_ignoreList":[0]"#, Error::BadSourceReference(3)),
        (r#""ignoreList":null,"x_google_ignoreList":[3]"#, Error::BadSourceReference(3)),
    ] {
        assert_eq!(error(&json(&format!(r#""sources":["a.js"],"mappings":"",{members}"#))), wanted, "{members}");
    }
}

#[test]
fn each_field_has_its_error() {
    let section = |offset: &str, map: &str| json(&format!(r#""sections":[{{"offset":{offset},"map":{map}}}]"#));
    let rows = [
        ("[]".to_string(), Field::Object),
        (r#"{"version":"3"}"#.to_string(), Field::Version),
        (json(r#""file":1,"sources":[],"mappings":"""#), Field::File),
        (json(r#""sources":[]"#), Field::Mappings),
        (json(r#""sourceRoot":1,"sources":[],"mappings":"""#), Field::SourceRoot),
        (json(r#""sources":[null],"mappings":"""#), Field::Sources),
        (json(r#""sources":[],"sourcesContent":"","mappings":"""#), Field::SourcesContent),
        (json(r#""names":null,"sources":[],"mappings":"""#), Field::Names),
        (json(r#""sources":[],"mappings":"","debugId":1"#), Field::DebugId),
        (json(r#""sources":[],"mappings":"","ignoreList":1"#), Field::IgnoreList),
        (json(r#""sources":[],"mappings":"","x_google_ignoreList":1"#), Field::GoogleIgnoreList),
        (json(r#""sections":1"#), Field::Sections),
        (section("[]", "{}"), Field::Offset),
        (section(r#"{"line":0,"column":0}"#, "[]"), Field::Map),
    ];
    for (text, field) in rows {
        assert_eq!(error(&text), Error::BadJson(JsonFault::Shape(field)), "{text}");
    }
    assert_eq!(error("{"), Error::BadJson(JsonFault::Reading));
    assert_eq!(error(r#"{"version":2,"names":[],"sources":[],"mappings":""}"#), Error::BadJson(JsonFault::Version(2)));
}

#[test]
fn fields_are_checked_as_a_text_is() {
    let empty = || SourceMap::default().to_json();
    let error = |json| SourceMap::from_json(json).unwrap_err();
    let ignored = || JSONSourceMap { ignore_list: Some(vec![3]), mappings: "AAAA".into(), ..empty() };
    assert_eq!(error(JSONSourceMap { version: 4, ..ignored() }), Error::BadJson(JsonFault::Version(4)));
    assert_eq!(error(ignored()), Error::BadSourceReference(3));
    assert_eq!(error(JSONSourceMap { mappings: "AAAA".into(), ..empty() }), Error::BadSourceReference(0));
}

#[test]
fn an_indexed_map_is_the_join_of_its_sections() {
    let section = |line: u32| {
        format!(
            r#"{{"offset":{{"line":{line},"column":0}},"map":{{"version":3,"sources":["a.ts"],"mappings":"AAAA"}}}}"#
        )
    };
    let indexed = |parts: &[String]| json(&format!(r#""file":"out.js","sections":[{}]"#, parts.join(",")));
    let text = indexed(&[section(0), section(4)]);
    let map = read(&text);
    assert_eq!((map.get_file(), map.to_json().mappings.as_str()), (Some("out.js"), "AAAA;;;;ACAA"));
    assert_eq!(error(&indexed(&[section(4), section(0)])), Error::SectionOrder(1));
}

#[test]
fn bad_numbers_and_segments_are_refused() {
    let long = "g".repeat(14);
    let rows = [
        ("AA", Error::BadSegmentSize(2)),
        ("AAAAAA", Error::BadSegmentSize(6)),
        ("AAAAAAA", Error::BadSegmentSize(7)),
        ("AAAAAg", Error::VlqLeftover),
        ("g", Error::VlqLeftover),
        ("Dg", Error::VlqLeftover),
        ("ggggggggggggg,A", Error::VlqLeftover),
        (&long, Error::VlqOverflow),
        ("ggggggI", Error::VlqOverflow),
        ("DA", Error::BadSegmentSize(0)),
        ("D", Error::BadSegmentSize(0)),
        ("AAAA", Error::BadSourceReference(0)),
    ];
    for (mappings, wanted) in rows {
        assert_eq!(mappings_error(mappings, 0, 0), wanted, "{mappings}");
        let text = json(&format!(r#""names":[],"sources":[],"mappings":"{mappings}""#));
        assert_eq!(error(&text), wanted, "{mappings}");
    }
    assert_eq!(mappings_error("AAAAA", 0, 1), Error::BadNameReference(0));
    assert_eq!(mappings_error("AAAAD", 1, 1), Error::BadNameReference(u32::MAX));
    assert_eq!(mappings_error("AAAA,ACAA", 0, 1), Error::BadSourceReference(0));
    assert_eq!(mappings_error("AAAA,ACAA,AEAA", 0, 2), Error::BadSourceReference(1));
    assert_eq!(mappings_error("AADA", 0, 1), Error::BadSegmentSize(0));
}

#[test]
fn numbers_are_read_with_their_sign() {
    let columns =
        |mappings| decode_mappings(mappings, 0, 0).unwrap().iter().map(Token::get_dst_col).collect::<Vec<_>>();
    assert_eq!(columns("A,C,D,gB,hB,+f,/f"), [0, 1, 0, 16, 0, 511, 0]);
    assert_eq!((columns("B,gA"), columns("+/////H")), (vec![0, 0], vec![u32::MAX]));
    // What is no digit counts as the digit `/`.
    assert_eq!((columns("gD,!C"), columns("gD,/C")), (vec![48, 1], vec![48, 1]));
}

#[test]
fn mappings_are_read_alone() {
    let tokens = decode_mappings(";,E,;IACGD,C", 2, 1);
    assert_eq!(tokens.unwrap_err().error(), Error::BadNameReference(u32::MAX));
    let tokens = decode_mappings(";,E,;IAGKC,C", 2, 1).unwrap();
    assert_eq!(
        *tokens,
        [(1, 2, 0, 0, None, None), (2, 4, 3, 5, Some(0), Some(1)), (2, 5, 3, 5, None, None)].map(token)
    );
    assert!(decode_mappings("", 0, 0).unwrap().is_empty());
}
