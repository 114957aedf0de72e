//! Errors: their messages, and where in a text they are.

use super::json;
use oxc_sourcemap::{
    CompiledError, Error, Fault, Field, JsonFault, Place, ScopesFault, ScopesFaultKind, SourceMap, Spot,
    decode_mappings,
};
use std::error::Error as _;

#[test]
fn messages_are_those_of_the_library() {
    let rows = [
        (Error::VlqLeftover, "VLQ string was malformed and data was left over"),
        (Error::VlqNoValues, "VLQ string was empty and no values could be decoded"),
        (Error::VlqOverflow, "The input encoded a number that didn't fit into i64"),
        (Error::BadJson(JsonFault::Reading), "JSON parsing error: the text is not JSON"),
        (Error::BadJson(JsonFault::Version(7)), "JSON parsing error: unsupported source map version: 7"),
        (Error::BadJson(JsonFault::Shape(Field::Object)), "JSON parsing error: the value is not an object"),
        (Error::BadSegmentSize(7), "Mapping segment had an unsupported size of 7"),
        (Error::BadSourceReference(3), "Reference to non-existing source at position 3"),
        (Error::BadNameReference(9), "Reference to non-existing name at position 9"),
        (Error::OutOfMemory, "Out of memory"),
        (Error::TooLarge, "A line, an id or a count is too large"),
        (Error::LineOrder(4), "Token 4 lies on a line before the token in front of it"),
        (Error::BadChunks(5), "Token chunk 5 does not fit the tokens"),
        (Error::SeveralSources(2), "Cannot compose a transformation map with 2 sources"),
        (Error::Unsorted, "Tokens are not in order of line and column"),
        (Error::TooDeep, "The plan is deeper than 64"),
        (Error::NoText(3), "There is no text 3"),
        (Error::SectionOrder(1), "Section 1 begins before the end of what is in front of it"),
        (Error::InputLineOrder(2), "The tokens of input 2 go back in lines"),
        (Error::BadBase64(5), "The data URL has bad base64 at byte 5 of its data"),
        (Error::BadDataUtf8(6), "The data URL has bad UTF-8 at byte 6 of its text"),
        (Error::Compiled(CompiledError::NotCompiled), "not a compiled source map"),
        (Error::Compiled(CompiledError::Version(7)), "unsupported version of a compiled source map: 7"),
        (Error::Compiled(CompiledError::Length), "a compiled source map has another length than it says"),
        (Error::Compiled(CompiledError::Sizes), "the sizes in a compiled source map do not add up"),
        (Error::ScopesNotText, "`scopes` is no text"),
        (Error::ScopesIndexed, "the scopes of an indexed map are not read"),
        (Error::NoFile(2), "No such file or directory"),
    ];
    for (error, wanted) in rows {
        assert_eq!(error.to_string(), wanted);
    }
    let keys = [
        (Field::Version, "version"),
        (Field::File, "file"),
        (Field::Mappings, "mappings"),
        (Field::SourceRoot, "sourceRoot"),
        (Field::Sources, "sources"),
        (Field::SourcesContent, "sourcesContent"),
        (Field::Names, "names"),
        (Field::DebugId, "debugId"),
        (Field::IgnoreList, "ignoreList"),
        (Field::GoogleIgnoreList, "x_google_ignoreList"),
        (Field::Sections, "sections"),
        (Field::Offset, "offset"),
        (Field::Map, "map"),
    ];
    for (field, key) in keys {
        let wanted = format!("JSON parsing error: field {key} is missing or has the wrong type");
        assert_eq!(Error::BadJson(JsonFault::Shape(field)).to_string(), wanted);
    }
    // Errors that are not the library's have messages too, each its own.
    let others = [Error::Words, Error::NotUtf8(1), Error::Lengths, Error::NoIndex, Error::NoFile(0)]
        .map(|error| error.to_string());
    assert!(others.iter().enumerate().all(|(at, text)| !text.is_empty() && !others[..at].contains(text)), "{others:?}");
}

#[test]
fn only_faults_of_json_have_a_source() {
    let error = Error::BadJson(JsonFault::Version(2));
    assert_eq!(error.source().unwrap().to_string(), "unsupported source map version: 2");
    assert!(Error::VlqLeftover.source().is_none() && Error::BadSegmentSize(1).source().is_none());
    // The texts of these are those of the errors in them.
    let compiled = CompiledError::Version(2);
    assert!(
        Error::Compiled(compiled).source().is_none() && compiled.to_string() == Error::Compiled(compiled).to_string()
    );
    let scopes = ScopesFault { kind: ScopesFaultKind::TooLarge, byte: 7 };
    assert!(Error::BadScopes(scopes).source().is_none() && scopes.to_string() == Error::BadScopes(scopes).to_string());
}

fn fault(text: &str) -> Fault {
    SourceMap::read(text.as_bytes()).unwrap_err()
}

fn spot(text: &str) -> Spot {
    fault(text).place().unwrap().spot
}

#[test]
fn each_place_is_told() {
    assert_eq!(spot("{\"version\":3,\n \"sources\":[}"), Spot::Reading { line: 1, column: 12, byte: 26 });
    assert_eq!(spot(&json(r#""sources":[]"#)), Spot::Member(Field::Mappings));
    assert_eq!(spot("[]"), Spot::Member(Field::Object));
    let entry = Spot::Entry { field: Field::SourcesContent, entry: 2 };
    assert_eq!(spot(&json(r#""sources":[],"sourcesContent":["",null,7],"mappings":"""#)), entry);
    let mappings = json(r#""sources":["a"],"mappings":";;AAAA,,C;;;A,A,A,A,AAAAAAA""#);
    assert_eq!(spot(&mappings), Spot::Segment { line: 5, segment: 4, byte: 20 });
    let bare = decode_mappings(";A,AA", 0, 0).unwrap_err();
    assert_eq!(bare.place().unwrap().spot, Spot::Segment { line: 1, segment: 1, byte: 3 });
    assert_eq!(bare.place_text().unwrap(), "line 1, segment 1 (byte 3)");
    assert_eq!(SourceMap::read(b"\xff").unwrap_err().place(), None);
}

#[test]
fn what_is_really_wrong_is_told() {
    let below = json(r#""sources":["a"],"mappings":"AAAA,DAAA""#);
    assert_eq!(fault(&below).reason_text(&below).unwrap(), "a column below 0");
    let fine = json(r#""sources":["a"],"mappings":"AAAA,AA""#);
    assert_eq!(fault(&fine).reason_text(&fine), None);
}

#[test]
fn the_text_and_the_section_are_told() {
    let section = |line: u32, mappings: &str| {
        format!(
            r#"{{"offset":{{"line":{line},"column":0}},"map":{{"version":3,"sources":[],"mappings":"{mappings}"}}}}"#
        )
    };
    let parts = [section(0, "A"), section(4, "A"), section(8, ";;A,A,AA")];
    let indexed = json(&format!(r#""sections":[{}]"#, parts.join(",")));
    let fault = fault(&indexed);
    let spot = Spot::Segment { line: 2, segment: 2, byte: 6 };
    let place = fault.place().unwrap();
    assert_eq!((place.text, place.section, place.spot), (None, Some(2), spot));
    assert_eq!(
        fault.to_string(),
        "Mapping segment had an unsupported size of 2, in section 2, line 2, segment 2 (byte 6)"
    );
    let good = json(r#""sources":[],"mappings":"""#);
    let words = ["join", "2", "@0", "0", "@1", "0"];
    let fault = SourceMap::evaluate(&words, &[&good, &indexed]).unwrap_err();
    let Place { text, section, spot: told, .. } = fault.place().unwrap();
    assert_eq!((text, section, told), (Some(1), Some(2), spot));
    assert_eq!(fault.place_text().unwrap(), "text 1, section 2, line 2, segment 2 (byte 6)");
    assert_eq!((fault.error(), Error::from(fault)), (Error::BadSegmentSize(2), Error::BadSegmentSize(2)));
}

#[test]
fn a_fault_is_printed_with_its_place() {
    let fault = fault(&json(r#""sources":[]"#));
    let wanted = "JSON parsing error: field mappings is missing or has the wrong type, in mappings";
    assert_eq!(fault.to_string(), wanted);
    assert!(format!("{fault:?}").starts_with("Fault { error: BadJson(Shape(Mappings)), place: Some("));
}
