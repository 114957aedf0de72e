//! Maps as they are found, and what is mended in them.

use super::json;
use oxc_sourcemap::{Error, Field, JsonFault, MendKind, SourceMap, Spot};

/// The mends of a text: their kinds and their sections.
fn mends(text: &str) -> Vec<(MendKind, Option<usize>)> {
    let (map, mends) = SourceMap::read_found(text.as_bytes()).unwrap();
    assert!(map.is_sound());
    mends.iter().map(|mend| (mend.kind(), mend.section())).collect()
}

#[test]
fn each_kind_is_told() {
    let rows = [
        ("\u{feff}{\"version\":3,\"sources\":[],\"mappings\":\"\"}".to_string(), vec![MendKind::ByteOrderMark]),
        (")]}'\n{\"version\":3,\"sources\":[],\"mappings\":\"\"}".to_string(), vec![MendKind::JsonPrefix]),
        (SourceMap::default().to_data_url(), vec![MendKind::DataUrl]),
        (r#"{"version":"3","sources":[],"mappings":""}"#.to_string(), vec![MendKind::Version]),
        (json(r#""mappings":"""#), vec![MendKind::NoSources]),
        (
            json(r#""sources":["a",null,"b",null],"mappings":"""#),
            vec![MendKind::NullSource(1), MendKind::NullSource(3)],
        ),
        (json(r#""sources":[],"sourcesContent":1,"mappings":"""#), vec![MendKind::NoContents]),
        (json(r#""sources":["a","b","c"],"sourcesContent":[null,"b",1],"mappings":"""#), vec![MendKind::BadContent(2)]),
        (json(r#""names":null,"sources":[],"mappings":"""#), vec![MendKind::NullNames]),
        (json(r#""sources":[],"ignoreList":1,"mappings":"""#), vec![MendKind::NoIgnoreList]),
        (json(r#""sources":["a"],"ignoreList":[0,7],"mappings":"""#), vec![MendKind::BadIgnoredId(1)]),
        (json(r#""sources":[],"x_google_ignoreList":1,"mappings":"""#), vec![MendKind::NoGoogleIgnoreList]),
        (json(r#""sources":["a"],"x_google_ignoreList":[0,0,7],"mappings":"""#), vec![MendKind::BadGoogleIgnoredId(2)]),
        (json(r#""sources":["a"],"mappings":"AAAA,CCAA,CAAA,CAAA""#), vec![MendKind::SourceIds(3)]),
        (json(r#""sources":["a"],"mappings":"AAAAA,CAAAC""#), vec![MendKind::NameIds(2)]),
        (json(r#""sources":[],"mappings":"G,D""#), vec![MendKind::Unsorted]),
    ];
    for (text, wanted) in rows {
        assert_eq!(mends(&text), wanted.into_iter().map(|kind| (kind, None)).collect::<Vec<_>>(), "{text}");
    }
}

#[test]
fn mends_of_sections_have_their_number() {
    let section =
        |line: u32, map: &str| format!(r#"{{"offset":{{"line":{line},"column":0}},"map":{{"version":3,{map}}}}}"#);
    let first = section(0, r#""sources":["a"],"mappings":"AAAA;;AAAA;AAAA""#);
    let second = section(2, r#""sources":[null],"names":null,"mappings":"AAAA""#);
    let text = json(&format!(r#""sections":[{first},{second}]"#));
    let wanted = [(MendKind::Cut(1), Some(0)), (MendKind::NullSource(0), Some(1)), (MendKind::NullNames, Some(1))];
    assert_eq!(mends(&text), wanted);
}

#[test]
fn the_mended_map_is_written_and_mends_are_words() {
    let text = r#"{"version":3,"sources":[null,"b.js"],"names":[],"mappings":"AAAA,CCAA"}"#;
    let (map, mends) = SourceMap::read_found(text.as_bytes()).unwrap();
    assert_eq!(map.to_json_string(), json(r#""names":[],"sources":["","b.js"],"mappings":"AAAA,CCAA""#));
    assert_eq!(mends[0].to_string(), "source 0 is null, and is read as an empty text");
    assert_eq!(format!("{:?}", mends[0]), "Mend { kind: NullSource(0), section: None }");
    let (_, mends) = SourceMap::read_found(map.to_json_string().as_bytes()).unwrap();
    assert_eq!(mends, []);
}

#[test]
fn what_is_not_mended_is_refused() {
    let fault = SourceMap::read_found(json(r#""sources":[1],"mappings":"""#).as_bytes()).unwrap_err();
    assert_eq!(fault.error(), Error::BadJson(JsonFault::Shape(Field::Sources)));
    let fault = SourceMap::read_found(b"\xff").unwrap_err();
    assert_eq!((fault.error(), fault.place()), (Error::NotUtf8(0), None));
}

#[test]
fn what_is_not_mended_has_its_place_behind_what_is() {
    let spot = |text: &str| SourceMap::read_found(text.as_bytes()).unwrap_err().place().unwrap().spot;
    assert_eq!(spot(")]}'\n{\n \"version\": x}"), Spot::Reading { line: 2, column: 12, byte: 19 });
    assert_eq!(
        spot(r#"{"version":3,"sources":[null,1],"mappings":""}"#),
        Spot::Entry { field: Field::Sources, entry: 1 }
    );
}
