//! Compositions, remappings and plans.

use super::{json, map_of, read, token};
use oxc_sourcemap::{Error, OwnedSourceMap, SourceMap, SourceMapParts};

#[test]
fn a_composition_takes_names_of_the_input_first() {
    let first = map_of(&["x"], &["m.js"], &[(0, 0, 0, 0, Some(0), Some(0)), (0, 3, 0, 9, Some(0), Some(0))]);
    let input = map_of(&["y"], &["o.ts"], &[(0, 0, 4, 4, Some(0), Some(0)), (0, 8, 5, 5, Some(0), None)]);
    let map = first.try_compose(&input).unwrap();
    assert_eq!(map.tokens(), [(0, 0, 4, 4, Some(0), Some(0)), (0, 3, 5, 5, Some(0), Some(1))].map(token));
    assert_eq!(map.get_names().collect::<Vec<_>>(), ["y", "x"]);
    assert_eq!(map.to_json().mappings, "AAIIA,GACCC");
    assert_eq!(first.compose(input).to_json_string(), map.to_json_string());
}

#[test]
fn a_composition_takes_each_member_of_the_right_map() {
    let first = read(
        r#"{"version":3,"file":"out.js","sourceRoot":"first","sources":["m.js"],"sourcesContent":["M"],"ignoreList":[0],"mappings":"AAAA,C,EAAE","debugId":"first"}"#,
    );
    let input = read(
        r#"{"version":3,"file":"m.js","sourceRoot":"root","sources":["a.ts","b.ts"],"sourcesContent":["A"],"ignoreList":[1],"mappings":"ACAA,C","debugId":"input"}"#,
    );
    let wanted = json(
        r#""file":"out.js","sourceRoot":"root","names":[],"sources":["a.ts","b.ts"],"sourcesContent":["A"],"ignoreList":[1],"mappings":"ACAA,C,E","debugId":"first""#,
    );
    assert_eq!(first.compose(input).to_json_string(), wanted);
}

#[test]
fn a_position_before_the_first_token_of_its_line_counts_as_that_token() {
    let first = map_of(&[], &["m.js"], &[(0, 0, 0, 2, Some(0), None), (0, 4, 1, 0, Some(0), None)]);
    let input = map_of(&[], &["o.ts"], &[(0, 5, 2, 1, Some(0), None)]);
    let map = OwnedSourceMap::new(first).compose(OwnedSourceMap::new(input));
    assert_eq!(
        map.get_tokens().collect::<Vec<_>>(),
        [(0, 0, 2, 1, Some(0), None), (0, 4, 0, 0, None, None)].map(token)
    );
}

#[test]
fn what_cannot_be_composed_is_refused() {
    let two = map_of(&[], &["a.js", "b.js"], &[]);
    let back = map_of(&[], &["o.ts"], &[(1, 0, 0, 0, Some(0), None), (0, 0, 0, 0, Some(0), None)]);
    assert_eq!(two.try_compose(&back).unwrap_err(), Error::SeveralSources(2));
    assert_eq!(SourceMap::default().try_compose(&back).unwrap_err(), Error::LineOrder(1));
    assert_eq!(two.get_sources().len(), 2);
}

#[test]
#[should_panic(expected = "Cannot compose a transformation map with 2 sources")]
fn compose_panics_for_several_sources() {
    map_of(&[], &["a.js", "b.js"], &[]).compose(SourceMap::default());
}

#[test]
fn a_map_is_led_through_the_maps_of_its_sources() {
    let bundle =
        read(r#"{"version":3,"names":[],"sources":["a.js","b.js"],"sourcesContent":["a","b"],"mappings":"AAAA;ACGE"}"#);
    let input = read(
        r#"{"version":3,"file":"a.js","names":[],"sources":["a.ts"],"sourcesContent":["A"],"mappings":"AAEA;AAGI","debugId":"a"}"#,
    );
    let wanted = json(r#""names":[],"sources":["a.ts","b.js"],"sourcesContent":["A","b"],"mappings":"AAEA;ACCE""#);
    assert_eq!(bundle.remap([("a.js", &input)]).unwrap().to_json_string(), wanted);
    let back = map_of(&[], &["o.ts"], &[(1, 0, 0, 0, Some(0), None), (0, 0, 0, 0, Some(0), None)]);
    assert_eq!(bundle.remap([("a.js", &input), ("no.js", &back)]).unwrap_err(), Error::InputLineOrder(1));
}

#[test]
fn a_source_root_goes_before_sources() {
    let parts = |root: &'static str| SourceMapParts {
        source_root: Some(root.into()),
        sources: vec!["a.ts".into(), "/b.ts".into(), "http://c/d.ts".into()],
        ..SourceMapParts::default()
    };
    for (root, wanted) in [("src", "src/a.ts"), ("src/", "src/a.ts"), ("", "a.ts")] {
        let mut map = SourceMap::from_parts(parts(root));
        map.apply_source_root().unwrap();
        assert_eq!(map.get_sources().collect::<Vec<_>>(), [wanted, "/b.ts", "http://c/d.ts"]);
        assert_eq!(map.get_source_root(), None);
    }
}

#[test]
fn plans_are_evaluated() {
    let texts = [
        r#"{"version":3,"names":["x"],"sources":["m.js"],"mappings":"AAAAA,GAASA"}"#,
        r#"{"version":3,"names":["y"],"sources":["o.ts"],"mappings":"AAIIA,QACC"}"#,
        r#"{"version":3,"sources":[],"mappings":"G,D"}"#,
    ];
    let evaluate = |words: &str| SourceMap::evaluate(&words.split(' ').collect::<Vec<_>>(), &texts);
    let wanted = r#"{"version":3,"names":["y","x"],"sources":["o.ts"],"mappings":"AAIIA,GACCC"}"#;
    assert_eq!(evaluate("compose @0 @1").unwrap().to_json_string(), wanted);
    assert_eq!(evaluate("join 2 @0 0 rewrite @1 1").unwrap().to_json().mappings, "AAAAA,GAASA;ACILC,QACC");
    assert_eq!(evaluate("sort @2").unwrap().to_json().mappings, "E,C");
    let error = |words: &str| evaluate(words).unwrap_err().error();
    assert_eq!((error("@2"), error("@3"), error("join 1 @0")), (Error::Unsorted, Error::NoText(3), Error::Words));
    assert_eq!(error(&format!("{}@0", "rewrite ".repeat(64))), Error::TooDeep);
    assert!(evaluate(&format!("{}@0", "rewrite ".repeat(63))).is_ok());
    assert_eq!(
        SourceMap::evaluate(&["remap", "@0", "1", "m.js", "@1"], &texts).unwrap().to_json().mappings,
        "AAIIA,GACCC"
    );
}
