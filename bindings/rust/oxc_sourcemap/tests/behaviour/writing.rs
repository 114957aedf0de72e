//! What is written: JSON texts, mappings, data URLs.

use super::{json, map_of, read, tokens};
use oxc_sourcemap::{
    Error, Language, SourceMap, SourceMapParts, Token, decode_data_url, decode_mappings, encode_mappings,
    encode_mappings_within, library_version, source_mapping_url,
};

/// The map of these rows is read again with the same tokens, from its text and from its fields.
fn comes_back(rows: &[super::Row]) {
    let map = map_of(&["n"], &["a.js"], rows);
    let text = map.to_json_string();
    assert_eq!(read(&text).tokens(), &*tokens(rows), "{text}");
    assert_eq!(SourceMap::from_json(map.to_json()).unwrap().tokens(), &*tokens(rows), "{text}");
}

#[test]
fn numbers_have_as_few_digits_as_possible() {
    // A number relative to another, and its digits: the first column relative to 0, or a second one relative to the first.
    let rows = [
        (0, 0, "A"),
        (1, 0, "C"),
        (2, 0, "E"),
        (15, 0, "e"),
        (16, 0, "gB"),
        (511, 0, "+f"),
        (512, 0, "ggB"),
        (16_383, 0, "+/f"),
        (16_384, 0, "gggB"),
        (524_287, 0, "+//f"),
        (524_288, 0, "ggggB"),
        (16_777_215, 0, "+///f"),
        (16_777_216, 0, "gggggB"),
        (536_870_911, 0, "+////f"),
        (536_870_912, 0, "ggggggB"),
        (u32::MAX, 0, "+/////H"),
        (0, 1, "D"),
        (0, 15, "f"),
        (0, 16, "hB"),
        (0, 16_384, "hggB"),
        (0, u32::MAX, "//////H"),
    ];
    for (number, relative, digits) in rows {
        let token = |col| Token::new(0, col, 0, 0, None, None);
        let text = encode_mappings(&[token(relative), token(number)]).unwrap();
        assert_eq!(text.rsplit(',').next(), Some(digits), "{number} relative to {relative}");
    }
}

#[test]
fn segments_are_relative_to_those_before() {
    let rows = [
        (0, 15, 15, 15, Some(0), Some(0)),
        (0, 30, 0, 0, Some(0), None),
        (0, 46, 16, 16, Some(0), Some(0)),
        (0, 47, 0, 0, Some(0), Some(0)),
        (1, 1, 1, 1, Some(0), Some(0)),
        (1, 2, 1, 1, None, None),
    ];
    assert_eq!(encode_mappings(&tokens(&rows)).unwrap(), "eAeeA,eAff,gBAgBgBA,CAhBhBA;CACCA,C");
    assert_eq!(map_of(&["a"], &["a.js"], &rows).get_mappings().unwrap(), "eAeeA,eAff,gBAgBgBA,CAhBhBA;CACCA,C");
    comes_back(&rows);
    let largest = [(0, u32::MAX, u32::MAX, u32::MAX, Some(0), None), (1, 0, 0, 0, Some(0), None)];
    assert_eq!(encode_mappings(&tokens(&largest)).unwrap(), "+/////HA+/////H+/////H;AA//////H//////H");
}

#[test]
fn what_is_written_comes_back() {
    comes_back(&[(0, 0, 0, 0, None, None), (0, 4, 0, 0, None, None)]);
    comes_back(&[(0, 536_870_912, 536_870_912, 536_870_912, Some(0), None)]);
    let steps: Vec<super::Row> = (0..8).map(|i| (i * 3, 50_000, 50_000, 50_000, Some(0), Some(0))).collect();
    comes_back(&steps);
    let wide = |i: u32| (0, i * 100_000_000, (i % 2) * 536_870_912, i % 2, Some(0), (i % 2 == 0).then_some(0));
    comes_back(&(0..32).map(wide).collect::<Vec<_>>());
    let text = "AAAA,GAAIA,GAAI,EACR,IAAIA,GAAK,EAAG,CACVC,MAAM";
    assert_eq!(encode_mappings(&decode_mappings(text, 2, 1).unwrap()).unwrap(), text);
    for (text, written) in
        [("B", "A"), ("gA", "A"), (",,A,;,C", "A;C"), ("A;;", "A"), ("G,D", "G,D"), ("gD,!C", "gD,/C")]
    {
        assert_eq!(encode_mappings(&decode_mappings(text, 0, 0).unwrap()).unwrap(), written);
    }
}

#[test]
fn contents_are_left_out_where_none_is_known() {
    let map = |contents: &[Option<&'static str>]| {
        SourceMap::from_parts(SourceMapParts {
            sources: vec!["a.js".into(), "b.js".into()],
            source_contents: contents.iter().map(|content| content.map(Into::into)).collect(),
            ..SourceMapParts::default()
        })
    };
    let none = map(&[None, None]);
    assert_eq!(none.to_json_string(), json(r#""names":[],"sources":["a.js","b.js"],"mappings":"""#));
    assert_eq!(none.to_json().sources_content, None);
    let one = map(&[Some("content"), None]);
    assert_eq!(
        one.to_json_string(),
        json(r#""names":[],"sources":["a.js","b.js"],"sourcesContent":["content",null],"mappings":"""#)
    );
    assert_eq!(one.to_json().sources_content, Some(vec![Some("content".to_string()), None]));
}

#[test]
fn an_empty_ignore_list_is_written() {
    let mut map = SourceMap::default();
    map.set_ignore_list(vec![]);
    assert_eq!(map.to_json_string(), json(r#""names":[],"sources":[],"ignoreList":[],"mappings":"""#));
    assert_eq!(map.to_json().ignore_list, Some(vec![]));
    let older = json(r#""sources":["a.js"],"mappings":"","x_google_ignoreList":[0]"#);
    assert_eq!(read(&older).to_json_string(), json(r#""names":[],"sources":["a.js"],"ignoreList":[0],"mappings":"""#));
}

#[test]
fn strings_are_escaped() {
    let map = SourceMap::from_parts(SourceMapParts {
        file: Some("file\0name.js".into()),
        names: vec!["a name that is longer than 16\0".into()],
        source_root: Some("root\n".into()),
        sources: vec!["\u{7f}\u{1f}".into()],
        source_contents: vec![Some("emoji-👀-\0".into())],
        debug_id: Some("a \"quote\" and a \\backslash".into()),
        ..SourceMapParts::default()
    });
    let text = map.to_json_string();
    let wanted = json(
        r#""file":"file\u0000name.js","sourceRoot":"root\n","names":["a name that is longer than 16\u0000"],"sources":["\u001f"],"sourcesContent":["emoji-👀-\u0000"],"mappings":"","debugId":"a \"quote\" and a \\backslash""#,
    );
    assert_eq!(text, wanted.replace("\"\\u001f", "\"\u{7f}\\u001f"));
    assert_eq!(read(&text).get_debug_id(), map.get_debug_id());
}

#[test]
fn a_data_url_is_the_text_in_base64() {
    let url = SourceMap::default().to_data_url();
    assert_eq!(
        url,
        "data:application/json;charset=utf-8;base64,eyJ2ZXJzaW9uIjozLCJuYW1lcyI6W10sInNvdXJjZXMiOltdLCJtYXBwaW5ncyI6IiJ9"
    );
    assert_eq!(decode_data_url(&url).unwrap(), Some(SourceMap::default().to_json_string()));
    assert_eq!(decode_data_url("data:application/json,%7B%7d"), Ok(Some("{}".to_string())));
    assert_eq!(decode_data_url("data:text/plain,x"), Ok(None));
    assert_eq!(decode_data_url("data:application/json;base64,e30*"), Err(Error::BadBase64(3)));
    assert_eq!(decode_data_url("data:application/json,ab%ff"), Err(Error::BadDataUtf8(2)));
}

#[test]
fn what_cannot_be_written_is_told() {
    let map = map_of(&[], &[], &[(1, 0, 0, 0, None, None), (0, 0, 0, 0, None, None)]);
    assert_eq!(map.try_to_json_string(), Err(Error::LineOrder(1)));
    assert_eq!(map.try_to_data_url(), Err(Error::LineOrder(1)));
    assert_eq!(map.try_to_json().unwrap_err(), Error::LineOrder(1));
    assert_eq!(map.get_mappings(), Err(Error::LineOrder(1)));
    assert_eq!(encode_mappings(map.tokens()), Err(Error::LineOrder(1)));
}

#[test]
#[should_panic(expected = "Token 1 lies on a line before the token in front of it")]
fn a_call_without_a_result_panics_with_the_message() {
    map_of(&[], &[], &[(1, 0, 0, 0, None, None), (0, 0, 0, 0, None, None)]).to_json_string();
}

#[test]
fn the_url_of_a_code_is_found() {
    let url = |code, language| source_mapping_url(code, language);
    let code = "a()\n//# sourceMappingURL=old.map\nb()\n//@ sourceMappingURL=new.map \n";
    assert_eq!(url(code, Language::JavaScript), Some("new.map"));
    assert_eq!(url("a{}/*# sourceMappingURL=a.css.map */", Language::Css), Some("a.css.map"));
    assert_eq!(url("//# sourceMappingURL=a.map\na{}", Language::Css), None);
    assert_eq!(url("//# sourceMappingURL=a.map\ncode()", Language::JavaScript), None);
    assert_eq!(url("//# sourceMappingURL=\n", Language::JavaScript), Some(""));
    let found = url(code, Language::JavaScript).unwrap();
    assert!(code.as_bytes().as_ptr_range().contains(&found.as_ptr()));
}

#[test]
fn the_library_has_the_version_of_the_declarations() {
    assert_eq!(library_version(), 2);
}

/// A text of 61 bytes; its URL has 43 bytes, and 4 for each 3 of these. And one that is read as a map of 4294967295 lines.
#[test]
fn texts_have_a_limit() {
    const DEEP: &str = r#"{"version":3,"sections":[{"offset":{"line":4294967295,"column":0},"map":{"version":3,"sources":["a"],"mappings":"AAAA"}}]}"#;
    let text = r#"{"version":3,"names":[],"sources":["a.js"],"mappings":"AAAA"}"#;
    let (map, deep) = (read(text), read(DEEP));
    assert_eq!(
        (map.to_json_string_within(61), map.to_json_string_within(60)),
        (Ok(text.to_string()), Err(Error::TooLarge))
    );
    assert_eq!(
        (map.to_data_url_within(127), map.to_data_url_within(126)),
        (Ok(map.to_data_url()), Err(Error::TooLarge))
    );
    assert_eq!(
        (map.get_mappings_within(4), map.get_mappings_within(3)),
        (Ok("AAAA".to_string()), Err(Error::TooLarge))
    );
    let tokens = [Token::new(2, 0, 5, 3, Some(0), None), Token::new(1, 0, 0, 0, None, None)];
    assert_eq!(encode_mappings_within(&tokens[..1], 6).as_deref(), Ok(";;AAKG"));
    assert_eq!(encode_mappings_within(&tokens[..1], 5), Err(Error::TooLarge));
    assert_eq!(encode_mappings_within(&tokens, 0), Err(Error::LineOrder(1)));
    let limit = u32::MAX as usize - 1;
    assert_eq!(
        [deep.to_json_string_within(limit), deep.to_data_url_within(limit)],
        [const { Err(Error::TooLarge) }; 2]
    );
    assert_eq!((deep.get_mappings_within(limit), deep.tokens().len()), (Err(Error::TooLarge), 1));
}
