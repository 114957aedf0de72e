//! Maps that are built call by call.

use super::token;
use oxc_sourcemap::{Error, SourceMapBuilder, TokenChunk};

#[test]
fn what_was_added_is_in_the_map() {
    let mut builder = SourceMapBuilder::default();
    builder.set_source_and_content("baz.js", "");
    builder.add_name("x");
    builder.set_file("file");
    let map = builder.into_sourcemap();
    let wanted =
        r#"{"version":3,"file":"file","names":["x"],"sources":["baz.js"],"sourcesContent":[""],"mappings":""}"#;
    assert_eq!(map.to_json_string(), wanted);
}

#[test]
fn equal_names_and_paths_have_one_id() {
    let mut builder = SourceMapBuilder::default();
    assert_eq!(["f", "g", "f", "g", "h"].map(|name| builder.add_name(name)), [0, 1, 0, 1, 2]);
    let sources = [("a.js", "A"), ("b.js", "B"), ("a.js", "ignored")];
    assert_eq!(sources.map(|(path, content)| builder.add_source_and_content(path, content)), [0, 1, 0]);
    assert_eq!(
        (builder.add_source("c.js"), builder.add_source("b.js"), builder.add_source_and_content("c.js", "C")),
        (2, 1, 2)
    );
    let map = builder.into_sourcemap();
    assert_eq!(map.get_names().collect::<Vec<_>>(), ["f", "g", "h"]);
    assert_eq!(map.get_sources().collect::<Vec<_>>(), ["a.js", "b.js", "c.js"]);
    assert_eq!(map.get_source_contents().collect::<Vec<_>>(), [Some("A"), Some("B"), None]);
}

#[test]
fn a_source_that_is_set_is_always_a_new_one() {
    let mut builder = SourceMapBuilder::default();
    assert_eq!(builder.set_source_and_content("a.js", "1"), 0);
    assert_eq!(builder.set_source_and_content("a.js", "2"), 1);
    assert_eq!(builder.add_source_and_content("a.js", "3"), 2);
    assert_eq!(builder.add_source_and_content("a.js", "4"), 2);
    let map = builder.into_sourcemap();
    assert_eq!(map.get_source_contents().collect::<Vec<_>>(), [Some("1"), Some("2"), Some("3")]);
}

#[test]
fn tokens_and_chunks_stay_as_they_are() {
    let chunks = [TokenChunk::new(0, 2, 0, 0, 0, 0, 0, 0)];
    let build = || {
        let mut builder = SourceMapBuilder::default();
        let (name, source) = (builder.add_name("n"), builder.add_source_and_content("s.js", "src"));
        builder.add_token(0, 0, 0, 0, Some(source), Some(name));
        builder.add_tokens(&[token((0, 4, 1, 7, Some(source), None)), token((1, 0, 0, 0, None, None))]);
        builder.set_token_chunks(vec![TokenChunk::new(0, 2, 0, 0, 0, 0, 0, 0)]);
        builder
    };
    let map = build().into_sourcemap();
    let wanted = [(0, 0, 0, 0, Some(0), Some(0)), (0, 4, 1, 7, Some(0), None), (1, 0, 0, 0, None, None)].map(token);
    assert_eq!(map.get_tokens().collect::<Vec<_>>(), wanted);
    assert_eq!(map.into_parts().token_chunks.as_deref(), Some(&chunks[..]));
    let owned = build().into_owned_sourcemap();
    assert_eq!(
        (owned.get_name(0), owned.get_source_content(0), owned.get_tokens().count()),
        (Some("n"), Some("src"), 3)
    );
    assert_eq!(SourceMapBuilder::default().into_owned_sourcemap().into_parts().token_chunks, None);
}

#[test]
fn ids_are_not_compared_with_what_was_added() {
    let mut builder = SourceMapBuilder::default();
    builder.add_token(0, 0, 1, 1, Some(4), Some(5));
    let map = builder.try_into_sourcemap().unwrap();
    assert_eq!((map.get_token(0), map.is_sound()), (Some(token((0, 0, 1, 1, Some(4), Some(5)))), false));
    assert_eq!(map.to_json().mappings, "AICCK");
}

#[test]
fn tokens_out_of_line_order_are_told_when_they_are_written() {
    let mut builder = SourceMapBuilder::default();
    builder.add_token(2, 0, 0, 0, None, None);
    builder.add_token(1, 0, 0, 0, None, None);
    assert_eq!(builder.into_sourcemap().try_to_json_string(), Err(Error::LineOrder(1)));
}
