//! Maps, written as JSON texts and read back.
use crate::helpers::{is_text, same};
use crate::rows::map_of;
use oxc_sourcemap::{
    Error, JSONSourceMap, JsonFault, OwnedSourceMap, Result, SourceMap, Token, TokenChunk,
    decode_from_string, encode_mappings_within, encode_to_string, push_json_string,
};
use serde_json::Value;
use std::alloc::Global;
use std::borrow::CowStr;
use std::process::Abort;

/// Every escape, and text past ASCII.
const TEXT: &str = "a\"b\\c/\u{8}\t\n\u{c}\r\u{0}\u{1}\u{1f}\u{7f}é\u{2028}😀";

/// That text as a JSON string.
const STRING: &str = "\"a\\\"b\\\\c/\\b\\t\\n\\f\\r\\u0000\\u0001\\u001f\u{7f}é\u{2028}😀\"";

/// A map with all fields, all texts of which are that text.
fn full_map(alloc: Global) -> Result<SourceMap<'static>> {
    let ignored = vec![in alloc; 1u32, 0]?;
    let row = (1, 2, 3, 4, Some(1), Some(0));
    let map = map_of(alloc, &[TEXT], &[TEXT, "b"], &[None, Some(TEXT)], &[row])?;
    let mut parts = map.into_parts();
    parts.file = Some(CowStr::Borrowed(TEXT));
    parts.source_root = Some(CowStr::Borrowed(TEXT));
    parts.ignore_list = Some(ignored);
    parts.debug_id = Some(CowStr::Borrowed(TEXT));
    Ok(SourceMap::from_parts(parts))
}

#[test]
fn strings_are_escaped(rt: HostRuntime) -> Result<()> {
    let mut out = String::from_str(rt.alloc(), "x")?;
    push_json_string(TEXT, &mut out)?;
    same(&rt, "string", out.as_str().strip_prefix("x"), Some(STRING));
    Ok(())
}

/// The JSON source map that `serde_json` and this library read from a text.
fn read_by_serde_json(alloc: Global, text: &str) -> Result<JSONSourceMap> {
    JSONSourceMap::from_value(alloc, &Value::from_str(alloc, text)?)
}

fn all_fields_are_equal(rt: &impl Abort, read: &JSONSourceMap, wanted: &JSONSourceMap) {
    same(rt, "version", read.version, wanted.version);
    same(rt, "file", &read.file, &wanted.file);
    same(rt, "mappings", &read.mappings, &wanted.mappings);
    same(rt, "source root", &read.source_root, &wanted.source_root);
    same(rt, "sources", &read.sources, &wanted.sources);
    same(
        rt,
        "contents",
        &read.sources_content,
        &wanted.sources_content,
    );
    same(rt, "names", &read.names, &wanted.names);
    same(rt, "debug id", &read.debug_id, &wanted.debug_id);
    same(rt, "ignored", &read.ignore_list, &wanted.ignore_list);
}

fn the_object_is_read(rt: &impl Abort, alloc: Global, map: &SourceMap<'_>) -> Result<()> {
    let text = encode_to_string(alloc, map)?;
    let read = read_by_serde_json(alloc, text.as_str())?;
    all_fields_are_equal(rt, &read, &map.to_json(alloc)?);
    Ok(())
}

#[test]
fn serde_json_reads_the_object_that_was_written(rt: HostRuntime) -> Result<()> {
    the_object_is_read(&rt, rt.alloc(), &full_map(rt.alloc())?)
}

fn it_is_sound_and_has_these_texts(
    rt: &impl Abort,
    alloc: Global,
    map: &SourceMap<'_>,
    text: &str,
    url: &str,
) -> Result<()> {
    assert!(rt; map.is_sound());
    same(rt, "text", map.to_json_string(alloc)?.as_str(), text);
    same(rt, "url", map.to_data_url(alloc)?.as_str(), url);
    Ok(())
}

/// The data URL of the map that a text is decoded to.
fn url_of(alloc: Global, text: &str) -> Result<String> {
    decode_from_string(alloc, text)?.to_data_url(alloc)
}

fn a_text_is_read_and_written_again(rt: &impl Abort, alloc: Global, text: &str) -> Result<()> {
    let url = url_of(alloc, text)?;
    let map = SourceMap::from_json_string(alloc, text)?;
    it_is_sound_and_has_these_texts(rt, alloc, &map, text, url.as_str())
}

#[test]
fn texts_are_read_and_written_again(rt: HostRuntime) -> Result<()> {
    let text = full_map(rt.alloc())?.to_json_string(rt.alloc())?;
    a_text_is_read_and_written_again(&rt, rt.alloc(), text.as_str())
}

#[test]
fn texts_are_appended_to_others(rt: HostRuntime) -> Result<()> {
    let map = full_map(rt.alloc())?;
    let text = map.to_json_string(rt.alloc())?;
    let mut wanted = String::from_str(rt.alloc(), "é\n")?;
    wanted.push_str(text.as_str())?;
    wanted.push_str(text.as_str())?;
    let mut out = String::from_str(rt.alloc(), "é\n")?;
    map.write_json_string(&mut out)?;
    OwnedSourceMap::from_json_string(rt.alloc(), text.as_str())?.write_json_string(&mut out)?;
    same(&rt, "text", out.as_str(), wanted.as_str());
    Ok(())
}

#[test]
fn a_map_that_is_not_written_leaves_the_text(rt: HostRuntime) -> Result<()> {
    let rows = [(1, 0, 0, 0, None, None), (0, 0, 0, 0, None, None)];
    let map = map_of(rt.alloc(), &[], &[], &[], &rows)?;
    let mut out = String::from_str(rt.alloc(), "é\n")?;
    same(&rt, "written", map.write_json_string(&mut out), Err(Error::LineOrder(1)));
    same(&rt, "text", out.as_str(), "é\n");
    Ok(())
}

/// A text of 61 bytes. Its data URL has 43 bytes, and 4 for each 3 of these.
const SMALL: &str = r#"{"version":3,"names":[],"sources":["a.js"],"mappings":"AAAA"}"#;

#[test]
fn a_text_may_be_as_long_as_the_limit(rt: HostRuntime) -> Result<()> {
    let alloc = rt.alloc();
    let map = SourceMap::from_json_string(alloc, SMALL)?;
    let url = map.to_data_url(alloc)?;
    is_text(&rt, "text", &map.to_json_string_within(alloc, 61), Ok(SMALL));
    is_text(&rt, "text", &map.to_json_string_within(alloc, 60), Err(Error::TooLarge));
    is_text(&rt, "url", &map.to_data_url_within(alloc, 127), Ok(url.as_str()));
    is_text(&rt, "url", &map.to_data_url_within(alloc, 126), Err(Error::TooLarge));
    let map = OwnedSourceMap::from_json_string(alloc, SMALL)?;
    is_text(&rt, "owned", &map.to_json_string_within(alloc, 61), Ok(SMALL));
    is_text(&rt, "owned", &map.to_json_string_within(alloc, 0), Err(Error::TooLarge));
    is_text(&rt, "owned", &map.to_data_url_within(alloc, 127), Ok(url.as_str()));
    is_text(&rt, "owned", &map.to_data_url_within(alloc, 126), Err(Error::TooLarge));
    Ok(())
}

#[test]
fn mappings_may_be_as_long_as_the_limit(rt: HostRuntime) {
    let tokens = [Token::new(2, 0, 5, 3, Some(0), None), Token::new(2, 1, 5, 3, Some(0), None)];
    let chunks = [TokenChunk::new(0, 1, 0, 0, 0, 0, 0, 0), TokenChunk::new(1, 2, 2, 0, 5, 3, 0, 0)];
    let written = |limit: usize| encode_mappings_within(rt.alloc(), &tokens, Some(&chunks), limit);
    is_text(&rt, "mappings", &written(11), Ok(";;AAKG,CAAA"));
    is_text(&rt, "mappings", &written(10), Err(Error::TooLarge));
    is_text(&rt, "mappings", &written(1), Err(Error::TooLarge));
    is_text(&rt, "mappings", &encode_mappings_within(rt.alloc(), &[], None, 0), Ok(""));
    let fault = encode_mappings_within(rt.alloc(), &tokens, Some(&chunks[..1]), 0);
    is_text(&rt, "chunks", &fault, Err(Error::BadChunks(1)));
}

/// A text of 122 bytes that is read as a map whose text has 4294967295 lines.
const DEEP: &str = r#"{"version":3,"sections":[{"offset":{"line":4294967295,"column":0},"map":{"version":3,"sources":["a"],"mappings":"AAAA"}}]}"#;

#[test]
fn a_map_of_many_lines_is_not_written(rt: HostRuntime) -> Result<()> {
    let map = SourceMap::from_json_string(rt.alloc(), DEEP)?;
    let (text, url) = (map.to_json_string_within(rt.alloc(), 1000), map.to_data_url_within(rt.alloc(), 4294967294));
    is_text(&rt, "text", &text, Err(Error::TooLarge));
    is_text(&rt, "url", &url, Err(Error::TooLarge));
    Ok(())
}

#[test]
fn the_order_of_lines_comes_before_the_limit(rt: HostRuntime) -> Result<()> {
    let rows = [(0, 0, 0, 0, None, None), (4294967295, 0, 0, 0, None, None), (5, 0, 0, 0, None, None)];
    let map = map_of(rt.alloc(), &[], &[], &[], &rows)?;
    is_text(&rt, "text", &map.to_json_string_within(rt.alloc(), 0), Err(Error::LineOrder(2)));
    is_text(&rt, "text", &map.to_json_string_within(rt.alloc(), 1000), Err(Error::LineOrder(2)));
    is_text(&rt, "url", &map.to_data_url_within(rt.alloc(), 1000), Err(Error::LineOrder(2)));
    Ok(())
}

#[test]
fn texts_that_are_not_json_are_refused(rt: HostRuntime) -> Result<()> {
    let read = SourceMap::from_json_string(rt.alloc(), "{} {}");
    same(
        &rt,
        "error",
        read.err(),
        Some(Error::BadJson(JsonFault::Reading)),
    );
    Ok(())
}
