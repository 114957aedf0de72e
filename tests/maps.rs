//! Maps, written as JSON source maps and read back.
use crate::helpers::{is_written_as, same};
use crate::mappings::{WRITINGS, Writing};
use crate::rows::{Row, chunks_of, map_of, tokens_of};
use oxc_sourcemap::{Error, JSONSourceMap, JsonFault, Result, SourceMap, SourceMapParts, encode};
use std::alloc::Global;
use std::process::Abort;

/// A map of these tokens and chunks alone.
fn map_with_chunks(
    alloc: Global,
    rows: &[Row],
    chunks: &Option<&[[u32; 8]]>,
) -> Result<SourceMap<'static>> {
    let tokens = tokens_of(alloc, rows)?;
    let chunks = chunks_of(alloc, chunks)?;
    let mut parts = SourceMapParts::empty(alloc)?;
    parts.tokens = tokens.into_boxed_slice();
    parts.token_chunks = chunks;
    Ok(SourceMap::from(parts))
}

/// Asserts how the map of a row is written.
fn a_map_is_written(rt: &impl Abort, alloc: Global, writing: &Writing) -> Result<()> {
    let (rows, chunks, want) = *writing;
    is_written_as(rt, alloc, &map_with_chunks(alloc, rows, &chunks)?, want);
    Ok(())
}

#[test]
fn maps_are_written_as_their_text(rt: HostRuntime) -> Result<()> {
    for rows in WRITINGS {
        for writing in rows {
            a_map_is_written(&rt, rt.alloc(), writing)?;
        }
    }
    Ok(())
}

/// The map that is read from what a map is written as.
fn read_back(alloc: Global, map: &SourceMap<'_>) -> Result<SourceMap<'static>> {
    SourceMap::from_json(alloc, map.to_json(alloc)?)
}

fn it_is_sound_and_written(rt: &impl Abort, alloc: Global, map: &SourceMap<'_>) -> Result<()> {
    assert!(rt; map.is_sorted() && map.is_sound());
    let json = map.to_json(alloc)?;
    same(rt, "version", json.version, 3);
    same(rt, "mappings", json.mappings.as_str(), "AAKG,I");
    assert!(rt; json.sources_content.is_none());
    Ok(())
}

fn its_tokens_have_a_source_position(
    rt: &impl Abort,
    alloc: Global,
    back: &SourceMapParts<'_>,
) -> Result<()> {
    let rows = [(0, 0, 5, 3, Some(0), None), (0, 4, 5, 3, None, None)];
    let wanted = tokens_of(alloc, rows.as_slice())?;
    same(rt, "tokens", back.tokens.as_slice(), wanted.as_slice());
    match back.sources.as_slice() {
        [source] => same(rt, "source", source.as_str(), "a.js"),
        _ => assert!(rt; false, "one source"),
    }
    Ok(())
}

#[test]
fn an_unmapped_token_comes_back_with_a_source_position(rt: HostRuntime) -> Result<()> {
    let rows = [(0, 0, 5, 3, Some(0), None), (0, 4, 0, 0, None, None)];
    let map = map_of(rt.alloc(), &[], &["a.js"], &[], rows.as_slice())?;
    it_is_sound_and_written(&rt, rt.alloc(), &map)?;
    let back = read_back(rt.alloc(), &map)?;
    its_tokens_have_a_source_position(&rt, rt.alloc(), &back.into_parts())
}

fn has_all_contents(rt: &impl Abort, json: &JSONSourceMap) {
    let Some(contents) = &json.sources_content else {
        return assert!(rt; false, "contents");
    };
    match contents.as_slice() {
        [Some(first), Some(second)] => {
            same(
                rt,
                "contents",
                [first.as_str(), second.as_str()],
                ["A", "X"],
            );
        }
        _ => assert!(rt; false, "two contents"),
    }
}

fn has_one_source_and_no_more(rt: &impl Abort, json: &JSONSourceMap) {
    match json.sources.as_slice() {
        [source] => same(rt, "source", source.as_str(), "a.js"),
        _ => assert!(rt; false, "one source"),
    }
    same(rt, "mappings", json.mappings.as_str(), "");
    assert!(rt; json.version == 3 && json.names.is_empty() && json.file.is_none());
    assert!(rt;
        json.source_root.is_none() && json.debug_id.is_none() && json.ignore_list.is_none()
    );
}

#[test]
fn contents_are_written_as_they_are(rt: HostRuntime) -> Result<()> {
    let map = map_of(rt.alloc(), &[], &["a.js"], &[Some("A"), Some("X")], &[])?;
    let json = encode(rt.alloc(), &map)?;
    has_all_contents(&rt, &json);
    has_one_source_and_no_more(&rt, &json);
    Ok(())
}

/// A JSON source map of this version, without sources, that ignores source 3.
fn json_of(alloc: Global, version: u32) -> Result<JSONSourceMap> {
    let ignored = vec![in alloc; 3u32]?;
    let mappings = String::from_str(alloc, "AAAA")?;
    Ok(JSONSourceMap {
        version,
        file: None,
        mappings,
        source_root: None,
        sources: Vec::new(alloc),
        sources_content: None,
        names: Vec::new(alloc),
        debug_id: None,
        ignore_list: Some(ignored),
    })
}

#[test]
fn json_source_maps_are_refused(rt: HostRuntime) -> Result<()> {
    for (version, fault) in [
        (4, Error::BadJson(JsonFault::Version(4))),
        (3, Error::BadSourceReference(3)),
    ] {
        let read = SourceMap::from_json(rt.alloc(), json_of(rt.alloc(), version)?);
        same(&rt, "error", read.err(), Some(fault));
    }
    Ok(())
}

fn it_is_written_and_not_read(rt: &impl Abort, alloc: Global, map: &SourceMap<'_>) {
    assert!(rt; map.is_sorted() && !map.is_sound());
    is_written_as(rt, alloc, map, Ok("AKAA"));
    let refused = read_back(alloc, map).err();
    same(rt, "error", refused, Some(Error::BadSourceReference(0)));
}

#[test]
fn ids_out_of_range_are_written_and_refused_when_read(rt: HostRuntime) -> Result<()> {
    let row = (0, 0, 0, 0, Some(5), None);
    let map = map_of(rt.alloc(), &[], &["a.js"], &[], &[row])?;
    it_is_written_and_not_read(&rt, rt.alloc(), &map);
    Ok(())
}

#[test]
fn columns_that_go_back_are_not_sorted(rt: HostRuntime) -> Result<()> {
    same(&rt, "sound", SourceMap::empty(rt.alloc())?.is_sound(), true);
    let rows = [(0, 3, 0, 0, None, None), (0, 2, 0, 0, None, None)];
    let map = map_of(rt.alloc(), &[], &[], &[], rows.as_slice())?;
    same(&rt, "sorted", map.is_sorted(), false);
    Ok(())
}
