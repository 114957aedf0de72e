//! Faults that come before want of memory. They are reported also wherever a request is refused.
use crate::helpers::same;
use super::fixtures::{full_json, full_map, lent_map};
use super::memory::{nothing, reports};
use oxc_sourcemap::{
    ConcatSourceMapBuilder, Error, JSONSourceMap, JsonFault, OwnedSourceMap, Result, SourceMap,
    SourceMapParts, Token, TokenChunk,
};
use std::alloc::Global;
use std::process::Abort;

/// Unmapped tokens at these lines and columns.
fn tokens_at(alloc: Global, positions: &[(u32, u32)]) -> Result<Vec<Token>> {
    let mut tokens = Vec::new(alloc);
    for (line, column) in positions {
        tokens.push(Token::new(*line, *column, 0, 0, None, None))?;
    }
    Ok(tokens)
}

/// A map of these tokens.
fn map_at(alloc: Global, positions: &[(u32, u32)]) -> Result<SourceMap<'static>> {
    let mut parts = SourceMapParts::empty(alloc)?;
    parts.tokens = tokens_at(alloc, positions)?.into_boxed_slice();
    Ok(SourceMap::from_parts(parts))
}

/// Lines and columns of two tokens whose lines go back.
const BACK: &[(u32, u32)] = &[(1, 0), (0, 0)];

fn map_back(alloc: Global) -> Result<SourceMap<'static>> {
    map_at(alloc, BACK)
}

/// Asserts that tokens are not written, for this error.
fn does_not_write(
    rt: &(impl Abort + AllocGlobal),
    write: impl Fn(&[Token], &mut String) -> Result<()>,
    error: Error,
) -> Result<()> {
    let tokens = tokens_at(rt.alloc(), BACK)?;
    reports(rt, |alloc| Ok(String::new(alloc)), |_, mut out| {
        let written = write(tokens.as_slice(), &mut out);
        same(rt, "out", out.as_str(), "");
        written
    }, error);
    Ok(())
}

#[test]
fn line_order_and_bad_chunks_of_writing(rt: HostRuntime) -> Result<()> {
    let whole = TokenChunk::new(0, 2, 0, 0, 0, 0, 0, 0);
    let long = [TokenChunk::new(0, 3, 0, 0, 0, 0, 0, 0)];
    does_not_write(&rt, |tokens, out| oxc_sourcemap::encode_mappings(tokens, None, out), Error::LineOrder(1))?;
    does_not_write(&rt, |tokens, out| oxc_sourcemap::encode_chunk(tokens, &whole, out), Error::LineOrder(1))?;
    does_not_write(&rt, |tokens, out| oxc_sourcemap::encode_mappings(&tokens[..tokens.len().min(1)], Some(long.as_slice()), out), Error::BadChunks(0))?;
    does_not_write(&rt, |tokens, out| oxc_sourcemap::encode_chunk(tokens, &long[0], out), Error::BadChunks(0))
}

/// A token on a line above the limit, which is found before any memory is taken.
#[test]
fn too_many_lines_of_writing_within(rt: HostRuntime) {
    let deep = |alloc: Global| map_at(alloc, &[(9, 0)]);
    reports(&rt, deep, |alloc, map| map.to_json_string_within(alloc, 8), Error::TooLarge);
    reports(&rt, deep, |alloc, map| map.to_data_url_within(alloc, 8), Error::TooLarge);
    let tokens = [Token::new(9, 0, 0, 0, None, None)];
    reports(&rt, nothing, |alloc, ()| oxc_sourcemap::encode_mappings_within(alloc, &tokens, None, 8), Error::TooLarge);
    reports(&rt, map_back, |alloc, map| map.to_json_string_within(alloc, 0), Error::LineOrder(1));
    reports(&rt, map_back, |alloc, map| map.to_data_url_within(alloc, 1000), Error::LineOrder(1));
}

#[test]
fn line_order_of_generate_lookup_table(rt: HostRuntime) {
    reports(&rt, map_back, |alloc, map| map.generate_lookup_table(alloc).map(|table| table.len()), Error::LineOrder(1));
}

/// A JSON source map of this version, whose ignore list is out of range.
fn faulty_json(alloc: Global, version: u32) -> Result<JSONSourceMap> {
    let mut json = full_json(alloc)?;
    json.version = version;
    json.ignore_list = Some(vec![in alloc; 2u32]?);
    Ok(json)
}

#[test]
fn version_of_from_json(rt: HostRuntime) {
    reports(&rt, |alloc| faulty_json(alloc, 4), |alloc, json| SourceMap::from_json(alloc, json), Error::BadJson(JsonFault::Version(4)));
}

#[test]
fn ignore_list_of_from_json(rt: HostRuntime) {
    reports(&rt, |alloc| faulty_json(alloc, 3), |alloc, json| SourceMap::from_json(alloc, json), Error::BadSourceReference(2));
}

#[test]
fn several_sources_of_compose(rt: HostRuntime) {
    reports(&rt, |alloc| Ok((full_map(alloc)?, map_back(alloc)?)), |alloc, (map, input)| map.compose(alloc, input), Error::SeveralSources(2));
}

#[test]
fn line_order_of_compose(rt: HostRuntime) {
    reports(&rt, |alloc| Ok((lent_map(alloc)?, map_back(alloc)?)), |alloc, (map, input)| map.compose(alloc, input), Error::LineOrder(1));
}

#[test]
fn input_line_order_of_remap(rt: HostRuntime) -> Result<()> {
    let (map, back) = (full_map(rt.alloc())?, map_back(rt.alloc())?);
    reports(&rt, nothing, |alloc, ()| map.remap(alloc, &[("a.js", &map), ("b.js", &back)]), Error::InputLineOrder(1));
    let (map, back) = (OwnedSourceMap::new(map), OwnedSourceMap::new(back));
    reports(&rt, nothing, |alloc, ()| map.remap(alloc, &[("a.js", &map), ("b.js", &back)]), Error::InputLineOrder(1));
    Ok(())
}

#[test]
fn too_large_of_add_sourcemap(rt: HostRuntime) -> Result<()> {
    let map = map_at(rt.alloc(), &[(4294967295, 0)])?;
    reports(&rt, nothing, |alloc, ()| ConcatSourceMapBuilder::empty(alloc).add_sourcemap(&map, 1), Error::TooLarge);
    reports(&rt, |alloc| map_at(alloc, &[(0, 4294967295)]), |alloc, map| ConcatSourceMapBuilder::empty(alloc).add_sourcemap_owned_at(map, 0, 1), Error::TooLarge);
    reports(&rt, nothing, |alloc, ()| ConcatSourceMapBuilder::empty(alloc).add_sourcemap_copied_at(&map, 1, 0), Error::TooLarge);
    Ok(())
}
