//! Hostile maps are written, read back, checked and taken apart.
use crate::helpers::{gives, has_text, is_text, same};
use crate::hostile::maps::{Hostile, INPUT, each_hostile, hostile_map, map_of_parts};
use crate::mappings::pieces::a_piece_is_written;
use crate::rows::{chunks_of, tokens_of};
use oxc_sourcemap::{
    Error, JSONSourceMap, OwnedSourceMap, Result, SourceMap, SourceMapParts, SourcemapVisualizer,
    chunk_fault, decode, decode_from_string, encode, encode_to_string,
};
use std::alloc::Global;
use std::process::Abort;

/// Each error of writing is the same, whatever is written.
fn it_is_written(rt: &impl Abort, alloc: Global, map: &SourceMap<'_>, hostile: &Hostile) {
    is_text(rt, "text", &map.to_json_string(alloc), hostile.text);
    is_text(
        rt,
        "encoded text",
        &encode_to_string(alloc, map),
        hostile.text,
    );
    is_text(rt, "text within", &map.to_json_string_within(alloc, usize::MAX), hostile.text);
    let error = hostile.text.err();
    let none = map.to_json_string_within(alloc, 0).err();
    same(rt, "text within no bytes", none, Some(error.unwrap_or(Error::TooLarge)));
    same(rt, "url within no bytes", map.to_data_url_within(alloc, 0).err(), none);
    same(rt, "json", map.to_json(alloc).err(), error);
    same(rt, "url", map.to_data_url(alloc).err(), error);
    let shown = SourcemapVisualizer::new("ab\n", map);
    same(rt, "link", shown.get_url(alloc).err(), error);
    is_text(rt, "shown", &shown.get_text(alloc), Ok(hostile.shown));
}

/// A list of contents without any content is left out.
fn has_the_lists(rt: &impl Abort, json: &JSONSourceMap, hostile: &Hostile) {
    same(rt, "version", json.version, 3);
    gives(
        rt,
        "names",
        json.names.iter().map(|it| it.as_str()),
        hostile.names,
    );
    gives(
        rt,
        "sources",
        json.sources.iter().map(|it| it.as_str()),
        hostile.sources,
    );
    same(rt, "ignored", json.ignore_list.as_deref(), hostile.ignored);
    let has_contents = hostile.contents.iter().any(|it| it.is_some());
    same(
        rt,
        "is listed",
        json.sources_content.is_some(),
        has_contents,
    );
    if let Some(contents) = &json.sources_content {
        gives(
            rt,
            "contents",
            contents.iter().map(|it| it.as_deref()),
            hostile.contents,
        );
    }
}

fn it_is_encoded(rt: &impl Abort, alloc: Global, map: &SourceMap<'_>, hostile: &Hostile) {
    match &encode(alloc, map) {
        Ok(json) => has_the_lists(rt, json, hostile),
        Err(error) => same(rt, "encoding", Err(*error), hostile.text),
    }
}

/// The map that is read from what a map is written as.
fn read_back(alloc: Global, map: &SourceMap<'_>) -> Result<SourceMap<'static>> {
    SourceMap::from_json(alloc, map.to_json(alloc)?)
}

/// The same, by the functions.
fn decoded(alloc: Global, map: &SourceMap<'_>) -> Result<SourceMap<'static>> {
    decode(alloc, encode(alloc, map)?)
}

/// The map that is read from the JSON text of a map.
fn text_decoded(alloc: Global, map: &SourceMap<'_>) -> Result<SourceMap<'static>> {
    decode_from_string(alloc, encode_to_string(alloc, map)?.as_str())
}

/// What is read back is written as the same text.
fn it_is_read_back(rt: &impl Abort, alloc: Global, map: &SourceMap<'_>, hostile: &Hostile) {
    let wanted = hostile.reading.map_or(hostile.text, |error| Err(error));
    for (what, read) in [
        ("read back", read_back(alloc, map)),
        ("decoded", decoded(alloc, map)),
        ("text decoded", text_decoded(alloc, map)),
    ] {
        has_text(rt, alloc, what, &read, wanted);
    }
}

/// The parts of an owned copy of a map.
fn copied(alloc: Global, map: &SourceMap<'_>) -> Result<SourceMapParts<'static>> {
    Ok(map.clone(alloc)?.into_owned(alloc)?.into_parts())
}

/// Tokens and chunks are those that the map was made of.
pub fn has_its_tokens_and_chunks(
    rt: &impl Abort,
    alloc: Global,
    parts: &SourceMapParts<'_>,
    hostile: &Hostile,
) -> Result<()> {
    let tokens = tokens_of(alloc, hostile.rows)?;
    same(rt, "tokens", parts.tokens.as_slice(), tokens.as_slice());
    let chunks = chunks_of(alloc, &hostile.chunks)?;
    same(rt, "chunks", &parts.token_chunks, &chunks);
    Ok(())
}

/// Each chunk is written as it is, whether it fits or not.
fn its_chunks_are_written(
    rt: &impl Abort,
    alloc: Global,
    parts: &SourceMapParts<'_>,
    hostile: &Hostile,
) -> Result<()> {
    let Some(chunks) = &parts.token_chunks else {
        return Ok(());
    };
    let tokens = parts.tokens.as_slice();
    let misfit = chunk_fault(tokens, chunks.as_slice());
    same(rt, "misfit", misfit, hostile.misfit);
    same(rt, "pieces", chunks.len(), hostile.pieces.len());
    for (chunk, piece) in chunks.iter().zip(hostile.pieces) {
        a_piece_is_written(rt, alloc, tokens, chunk, *piece)?;
    }
    Ok(())
}

/// What is lent a map.
pub fn each_call_answers(
    rt: &impl Abort,
    alloc: Global,
    map: &SourceMap<'_>,
    hostile: &Hostile,
) -> Result<()> {
    same(rt, "sorted", map.is_sorted(), hostile.is_sorted);
    same(rt, "sound", map.is_sound(), hostile.is_sound);
    it_is_written(rt, alloc, map, hostile);
    it_is_encoded(rt, alloc, map, hostile);
    it_is_read_back(rt, alloc, map, hostile);
    let parts = copied(alloc, map)?;
    has_its_tokens_and_chunks(rt, alloc, &parts, hostile)?;
    its_chunks_are_written(rt, alloc, &parts, hostile)
}

#[test]
fn each_call_on_a_map_answers(rt: HostRuntime) -> Result<()> {
    each_hostile(|hostile| {
        let map = hostile_map(rt.alloc(), hostile)?;
        each_call_answers(&rt, rt.alloc(), &map, hostile)
    })
}

/// Sets an ignore list and sources that the tokens do not fit.
fn set_fields(alloc: Global, map: &mut OwnedSourceMap) -> Result<()> {
    map.set_ignore_list(vec![in alloc; 3u32]?);
    map.set_source_contents(alloc, vec![in alloc; None, Some("X")]?)
}

fn it_is_written_and_not_read(rt: &impl Abort, alloc: Global, map: &OwnedSourceMap) {
    let text =
        r#"{"version":3,"names":["n"],"sources":["in.js"],"sourcesContent":[null,"X"],"ignoreList":[3],"mappings":"AAOO"}"#;
    same(rt, "sound", map.is_sound(), false);
    is_text(rt, "text", &map.to_json_string(alloc), Ok(text));
    let read = SourceMap::from_json_string(alloc, text).err();
    same(rt, "reading", read, Some(Error::BadSourceReference(3)));
}

#[test]
fn fields_are_set_to_what_does_not_fit(rt: HostRuntime) -> Result<()> {
    let map = map_of_parts(rt.alloc(), INPUT)?;
    let mut map = OwnedSourceMap::new(map);
    set_fields(rt.alloc(), &mut map)?;
    it_is_written_and_not_read(&rt, rt.alloc(), &map);
    Ok(())
}
