//! Maps that calls are made on, and assertions of what calls give.
use crate::helpers::{has_text, is_text, same};
use oxc_sourcemap::{JSONSourceMap, OwnedSourceMap, Result, SourceMap, SourceMapParts, Token, TokenChunk};
use serde_json::Value;
use std::alloc::Global;
use std::borrow::CowStr;
use std::process::Abort;

/// A map with every field.
pub const TEXT: &str =
    r#"{"version":3,"file":"out.js","sourceRoot":"root","names":["n0","n1"],"sources":["a.js","b.js"],"sourcesContent":["A",null],"ignoreList":[1],"mappings":"AAAAA,CCACC,C","debugId":"dbg"}"#;

/// The map of that text.
pub fn full_map(alloc: Global) -> Result<SourceMap<'static>> {
    SourceMap::from_json_string(alloc, TEXT)
}

/// The same, owned.
pub fn full_owned_map(alloc: Global) -> Result<OwnedSourceMap> {
    OwnedSourceMap::from_json_string(alloc, TEXT)
}

/// The same, as a JSON source map.
pub fn full_json(alloc: Global) -> Result<JSONSourceMap> {
    full_map(alloc)?.to_json(alloc)
}

/// The same, as a JSON value.
pub fn full_value(alloc: Global) -> Result<Value> {
    Ok(Value::from_str(alloc, TEXT)?)
}

/// A map whose token has no name.
pub const INPUT_TEXT: &str =
    r#"{"version":3,"sourceRoot":"root","names":["n0","n1"],"sources":["a.js","b.js"],"sourcesContent":["A",null],"ignoreList":[1],"mappings":"AAAA"}"#;

/// A map in which much is mended, and the map that is found in it.
pub const MENDED_TEXT: &str =
    r#"{"version":"3","sourceRoot":"root","sources":[null,"b.js"],"sourcesContent":["A",1],"names":null,"ignoreList":[1,7],"mappings":"CAAAA,DCACA,CDCA,CEAA"}"#;
pub const FOUND_TEXT: &str =
    r#"{"version":3,"sourceRoot":"root","names":[],"sources":["","b.js"],"sourcesContent":["A",null],"ignoreList":[1],"mappings":"ACAC,CDAD,AACC,C"}"#;

/// A map with names, sources and tokens that repeat, and the same, simplified.
pub const REPEATED_TEXT: &str =
    r#"{"version":3,"names":["u","x","x"],"sources":["b","a","a"],"sourcesContent":["z","x","x"],"ignoreList":[1,0],"mappings":"ACAAE,EAAAD,ACGAA,G"}"#;
pub const SIMPLE_TEXT: &str =
    r#"{"version":3,"names":["x"],"sources":["a","a"],"sourcesContent":["x","x"],"ignoreList":[1],"mappings":"ACAAA,GDGAA,E"}"#;

/// A map of one source, name and content, and of one token with them.
pub const LENT_TEXT: &str =
    r#"{"version":3,"file":"f.js","names":["n"],"sources":["a.js"],"sourcesContent":["A"],"mappings":"AAAAA"}"#;

/// The parts of that map, all texts of which are borrowed.
pub fn lent_parts(alloc: Global) -> Result<SourceMapParts<'static>> {
    let mut parts = SourceMapParts::empty(alloc)?;
    parts.file = Some(CowStr::Borrowed("f.js"));
    parts.names.push(CowStr::Borrowed("n"))?;
    parts.sources.push(CowStr::Borrowed("a.js"))?;
    parts.source_contents.push(Some(CowStr::Borrowed("A")))?;
    parts.tokens = vec![in alloc; Token::new(0, 0, 0, 0, Some(0), Some(0))]?.into_boxed_slice();
    Ok(parts)
}

/// A map of these parts.
pub fn lent_map(alloc: Global) -> Result<SourceMap<'static>> {
    Ok(SourceMap::from_parts(lent_parts(alloc)?))
}

/// The parts of the map with every field, with chunks that fit its tokens.
pub fn chunked_parts(alloc: Global) -> Result<SourceMapParts<'static>> {
    let mut parts = full_map(alloc)?.into_parts();
    parts.token_chunks = Some(
        vec![in alloc;
            TokenChunk::new(0, 1, 0, 0, 0, 0, 0, 0),
            TokenChunk::new(1, 3, 0, 0, 0, 0, 0, 0),
        ]?,
    );
    Ok(parts)
}

/// A map whose 70 tokens go back and forth, in generated and in original columns, with a chunk. A sort of up to 20 takes no memory.
pub fn shuffled_parts(alloc: Global) -> Result<SourceMapParts<'static>> {
    let mut parts = full_map(alloc)?.into_parts();
    let mut tokens = Vec::with_capacity(alloc, 70)?;
    for i in 0..70 {
        tokens.push(Token::new(0, i * 29 % 70, 0, i * 37 % 70, Some(0), Some(i)))?;
    }
    parts.tokens = tokens.into_boxed_slice();
    parts.token_chunks = Some(vec![in alloc; TokenChunk::new(0, 70, 0, 0, 0, 0, 0, 0)]?);
    Ok(parts)
}

/// Asserts the JSON text of a map.
pub fn is_map(rt: &(impl Abort + AllocGlobal), map: &SourceMap<'_>, text: &str) {
    let found = map.to_json_string(rt.alloc());
    is_text(rt, "map", &found, Ok(text));
}

/// Asserts the JSON text of the map of a JSON source map.
pub fn is_json(rt: &(impl Abort + AllocGlobal), json: JSONSourceMap, text: &str) {
    has_text(rt, rt.alloc(), "json", &SourceMap::from_json(rt.alloc(), json), Ok(text));
}

/// Asserts that all nine fields of these parts are equal.
pub fn are_parts(rt: &(impl Abort + AllocGlobal), parts: &SourceMapParts<'_>, wanted: &SourceMapParts<'_>) {
    same(rt, "file", &parts.file, &wanted.file);
    same(rt, "names", &parts.names, &wanted.names);
    same(rt, "source root", &parts.source_root, &wanted.source_root);
    same(rt, "sources", &parts.sources, &wanted.sources);
    same(rt, "contents", &parts.source_contents, &wanted.source_contents);
    same(rt, "tokens", parts.tokens.as_slice(), wanted.tokens.as_slice());
    same(rt, "chunks", &parts.token_chunks, &wanted.token_chunks);
    same(rt, "ignore list", &parts.ignore_list, &wanted.ignore_list);
    same(rt, "debug id", &parts.debug_id, &wanted.debug_id);
}
