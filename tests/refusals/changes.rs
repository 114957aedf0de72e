//! Calls that change what they are lent: a map, a builder, or a text. Where a request is refused, it is as if the call had not
//! been made.
use crate::helpers::same;
use super::fixtures::{
    REPEATED_TEXT, SIMPLE_TEXT, are_parts, chunked_parts, full_map, is_map, lent_map, shuffled_parts,
};
use super::memory::{refuse_each, refuse_each_change, takes_none};
use oxc_sourcemap::{
    ConcatSourceMapBuilder, OwnedSourceMap, Result, SourceMap, SourceMapBuilder, SourceMapParts,
    Token, TokenChunk,
};
use std::alloc::Global;
use std::borrow::CowStr;
use std::process::Abort;

/// The map with every field, and chunks.
fn a_map(alloc: Global) -> Result<(SourceMap<'static>, ())> {
    Ok((SourceMap::from_parts(chunked_parts(alloc)?), ()))
}

fn an_owned_map(alloc: Global) -> Result<(OwnedSourceMap, ())> {
    Ok((OwnedSourceMap::from_parts(chunked_parts(alloc)?), ()))
}

/// Contents that a map gets.
fn new_contents(alloc: Global) -> Result<Vec<Option<&'static str>>> {
    Ok(vec![in alloc; None, Some("B")]?)
}

fn a_map_and_contents(alloc: Global) -> Result<(SourceMap<'static>, Vec<Option<&'static str>>)> {
    Ok((a_map(alloc)?.0, new_contents(alloc)?))
}

fn an_owned_map_and_contents(alloc: Global) -> Result<(OwnedSourceMap, Vec<Option<&'static str>>)> {
    Ok((an_owned_map(alloc)?.0, new_contents(alloc)?))
}

/// Asserts that all fields of a map are as they were, but for the one that was set.
fn has_set(
    rt: &(impl Abort + AllocGlobal),
    parts: SourceMapParts<'static>,
    is_set: bool,
    set: impl Fn(Global, &mut SourceMapParts<'static>) -> Result<()>,
) {
    let mut wanted = chunked_parts(rt.alloc()).expect(rt, "parts");
    if is_set {
        set(rt.alloc(), &mut wanted).expect(rt, "a field");
    }
    are_parts(rt, &parts, &wanted);
}

fn file(_alloc: Global, parts: &mut SourceMapParts<'static>) -> Result<()> {
    parts.file = Some(CowStr::Borrowed("new.js"));
    Ok(())
}

fn debug_id(_alloc: Global, parts: &mut SourceMapParts<'static>) -> Result<()> {
    parts.debug_id = Some(CowStr::Borrowed("id"));
    Ok(())
}

fn sources(alloc: Global, parts: &mut SourceMapParts<'static>) -> Result<()> {
    parts.sources = vec![in alloc; CowStr::Borrowed("c.js"), CowStr::Borrowed("d.js")]?;
    Ok(())
}

fn contents(alloc: Global, parts: &mut SourceMapParts<'static>) -> Result<()> {
    parts.source_contents = vec![in alloc; None, Some(CowStr::Borrowed("B"))]?;
    Ok(())
}

/// The sources with the source root before them, which is gone.
fn rooted(alloc: Global, parts: &mut SourceMapParts<'static>) -> Result<()> {
    parts.source_root = None;
    parts.sources = vec![in alloc; CowStr::Borrowed("root/a.js"), CowStr::Borrowed("root/b.js")]?;
    Ok(())
}

#[test]
fn source_map_set_file(rt: HostRuntime) {
    refuse_each_change(&rt, a_map, |alloc, map, ()| map.set_file(alloc, "new.js"), |map, is_set| has_set(&rt, map.into_parts(), is_set, file));
}

#[test]
fn owned_source_map_set_file(rt: HostRuntime) {
    refuse_each_change(&rt, an_owned_map, |alloc, map, ()| map.set_file(alloc, "new.js"), |map, is_set| has_set(&rt, map.into_parts(), is_set, file));
}

#[test]
fn source_map_apply_source_root(rt: HostRuntime) {
    refuse_each_change(&rt, a_map, |alloc, map, ()| map.apply_source_root(alloc), |map, is_set| has_set(&rt, map.into_parts(), is_set, rooted));
}

#[test]
fn owned_source_map_apply_source_root(rt: HostRuntime) {
    refuse_each_change(&rt, an_owned_map, |alloc, map, ()| map.apply_source_root(alloc), |map, is_set| has_set(&rt, map.into_parts(), is_set, rooted));
}

/// The 70 tokens by column. That of index i is at column i * 29, and 29 * 29 is 1 modulo 70.
fn by_column(alloc: Global, tokens: &[Token]) -> Result<Vec<Token>> {
    let mut sorted = Vec::new(alloc);
    for col in 0..70usize {
        sorted.push(tokens[col * 29 % 70])?;
    }
    Ok(sorted)
}

/// Asserts that the 70 tokens are sorted, without chunks, or all as it was.
fn is_sorted(rt: &(impl Abort + AllocGlobal), parts: SourceMapParts<'static>, is_sorted: bool) {
    let mut wanted = shuffled_parts(rt.alloc()).expect(rt, "parts");
    if is_sorted {
        wanted.tokens = by_column(rt.alloc(), wanted.tokens.as_slice()).expect(rt, "tokens").into_boxed_slice();
        wanted.token_chunks = None;
    }
    are_parts(rt, &parts, &wanted);
}

fn a_shuffled_map(alloc: Global) -> Result<(SourceMap<'static>, ())> {
    Ok((SourceMap::from_parts(shuffled_parts(alloc)?), ()))
}

fn a_shuffled_owned_map(alloc: Global) -> Result<(OwnedSourceMap, ())> {
    Ok((OwnedSourceMap::from_parts(shuffled_parts(alloc)?), ()))
}

#[test]
fn source_map_sort(rt: HostRuntime) {
    refuse_each_change(&rt, a_shuffled_map, |alloc, map, ()| map.sort(alloc), |map, has_sorted| is_sorted(&rt, map.into_parts(), has_sorted));
}

#[test]
fn owned_source_map_sort(rt: HostRuntime) {
    refuse_each_change(&rt, a_shuffled_owned_map, |alloc, map, ()| map.sort(alloc), |map, has_sorted| is_sorted(&rt, map.into_parts(), has_sorted));
}

fn a_repeating_map(alloc: Global) -> Result<(SourceMap<'static>, ())> {
    Ok((SourceMap::from_json_string(alloc, REPEATED_TEXT)?, ()))
}

fn a_repeating_owned_map(alloc: Global) -> Result<(OwnedSourceMap, ())> {
    Ok((OwnedSourceMap::from_json_string(alloc, REPEATED_TEXT)?, ()))
}

/// The text of the map that repeats, or of that map, simplified.
fn repeating_text(is_simple: bool) -> &'static str {
    if is_simple { SIMPLE_TEXT } else { REPEATED_TEXT }
}

#[test]
fn source_map_simplify(rt: HostRuntime) {
    refuse_each_change(&rt, a_repeating_map, |alloc, map, ()| map.simplify(alloc), |map, is_simple| is_map(&rt, &map, repeating_text(is_simple)));
}

#[test]
fn owned_source_map_simplify(rt: HostRuntime) {
    refuse_each_change(&rt, a_repeating_owned_map, |alloc, map, ()| map.simplify(alloc), |map, is_simple| is_map(&rt, &map, repeating_text(is_simple)));
}

#[test]
fn source_map_set_debug_id(rt: HostRuntime) {
    refuse_each_change(&rt, a_map, |alloc, map, ()| map.set_debug_id(alloc, "id"), |map, is_set| has_set(&rt, map.into_parts(), is_set, debug_id));
}

#[test]
fn owned_source_map_set_debug_id(rt: HostRuntime) {
    refuse_each_change(&rt, an_owned_map, |alloc, map, ()| map.set_debug_id(alloc, "id"), |map, is_set| has_set(&rt, map.into_parts(), is_set, debug_id));
}

#[test]
fn source_map_set_sources(rt: HostRuntime) {
    let new = ["c.js", "d.js"];
    refuse_each_change(&rt, a_map, |alloc, map, ()| map.set_sources(alloc, new.into_iter()), |map, is_set| has_set(&rt, map.into_parts(), is_set, sources));
}

#[test]
fn owned_source_map_set_sources(rt: HostRuntime) {
    let new = ["c.js", "d.js"];
    refuse_each_change(&rt, an_owned_map, |alloc, map, ()| map.set_sources(alloc, new.into_iter()), |map, is_set| has_set(&rt, map.into_parts(), is_set, sources));
}

#[test]
fn source_map_set_source_contents(rt: HostRuntime) {
    refuse_each_change(&rt, a_map_and_contents, |alloc, map, new| map.set_source_contents(alloc, new), |map, is_set| has_set(&rt, map.into_parts(), is_set, contents));
}

#[test]
fn owned_source_map_set_source_contents(rt: HostRuntime) {
    refuse_each_change(&rt, an_owned_map_and_contents, |alloc, map, new| map.set_source_contents(alloc, new), |map, is_set| has_set(&rt, map.into_parts(), is_set, contents));
}

/// A builder with a file alone.
fn a_builder(alloc: Global) -> Result<(SourceMapBuilder<'static>, ())> {
    let mut builder = SourceMapBuilder::empty(alloc);
    builder.set_file("f.js");
    Ok((builder, ()))
}

/// Adds a source, a name and a token.
fn add_more(builder: &mut SourceMapBuilder<'static>) -> Result<()> {
    let source = builder.add_source_and_content("b.js", "C")?;
    let name = builder.add_name("m")?;
    builder.add_token(0, 4, 1, 0, Some(source), Some(name))
}

/// What is then built if nothing was added before.
const BUILT: &str =
    r#"{"version":3,"file":"f.js","names":["m"],"sources":["b.js"],"sourcesContent":["C"],"mappings":"IACAA"}"#;

/// Asserts what is built once a builder goes on after a call that added something, or nothing.
fn builds(
    rt: &(impl Abort + AllocGlobal),
    mut builder: SourceMapBuilder<'static>,
    is_added: bool,
    text: &str,
) {
    add_more(&mut builder).expect(rt, "more");
    let map = builder.into_sourcemap().expect(rt, "a map");
    is_map(rt, &map, if is_added { text } else { BUILT });
}

const NAME: &str = r#"{"version":3,"file":"f.js","names":["k","m"],"sources":["b.js"],"sourcesContent":["C"],"mappings":"IACAC"}"#;
const SOURCE: &str = r#"{"version":3,"file":"f.js","names":["m"],"sources":["b.js"],"sourcesContent":["B"],"mappings":"IACAA"}"#;
const SECOND_SOURCE: &str = r#"{"version":3,"file":"f.js","names":["m"],"sources":["b.js","b.js"],"sourcesContent":["B","C"],"mappings":"ICCAA"}"#;
const TOKEN: &str = r#"{"version":3,"file":"f.js","names":["m"],"sources":["b.js"],"sourcesContent":["C"],"mappings":"E,EACAA"}"#;
const FILE: &str = r#"{"version":3,"file":"g.js","names":["m"],"sources":["b.js"],"sourcesContent":["C"],"mappings":"IACAA"}"#;

#[test]
fn source_map_builder_add_name(rt: HostRuntime) {
    refuse_each_change(&rt, a_builder, |_, builder, ()| builder.add_name("k"), |builder, is_added| builds(&rt, builder, is_added, NAME));
}

#[test]
fn source_map_builder_add_name_copied(rt: HostRuntime) {
    refuse_each_change(&rt, a_builder, |_, builder, ()| builder.add_name_copied("k"), |builder, is_added| builds(&rt, builder, is_added, NAME));
}

#[test]
fn source_map_builder_add_source_and_content(rt: HostRuntime) {
    refuse_each_change(&rt, a_builder, |_, builder, ()| builder.add_source_and_content("b.js", "B"), |builder, is_added| builds(&rt, builder, is_added, SOURCE));
}

#[test]
fn source_map_builder_add_source_and_content_copied(rt: HostRuntime) {
    refuse_each_change(&rt, a_builder, |_, builder, ()| builder.add_source_and_content_copied("b.js", "B"), |builder, is_added| builds(&rt, builder, is_added, SOURCE));
}

#[test]
fn source_map_builder_set_source_and_content(rt: HostRuntime) {
    refuse_each_change(&rt, a_builder, |_, builder, ()| builder.set_source_and_content("b.js", "B"), |builder, is_added| builds(&rt, builder, is_added, SECOND_SOURCE));
}

#[test]
fn source_map_builder_set_source_and_content_copied(rt: HostRuntime) {
    refuse_each_change(&rt, a_builder, |_, builder, ()| builder.set_source_and_content_copied("b.js", "B"), |builder, is_added| builds(&rt, builder, is_added, SECOND_SOURCE));
}

#[test]
fn source_map_builder_add_token(rt: HostRuntime) {
    refuse_each_change(&rt, a_builder, |_, builder, ()| builder.add_token(0, 2, 0, 0, None, None), |builder, is_added| builds(&rt, builder, is_added, TOKEN));
}

#[test]
fn source_map_builder_set_file_copied(rt: HostRuntime) {
    refuse_each_change(&rt, a_builder, |_, builder, ()| builder.set_file_copied("g.js"), |builder, is_set| builds(&rt, builder, is_set, FILE));
}

fn a_full_builder(alloc: Global) -> Result<SourceMapBuilder<'static>> {
    let (mut builder, ()) = a_builder(alloc)?;
    add_more(&mut builder)?;
    Ok(builder)
}

#[test]
fn source_map_builder_into_owned_sourcemap(rt: HostRuntime) {
    refuse_each(&rt, a_full_builder, |_, builder| builder.into_owned_sourcemap(), |map| is_map(&rt, &map, BUILT));
}

#[test]
fn source_map_builder_into_sourcemap(rt: HostRuntime) {
    takes_none(&rt, a_full_builder, |_, builder| builder.into_sourcemap(), |map| is_map(&rt, &map.expect(&rt, "a map"), BUILT));
}

/// The join of no maps.
fn a_join<'m>(alloc: Global) -> Result<(ConcatSourceMapBuilder<'m>, ())> {
    Ok((ConcatSourceMapBuilder::empty(alloc), ()))
}

fn a_join_and_a_map(alloc: Global) -> Result<(ConcatSourceMapBuilder<'static>, SourceMap<'static>)> {
    Ok((ConcatSourceMapBuilder::empty(alloc), full_map(alloc)?))
}

/// The join of one map on line 1.
fn a_join_of_one(alloc: Global) -> Result<ConcatSourceMapBuilder<'static>> {
    let mut builder: ConcatSourceMapBuilder<'static> = ConcatSourceMapBuilder::empty(alloc);
    builder.add_sourcemap_owned(lent_map(alloc)?, 1)?;
    Ok(builder)
}

/// Its text; and the same with the map with every field before it, at column 0 or 1 of line 0.
const ONE: &str = r#"{"version":3,"names":["n"],"sources":["a.js"],"sourcesContent":["A"],"mappings":";AAAAA"}"#;
const TWO: &str = r#"{"version":3,"names":["n0","n1","n"],"sources":["a.js","b.js","a.js"],"sourcesContent":["A",null,"A"],"ignoreList":[1],"mappings":"AAAAA,CCACC,C;ACADC"}"#;
const TWO_AT: &str = r#"{"version":3,"names":["n0","n1","n"],"sources":["a.js","b.js","a.js"],"sourcesContent":["A",null,"A"],"ignoreList":[1],"mappings":"CAAAA,CCACC,C;ACADC"}"#;

/// Asserts what is joined once a join goes on, on line 1, after a call that added a map, or none.
fn joins(
    rt: &(impl Abort + AllocGlobal),
    mut builder: ConcatSourceMapBuilder<'_>,
    is_added: bool,
    text: &str,
) {
    let map = lent_map(rt.alloc()).expect(rt, "a map");
    builder.add_sourcemap_owned(map, 1).expect(rt, "one more map");
    let joined = builder.into_sourcemap().expect(rt, "a joined map");
    is_map(rt, &joined, if is_added { text } else { ONE });
}

#[test]
fn concat_source_map_builder_add_sourcemap(rt: HostRuntime) -> Result<()> {
    let map = full_map(rt.alloc())?;
    refuse_each_change(&rt, a_join, |_, builder, ()| builder.add_sourcemap(&map, 0), |builder, is_added| joins(&rt, builder, is_added, TWO));
    Ok(())
}

#[test]
fn concat_source_map_builder_add_sourcemap_at(rt: HostRuntime) -> Result<()> {
    let map = full_map(rt.alloc())?;
    refuse_each_change(&rt, a_join, |_, builder, ()| builder.add_sourcemap_at(&map, 0, 1), |builder, is_added| joins(&rt, builder, is_added, TWO_AT));
    Ok(())
}

#[test]
fn concat_source_map_builder_add_sourcemap_owned(rt: HostRuntime) {
    refuse_each_change(&rt, a_join_and_a_map, |_, builder, map| builder.add_sourcemap_owned(map, 0), |builder, is_added| joins(&rt, builder, is_added, TWO));
}

#[test]
fn concat_source_map_builder_add_sourcemap_owned_at(rt: HostRuntime) {
    refuse_each_change(&rt, a_join_and_a_map, |_, builder, map| builder.add_sourcemap_owned_at(map, 0, 1), |builder, is_added| joins(&rt, builder, is_added, TWO_AT));
}

#[test]
fn concat_source_map_builder_add_sourcemap_copied_at(rt: HostRuntime) -> Result<()> {
    let map = full_map(rt.alloc())?;
    refuse_each_change(&rt, a_join, |_, builder, ()| builder.add_sourcemap_copied_at(&map, 0, 1), |builder, is_added| joins(&rt, builder, is_added, TWO_AT));
    Ok(())
}

#[test]
fn concat_source_map_builder_into_owned_sourcemap(rt: HostRuntime) {
    refuse_each(&rt, a_join_of_one, |_, builder| builder.into_owned_sourcemap(), |map| is_map(&rt, &map, ONE));
}

#[test]
fn concat_source_map_builder_into_sourcemap(rt: HostRuntime) {
    takes_none(&rt, a_join_of_one, |_, builder| builder.into_sourcemap(), |map| is_map(&rt, &map.expect(&rt, "a map"), ONE));
}

fn a_text(alloc: Global) -> Result<(String, ())> {
    Ok((String::from_str(alloc, "kept;")?, ()))
}

/// Asserts what is appended to a text: this, or nothing.
fn has_appended(rt: &impl Abort, text: &str, is_appended: bool, wanted: &str) {
    let wanted = if is_appended { wanted } else { "" };
    same(rt, "appended", text.strip_prefix("kept;"), Some(wanted));
}

/// How many tokens are written on line 0. Their text takes more than the 6 bytes for each that are asked for at first.
const MANY: u32 = 3000;

/// How far below them one more token lies.
const LINES: u32 = 100000;

/// Unmapped tokens, at column 0 and at the last column in turn.
fn many_tokens(alloc: Global) -> Result<Vec<Token>> {
    let mut tokens = Vec::new(alloc);
    for i in 0..MANY {
        let column = if i % 2 == 0 { 0 } else { 4294967295 };
        tokens.push(Token::new(0, column, 0, 0, None, None))?;
    }
    tokens.push(Token::new(LINES, 0, 0, 0, None, None))?;
    Ok(tokens)
}

/// Their canonical text.
fn many_mappings(alloc: Global) -> Result<String> {
    let mut text = String::from_str(alloc, "A,+/////H")?;
    for _ in 1..MANY / 2 {
        text.push_str(",//////H,+/////H")?;
    }
    text.push_str(";".repeat(alloc, LINES as usize)?.as_str())?;
    text.push('A')?;
    Ok(text)
}

/// Chunks of 1000 of them.
fn chunks_of_many(alloc: Global) -> Result<Vec<TokenChunk>> {
    let mut chunks = Vec::new(alloc);
    for k in 0..=MANY / 1000 {
        let (start, end) = (k * 1000, (k * 1000 + 1000).min(MANY + 1));
        let column = if k == 0 { 0 } else { 4294967295 };
        chunks.push(TokenChunk::new(start, end, 0, column, 0, 0, 0, 0))?;
    }
    Ok(chunks)
}

/// Asserts that a call writes the many tokens, and makes several requests, so that a later one is refused where something is
/// written already.
fn writes_many(
    rt: &(impl Abort + AllocGlobal),
    write: impl Fn(&[Token], &mut String) -> Result<()>,
) -> Result<()> {
    let tokens = many_tokens(rt.alloc())?;
    let mappings = many_mappings(rt.alloc())?;
    let requests = refuse_each_change(rt, a_text, |_, out, ()| write(tokens.as_slice(), out), |out, is_written| has_appended(rt, out.as_str(), is_written, mappings.as_str()));
    assert!(rt; requests > 1, "requests: {requests}");
    Ok(())
}

#[test]
fn encode_mappings(rt: HostRuntime) -> Result<()> {
    writes_many(&rt, |tokens, out| oxc_sourcemap::encode_mappings(tokens, None, out))
}

#[test]
fn encode_mappings_in_chunks(rt: HostRuntime) -> Result<()> {
    let chunks = chunks_of_many(rt.alloc())?;
    writes_many(&rt, |tokens, out| oxc_sourcemap::encode_mappings(tokens, Some(chunks.as_slice()), out))
}

#[test]
fn encode_chunk(rt: HostRuntime) -> Result<()> {
    let whole = TokenChunk::new(0, MANY + 1, 0, 0, 0, 0, 0, 0);
    writes_many(&rt, |tokens, out| oxc_sourcemap::encode_chunk(tokens, &whole, out))
}

/// The text of a map with an ignore list, whose name takes more than the eighth of its length that is asked for at first.
fn escaped_text(alloc: Global) -> Result<String> {
    let mut text = String::from_str(alloc, r#"{"version":3,"names":[""#)?;
    text.push_str("\\u0001".repeat(alloc, 100)?.as_str())?;
    text.push_str(r#""],"sources":["a.js"],"ignoreList":[0],"mappings":""}"#)?;
    Ok(text)
}

/// Asserts that a call writes that map, and makes several requests, so that a later one is refused where something is written
/// already.
fn writes_escaped(
    rt: &(impl Abort + AllocGlobal),
    write: impl Fn(&OwnedSourceMap, &mut String) -> Result<()>,
) -> Result<()> {
    let text = escaped_text(rt.alloc())?;
    let map = OwnedSourceMap::from_json_string(rt.alloc(), text.as_str())?;
    let requests = refuse_each_change(rt, a_text, |_, out, ()| write(&map, out), |out, is_written| has_appended(rt, out.as_str(), is_written, text.as_str()));
    assert!(rt; requests > 2, "requests: {requests}");
    Ok(())
}

#[test]
fn source_map_write_json_string(rt: HostRuntime) -> Result<()> {
    writes_escaped(&rt, |map, out| map.as_source_map().write_json_string(out))
}

#[test]
fn owned_source_map_write_json_string(rt: HostRuntime) -> Result<()> {
    writes_escaped(&rt, |map, out| map.write_json_string(out))
}

#[test]
fn push_json_string(rt: HostRuntime) {
    let text = "a\n\"b\" and so many bytes more that the text grows";
    let string = "\"a\\n\\\"b\\\" and so many bytes more that the text grows\"";
    refuse_each_change(&rt, a_text, |_, out, ()| oxc_sourcemap::push_json_string(text, out), |out, is_pushed| has_appended(&rt, out.as_str(), is_pushed, string));
}
