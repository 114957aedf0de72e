//! Calls that take no memory. They pass also where each request would be refused.
use crate::helpers::same;
use super::fixtures::{are_parts, chunked_parts, full_map, full_owned_map};
use super::memory::{nothing, takes_none};
use oxc_sourcemap::{
    ConcatSourceMapBuilder, Error, JsonFault, Language, OwnedSourceMap, PlanError, Result, SegmentReason, SourceIndex, SourceMap,
    SourceMapBuilder, SourceMapParts, SourceViewToken, SourcemapVisualizer, TextPositions, Token, TokenChunk,
};
use serde_json::Value;
use smap_run::RunError;
use std::alloc::{AllocError, AllocFailed, Global};
use std::process::Abort;

/// Asserts what the getters of the map with every field give. `SourceMap` and `OwnedSourceMap` have the same ones, each its own.
macro_rules! gives_its_fields {
    ($rt:expr, $map:expr) => {
        let (rt, map) = ($rt, $map);
        same(rt, "file", map.get_file(), Some("out.js"));
        same(rt, "source root", map.get_source_root(), Some("root"));
        same(rt, "debug id", map.get_debug_id(), Some("dbg"));
        same(rt, "names", [map.get_name(1), map.get_name(2)], [Some("n1"), None]);
        same(rt, "source", map.get_source(1), Some("b.js"));
        same(rt, "contents", [map.get_source_content(0), map.get_source_content(1)], [Some("A"), None]);
        same(rt, "both", map.get_source_and_content(0), Some(("a.js", "A")));
        same(rt, "ignore list", map.get_ignore_list(), Some([1u32].as_slice()));
    };
}

/// Asserts what its iterators give, and that it is sorted and sound.
macro_rules! gives_its_items {
    ($rt:expr, $map:expr) => {
        let (rt, map) = ($rt, $map);
        let (mut names, mut sources) = (map.get_names(), map.get_sources());
        same(rt, "lengths", [names.len(), sources.len()], [2; 2]);
        same(rt, "hints", [names.size_hint(), sources.size_hint()], [(2, Some(2)); 2]);
        same(rt, "first", [names.next(), sources.next()], [Some("n0"), Some("a.js")]);
        same(rt, "left", [names.count(), sources.count()], [1; 2]);
        let mut contents = map.get_source_contents();
        same(rt, "contents", (contents.len(), contents.size_hint()), (2, (2, Some(2))));
        same(rt, "contents", [contents.next(), contents.next(), contents.next()], [Some(Some("A")), Some(None), None]);
        let (tokens, mut views) = (map.get_tokens(), map.get_source_view_tokens());
        same(rt, "tokens", [tokens.len(), views.len(), tokens.as_slice().len()], [3; 3]);
        same(rt, "hints", [tokens.size_hint(), views.size_hint()], [(3, Some(3)); 2]);
        same(rt, "name", views.next().and_then(|view| view.get_name()), Some("n0"));
        same(rt, "last", tokens.last(), Some(Token::new(0, 2, 0, 1, None, None)));
        same(rt, "sorted and sound", [map.is_sorted(), map.is_sound()], [true; 2]);
    };
}

fn map_gives_its_fields(rt: &impl Abort, map: &SourceMap<'_>) {
    gives_its_fields!(rt, map);
}

fn owned_map_gives_its_fields(rt: &impl Abort, map: &OwnedSourceMap) {
    gives_its_fields!(rt, map);
}

fn map_gives_its_items(rt: &impl Abort, map: &SourceMap<'_>) {
    gives_its_items!(rt, map);
}

fn owned_map_gives_its_items(rt: &impl Abort, map: &OwnedSourceMap) {
    gives_its_items!(rt, map);
}

#[test]
fn getters_of_source_map(rt: HostRuntime) {
    takes_none(&rt, full_map, |_, map| map_gives_its_fields(&rt, &map), |()| ());
}

#[test]
fn getters_of_owned_source_map(rt: HostRuntime) {
    takes_none(&rt, full_owned_map, |_, map| owned_map_gives_its_fields(&rt, &map), |()| ());
}

#[test]
fn iterators_is_sorted_is_sound(rt: HostRuntime) {
    takes_none(&rt, full_map, |_, map| map_gives_its_items(&rt, &map), |()| ());
}

#[test]
fn iterators_of_owned_source_map(rt: HostRuntime) {
    takes_none(&rt, full_owned_map, |_, map| owned_map_gives_its_items(&rt, &map), |()| ());
}

/// Asserts what a view shows.
fn shows(rt: &impl Abort, view: SourceViewToken<'_, '_>) {
    same(rt, "generated", [view.get_dst_line(), view.get_dst_col()], [4, 3]);
    same(rt, "original", [view.get_src_line(), view.get_src_col()], [2, 1]);
    same(rt, "ids", [view.get_source_id(), view.get_name_id()], [Some(0), Some(1)]);
    let texts = [view.get_name(), view.get_source(), view.get_source_content()];
    same(rt, "texts", texts, [Some("n1"), Some("a.js"), Some("A")]);
    same(rt, "both", view.get_source_and_content(), Some(("a.js", "A")));
    same(rt, "tuple", view.to_tuple(), (Some("a.js"), 2, 1, Some("n1")));
}

/// Views of tokens: by their index, and of a token that is not in the map.
fn are_viewed(rt: &impl Abort, map: &OwnedSourceMap) {
    let inside = map.as_source_map();
    for view in [map.get_source_view_token(1), inside.get_source_view_token(1)] {
        same(rt, "view", view.map(|view| view.to_tuple()), Some((Some("b.js"), 0, 1, Some("n1"))));
    }
    assert!(rt; map.get_source_view_token(3).is_none());
    assert!(rt; inside.get_source_view_token(3).is_none());
    shows(rt, SourceViewToken::new(Token::new(4, 3, 2, 1, Some(0), Some(1)), inside));
}

#[test]
fn views_of_tokens(rt: HostRuntime) {
    takes_none(&rt, full_owned_map, |_, map| are_viewed(&rt, &map), |()| ());
}

/// Lookups in a table, and the search on a line.
fn are_found(rt: &impl Abort, map: &OwnedSourceMap, table: &[&[Token]]) {
    let mut steps = 0;
    let inside = map.as_source_map();
    let found = [
        map.lookup_token(table, 0, 1),
        map.lookup_token_approx(table, 0, 1),
        inside.lookup_token(table, 0, 1),
        inside.lookup_token_approx(table, 0, 1),
        SourceMap::search(map.get_tokens().as_slice(), 1, &mut steps),
        map.lookup_token_after(table, 0, 1),
        inside.lookup_token_after(table, 0, 1),
        map.get_token(1),
    ];
    same(rt, "tokens", found, [Some(Token::new(0, 1, 0, 1, Some(1), Some(1))); 8]);
    let indices = [
        map.lookup_token_index(table, 0, 1),
        map.lookup_token_index_approx(table, 0, 1),
        map.lookup_token_index_after(table, 0, 1),
        inside.lookup_token_index(table, 0, 1),
        inside.lookup_token_index_approx(table, 0, 1),
        inside.lookup_token_index_after(table, 0, 1),
    ];
    same(rt, "indices", indices, [Some(1); 6]);
    let view = map.lookup_source_view_token(table, 0, 1);
    same(rt, "view", view.map(|view| view.to_tuple()), Some((Some("b.js"), 0, 1, Some("n1"))));
    assert!(rt; map.lookup_source_view_token_approx(table, 0, 1).is_some());
    assert!(rt; inside.lookup_source_view_token(table, 0, 1).is_some());
    assert!(rt; inside.lookup_source_view_token_approx(table, 0, 1).is_some());
}

/// The pieces of a range: one for each of the three tokens.
fn are_cut(rt: &impl Abort, map: &OwnedSourceMap) {
    let inside = map.as_source_map();
    let ends = [map.pieces(0, 0, 0, 9).last(), inside.pieces(0, 0, 0, 9).last()];
    same(rt, "ends", ends.map(|piece| piece.map(|piece| (piece.col, piece.end_col))), [Some((2, 9)); 2]);
    same(rt, "lengths", [map.pieces(0, 0, 0, 9).len(), inside.pieces(0, 0, 0, 9).count()], [3; 2]);
}

#[test]
fn pieces(rt: HostRuntime) {
    takes_none(&rt, full_owned_map, |_, map| are_cut(&rt, &map), |()| ());
}

#[test]
fn lookups_and_search(rt: HostRuntime) -> Result<()> {
    let map = full_owned_map(rt.alloc())?;
    let table = map.generate_lookup_table(rt.alloc())?;
    takes_none(&rt, nothing, |_, ()| are_found(&rt, &map, table.as_slice()), |()| ());
    Ok(())
}

/// Lookups in an index, and positions in a text.
fn places_are_found(rt: &impl Abort, index: &SourceIndex<'_>, positions: &TextPositions<'_>) {
    let token = Some(Token::new(0, 1, 0, 1, Some(1), Some(1)));
    same(rt, "tokens", [index.generated_for(1, 0, 5), index.generated_from(1, 0, 0)], [token; 2]);
    let found = [index.generated_at(1, 0, 1), index.all_generated_for(1, 0, 5), index.all_generated_from(1, 0, 0), index.pointing_to(1, 0)];
    for mut tokens in found {
        same(rt, "token", (tokens.size_hint(), tokens.next(), tokens.next()), ((1, Some(1)), token, None));
    }
    same(rt, "position", positions.position(3), Ok((1, 1)));
    same(rt, "offset", positions.offset(1, 1), Ok(3));
}

#[test]
fn lookups_from_places(rt: HostRuntime) -> Result<()> {
    let map = full_owned_map(rt.alloc())?;
    let index = SourceIndex::new(rt.alloc(), &map)?;
    let positions = TextPositions::new(rt.alloc(), "a\nbc")?;
    takes_none(&rt, nothing, |_, ()| places_are_found(&rt, &index, &positions), |()| ());
    Ok(())
}

/// Parts whose tokens are sorted, and 20 tokens whose columns go back and forth.
fn sorted_and_small_parts(alloc: Global) -> Result<[SourceMapParts<'static>; 2]> {
    let (sorted, mut small) = (chunked_parts(alloc)?, chunked_parts(alloc)?);
    let mut tokens = Vec::new(alloc);
    for i in 0..20 {
        tokens.push(Token::new(0, i * 7 % 20, 0, 0, None, None))?;
    }
    small.tokens = tokens.into_boxed_slice();
    Ok([sorted, small])
}

/// Sorts both, and gives the first one back.
fn sort_both(rt: &(impl Abort + AllocGlobal), both: [SourceMapParts<'static>; 2]) -> SourceMapParts<'static> {
    let [sorted, small] = both.map(|parts| {
        let mut map = SourceMap::from_parts(parts);
        same(rt, "done", map.sort(rt.alloc()), Ok(()));
        map
    });
    same(rt, "sorted", small.is_sorted(), true);
    sorted.into_parts()
}

/// A map that is sorted stays as it is.
#[test]
fn sort_of_sorted_and_of_small_maps(rt: HostRuntime) {
    takes_none(&rt, sorted_and_small_parts, |_, both| sort_both(&rt, both), |parts| has_parts(&rt, &parts));
}

/// Asserts the parts of a map, which has chunks.
fn has_parts(rt: &(impl Abort + AllocGlobal), parts: &SourceMapParts<'_>) {
    let wanted = chunked_parts(rt.alloc()).expect(rt, "parts");
    are_parts(rt, parts, &wanted);
}

/// Those that `new` takes.
fn parts_of_new(alloc: Global) -> Result<SourceMapParts<'static>> {
    let mut parts = chunked_parts(alloc)?;
    parts.ignore_list = None;
    parts.debug_id = None;
    Ok(parts)
}

fn new_of(parts: SourceMapParts<'static>) -> SourceMap<'static> {
    SourceMap::new(
        parts.file,
        parts.names,
        parts.source_root,
        parts.sources,
        parts.source_contents,
        parts.tokens,
        parts.token_chunks,
    )
}

fn is_of_new(rt: &(impl Abort + AllocGlobal), map: SourceMap<'static>) {
    let wanted = parts_of_new(rt.alloc()).expect(rt, "parts");
    are_parts(rt, &map.into_parts(), &wanted);
}

#[test]
fn source_map_new(rt: HostRuntime) {
    takes_none(&rt, chunked_parts, |_, parts| new_of(parts), |map| is_of_new(&rt, map));
}

/// Wraps the parts of a map and unwraps them, in each way.
fn rewrapped(parts: SourceMapParts<'static>) -> SourceMapParts<'static> {
    let map = SourceMap::from(parts);
    let owned = OwnedSourceMap::from_parts(SourceMap::from_parts(map.into_parts()).into_parts());
    let map = SourceMap::from(OwnedSourceMap::from(owned.into_inner()));
    OwnedSourceMap::new(map).into_parts()
}

#[test]
fn wrapping_and_unwrapping(rt: HostRuntime) {
    takes_none(&rt, chunked_parts, |_, parts| rewrapped(parts), |parts| has_parts(&rt, &parts));
}

/// Lends the map inside an owned map, in each way, and sets its ignore list.
fn is_lent(rt: &(impl Abort + AllocGlobal), map: &mut OwnedSourceMap) {
    let inside: &mut SourceMap<'static> = &mut *map;
    inside.set_ignore_list(Vec::new(rt.alloc()));
    same(rt, "ignore list", inside.get_ignore_list(), Some([].as_slice()));
    map.as_source_map_mut().set_ignore_list(Vec::new(rt.alloc()));
    map.set_ignore_list(Vec::new(rt.alloc()));
    let inside: &SourceMap<'static> = map;
    same(rt, "files", [inside.get_file(), map.as_source_map().get_file()], [Some("out.js"); 2]);
}

#[test]
fn deref_and_deref_mut_of_owned_source_map(rt: HostRuntime) {
    takes_none(&rt, full_owned_map, |_, mut map| is_lent(&rt, &mut map), |()| ());
}

/// Maps and builders with nothing in them.
fn are_empty(rt: &(impl Abort + AllocGlobal)) -> Result<()> {
    let alloc = rt.alloc();
    assert!(rt; SourceMapParts::empty(alloc)?.tokens.is_empty());
    assert!(rt; SourceMap::empty(alloc)?.is_sound());
    assert!(rt; OwnedSourceMap::empty(alloc)?.is_sound());
    let mut builder = SourceMapBuilder::empty(alloc);
    builder.set_file("f.js");
    builder.set_token_chunks(Vec::new(alloc));
    same(rt, "file", builder.into_sourcemap()?.get_file(), Some("f.js"));
    assert!(rt; ConcatSourceMapBuilder::empty(alloc).into_sourcemap()?.is_sound());
    Ok(())
}

#[test]
fn empty_maps_and_builders(rt: HostRuntime) {
    takes_none(&rt, nothing, |_, ()| are_empty(&rt), |done| same(&rt, "done", done, Ok(())));
}

/// Chunks and visualizers.
fn are_made(rt: &impl Abort, map: &SourceMap<'_>) -> Result<()> {
    let chunks = [TokenChunk::new(0, 3, 0, 0, 0, 0, 0, 0)];
    same(rt, "fault", oxc_sourcemap::chunk_fault(map.get_tokens().as_slice(), chunks.as_slice()), None);
    same(rt, "chunk", &chunks[0].clone()?, &chunks[0]);
    same(rt, "chunk", &TokenChunk::default(), &TokenChunk::new(0, 0, 0, 0, 0, 0, 0, 0));
    let _shown = SourcemapVisualizer::new("ab", map);
    Ok(())
}

#[test]
fn chunk_fault(rt: HostRuntime) {
    takes_none(&rt, full_map, |_, map| are_made(&rt, &map), |done| same(&rt, "done", done, Ok(())));
}

#[test]
fn source_mapping_url(rt: HostRuntime) {
    let code = "x\n//# sourceMappingURL=a.map\n// y";
    takes_none(&rt, nothing, |_, ()| oxc_sourcemap::source_mapping_url(code, Language::JavaScript), |url| same(&rt, "URL", url, Some("a.map")));
}

#[test]
fn mappings_fault_at(rt: HostRuntime) {
    takes_none(&rt, nothing, |_, ()| oxc_sourcemap::mappings_fault_at("A,AA", 0, 0), |place| same(&rt, "byte", place.map(|place| place.byte), Some(2)));
}

#[test]
fn mappings_fault_reason(rt: HostRuntime) {
    let wanted = Some(SegmentReason::ColumnBelowZero);
    takes_none(&rt, nothing, |_, ()| oxc_sourcemap::mappings_fault_reason("A,D", 0, 0), |reason| same(&rt, "reason", reason, wanted));
}

fn token_gives_its_numbers(rt: &impl Abort) {
    let token = Token::new(1, 2, 3, 4, Some(5), Some(6));
    same(rt, "generated", [token.get_dst_line(), token.get_dst_col()], [1, 2]);
    same(rt, "original", [token.get_src_line(), token.get_src_col()], [3, 4]);
    same(rt, "ids", [token.get_source_id(), token.get_name_id()], [Some(5), Some(6)]);
}

#[test]
fn token_new_and_getters(rt: HostRuntime) {
    takes_none(&rt, nothing, |_, ()| token_gives_its_numbers(&rt), |()| ());
}

/// An error of `serde_json` for a text that is no JSON, and one for want of memory.
fn json_errors(alloc: Global) -> Result<(Option<serde_json::Error>, serde_json::Error)> {
    Ok((Value::from_str(alloc, "{").err(), serde_json::Error::from(AllocError)))
}

/// Errors that are made of those of `serde_json` and of the allocator.
fn errors_of(misread: Option<serde_json::Error>, refused: serde_json::Error) -> [Option<Error>; 4] {
    [
        misread.map(|error| Error::from(error)),
        Some(Error::from(refused)),
        Some(Error::from(AllocError)),
        Some(Error::from(AllocFailed { value: 0 })),
    ]
}

#[test]
fn from_of_errors(rt: HostRuntime) {
    let lack = Some(Error::OutOfMemory);
    let wanted = [Some(Error::BadJson(JsonFault::Reading)), lack, lack, lack];
    takes_none(&rt, json_errors, |_, (misread, refused)| errors_of(misread, refused), |errors| same(&rt, "errors", errors, wanted));
}

/// The errors of plans and of the program that are made of those.
fn errors_of_plans_and_runs() -> ([PlanError; 3], [RunError; 4]) {
    let plans = [
        PlanError::from(Error::OutOfMemory),
        PlanError::from(AllocError),
        PlanError::from(AllocFailed { value: 0 }),
    ];
    let runs = [
        RunError::from(Error::OutOfMemory),
        RunError::from(plans[0]),
        RunError::from(AllocError),
        RunError::from(AllocFailed { value: 0 }),
    ];
    (plans, runs)
}

#[test]
fn from_of_errors_of_plans_and_commands(rt: HostRuntime) {
    let lack = PlanError::Map(Error::OutOfMemory);
    takes_none(&rt, nothing, |_, ()| errors_of_plans_and_runs(), |errors| same(&rt, "errors", errors, ([lack; 3], [RunError::Plan(lack); 4])));
}
