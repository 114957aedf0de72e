//! Calls that give something.
use crate::helpers::same;
use super::fixtures::{
    FOUND_TEXT, INPUT_TEXT, LENT_TEXT, MENDED_TEXT, TEXT, full_json, full_map, full_owned_map, full_value, is_json, is_map,
    lent_map, lent_parts, shuffled_parts,
};
use super::memory::{call_each, nothing, refuse_each};
use oxc_sourcemap::{
    ConcatSourceMapBuilder, DataUrlError, Error, FaultPlace, FaultReason, FaultSpot, Field, JSONSourceMap, OwnedSourceMap, Plan, PlanError,
    Result, Scopes, ScopesError, SegmentPlace, SegmentReason, SourceIndex, SourceMap, SourceMapParts, SourcemapVisualizer, TextPositions,
    Token,
};
use oxc_sourcemap_compiled::CompiledMap;
use serde_json::Value;
use std::alloc::Global;
use std::process::Abort;

fn is_text(rt: &(impl Abort + AllocGlobal), text: String, wanted: &str) {
    same(rt, "text", text.as_str(), wanted);
}

const URL: &str =
    "data:application/json;charset=utf-8;base64,eyJ2ZXJzaW9uIjozLCJmaWxlIjoib3V0LmpzIiwic291cmNlUm9vdCI6InJvb3QiLCJuYW1lcyI6WyJuMCIsIm4xIl0sInNvdXJjZXMiOlsiYS5qcyIsImIuanMiXSwic291cmNlc0NvbnRlbnQiOlsiQSIsbnVsbF0sImlnbm9yZUxpc3QiOlsxXSwibWFwcGluZ3MiOiJBQUFBQSxDQ0FDQyxDIiwiZGVidWdJZCI6ImRiZyJ9";

/// The link that shows the code `ab` with a line feed beside the map, and the visual text of both.
const LINK: &str =
    "https://evanw.github.io/source-map-visualization/#MwBhYgoxODMAeyJ2ZXJzaW9uIjozLCJmaWxlIjoib3V0LmpzIiwic291cmNlUm9vdCI6InJvb3QiLCJuYW1lcyI6WyJuMCIsIm4xIl0sInNvdXJjZXMiOlsiYS5qcyIsImIuanMiXSwic291cmNlc0NvbnRlbnQiOlsiQSIsbnVsbF0sImlnbm9yZUxpc3QiOlsxXSwibWFwcGluZ3MiOiJBQUFBQSxDQ0FDQyxDIiwiZGVidWdJZCI6ImRiZyJ9";
const SHOWN: &str = "- a.js\n(0:0) \"A\" --> (0:0) \"a\"\n";

#[test]
fn encode_to_string(rt: HostRuntime) {
    refuse_each(&rt, full_map, |alloc, map| oxc_sourcemap::encode_to_string(alloc, &map), |text| is_text(&rt, text, TEXT));
}

#[test]
fn source_map_to_json_string(rt: HostRuntime) {
    refuse_each(&rt, full_map, |alloc, map| map.to_json_string(alloc), |text| is_text(&rt, text, TEXT));
}

#[test]
fn owned_source_map_to_json_string(rt: HostRuntime) {
    refuse_each(&rt, full_owned_map, |alloc, map| map.to_json_string(alloc), |text| is_text(&rt, text, TEXT));
}

#[test]
fn source_map_to_data_url(rt: HostRuntime) {
    refuse_each(&rt, full_map, |alloc, map| map.to_data_url(alloc), |url| is_text(&rt, url, URL));
}

#[test]
fn owned_source_map_to_data_url(rt: HostRuntime) {
    refuse_each(&rt, full_owned_map, |alloc, map| map.to_data_url(alloc), |url| is_text(&rt, url, URL));
}

#[test]
fn texts_within_a_limit(rt: HostRuntime) {
    refuse_each(&rt, full_map, |alloc, map| map.to_json_string_within(alloc, TEXT.len()), |text| is_text(&rt, text, TEXT));
    refuse_each(&rt, full_owned_map, |alloc, map| map.to_json_string_within(alloc, 1000), |text| is_text(&rt, text, TEXT));
    refuse_each(&rt, full_map, |alloc, map| map.to_data_url_within(alloc, URL.len()), |url| is_text(&rt, url, URL));
    refuse_each(&rt, full_owned_map, |alloc, map| map.to_data_url_within(alloc, 1000), |url| is_text(&rt, url, URL));
}

#[test]
fn mappings_within_a_limit(rt: HostRuntime) {
    let tokens = [Token::new(2, 0, 5, 3, Some(0), None)];
    refuse_each(
        &rt,
        nothing,
        |alloc, ()| oxc_sourcemap::encode_mappings_within(alloc, &tokens, None, 6),
        |text| is_text(&rt, text, ";;AAKG"),
    );
}

#[test]
fn text_positions_new(rt: HostRuntime) {
    refuse_each(&rt, nothing, |alloc, _| TextPositions::new(alloc, "a\n😀\r\n"), |positions| same(&rt, "offset", positions.offset(2, 0), Ok(6)));
}

/// Asserts where the token stands that points to column 36.
fn is_index(rt: &impl Abort, index: &SourceIndex<'_>) {
    let found = index.generated_for(0, 0, 36).map(|token| token.get_dst_col());
    same(rt, "generated column", found, Some(32));
    same(rt, "tokens", index.pointing_to(0, 0).len(), 70);
}

/// It asks for the numbers of places, for the buffer of the sort, and for the indices.
#[test]
fn source_index_new(rt: HostRuntime) -> Result<()> {
    let map = SourceMap::from_parts(shuffled_parts(rt.alloc())?);
    refuse_each(&rt, nothing, |alloc, ()| SourceIndex::new(alloc, &map), |index| is_index(&rt, &index));
    Ok(())
}

fn error_of(error: DataUrlError) -> Error {
    match error {
        DataUrlError::OutOfMemory => Error::OutOfMemory,
        _ => Error::TooLarge,
    }
}

#[test]
fn decode_data_url_of_base64(rt: HostRuntime) {
    refuse_each(&rt, nothing, |alloc, _| oxc_sourcemap::decode_data_url(alloc, "data:application/json;base64,e30%3D").map_err(|error| error_of(error)), |text| {
        same(&rt, "text", text.as_ref().map(|text| text.as_str()), Some("{}"))
    });
}

#[test]
fn decode_data_url_of_escapes(rt: HostRuntime) {
    refuse_each(&rt, nothing, |alloc, _| oxc_sourcemap::decode_data_url(alloc, "data:application/json,%7b}").map_err(|error| error_of(error)), |text| {
        same(&rt, "text", text.as_ref().map(|text| text.as_str()), Some("{}"))
    });
}

#[test]
fn json_fault_at(rt: HostRuntime) {
    let text = r#"{"version":3,"mappings":"","sources":["a.js"],"names":["x",null]}"#;
    refuse_each(&rt, nothing, |alloc, _| oxc_sourcemap::json_fault_at(alloc, text), |place| {
        same(&rt, "spot", place.map(|place| place.spot), Some(FaultSpot::Entry(Field::Names, 1)))
    });
}

#[test]
fn json_fault_reason(rt: HostRuntime) {
    let text = r#"{"version":3,"mappings":"A,D","sources":["a.js"],"names":["x"]}"#;
    let spot = FaultSpot::Segment(SegmentPlace { byte: 2, line: 0, segment: 1 });
    let place = FaultPlace { text: None, section: None, spot };
    let wanted = Some(FaultReason::Segment(SegmentReason::ColumnBelowZero));
    refuse_each(&rt, nothing, |alloc, _| oxc_sourcemap::json_fault_reason(alloc, text, &place), |reason| same(&rt, "reason", reason, wanted));
}

#[test]
fn fault_reason(rt: HostRuntime) {
    // {"version":3.5}
    let text = "\u{feff}data:application/json;base64,eyJ2ZXJzaW9uIjozLjV9";
    let place = FaultPlace { text: None, section: None, spot: FaultSpot::Member(Field::Version) };
    let wanted = Some(FaultReason::NumberNotWhole);
    refuse_each(&rt, nothing, |alloc, _| oxc_sourcemap::fault_reason(alloc, text, &place), |reason| same(&rt, "reason", reason, wanted));
}

/// The place of the fault of a text as it is found.
fn found_fault_is(rt: &(impl Abort + AllocGlobal), text: &str, wanted: FaultSpot) {
    refuse_each(rt, nothing, |alloc, _| oxc_sourcemap::found_fault_at(alloc, text), |place| {
        same(rt, "spot", place.map(|place| place.spot), Some(wanted))
    });
}

#[test]
fn found_fault_at(rt: HostRuntime) {
    found_fault_is(&rt, r#"{"version":"3","sources":[null,1],"mappings":""}"#, FaultSpot::Entry(Field::Sources, 1));
    // {"version":2}
    found_fault_is(&rt, "\u{feff}data:application/json;base64,eyJ2ZXJzaW9uIjoyfQ==", FaultSpot::Member(Field::Version));
    let text = r#"{"version":"3","file":"f","sections":[{"offset":{"line":0,"column":0},"map":{"version":3,"sources":[null],"mappings":"AAAA"}},{"offset":{"line":1,"column":0}}]}"#;
    found_fault_is(&rt, text, FaultSpot::Member(Field::Map));
}

#[test]
fn value_fault_at(rt: HostRuntime) {
    refuse_each(&rt, full_value, |alloc, value| oxc_sourcemap::value_fault_at(alloc, &value), |place| same(&rt, "place", place, None));
}

#[test]
fn sourcemap_visualizer_get_url(rt: HostRuntime) {
    refuse_each(&rt, full_map, |alloc, map| SourcemapVisualizer::new("ab\n", &map).get_url(alloc), |url| is_text(&rt, url, LINK));
}

#[test]
fn sourcemap_visualizer_get_text(rt: HostRuntime) {
    refuse_each(&rt, full_map, |alloc, map| SourcemapVisualizer::new("ab\n", &map).get_text(alloc), |text| is_text(&rt, text, SHOWN));
}

#[test]
fn json_source_map_from_value(rt: HostRuntime) {
    refuse_each(&rt, full_value, |alloc, value| JSONSourceMap::from_value(alloc, &value), |json| is_json(&rt, json, TEXT));
}

#[test]
fn encode(rt: HostRuntime) {
    refuse_each(&rt, full_map, |alloc, map| oxc_sourcemap::encode(alloc, &map), |json| is_json(&rt, json, TEXT));
}

#[test]
fn source_map_to_json(rt: HostRuntime) {
    refuse_each(&rt, full_map, |alloc, map| map.to_json(alloc), |json| is_json(&rt, json, TEXT));
}

#[test]
fn owned_source_map_to_json(rt: HostRuntime) {
    refuse_each(&rt, full_owned_map, |alloc, map| map.to_json(alloc), |json| is_json(&rt, json, TEXT));
}

#[test]
fn decode_from_string(rt: HostRuntime) {
    refuse_each(&rt, nothing, |alloc, ()| oxc_sourcemap::decode_from_string(alloc, TEXT), |map| is_map(&rt, &map, TEXT));
}

#[test]
fn read_found_in_a_data_url(rt: HostRuntime) {
    let text = "\u{feff})]}'\ndata:application/json;base64,eyJ2ZXJzaW9uIjozLCJzb3VyY2VzIjpbbnVsbF0sIm1hcHBpbmdzIjoiQUFBQSJ9";
    refuse_each(&rt, nothing, |alloc, ()| oxc_sourcemap::read_found(alloc, text), |found| same(&rt, "mends", found.mends.len(), 4));
}

#[test]
fn read_found_of_sections(rt: HostRuntime) {
    let text = r#"{"version":"3","file":"f","sections":[{"offset":{"line":0,"column":0},"map":{"version":3,"sources":[null],"names":["n"],"mappings":"AAAAA,IAAI,CAAA"}},{"offset":{"line":0,"column":4},"map":{"version":3,"sources":["b.js"],"sourcesContent":[1],"ignoreList":[0],"mappings":"AAAA"}}]}"#;
    refuse_each(&rt, nothing, |alloc, ()| oxc_sourcemap::read_found(alloc, text), |found| same(&rt, "mends", found.mends.len(), 4));
}

#[test]
fn read_found(rt: HostRuntime) {
    refuse_each(&rt, nothing, |alloc, ()| oxc_sourcemap::read_found(alloc, MENDED_TEXT), |found| {
        same(&rt, "mends", found.mends.len(), 8);
        is_map(&rt, &found.map, FOUND_TEXT);
    });
}

#[test]
fn source_map_from_json_string(rt: HostRuntime) {
    refuse_each(&rt, nothing, |alloc, ()| SourceMap::from_json_string(alloc, TEXT), |map| is_map(&rt, &map, TEXT));
}

#[test]
fn owned_source_map_from_json_string(rt: HostRuntime) {
    refuse_each(&rt, nothing, |alloc, ()| OwnedSourceMap::from_json_string(alloc, TEXT), |map| is_map(&rt, &map, TEXT));
}

#[test]
fn decode(rt: HostRuntime) {
    refuse_each(&rt, full_json, |alloc, json| oxc_sourcemap::decode(alloc, json), |map| is_map(&rt, &map, TEXT));
}

#[test]
fn source_map_from_json(rt: HostRuntime) {
    refuse_each(&rt, full_json, |alloc, json| SourceMap::from_json(alloc, json), |map| is_map(&rt, &map, TEXT));
}

#[test]
fn owned_source_map_from_json(rt: HostRuntime) {
    refuse_each(&rt, full_json, |alloc, json| OwnedSourceMap::from_json(alloc, json), |map| is_map(&rt, &map, TEXT));
}

#[test]
fn decode_value_of_a_map_by_itself(rt: HostRuntime) {
    refuse_each(&rt, full_value, |alloc, value| oxc_sourcemap::decode_value(alloc, &value), |map| is_map(&rt, &map, TEXT));
}

/// An indexed map of two sections, each with a source and a name of its own.
const INDEXED_TEXT: &str =
    r#"{"version":3,"file":"out.js","sections":[{"offset":{"line":0,"column":2},"map":{"version":3,"names":["n0"],"sources":["a.js"],"sourcesContent":["A"],"mappings":"AAAAA"}},{"offset":{"line":1,"column":0},"map":{"version":3,"names":["n1"],"sources":["b.js"],"ignoreList":[0],"mappings":"AAAAA"}}]}"#;

/// The join of the sections.
const SECTIONS_TEXT: &str =
    r#"{"version":3,"file":"out.js","names":["n0","n1"],"sources":["a.js","b.js"],"sourcesContent":["A",null],"ignoreList":[1],"mappings":"EAAAA;ACAAC"}"#;

fn indexed_value(alloc: Global) -> Result<Value> {
    Ok(Value::from_str(alloc, INDEXED_TEXT)?)
}

#[test]
fn decode_from_string_of_an_indexed_map(rt: HostRuntime) {
    refuse_each(&rt, nothing, |alloc, ()| oxc_sourcemap::decode_from_string(alloc, INDEXED_TEXT), |map| is_map(&rt, &map, SECTIONS_TEXT));
}

#[test]
fn decode_value_of_an_indexed_map(rt: HostRuntime) {
    refuse_each(&rt, indexed_value, |alloc, value| oxc_sourcemap::decode_value(alloc, &value), |map| is_map(&rt, &map, SECTIONS_TEXT));
}

#[test]
fn file_from_value(rt: HostRuntime) {
    refuse_each(&rt, indexed_value, |alloc, value| oxc_sourcemap::file_from_value(alloc, &value), |file| same(&rt, "file", file.as_deref(), Some("out.js")));
}

#[test]
fn source_map_clone(rt: HostRuntime) {
    refuse_each(&rt, full_map, |alloc, map| map.clone(alloc), |copy| is_map(&rt, &copy, TEXT));
}

#[test]
fn owned_source_map_clone(rt: HostRuntime) {
    refuse_each(&rt, full_owned_map, |alloc, map| map.clone(alloc), |copy| is_map(&rt, &copy, TEXT));
}

#[test]
fn source_map_parts_clone(rt: HostRuntime) {
    refuse_each(&rt, lent_parts, |alloc, parts| parts.clone(alloc), |copy| is_map(&rt, &SourceMap::from_parts(copy), LENT_TEXT));
}

#[test]
fn source_map_into_owned(rt: HostRuntime) {
    refuse_each(&rt, lent_map, |alloc, map| map.into_owned(alloc), |owned| is_map(&rt, &owned, LENT_TEXT));
}

#[test]
fn source_map_into_owned_sourcemap(rt: HostRuntime) {
    refuse_each(&rt, lent_map, |alloc, map| map.into_owned_sourcemap(alloc), |owned| is_map(&rt, &owned, LENT_TEXT));
}

/// A map that gives its token a name, and the map that it is composed with.
fn two_maps(alloc: Global) -> Result<(SourceMap<'static>, SourceMap<'static>)> {
    Ok((lent_map(alloc)?, SourceMap::from_json_string(alloc, INPUT_TEXT)?))
}

fn two_owned_maps(alloc: Global) -> Result<(OwnedSourceMap, OwnedSourceMap)> {
    let (map, input) = two_maps(alloc)?;
    Ok((OwnedSourceMap::new(map), OwnedSourceMap::new(input)))
}

/// What they compose to.
const COMPOSED: &str =
    r#"{"version":3,"file":"f.js","sourceRoot":"root","names":["n0","n1","n"],"sources":["a.js","b.js"],"sourcesContent":["A",null],"ignoreList":[1],"mappings":"AAAAE"}"#;

#[test]
fn source_map_compose(rt: HostRuntime) {
    refuse_each(&rt, two_maps, |alloc, (map, input)| map.compose(alloc, input), |map| is_map(&rt, &map, COMPOSED));
}

#[test]
fn owned_source_map_compose(rt: HostRuntime) {
    refuse_each(&rt, two_owned_maps, |alloc, (map, input)| map.compose(alloc, input), |map| is_map(&rt, &map, COMPOSED));
}

/// What the map with every field is remapped to if its source a.js has an input.
const REMAPPED: &str =
    r#"{"version":3,"file":"out.js","names":["n0","n1"],"sources":["a.js","b.js","b.js"],"sourcesContent":["A",null,null],"ignoreList":[1,2],"mappings":"AAAAA,CEACC,C","debugId":"dbg"}"#;

#[test]
fn source_map_remap(rt: HostRuntime) -> Result<()> {
    let (map, input) = (full_map(rt.alloc())?, SourceMap::from_json_string(rt.alloc(), INPUT_TEXT)?);
    refuse_each(&rt, nothing, |alloc, ()| map.remap(alloc, &[("a.js", &input)]), |map| is_map(&rt, &map, REMAPPED));
    Ok(())
}

#[test]
fn owned_source_map_remap(rt: HostRuntime) -> Result<()> {
    let (map, input) = (full_owned_map(rt.alloc())?, OwnedSourceMap::from_json_string(rt.alloc(), INPUT_TEXT)?);
    refuse_each(&rt, nothing, |alloc, ()| map.remap(alloc, &[("a.js", &input)]), |map| is_map(&rt, &map, REMAPPED));
    Ok(())
}

/// A plan of most kinds of steps: the first two maps are joined, each on a line, and composed with the last one.
fn plan(alloc: Global) -> Result<Plan<'static>> {
    let first = Plan::Rewrite(Box::new(alloc, Plan::Read(LENT_TEXT))?);
    let empty = Plan::JoinAt(Vec::new(alloc));
    let joined = Plan::Join(vec![in alloc; (first, 0), (empty, 1)]?);
    let read = Plan::Read(INPUT_TEXT);
    Ok(Plan::Compose(Box::new(alloc, joined)?, Box::new(alloc, read)?))
}

const EVALUATED: &str =
    r#"{"version":3,"sourceRoot":"root","names":["n0","n1","n"],"sources":["a.js","b.js"],"sourcesContent":["A",null],"ignoreList":[1],"mappings":"AAAAE"}"#;

#[test]
fn evaluate(rt: HostRuntime) {
    refuse_each(&rt, plan, |alloc, plan| oxc_sourcemap::evaluate(alloc, &plan), |map| is_map(&rt, &map, EVALUATED));
}

/// A plan that leads a map back through a map of its source, whose source root is applied.
fn plan_to_originals(alloc: Global) -> Result<Plan<'static>> {
    let input = Plan::ApplyRoot(Box::new(alloc, Plan::Read(INPUT_TEXT))?);
    Ok(Plan::Remap(Box::new(alloc, Plan::Read(LENT_TEXT))?, vec![in alloc; ("a.js", input)]?))
}

const ORIGINALS: &str =
    r#"{"version":3,"file":"f.js","names":["n"],"sources":["root/a.js","root/b.js"],"sourcesContent":["A",null],"ignoreList":[1],"mappings":"AAAAA"}"#;

#[test]
fn evaluate_of_a_remapping(rt: HostRuntime) {
    refuse_each(&rt, plan_to_originals, |alloc, plan| oxc_sourcemap::evaluate(alloc, &plan), |map| is_map(&rt, &map, ORIGINALS));
}

/// A map of 22 tokens whose columns go back.
const BACK: &str = r#"{"version":3,"sources":["a.js"],"names":[],"mappings":"IAAA,HACA,CACA,CACA,CACA,CACA,CACA,CACA,CACA,CACA,CACA,CACA,CACA,CACA,CACA,CACA,CACA,CACA,CACA,CACA,CACA,CACA"}"#;

#[test]
fn evaluate_of_a_map_that_is_sorted(rt: HostRuntime) {
    let sorted = r#"{"version":3,"names":[],"sources":["a.js"],"mappings":"CACA,CACA,CACA,CAHA,AAIA,CACA,CACA,CACA,CACA,CACA,CACA,CACA,CACA,CACA,CACA,CACA,CACA,CACA,CACA,CACA,CACA,CACA"}"#;
    refuse_each(&rt, |_| Ok(Plan::ReadSorted(BACK)), |alloc, plan| oxc_sourcemap::evaluate(alloc, &plan), |map| is_map(&rt, &map, sorted));
}

/// A map with tokens, names and sources that its traces do not need, and the same without them.
const FULL: &str = r#"{"version":3,"file":"out.js","sourceRoot":"lib","names":["x","y","x"],"sources":["a.js","b.js","a.js"],"sourcesContent":["let a",null,"let a"],"ignoreList":[2],"mappings":"AACEA,IEAAE,G,E;AAEF"}"#;
const SIMPLE: &str = r#"{"version":3,"file":"out.js","sourceRoot":"lib","names":["x"],"sources":["a.js","a.js"],"sourcesContent":["let a","let a"],"ignoreList":[1],"mappings":"AACEA,O;ACEF"}"#;

/// A plan that simplifies a map.
fn plan_to_simplify(alloc: Global) -> Result<Plan<'static>> {
    Ok(Plan::Simplify(Box::new(alloc, Plan::Read(FULL))?))
}

#[test]
fn evaluate_of_a_simplification(rt: HostRuntime) {
    refuse_each(&rt, plan_to_simplify, |alloc, plan| oxc_sourcemap::evaluate(alloc, &plan), |map| is_map(&rt, &map, SIMPLE));
}

/// A plan that joins a map with itself, at columns.
fn plan_at_columns(alloc: Global) -> Result<Plan<'static>> {
    let first = (Plan::Read(LENT_TEXT), 0, 2);
    let second = (Plan::Read(LENT_TEXT), 0, 5);
    Ok(Plan::JoinAt(vec![in alloc; first, second]?))
}

const JOINED_AT: &str =
    r#"{"version":3,"names":["n","n"],"sources":["a.js","a.js"],"sourcesContent":["A","A"],"mappings":"EAAAA,GCAAC"}"#;

#[test]
fn evaluate_of_a_join_at_columns(rt: HostRuntime) {
    refuse_each(&rt, plan_at_columns, |alloc, plan| oxc_sourcemap::evaluate(alloc, &plan), |map| is_map(&rt, &map, JOINED_AT));
}

fn are_read(rt: &(impl Abort + AllocGlobal), tokens: &[Token]) {
    let first = Token::new(0, 0, 0, 0, Some(0), Some(0));
    let last = Token::new(1, 9, 0, 0, None, None);
    same(rt, "tokens", (tokens.len(), tokens.first(), tokens.last()), (11, Some(&first), Some(&last)));
}

#[test]
fn decode_mappings(rt: HostRuntime) {
    refuse_each(&rt, nothing, |alloc, ()| oxc_sourcemap::decode_mappings(alloc, "AAAAA,C;C,C,C,C,C,C,C,C,C", 1, 1), |tokens| are_read(&rt, tokens.as_slice()));
}

/// The number of tokens of the one line of a table.
fn tokens_of_line(table: &[&[Token]]) -> Option<usize> {
    match table {
        [line] => Some(line.len()),
        _ => None,
    }
}

#[test]
fn source_map_generate_lookup_table(rt: HostRuntime) {
    refuse_each(&rt, full_map, |alloc, map| map.generate_lookup_table(alloc).map(|table| tokens_of_line(table.as_slice())), |tokens| same(&rt, "tokens", tokens, Some(3)));
}

#[test]
fn owned_source_map_generate_lookup_table(rt: HostRuntime) {
    refuse_each(&rt, full_owned_map, |alloc, map| map.generate_lookup_table(alloc).map(|table| tokens_of_line(table.as_slice())), |tokens| same(&rt, "tokens", tokens, Some(3)));
}

fn is_joined(rt: &(impl Abort + AllocGlobal), builder: ConcatSourceMapBuilder<'_>, text: &str) {
    let map = builder.into_sourcemap().expect(rt, "a joined map");
    is_map(rt, &map, text);
}

/// The join of a map with itself, on the lines 0 and 1.
const TWICE: &str =
    r#"{"version":3,"names":["n","n"],"sources":["a.js","a.js"],"sourcesContent":["A","A"],"mappings":"AAAAA;ACAAC"}"#;

#[test]
fn concat_source_map_builder_with_capacity(rt: HostRuntime) {
    let empty = r#"{"version":3,"names":[],"sources":[],"mappings":""}"#;
    refuse_each(&rt, nothing, |alloc, ()| ConcatSourceMapBuilder::with_capacity(alloc, 1, 2, 3, 4), |builder| is_joined(&rt, builder, empty));
}

#[test]
fn concat_source_map_builder_from_sourcemaps(rt: HostRuntime) -> Result<()> {
    let map = lent_map(rt.alloc())?;
    refuse_each(&rt, nothing, |alloc, ()| ConcatSourceMapBuilder::from_sourcemaps(alloc, &[(&map, 0), (&map, 1)]), |builder| is_joined(&rt, builder, TWICE));
    Ok(())
}

fn twice(alloc: Global) -> Result<Vec<(SourceMap<'static>, u32)>> {
    Ok(vec![in alloc; (lent_map(alloc)?, 0), (lent_map(alloc)?, 1)]?)
}

#[test]
fn concat_source_map_builder_from_owned_sourcemaps(rt: HostRuntime) {
    refuse_each(&rt, twice, |alloc, maps| ConcatSourceMapBuilder::from_owned_sourcemaps(alloc, maps), |builder| is_joined(&rt, builder, TWICE));
}

/// The parts of the map with every field but chunks, and the same, compiled.
fn full_parts(alloc: Global) -> Result<SourceMapParts<'static>> {
    Ok(full_map(alloc)?.into_parts())
}

fn compiled(alloc: Global, parts: &SourceMapParts<'_>) -> std::result::Result<Vec<u8>, PlanError> {
    oxc_sourcemap_compiled::compile(alloc, parts, 0, &[0; 32])
}

/// The map in these bytes, owned.
fn taken_apart(alloc: Global, bytes: &[u8]) -> Result<Option<SourceMap<'static>>> {
    let Ok(map) = CompiledMap::open(bytes) else {
        return Ok(None);
    };
    match map.decompile(alloc)? {
        Some(parts) => Ok(Some(SourceMap::from_parts(parts).into_owned(alloc)?)),
        None => Ok(None),
    }
}

fn is_taken_apart(rt: &(impl Abort + AllocGlobal), map: Option<SourceMap<'_>>) {
    let map = map.expect(rt, "a map whose texts are UTF-8");
    is_map(rt, &map, TEXT);
}

#[test]
fn compile(rt: HostRuntime) {
    refuse_each(
        &rt,
        full_parts,
        |alloc, parts| compiled(alloc, &parts),
        |bytes| is_taken_apart(&rt, taken_apart(rt.alloc(), &bytes).expect(&rt, "a map")),
    );
}

#[test]
fn compiled_map_decompile(rt: HostRuntime) {
    let bytes = compiled(rt.alloc(), &full_parts(rt.alloc()).expect(&rt, "parts")).expect(&rt, "bytes");
    refuse_each(&rt, nothing, |alloc, ()| taken_apart(alloc, &bytes), |map| is_taken_apart(&rt, map));
}

/// A map with scopes and ranges, and the errors of its reading as those of a map.
const SCOPES: &str = r#"{"names":["f"],"scopes":"BFAAA,BAAB,CAB,CEA,EGAA,EAB,IAAA,FB,FJ"}"#;

fn as_error(error: ScopesError) -> Error {
    match error {
        ScopesError::OutOfMemory => Error::OutOfMemory,
        _ => Error::TooLarge,
    }
}

fn scopes(alloc: Global) -> Result<Scopes> {
    oxc_sourcemap::read_scopes(alloc, SCOPES).map_err(as_error)
}

/// How many frames there are at 0:1, where a call was inlined.
fn frames(alloc: Global, scopes: Scopes) -> Result<usize> {
    Ok(scopes.frames_at(alloc, 0, 1)?.frames.len())
}

#[test]
fn read_scopes(rt: HostRuntime) {
    // It goes on without some of what it asks for.
    let requests = call_each(&rt, nothing, |alloc, ()| scopes(alloc), |made| {
        let counts = made.map(|it| (it.scope_count(), it.range_count()));
        same(&rt, "counts", counts.unwrap_or((2, 2)), (2, 2));
        same(&rt, "error", counts.err().unwrap_or(Error::OutOfMemory), Error::OutOfMemory);
    });
    assert!(rt; requests > 0, "no request");
}

#[test]
fn scopes_frames_at(rt: HostRuntime) {
    refuse_each(&rt, scopes, frames, |count| same(&rt, "frames", count, 2));
}
