//! Maps are shared between threads and move between them.

use oxc_sourcemap::{
    Bias, CompiledError, CompiledFile, CompiledMap, ConcatSourceMapBuilder, Direction, Error, Fault, OwnedSourceMap,
    Position, Scopes, ScopesFault, SourceMap, SourceMapBuilder,
};
use std::panic::{RefUnwindSafe, UnwindSafe};
use std::sync::Arc;
use std::thread;

fn is_shared<T: Send + Sync + UnwindSafe + RefUnwindSafe + Unpin>() {}

fn is_shared_value(_: impl Send + Sync) {}

/// A map for a lifetime is one for a shorter one.
fn shortened<'a>(map: SourceMap<'static>) -> SourceMap<'a> {
    map
}

#[test]
fn types_are_send_and_sync() {
    is_shared::<SourceMap<'_>>();
    is_shared::<OwnedSourceMap>();
    is_shared::<SourceMapBuilder<'_>>();
    is_shared::<ConcatSourceMapBuilder<'_>>();
    is_shared::<CompiledMap<'_>>();
    is_shared::<CompiledFile>();
    is_shared::<CompiledError>();
    is_shared::<Scopes>();
    is_shared::<ScopesFault>();
    is_shared::<Error>();
    is_shared::<Fault>();
    let map = shortened(SourceMap::default());
    is_shared_value((map.get_names(), map.get_sources(), map.get_source_contents()));
    is_shared_value((map.get_tokens(), map.get_source_view_tokens(), map.trace(0, 0, Bias::Before)));
}

/// All that the calls which read say of a map, as a text.
fn said(map: &SourceMap<'_>, other: &SourceMap<'_>) -> String {
    let positions: Vec<_> = (0..40).map(|at| Position::new(at % 5, at)).collect();
    let table = map.generate_lookup_table();
    let looked_up: Vec<_> = positions.iter().map(|at| map.lookup_token(&table, at.line, at.column)).collect();
    let traced: Vec<_> = positions.iter().map(|at| map.trace(at.line, at.column, Bias::Clamped)).collect();
    format!(
        "{map:?} {looked_up:?} {traced:?} {:?} {:?} {:?} {:?} {:?} {:?} {:?} {} {} {}",
        map.trace_all(&positions, Bias::Before),
        map.find_all(&positions, Bias::After),
        map.pieces(positions[0], positions[39]),
        map.first_difference(other),
        map.all_generated(0, 1, 0, Direction::OnLine),
        map.generated(1, 0, 0, Direction::From),
        (map.counts(), map.is_sorted(), map.is_sound()),
        map.to_json_string(),
        map.try_compose(other).unwrap_err(),
        map.clone().to_data_url(),
    )
}

#[test]
fn eight_threads_read_one_map() {
    let text = r#"{"version":3,"file":"f","names":["n","m"],"sources":["a.ts","b.ts"],"sourcesContent":["A","B"],"ignoreList":[1],"mappings":"AAAAA,GCCEC;EDDA,IACA;;MCAAD"}"#;
    let indexed = || {
        let mut map = SourceMap::from_json_string(text).unwrap();
        map.index_sources().unwrap();
        map
    };
    let (map, other) = (Arc::new(indexed()), Arc::new(SourceMap::from_json_string(text).unwrap()));
    // What is wanted is said by a map that is not shared.
    let wanted = said(&indexed(), &other);
    let readers: Vec<_> = (0..8)
        .map(|_| {
            let (map, other, wanted) = (Arc::clone(&map), Arc::clone(&other), wanted.clone());
            thread::spawn(move || (0..50).for_each(|_| assert_eq!(said(&map, &other), wanted)))
        })
        .collect();
    readers.into_iter().for_each(|reader| reader.join().unwrap());
}

#[test]
fn eight_threads_ask_the_same_scopes() {
    let decoded = || Scopes::decode("BFAAA,DC,BFCAC,CCA,CFA,EGAA,GB,ECKC,IAFC,FK,FU", 2).unwrap();
    let said = |it: &Scopes| {
        let listed = (it.get_scopes().collect::<Vec<_>>(), it.get_ranges().collect::<Vec<_>>());
        let found = (it.scope_at(0, 3, 0), it.function_at(0, 5, 0), it.range_at(0, 12));
        let values = (it.get_variables(0), it.value_at(0, 0, 0, 4), it.scope_chain(0, 0, 12));
        format!("{it:?} {listed:?} {found:?} {values:?} {:?} {:?}", it.frames_at(0, 12), it.scope_chain_at(0, 12))
    };
    let (scopes, wanted) = (Arc::new(decoded()), said(&decoded()));
    let readers: Vec<_> = (0..8)
        .map(|_| {
            let (scopes, wanted) = (Arc::clone(&scopes), wanted.clone());
            thread::spawn(move || (0..50).for_each(|_| assert_eq!(said(&scopes), wanted)))
        })
        .collect();
    readers.into_iter().for_each(|reader| reader.join().unwrap());
}

#[test]
fn a_map_is_freed_by_another_thread() {
    let map =
        SourceMap::from_json_string(r#"{"version":3,"sources":["a.ts"],"mappings":"AAAA"}"#).unwrap().into_owned();
    let moved = thread::spawn(move || map.get_source(0).map(str::to_owned)).join().unwrap();
    assert_eq!(moved.as_deref(), Some("a.ts"));
}
