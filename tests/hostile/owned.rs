//! Hostile maps, wrapped: each call of `OwnedSourceMap` answers what the map answers that it wraps.
use crate::helpers::{gives, has_text, is_text, lent, same, seen};
use crate::hostile::calls::has_its_tokens_and_chunks;
use crate::hostile::lists::{IDS, all_wanted};
use crate::hostile::maps::{FIRST, Hostile, INPUT, each_hostile, hostile_map, map_of_parts};
use crate::rows::tokens_of;
use oxc_sourcemap::{JSONSourceMap, OwnedSourceMap, Result, SourceMap, Token};
use std::alloc::Global;
use std::process::Abort;

type Map = SourceMap<'static>;

fn owned_map(alloc: Global, hostile: &Hostile) -> Result<OwnedSourceMap> {
    hostile_map(alloc, hostile)?.into_owned_sourcemap(alloc)
}

fn fields_are_the_same(rt: &impl Abort, owned: &OwnedSourceMap, map: &Map) {
    same(rt, "file", owned.get_file(), map.get_file());
    same(rt, "root", owned.get_source_root(), map.get_source_root());
    same(rt, "debug id", owned.get_debug_id(), map.get_debug_id());
    same(
        rt,
        "ignored",
        owned.get_ignore_list(),
        map.get_ignore_list(),
    );
}

fn ids_name_the_same(rt: &impl Abort, owned: &OwnedSourceMap, map: &Map) {
    for id in IDS {
        same(rt, "name", owned.get_name(*id), map.get_name(*id));
        same(rt, "source", owned.get_source(*id), map.get_source(*id));
        let content = map.get_source_content(*id);
        same(rt, "content", owned.get_source_content(*id), content);
        let both = map.get_source_and_content(*id);
        same(rt, "both", owned.get_source_and_content(*id), both);
        same(rt, "token", owned.get_token(*id), map.get_token(*id));
        let view = map.get_source_view_token(*id).map(seen);
        same(rt, "view", owned.get_source_view_token(*id).map(seen), view);
    }
}

fn iterators_give_the_same(
    rt: &impl Abort,
    alloc: Global,
    owned: &OwnedSourceMap,
    hostile: &Hostile,
) -> Result<()> {
    gives(rt, "names", owned.get_names(), hostile.names);
    gives(rt, "sources", owned.get_sources(), hostile.sources);
    gives(
        rt,
        "contents",
        owned.get_source_contents(),
        hostile.contents,
    );
    let tokens = tokens_of(alloc, hostile.rows)?;
    gives(rt, "tokens", owned.get_tokens(), tokens.as_slice());
    let views = all_wanted(alloc, hostile)?;
    gives(
        rt,
        "views",
        owned.get_source_view_tokens().map(seen),
        views.as_slice(),
    );
    Ok(())
}

fn mappings_of(json: Result<JSONSourceMap>) -> Result<String> {
    Ok(json?.mappings)
}

fn read_back(alloc: Global, map: &OwnedSourceMap) -> Result<Map> {
    Ok(OwnedSourceMap::from_json(alloc, map.to_json(alloc)?)?.into_inner())
}

fn text_read_back(alloc: Global, map: &OwnedSourceMap) -> Result<Map> {
    let text = map.to_json_string(alloc)?;
    Ok(OwnedSourceMap::from_json_string(alloc, text.as_str())?.into_inner())
}

fn it_is_written_and_read_back_the_same(
    rt: &impl Abort,
    alloc: Global,
    owned: &OwnedSourceMap,
    map: &Map,
    hostile: &Hostile,
) {
    let text = map.to_json_string(alloc);
    is_text(rt, "text", &owned.to_json_string(alloc), lent(&text));
    let url = map.to_data_url(alloc);
    is_text(rt, "url", &owned.to_data_url(alloc), lent(&url));
    let mappings = mappings_of(map.to_json(alloc));
    is_text(
        rt,
        "json",
        &mappings_of(owned.to_json(alloc)),
        lent(&mappings),
    );
    let wanted = hostile.reading.map_or(hostile.text, |error| Err(error));
    has_text(rt, alloc, "read back", &read_back(alloc, owned), wanted);
    has_text(
        rt,
        alloc,
        "text read back",
        &text_read_back(alloc, owned),
        wanted,
    );
}

/// Looks up some positions in a table, that of this map or another one.
fn the_same_is_found(rt: &impl Abort, owned: &OwnedSourceMap, map: &Map, table: &[&[Token]]) {
    for (line, col) in [
        (0, 0),
        (0, 2),
        (0, 4294967295),
        (1, 0),
        (1, 1),
        (2, 3),
        (4294967295, 0),
    ] {
        let found = map.lookup_token(table, line, col);
        same(rt, "exact", owned.lookup_token(table, line, col), found);
        let found = map.lookup_token_approx(table, line, col);
        same(
            rt,
            "clamped",
            owned.lookup_token_approx(table, line, col),
            found,
        );
        let found = map.lookup_token_after(table, line, col);
        same(rt, "after", owned.lookup_token_after(table, line, col), found);
        let indices = [
            map.lookup_token_index(table, line, col),
            map.lookup_token_index_approx(table, line, col),
            map.lookup_token_index_after(table, line, col),
        ];
        let found = [
            owned.lookup_token_index(table, line, col),
            owned.lookup_token_index_approx(table, line, col),
            owned.lookup_token_index_after(table, line, col),
        ];
        same(rt, "indices", found, indices);
        let view = map.lookup_source_view_token(table, line, col).map(seen);
        let found = owned.lookup_source_view_token(table, line, col).map(seen);
        same(rt, "exact view", found, view);
        let view = map
            .lookup_source_view_token_approx(table, line, col)
            .map(seen);
        let found = owned
            .lookup_source_view_token_approx(table, line, col)
            .map(seen);
        same(rt, "clamped view", found, view);
    }
}

fn tables_are_the_same(
    rt: &impl Abort,
    alloc: Global,
    owned: &OwnedSourceMap,
    map: &Map,
    other: &Map,
) -> Result<()> {
    let other = other.generate_lookup_table(alloc)?;
    the_same_is_found(rt, owned, map, other.as_slice());
    match (
        &owned.generate_lookup_table(alloc),
        &map.generate_lookup_table(alloc),
    ) {
        (Ok(found), Ok(wanted)) => {
            same(rt, "table", found.as_slice(), wanted.as_slice());
            the_same_is_found(rt, owned, map, found.as_slice());
        }
        (found, wanted) => {
            let errors = (found.as_ref().err(), wanted.as_ref().err());
            same(rt, "table", errors.0, errors.1);
        }
    }
    Ok(())
}

fn all_is_the_same(
    rt: &impl Abort,
    alloc: Global,
    owned: &OwnedSourceMap,
    hostile: &Hostile,
) -> Result<()> {
    let map = hostile_map(alloc, hostile)?;
    // By `Deref`.
    same(rt, "sound", owned.is_sound(), hostile.is_sound);
    fields_are_the_same(rt, owned, &map);
    ids_name_the_same(rt, owned, &map);
    iterators_give_the_same(rt, alloc, owned, hostile)?;
    it_is_written_and_read_back_the_same(rt, alloc, owned, &map, hostile);
    tables_are_the_same(rt, alloc, owned, &map, &map_of_parts(alloc, INPUT)?)?;
    let parts = owned.clone(alloc)?.into_parts();
    has_its_tokens_and_chunks(rt, alloc, &parts, hostile)
}

/// The same map, unwrapped and wrapped again in each way.
fn rewrapped(owned: OwnedSourceMap) -> OwnedSourceMap {
    let inner = OwnedSourceMap::from_parts(owned.into_parts()).into_inner();
    let inner = SourceMap::from(OwnedSourceMap::from(inner));
    OwnedSourceMap::new(inner)
}

#[test]
fn each_call_answers_as_the_map_inside(rt: HostRuntime) -> Result<()> {
    each_hostile(|hostile| {
        let owned = owned_map(rt.alloc(), hostile)?;
        all_is_the_same(&rt, rt.alloc(), &owned, hostile)?;
        all_is_the_same(&rt, rt.alloc(), &rewrapped(owned), hostile)?;
        Ok(())
    })
}

fn set_fields(alloc: Global, map: &mut Map) -> Result<()> {
    map.set_file(alloc, "out.js")?;
    map.set_debug_id(alloc, "id")?;
    map.set_sources(alloc, ["s.js", "t.js"].into_iter())?;
    map.set_source_contents(alloc, vec![in alloc; None, Some("T"), Some("U")]?)?;
    map.set_ignore_list(vec![in alloc; 9u32]?);
    Ok(())
}

/// The same, by the calls of the wrapper.
fn set_owned_fields(alloc: Global, owned: &mut OwnedSourceMap) -> Result<()> {
    owned.set_file(alloc, "out.js")?;
    owned.set_debug_id(alloc, "id")?;
    owned.set_sources(alloc, ["s.js", "t.js"].into_iter())?;
    owned.set_source_contents(alloc, vec![in alloc; None, Some("T"), Some("U")]?)?;
    owned.set_ignore_list(vec![in alloc; 9u32]?);
    Ok(())
}

fn what_is_set_is_the_same(rt: &impl Abort, alloc: Global, owned: &OwnedSourceMap, map: &Map) {
    fields_are_the_same(rt, owned, map);
    ids_name_the_same(rt, owned, map);
    let text = map.to_json_string(alloc);
    is_text(rt, "text", &owned.to_json_string(alloc), lent(&text));
}

#[test]
fn setters_set_what_those_of_the_map_inside_set(rt: HostRuntime) -> Result<()> {
    each_hostile(|hostile| {
        let mut map = hostile_map(rt.alloc(), hostile)?;
        set_fields(rt.alloc(), &mut map)?;
        let mut owned = owned_map(rt.alloc(), hostile)?;
        set_owned_fields(rt.alloc(), &mut owned)?;
        what_is_set_is_the_same(&rt, rt.alloc(), &owned, &map);
        let mut inside = owned_map(rt.alloc(), hostile)?;
        set_fields(rt.alloc(), inside.as_source_map_mut())?;
        what_is_set_is_the_same(&rt, rt.alloc(), &inside, &map);
        Ok(())
    })
}

/// A wrapped map, composed with another one.
fn composed_with_input(alloc: Global, hostile: &Hostile) -> Result<Map> {
    let input = OwnedSourceMap::new(map_of_parts(alloc, INPUT)?);
    Ok(
        owned_map(alloc, hostile)?
            .compose(alloc, input)?
            .into_inner(),
    )
}

/// Another wrapped map, composed with this one.
fn composed_from_first(alloc: Global, hostile: &Hostile) -> Result<Map> {
    let first = OwnedSourceMap::new(map_of_parts(alloc, FIRST)?);
    Ok(
        first
            .compose(alloc, owned_map(alloc, hostile)?)?
            .into_inner(),
    )
}

#[test]
fn wrapped_maps_are_composed(rt: HostRuntime) -> Result<()> {
    each_hostile(|hostile| {
        let made = composed_with_input(rt.alloc(), hostile);
        has_text(&rt, rt.alloc(), "first", &made, hostile.first);
        let made = composed_from_first(rt.alloc(), hostile);
        has_text(&rt, rt.alloc(), "second", &made, hostile.second);
        Ok(())
    })
}
