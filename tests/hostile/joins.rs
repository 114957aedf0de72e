//! Hostile maps, joined with others in each way.
use crate::helpers::{is_text, same};
use crate::hostile::maps::{Hostile, INPUT, each_hostile, hostile_map, map_of_parts};
use oxc_sourcemap::{ConcatSourceMapBuilder, OwnedSourceMap, Result, SourceMap, chunk_fault};
use std::alloc::Global;
use std::process::Abort;

type Map = SourceMap<'static>;

fn lent(alloc: Global, left: &Map, right: &Map) -> Result<OwnedSourceMap> {
    let mut builder = ConcatSourceMapBuilder::empty(alloc);
    builder.add_sourcemap(left, 0)?;
    builder.add_sourcemap(right, 1)?;
    builder.into_sourcemap()?.into_owned_sourcemap(alloc)
}

fn moved(alloc: Global, left: Map, right: Map) -> Result<OwnedSourceMap> {
    let mut builder = ConcatSourceMapBuilder::empty(alloc);
    builder.add_sourcemap_owned(left, 0)?;
    builder.add_sourcemap_owned(right, 1)?;
    builder.into_owned_sourcemap()
}

fn lent_at_once(alloc: Global, left: &Map, right: &Map) -> Result<OwnedSourceMap> {
    let maps = [(left, 0), (right, 1)];
    ConcatSourceMapBuilder::from_sourcemaps(alloc, maps.as_slice())?.into_owned_sourcemap()
}

fn moved_at_once(alloc: Global, left: Map, right: Map) -> Result<OwnedSourceMap> {
    let maps = vec![in alloc; (left, 0), (right, 1)]?;
    ConcatSourceMapBuilder::from_owned_sourcemaps(alloc, maps)?.into_owned_sourcemap()
}

/// Joins maps one line down and this many columns to the right.
fn lent_at(alloc: Global, left: &Map, right: &Map, column: u32) -> Result<OwnedSourceMap> {
    let mut builder = ConcatSourceMapBuilder::empty(alloc);
    builder.add_sourcemap_at(left, 0, 0)?;
    builder.add_sourcemap_at(right, 1, column)?;
    builder.into_owned_sourcemap()
}

/// The same, of maps that are moved.
fn moved_at(alloc: Global, left: Map, right: Map, column: u32) -> Result<OwnedSourceMap> {
    let mut builder = ConcatSourceMapBuilder::with_capacity(alloc, 1, 1, 1, 1)?;
    builder.add_sourcemap_owned_at(left, 0, 0)?;
    builder.add_sourcemap_owned_at(right, 1, column)?;
    builder.into_sourcemap()?.into_owned_sourcemap(alloc)
}

/// A joined map has chunks, and they fit, whatever chunks its maps have.
fn is_joined(
    rt: &impl Abort,
    alloc: Global,
    what: &str,
    joined: Result<OwnedSourceMap>,
    wanted: Result<&str>,
) {
    match joined {
        Ok(map) => {
            is_text(rt, what, &map.to_json_string(alloc), wanted);
            let parts = map.into_parts();
            let chunks = parts.token_chunks.expect(rt, "chunks");
            let misfit = chunk_fault(parts.tokens.as_slice(), chunks.as_slice());
            same(rt, what, (chunks.len(), misfit), (2, None));
        }
        Err(error) => same(rt, what, Err(error), wanted),
    }
}

fn it_is_joined_in_each_way(
    rt: &impl Abort,
    alloc: Global,
    map: &Map,
    input: &Map,
    hostile: &Hostile,
) -> Result<()> {
    let text = hostile.joined;
    is_joined(rt, alloc, "lent", lent(alloc, map, input), text);
    is_joined(
        rt,
        alloc,
        "lent at once",
        lent_at_once(alloc, map, input),
        text,
    );
    is_joined(
        rt,
        alloc,
        "lent to column 0",
        lent_at(alloc, map, input, 0),
        text,
    );
    let (left, right) = (map.clone(alloc)?, input.clone(alloc)?);
    is_joined(rt, alloc, "moved", moved(alloc, left, right), text);
    let (left, right) = (map.clone(alloc)?, input.clone(alloc)?);
    is_joined(
        rt,
        alloc,
        "moved at once",
        moved_at_once(alloc, left, right),
        text,
    );
    let (left, right) = (map.clone(alloc)?, input.clone(alloc)?);
    is_joined(
        rt,
        alloc,
        "moved to column 0",
        moved_at(alloc, left, right, 0),
        text,
    );
    Ok(())
}

fn it_is_joined_behind_another(
    rt: &impl Abort,
    alloc: Global,
    map: &Map,
    input: &Map,
    hostile: &Hostile,
) -> Result<()> {
    is_joined(
        rt,
        alloc,
        "lent",
        lent_at(alloc, input, map, 1),
        hostile.behind,
    );
    let (left, right) = (input.clone(alloc)?, map.clone(alloc)?);
    is_joined(
        rt,
        alloc,
        "moved",
        moved_at(alloc, left, right, 1),
        hostile.behind,
    );
    Ok(())
}

#[test]
fn maps_are_joined(rt: HostRuntime) -> Result<()> {
    let input = map_of_parts(rt.alloc(), INPUT)?;
    each_hostile(|hostile| {
        let map = hostile_map(rt.alloc(), hostile)?;
        it_is_joined_in_each_way(&rt, rt.alloc(), &map, &input, hostile)?;
        it_is_joined_behind_another(&rt, rt.alloc(), &map, &input, hostile)
    })
}
