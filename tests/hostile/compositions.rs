//! Hostile maps, composed with others.
use crate::helpers::{has_text, same};
use crate::hostile::maps::{FIRST, Hostile, INPUT, each_hostile, hostile_map, map_of_parts};
use crate::rows::map_of;
use oxc_sourcemap::{ConcatSourceMapBuilder, Error, Result, SourceMap, Token};
use std::alloc::Global;
use std::process::Abort;

/// A map, composed with another one.
fn composed_with_input(alloc: Global, hostile: &Hostile) -> Result<SourceMap<'static>> {
    let input = map_of_parts(alloc, INPUT)?;
    hostile_map(alloc, hostile)?.compose(alloc, input)
}

/// Another map, composed with this one.
fn composed_from_first(alloc: Global, hostile: &Hostile) -> Result<SourceMap<'static>> {
    let input = hostile_map(alloc, hostile)?;
    map_of_parts(alloc, FIRST)?.compose(alloc, input)
}

#[test]
fn maps_are_composed(rt: HostRuntime) -> Result<()> {
    each_hostile(|hostile| {
        let made = composed_with_input(rt.alloc(), hostile);
        has_text(&rt, rt.alloc(), "first", &made, hostile.first);
        let made = composed_from_first(rt.alloc(), hostile);
        has_text(&rt, rt.alloc(), "second", &made, hostile.second);
        Ok(())
    })
}

/// A map whose one token lies on the last line there is, and points to it. Nothing here takes memory for each line.
fn the_last_line_is_joined_and_composed(
    rt: &impl Abort,
    alloc: Global,
    far: SourceMap<'static>,
) -> Result<()> {
    same(rt, "sound", far.is_sound(), true);
    let mut builder = ConcatSourceMapBuilder::empty(alloc);
    let added = builder.add_sourcemap_owned(far.clone(alloc)?, 1);
    same(rt, "joined", added, Err(Error::TooLarge));
    let again = far.clone(alloc)?;
    let composed = far.compose(alloc, again)?;
    let token = Token::new(
        4294967295,
        4294967295,
        4294967295,
        4294967295,
        Some(0),
        None,
    );
    same(rt, "composed", composed.get_token(0), Some(token));
    Ok(())
}

#[test]
fn a_token_lies_on_the_last_line(rt: HostRuntime) -> Result<()> {
    let row = (
        4294967295,
        4294967295,
        4294967295,
        4294967295,
        Some(0),
        None,
    );
    let far = map_of(rt.alloc(), &[], &["a.js"], &[], &[row])?;
    the_last_line_is_joined_and_composed(&rt, rt.alloc(), far)
}
