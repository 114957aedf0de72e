//! Lookups from original positions, lookups with indices, and sorting, on hostile maps: by filters of their tokens.
use crate::helpers::{gives, same};
use crate::hostile::maps::{Hostile, INPUT, each_hostile, hostile_map, map_of_parts};
use crate::refusals::fixtures::are_parts;
use crate::rows::tokens_of;
use oxc_sourcemap::{OwnedSourceMap, Result, SourceIndex, SourceMap, SourceMapParts, Token};
use std::alloc::Global;
use std::process::Abort;

/// Source ids, lines and columns that the rows have, and some that they do not.
const SOURCES: [u32; 5] = [0, 1, 5, 4294967294, 4294967295];
const LINES: [u32; 4] = [0, 1, 3, 4294967295];
const COLUMNS: [u32; 7] = [0, 1, 2, 4, 9, 4294967294, 4294967295];

/// The first of these tokens, or the last.
fn end_of(tokens: &[Token], is_first: bool) -> Option<Token> {
    if is_first { tokens.first().copied() } else { tokens.last().copied() }
}

/// The tokens that pass a test.
fn filtered(alloc: Global, tokens: &[Token], passes: impl Fn(&Token) -> bool + Drop) -> Result<Vec<Token>> {
    let mut kept = Vec::new(alloc);
    for token in tokens {
        if passes(token) {
            kept.push(*token)?;
        }
    }
    Ok(kept)
}

/// The greatest of these numbers that is at most `most`, and the least that is at least it.
fn nearest(numbers: impl Iterator<Item = u32> + Drop, most: u32) -> (Option<u32>, Option<u32>) {
    let (mut below, mut above) = (None, None);
    for number in numbers {
        if number <= most && below.is_none_or(|it: u32| it < number) {
            below = Some(number);
        }
        if number >= most && above.is_none_or(|it: u32| it > number) {
            above = Some(number);
        }
    }
    (below, above)
}

fn places_are_found(
    rt: &impl Abort,
    alloc: Global,
    index: &SourceIndex<'_>,
    on_line: &[Token],
    place: (u32, u32, u32),
) -> Result<()> {
    let (source, line, col) = place;
    let (below, above) = nearest(on_line.iter().map(|token| token.get_src_col()), col);
    let in_column = |wanted: Option<u32>| filtered(alloc, on_line, |token| Some(token.get_src_col()) == wanted);
    let (at, before, after) = (in_column(Some(col))?, in_column(below)?, in_column(above)?);
    gives(rt, "at", index.generated_at(source, line, col), at.as_slice());
    same(rt, "for", index.generated_for(source, line, col), end_of(before.as_slice(), below == Some(col)));
    same(rt, "from", index.generated_from(source, line, col), end_of(after.as_slice(), above != Some(col)));
    gives(rt, "all for", index.all_generated_for(source, line, col), before.as_slice());
    gives(rt, "all from", index.all_generated_from(source, line, col), after.as_slice());
    Ok(())
}

fn an_index_finds_places(rt: &impl Abort, alloc: Global, map: &SourceMap<'_>, tokens: &[Token]) -> Result<()> {
    let index = SourceIndex::new(alloc, map)?;
    for source in SOURCES {
        for line in LINES {
            let mut on_line = filtered(alloc, tokens, |token| token.get_source_id() == Some(source) && token.get_src_line() == line)?;
            for col in COLUMNS {
                places_are_found(rt, alloc, &index, on_line.as_slice(), (source, line, col))?;
            }
            on_line.sort_by_key(|token| token.get_src_col())?;
            gives(rt, "line", index.pointing_to(source, line), on_line.as_slice());
        }
    }
    Ok(())
}

#[test]
fn places_are_looked_up(rt: HostRuntime) -> Result<()> {
    each_hostile(|hostile| {
        let tokens = tokens_of(rt.alloc(), hostile.rows)?;
        let map = hostile_map(rt.alloc(), hostile)?;
        an_index_finds_places(&rt, rt.alloc(), &map, tokens.as_slice())
    })
}

/// A lookup on a line whose columns go back finds one of its tokens or none, and its index is in range.
fn some_token_is_found(rt: &impl Abort, map: &SourceMap<'_>, table: &[&[Token]], line: u32, col: u32) {
    let none: &[Token] = &[];
    let on_line = table.get(line as usize).copied().unwrap_or(none);
    let found = map.lookup_token_after(table, line, col);
    assert!(rt; found.is_none_or(|token| on_line.contains(&token)));
    for index in [
        map.lookup_token_index(table, line, col),
        map.lookup_token_index_approx(table, line, col),
        map.lookup_token_index_after(table, line, col),
    ] {
        assert!(rt; index.is_none_or(|i| i < map.get_tokens().len()));
    }
}

/// On a sorted map the lookups are filters, and an index is that of the token.
fn the_token_is_found(rt: &impl Abort, alloc: Global, map: &SourceMap<'_>, table: &[&[Token]], line: u32, col: u32) -> Result<()> {
    let on_line = filtered(alloc, map.get_tokens().as_slice(), |token| token.get_dst_line() == line)?;
    let (_, above) = nearest(on_line.iter().map(|token| token.get_dst_col()), col);
    let after = filtered(alloc, on_line.as_slice(), |token| Some(token.get_dst_col()) == above)?;
    let wanted = end_of(after.as_slice(), above != Some(col));
    same(rt, "after", map.lookup_token_after(table, line, col), wanted);
    let token = |index: Option<usize>| index.and_then(|i| map.get_tokens().as_slice().get(i).copied());
    same(rt, "index", token(map.lookup_token_index(table, line, col)), map.lookup_token(table, line, col));
    same(rt, "approx", token(map.lookup_token_index_approx(table, line, col)), map.lookup_token_approx(table, line, col));
    same(rt, "index after", token(map.lookup_token_index_after(table, line, col)), wanted);
    Ok(())
}

fn tokens_are_found(rt: &impl Abort, alloc: Global, map: &SourceMap<'_>, table: &[&[Token]], is_exact: bool) -> Result<()> {
    for line in LINES {
        for col in COLUMNS {
            some_token_is_found(rt, map, table, line, col);
            if is_exact {
                the_token_is_found(rt, alloc, map, table, line, col)?;
            }
        }
    }
    Ok(())
}

#[test]
fn tokens_are_looked_up_with_their_indices(rt: HostRuntime) -> Result<()> {
    let other = map_of_parts(rt.alloc(), INPUT)?;
    let table_of_other = other.generate_lookup_table(rt.alloc())?;
    each_hostile(|hostile| {
        let map = hostile_map(rt.alloc(), hostile)?;
        tokens_are_found(&rt, rt.alloc(), &map, table_of_other.as_slice(), false)?;
        if let Ok(table) = map.generate_lookup_table(rt.alloc()) {
            tokens_are_found(&rt, rt.alloc(), &map, table.as_slice(), hostile.is_sorted)?;
        }
        Ok(())
    })
}

/// What is to become of a map that is sorted.
fn sorted_parts(alloc: Global, hostile: &Hostile) -> Result<SourceMapParts<'static>> {
    let mut parts = hostile_map(alloc, hostile)?.into_parts();
    if !hostile.is_sorted {
        parts.tokens.sort_by_key(alloc, |token| (token.get_dst_line(), token.get_dst_col()))?;
        parts.token_chunks = None;
    }
    Ok(parts)
}

#[test]
fn maps_are_sorted(rt: HostRuntime) -> Result<()> {
    each_hostile(|hostile| {
        let wanted = sorted_parts(rt.alloc(), hostile)?;
        let mut map = hostile_map(rt.alloc(), hostile)?;
        map.sort(rt.alloc())?;
        same(&rt, "sorted", map.is_sorted(), true);
        are_parts(&rt, &map.into_parts(), &wanted);
        let mut owned = OwnedSourceMap::new(hostile_map(rt.alloc(), hostile)?);
        owned.sort(rt.alloc())?;
        are_parts(&rt, &owned.into_parts(), &wanted);
        Ok(())
    })
}
