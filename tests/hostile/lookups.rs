//! Lookups in hostile maps, and on lines whose columns go back: some token of the line or none.
use crate::helpers::{same, seen};
use crate::hostile::lists::wanted;
use crate::hostile::maps::{Hostile, INPUT, each_hostile, hostile_map, map_of_parts};
use oxc_sourcemap::{Result, SourceMap, Token};
use std::alloc::Global;
use std::process::Abort;

/// A lookup on the first line, whose columns may go back, finds one of its tokens or none.
fn some_token_is_found(rt: &impl Abort, map: &SourceMap<'_>, table: &[&[Token]]) {
    let found = map.lookup_token(table, 0, 2);
    assert!(rt; found.is_none_or(|token| table[0].contains(&token)));
    let view = map.lookup_source_view_token(table, 0, 2).map(seen);
    same(rt, "view", view.map(|view| view.0), found);
    let found = map.lookup_token_approx(table, 0, 2);
    assert!(rt; found.is_some_and(|token| table[0].contains(&token)));
    let view = map.lookup_source_view_token_approx(table, 0, 2).map(seen);
    same(rt, "clamped view", view.map(|view| view.0), found);
    let past = map.lookup_token_approx(table, 4294967295, 4294967295);
    same(rt, "past the last line", past, None);
}

/// Each slice of a table has the tokens of its line.
fn slices_have_the_tokens_of_their_line(rt: &impl Abort, hostile: &Hostile, table: &[&[Token]]) {
    for (line, tokens) in table.iter().enumerate() {
        let count = hostile
            .rows
            .iter()
            .filter(|row| row.0 as usize == line)
            .count();
        same(rt, "slice", tokens.len(), count);
        assert!(rt;
            tokens
                .iter()
                .all(|token| token.get_dst_line() as usize == line)
        );
    }
}

fn a_table_is_made_and_read(
    rt: &impl Abort,
    alloc: Global,
    map: &SourceMap<'_>,
    hostile: &Hostile,
) {
    match &map.generate_lookup_table(alloc) {
        Ok(table) => {
            same(rt, "lines", Ok(table.len()), hostile.lines);
            slices_have_the_tokens_of_their_line(rt, hostile, table.as_slice());
            some_token_is_found(rt, map, table.as_slice());
        }
        Err(error) => same(rt, "lines", Err(*error), hostile.lines),
    }
}

#[test]
fn tables_are_made_and_read(rt: HostRuntime) -> Result<()> {
    each_hostile(|hostile| {
        let map = hostile_map(rt.alloc(), hostile)?;
        a_table_is_made_and_read(&rt, rt.alloc(), &map, hostile);
        Ok(())
    })
}

/// The token is that of the other map, and its ids name what this one lists.
fn a_table_of_another_is_read(
    rt: &impl Abort,
    alloc: Global,
    map: &SourceMap<'_>,
    hostile: &Hostile,
) -> Result<()> {
    let other = map_of_parts(alloc, INPUT)?;
    let table = other.generate_lookup_table(alloc)?;
    let token = Token::new(0, 0, 7, 7, Some(0), None);
    let found = map.lookup_token(table.as_slice(), 0, 2);
    same(rt, "token", found, Some(token));
    let view = map.lookup_source_view_token(table.as_slice(), 0, 2);
    same(rt, "view", view.map(seen), Some(wanted(hostile, token)));
    Ok(())
}

#[test]
fn tables_of_another_map_are_read(rt: HostRuntime) -> Result<()> {
    each_hostile(|hostile| {
        let map = hostile_map(rt.alloc(), hostile)?;
        a_table_of_another_is_read(&rt, rt.alloc(), &map, hostile)
    })
}

/// The slice of a table is the line, whatever line its tokens name.
fn the_slice_is_the_line(rt: &impl Abort, map: &SourceMap<'_>) {
    let line = [Token::new(3, 5, 0, 0, None, None)];
    let table = [line.as_slice()];
    for (row, found) in [(0, Some(line[0])), (3, None)] {
        same(
            rt,
            "token",
            map.lookup_token(table.as_slice(), row, 7),
            found,
        );
        let view = map.lookup_source_view_token(table.as_slice(), row, 7);
        same(rt, "view", view.is_some(), found.is_some());
    }
    let first = map.lookup_token_approx(table.as_slice(), 0, 4);
    same(rt, "clamped", first, Some(line[0]));
}

#[test]
fn tables_made_by_hand_are_read(rt: HostRuntime) -> Result<()> {
    the_slice_is_the_line(&rt, &SourceMap::empty(rt.alloc())?);
    Ok(())
}

/// The columns of lines that go back, and how many columns a search may compare on each: as many as the number of tokens
/// has binary digits, and one more.
const LINES: &[(&[u32], u64)] = &[
    (&[3, 2], 3),
    (&[9, 1, 2], 3),
    (&[9, 0, 9, 4], 4),
    (&[4294967295, 0, 4294967295, 0], 4),
    (&[7, 6, 5, 4, 3, 2, 1], 4),
    (&[5, 5, 5, 0, 0, 0, 5, 5, 5, 0, 0, 0, 5, 5, 5, 0, 0, 0], 6),
];

const COLUMNS: &[u32] = &[0, 1, 2, 3, 4, 5, 6, 7, 8, 9, 10, 4294967294, 4294967295];

fn line_of(alloc: Global, columns: &[u32]) -> Result<Vec<Token>> {
    let mut line = Vec::new(alloc);
    for col in columns {
        line.push(Token::new(0, *col, 0, 0, None, None))?;
    }
    Ok(line)
}

fn some_token_or_none_is_found(rt: &impl Abort, line: &[Token], most: u64) {
    for col in COLUMNS {
        let mut steps = 77;
        let found = SourceMap::search(line, *col, &mut steps);
        assert!(rt; found.is_none_or(|token| line.contains(&token)));
        assert!(rt; steps > 0 && steps <= most);
    }
}

#[test]
fn lines_that_go_back_are_searched(rt: HostRuntime) -> Result<()> {
    for (columns, most) in LINES {
        let line = line_of(rt.alloc(), columns)?;
        some_token_or_none_is_found(&rt, line.as_slice(), *most);
    }
    Ok(())
}

/// Ranges of a map, whose pieces are in order and together the range, with tokens of their own lines.
const RANGES: &[[u32; 4]] = &[
    [0, 0, 9, 9],
    [0, 0, 4294967295, 4294967295],
    [0, 2, 0, 3],
    [0, 4294967295, 1, 0],
    [4294967294, 7, 4294967295, 0],
    [1, 1, 1, 1],
    [2, 0, 1, 9],
];

fn pieces_are_the_range(rt: &impl Abort, map: &SourceMap<'_>, range: [u32; 4]) {
    let [line, col, end_line, end_col] = range;
    let (mut at, end) = ((line, col), (end_line, end_col));
    let pieces = map.pieces(line, col, end_line, end_col);
    let (len, mut count) = (pieces.len(), 0);
    for piece in pieces {
        same(rt, "start", (piece.line, piece.col), at);
        at = (piece.end_line, piece.end_col);
        assert!(rt; (piece.line, piece.col) < at && at <= end);
        assert!(rt; piece.token.is_none_or(|token| token.get_dst_line() == piece.line));
        count += 1;
    }
    same(rt, "length", count, len);
    same(rt, "end", at.max(end), at);
}

#[test]
fn pieces_of_hostile_maps_are_their_range(rt: HostRuntime) -> Result<()> {
    each_hostile(|hostile| {
        let map = hostile_map(rt.alloc(), hostile)?;
        for range in RANGES {
            pieces_are_the_range(&rt, &map, *range);
        }
        Ok(())
    })
}

#[test]
fn pieces_of_lines_that_go_back_are_their_range(rt: HostRuntime) -> Result<()> {
    for (columns, _) in LINES {
        let tokens = line_of(rt.alloc(), columns)?.into_boxed_slice();
        let mut map = SourceMap::empty(rt.alloc())?.into_parts();
        map.tokens = tokens;
        let map = SourceMap::from_parts(map);
        for range in RANGES {
            pieces_are_the_range(&rt, &map, *range);
        }
    }
    Ok(())
}
