//! Lookup tables and lookups, on maps plain and owned.
use crate::helpers::{same, seen};
use crate::rows::{Row, map_of, tokens_of};
use oxc_sourcemap::{Error, OwnedSourceMap, Result, SourceMap, SourceViewToken, Token};
use std::alloc::Global;
use std::process::Abort;

/// Tokens of one source on several lines.
const COOL: &[Row] = &[
    (0, 0, 0, 0, Some(0), None),
    (0, 3, 0, 4, Some(0), Some(0)),
    (0, 6, 0, 8, Some(0), None),
    (0, 8, 1, 0, Some(0), None),
    (0, 12, 1, 4, Some(0), Some(0)),
    (0, 15, 1, 9, Some(0), None),
    (0, 17, 1, 12, Some(0), None),
    (0, 18, 2, 2, Some(0), Some(1)),
    (0, 24, 2, 8, Some(0), None),
];

/// Several tokens at one column.
const EQUAL: &[Row] = &[
    (0, 0, 9, 9, Some(0), None),
    (0, 7, 1, 0, Some(0), None),
    (0, 7, 2, 0, Some(0), None),
    (0, 7, 3, 0, Some(0), None),
    (0, 7, 4, 0, Some(0), None),
    (0, 7, 5, 0, Some(0), None),
];

/// One token, not at the front of its line.
const FIVE: &[Row] = &[(0, 5, 0, 0, None, None)];

/// Lines with and without tokens.
const LINES: &[Row] = &[
    (1, 1, 1, 1, Some(0), Some(0)),
    (3, 1, 1, 1, Some(1), Some(2)),
    (3, 2, 2, 2, Some(2), Some(3)),
];

/// Two tokens at the last column.
const END: &[Row] = &[
    (0, 4294967295, 1, 0, Some(0), None),
    (0, 4294967295, 2, 0, Some(0), None),
];

/// Tokens, a line and a column, and the index of the token found: exactly, clamped, and from the column on.
type Lookup = (&'static [Row], u32, u32, Option<usize>, Option<usize>, Option<usize>);

const LOOKUPS: &[Lookup] = &[
    (COOL, 0, 3, Some(1), Some(1), Some(1)),
    (COOL, 0, 1000, Some(8), Some(8), None),
    (COOL, 1000, 0, None, None, None),
    (EQUAL, 0, 6, Some(0), Some(0), Some(1)),
    (EQUAL, 0, 7, Some(1), Some(1), Some(5)),
    (EQUAL, 0, 8, Some(5), Some(5), None),
    (FIVE, 0, 0, None, Some(0), Some(0)),
    (END, 0, 4294967294, None, Some(0), Some(0)),
    (END, 0, 4294967295, Some(0), Some(0), Some(1)),
    (LINES, 1, 0, None, Some(0), Some(0)),
    (LINES, 2, 5, None, None, None),
    (LINES, 3, 0, None, Some(1), Some(1)),
    (LINES, 3, 1, Some(1), Some(1), Some(1)),
    (LINES, 4, 0, None, None, None),
    (&[], 0, 0, None, None, None),
];

fn map_of_rows(alloc: Global, rows: &[Row]) -> Result<SourceMap<'static>> {
    map_of(alloc, &[], &[], &[], rows)
}

fn token_at(rows: &[Row], index: Option<usize>) -> Option<Token> {
    let (dst_line, dst_col, src_line, src_col, source_id, name_id) = *rows.get(index?)?;
    Some(Token::new(dst_line, dst_col, src_line, src_col, source_id, name_id))
}

/// The token that is viewed.
fn token_of(view: Option<SourceViewToken<'_, '_>>) -> Option<Token> {
    Some(seen(view?).0)
}

/// Asserts what the lookups of a map find. `SourceMap` and `OwnedSourceMap` have the same ones, each its own.
macro_rules! finds {
    ($rt:expr, $alloc:expr, $map:expr, $lookup:expr) => {
        let (rt, map) = ($rt, $map);
        let (rows, line, col, exact, clamped, after) = *$lookup;
        let table = map.generate_lookup_table($alloc)?;
        let table = table.as_slice();
        same(rt, "exact index", map.lookup_token_index(table, line, col), exact);
        same(rt, "clamped index", map.lookup_token_index_approx(table, line, col), clamped);
        same(rt, "index after", map.lookup_token_index_after(table, line, col), after);
        let (exact, clamped) = (token_at(rows, exact), token_at(rows, clamped));
        same(rt, "after", map.lookup_token_after(table, line, col), token_at(rows, after));
        same(rt, "exact", map.lookup_token(table, line, col), exact);
        same(rt, "clamped", map.lookup_token_approx(table, line, col), clamped);
        let view = map.lookup_source_view_token(table, line, col);
        same(rt, "exact view", token_of(view), exact);
        let view = map.lookup_source_view_token_approx(table, line, col);
        same(rt, "clamped view", token_of(view), clamped);
    };
}

fn a_map_finds(rt: &impl Abort, alloc: Global, map: &SourceMap<'_>, lookup: &Lookup) -> Result<()> {
    finds!(rt, alloc, map, lookup);
    Ok(())
}

fn an_owned_map_finds(
    rt: &impl Abort,
    alloc: Global,
    map: &OwnedSourceMap,
    lookup: &Lookup,
) -> Result<()> {
    finds!(rt, alloc, map, lookup);
    Ok(())
}

#[test]
fn tokens_are_looked_up(rt: HostRuntime) -> Result<()> {
    for lookup in LOOKUPS {
        let map = OwnedSourceMap::new(map_of_rows(rt.alloc(), lookup.0)?);
        an_owned_map_finds(&rt, rt.alloc(), &map, lookup)?;
        a_map_finds(&rt, rt.alloc(), map.as_source_map(), lookup)?;
    }
    Ok(())
}

/// Searches the tokens of one line, with at most this many comparisons.
fn a_line_gives(rt: &impl Abort, line: &[Token], col: u32, wanted: Option<Token>, most: u64) {
    let mut steps = 77;
    same(
        rt,
        "token",
        SourceMap::search(line, col, &mut steps),
        wanted,
    );
    assert!(rt; steps <= most);
    same(rt, "no steps", steps == 0, line.is_empty());
}

#[test]
fn lines_are_searched(rt: HostRuntime) -> Result<()> {
    for (rows, col, found, most) in [
        (COOL, 3, Some(1), 5),
        (COOL, 1000, Some(8), 5),
        (EQUAL, 7, Some(1), 4),
        (EQUAL, 8, Some(5), 4),
        (FIVE, 0, None, 2),
        (&[], 0, None, 0),
    ] {
        let line = tokens_of(rt.alloc(), rows)?;
        a_line_gives(&rt, line.as_slice(), col, token_at(rows, found), most);
    }
    Ok(())
}

#[test]
fn many_equal_columns_are_searched(rt: HostRuntime) -> Result<()> {
    let mut line = Vec::new(rt.alloc());
    for src_line in 0..65536 {
        line.push(Token::new(0, 7, src_line, 0, Some(0), None))?;
    }
    let first = Token::new(0, 7, 0, 0, Some(0), None);
    let last = Token::new(0, 7, 65535, 0, Some(0), None);
    a_line_gives(&rt, line.as_slice(), 7, Some(first), 18);
    a_line_gives(&rt, line.as_slice(), 8, Some(last), 18);
    Ok(())
}

fn token_of_column(col: u32) -> Token {
    Token::new(0, col, 0, col, None, None)
}

/// A map whose one line has a token at each column below this one.
fn map_of_columns(alloc: Global, columns: u32) -> Result<SourceMap<'static>> {
    let mut tokens = Vec::with_capacity(alloc, columns as usize)?;
    for col in 0..columns {
        tokens.push(token_of_column(col))?;
    }
    Ok(SourceMap::new(
        None,
        Vec::new(alloc),
        None,
        Vec::new(alloc),
        Vec::new(alloc),
        tokens.into_boxed_slice(),
        None,
    ))
}

/// A lookup that walked the line would not end within the time of a test.
#[test]
fn each_column_of_a_long_line_is_looked_up(rt: HostRuntime) -> Result<()> {
    let columns = 1048576;
    let map = map_of_columns(rt.alloc(), columns)?;
    let table = map.generate_lookup_table(rt.alloc())?;
    let table = table.as_slice();
    for col in 0..columns {
        let found = map.lookup_token(table, 0, col);
        same(&rt, "exact", found, Some(token_of_column(col)));
        let found = map.lookup_token_approx(table, 0, col);
        same(&rt, "clamped", found, Some(token_of_column(col)));
    }
    Ok(())
}

fn a_table_has_a_slice_for_each_line(
    rt: &impl Abort,
    alloc: Global,
    map: &SourceMap<'_>,
) -> Result<()> {
    let table = map.generate_lookup_table(alloc)?;
    let mut lengths = Vec::new(alloc);
    for line in table.as_slice() {
        lengths.push(line.len())?;
    }
    let wanted: [usize; 4] = [0, 1, 0, 2];
    same(rt, "lengths", lengths.as_slice(), wanted.as_slice());
    Ok(())
}

/// A lookup in an empty map, with the table of another one.
fn the_table_that_it_is_handed_is_read(
    rt: &impl Abort,
    alloc: Global,
    empty: &SourceMap<'_>,
    other: &SourceMap<'_>,
) -> Result<()> {
    let table = empty.generate_lookup_table(alloc)?;
    assert!(rt; table.is_empty());
    let table = other.generate_lookup_table(alloc)?;
    let found = empty.lookup_token(table.as_slice(), 0, 7);
    same(rt, "found", found, token_at(EQUAL, Some(1)));
    Ok(())
}

/// Tokens whose lines go back.
const BACK_A_LINE: &[Row] = &[(1, 0, 0, 0, None, None), (0, 0, 0, 0, None, None)];

#[test]
fn tables_are_made(rt: HostRuntime) -> Result<()> {
    let map = map_of_rows(rt.alloc(), LINES)?;
    a_table_has_a_slice_for_each_line(&rt, rt.alloc(), &map)
}

#[test]
fn a_table_asks_for_line_order(rt: HostRuntime) -> Result<()> {
    let map = map_of_rows(rt.alloc(), BACK_A_LINE)?;
    let fault = map.generate_lookup_table(rt.alloc()).err();
    same(&rt, "error", fault, Some(Error::LineOrder(1)));
    Ok(())
}

/// A lookup in a map with the table of another one.
fn the_table_of_another_is_read(
    rt: &impl Abort,
    alloc: Global,
    empty: &SourceMap<'_>,
) -> Result<()> {
    let other = map_of_rows(alloc, EQUAL)?;
    the_table_that_it_is_handed_is_read(rt, alloc, empty, &other)
}

#[test]
fn tables_are_read(rt: HostRuntime) -> Result<()> {
    let empty = SourceMap::empty(rt.alloc())?;
    the_table_of_another_is_read(&rt, rt.alloc(), &empty)
}

/// The text of a map, its sources and names, and what lookups find: source, source line, source column and name.
const TEXT: &str =
    r#"{"version":3,"sources":["coolstuff.js"],"names":["x","alert"],"mappings":"AAAA,GAAIA,GAAI,EACR,IAAIA,GAAK,EAAG,CACVC,MAAM"}"#;

type Origin<'t> = (Option<&'t str>, u32, u32, Option<&'t str>);

const ORIGINS: &[(u32, Origin<'static>)] = &[
    (0, (Some("coolstuff.js"), 0, 0, None)),
    (3, (Some("coolstuff.js"), 0, 4, Some("x"))),
    (24, (Some("coolstuff.js"), 2, 8, None)),
    (1000, (Some("coolstuff.js"), 2, 8, None)),
];

fn origins_are_found(rt: &impl Abort, alloc: Global, map: &OwnedSourceMap) -> Result<()> {
    let table = map.generate_lookup_table(alloc)?;
    let table = table.as_slice();
    for (col, origin) in ORIGINS {
        let Some(view) = map.lookup_source_view_token(table, 0, *col) else {
            return Ok(assert!(rt; false, "a view"));
        };
        same(rt, "exact", view.to_tuple(), *origin);
        let inside = map.as_source_map();
        let Some(view) = inside.lookup_source_view_token_approx(table, 0, *col) else {
            return Ok(assert!(rt; false, "a view"));
        };
        same(rt, "clamped", view.to_tuple(), *origin);
    }
    assert!(rt; map.lookup_source_view_token(table, 1000, 0).is_none());
    Ok(())
}

#[test]
fn views_are_looked_up(rt: HostRuntime) -> Result<()> {
    let map = OwnedSourceMap::from_json_string(rt.alloc(), TEXT)?;
    origins_are_found(&rt, rt.alloc(), &map)
}

/// Tokens whose columns go back.
const BACK_A_COLUMN: &[Row] = &[(0, 3, 0, 0, None, None), (0, 2, 0, 0, None, None)];

fn some_token_or_none_is_found(rt: &impl Abort, alloc: Global, map: &SourceMap<'_>) -> Result<()> {
    let table = map.generate_lookup_table(alloc)?;
    let found = map.lookup_token(table.as_slice(), 0, 2);
    let is_first = found == token_at(BACK_A_COLUMN, Some(0));
    let is_second = found == token_at(BACK_A_COLUMN, Some(1));
    assert!(rt; found.is_none() || is_first || is_second);
    let view = map.lookup_source_view_token(table.as_slice(), 0, 2);
    same(rt, "view", token_of(view), found);
    Ok(())
}

#[test]
fn columns_that_go_back_give_some_token_or_none(rt: HostRuntime) -> Result<()> {
    let map = map_of_rows(rt.alloc(), BACK_A_COLUMN)?;
    some_token_or_none_is_found(&rt, rt.alloc(), &map)
}
