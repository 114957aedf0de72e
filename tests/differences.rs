//! Where two maps differ first. The rows are worked by hand from the rule; random pairs are compared with
//! tests/reference/differences.py.
use crate::helpers::same;
use crate::rows::{Row, map_of};
use oxc_sourcemap::{OwnedSourceMap, Result, SourceMap};
use std::alloc::Global;

const MAX: u32 = 4294967295;

/// A map of two sources and two names.
struct Rows {
    names: [&'static str; 2],
    sources: [&'static str; 2],
    contents: [Option<&'static str>; 2],
    rows: &'static [Row],
}

/// Tokens of these rows, over the sources `a` and `b` without contents and the names `p` and `q`.
macro_rules! plain {
    ($($row:expr),*) => { Rows { names: ["p", "q"], sources: ["a", "b"], contents: [None, None], rows: &[$($row),*] } };
}

/// The same with the sources and the names in the other order.
macro_rules! swapped {
    ($($row:expr),*) => { Rows { names: ["q", "p"], sources: ["b", "a"], contents: [None, None], rows: &[$($row),*] } };
}

/// A token of each of two sources with these contents.
macro_rules! of_contents {
    ($first:expr, $second:expr) => {
        Rows {
            names: ["p", "q"],
            sources: ["a", "b"],
            contents: [$first, $second],
            rows: &[(0, 4, 1, 1, Some(0), None), (1, 2, 1, 1, Some(1), None)],
        }
    };
}

/// Two maps, and the position.
type Case = (Rows, Rows, Option<(u32, u32)>);

const CASES: &[Case] = &[
    (plain![], plain![], None),
    (plain![], plain![(3, 7, 0, 0, Some(0), None)], Some((3, 7))),
    (plain![(3, 7, 0, 0, Some(0), None)], plain![], Some((3, 7))),
    // Texts are compared, and not ids.
    (plain![(0, 4, 1, 1, Some(0), Some(1))], swapped![(0, 4, 1, 1, Some(1), Some(0))], None),
    (plain![(0, 4, 1, 1, Some(0), Some(1))], swapped![(0, 4, 1, 1, Some(0), Some(0))], Some((0, 4))),
    (plain![(0, 4, 1, 1, Some(0), Some(1))], swapped![(0, 4, 1, 1, Some(1), Some(1))], Some((0, 4))),
    // A source has a content, another one, or none.
    (of_contents!(Some("x"), None), of_contents!(Some("x"), None), None),
    (of_contents!(Some("x"), None), of_contents!(Some("y"), None), Some((0, 4))),
    (of_contents!(None, Some("x")), of_contents!(None, None), Some((1, 2))),
    // The source line, the source column, the name.
    (plain![(2, 1, 5, 6, Some(0), Some(0))], plain![(2, 1, 4, 6, Some(0), Some(0))], Some((2, 1))),
    (plain![(2, 1, 5, 6, Some(0), Some(0))], plain![(2, 1, 5, 7, Some(0), Some(0))], Some((2, 1))),
    (plain![(2, 1, 5, 6, Some(0), Some(0))], plain![(2, 1, 5, 6, Some(0), None)], Some((2, 1))),
    // An id out of range is none, and an unmapped token has no source position and no name.
    (plain![(2, 1, 5, 6, Some(0), Some(9))], plain![(2, 1, 5, 6, Some(0), None)], None),
    (plain![(2, 1, 5, 6, Some(9), Some(0))], plain![(2, 1, 0, 0, None, None)], None),
    (plain![(2, 1, 5, 6, None, Some(0))], plain![(2, 1, 0, 0, None, None)], None),
    // An unmapped token is not nothing.
    (plain![(2, 1, 0, 0, None, None)], plain![], Some((2, 1))),
    (plain![(2, 1, 0, 0, None, None)], plain![(2, 1, 5, 6, Some(0), None)], Some((2, 1))),
    // Tokens that change nothing: one that points where the one before it on its line does, and one between two at its position.
    (plain![(0, 1, 1, 1, Some(0), None), (0, 5, 1, 1, Some(0), None)], plain![(0, 1, 1, 1, Some(0), None)], None),
    (plain![(0, 1, 1, 1, Some(0), None), (1, 5, 1, 1, Some(0), None)], plain![(0, 1, 1, 1, Some(0), None)], Some((1, 5))),
    (
        plain![(0, 1, 1, 1, Some(0), None), (0, 1, 2, 2, Some(0), None), (0, 1, 3, 3, Some(0), None)],
        plain![(0, 1, 1, 1, Some(0), None), (0, 2, 3, 3, Some(0), None)],
        None,
    ),
    // Of two tokens in a column the second is found from the next column on, if no token is there.
    (
        plain![(0, 1, 1, 1, Some(0), None), (0, 1, 2, 2, Some(0), None)],
        plain![(0, 1, 1, 1, Some(0), None)],
        Some((0, 2)),
    ),
    (
        plain![(0, 1, 1, 1, Some(0), None), (0, 1, 2, 2, Some(0), None), (0, 2, 3, 3, Some(0), None)],
        plain![(0, 1, 1, 1, Some(0), None), (0, 2, 3, 3, Some(0), None)],
        None,
    ),
    // One map goes on where the other one ends, on the same line and on a later one.
    (plain![(0, 1, 1, 1, Some(0), None)], plain![(0, 1, 1, 1, Some(0), None), (0, 8, 1, 2, Some(0), None)], Some((0, 8))),
    (plain![(0, 1, 1, 1, Some(0), None), (9, 0, 1, 1, Some(0), None)], plain![(0, 1, 1, 1, Some(0), None)], Some((9, 0))),
    // A token further right comes after one on an earlier line.
    (plain![(0, 9, 1, 1, Some(0), None)], plain![(1, 2, 1, 1, Some(0), None)], Some((0, 9))),
    // A token holds to the end of its line and not beyond: only at column 0 of the next line do these differ.
    (
        plain![(0, MAX, 1, 1, Some(0), None), (1, 0, 1, 1, Some(0), None)],
        plain![(0, MAX, 1, 1, Some(0), None)],
        Some((1, 0)),
    ),
    // In the last column only the first of several tokens is found, and the next column is on no line.
    (plain![(0, MAX, 1, 1, Some(0), None), (0, MAX, 2, 2, Some(0), None)], plain![(0, MAX, 1, 1, Some(0), None)], None),
    (plain![(MAX, MAX, 1, 1, Some(0), None), (MAX, MAX, 2, 2, Some(0), None)], plain![(MAX, MAX, 1, 1, Some(0), None)], None),
    (plain![(MAX, MAX, 1, 1, Some(0), None)], plain![(MAX, MAX, 2, 2, Some(0), None)], Some((MAX, MAX))),
    (plain![(0, MAX - 1, 1, 1, Some(0), None), (0, MAX - 1, 2, 2, Some(0), None)], plain![(0, MAX - 1, 1, 1, Some(0), None)], Some((0, MAX))),
    // The sources of two tokens are equal again after others that are not.
    (
        plain![(0, 1, 1, 1, Some(0), None), (0, 2, 1, 1, Some(1), None), (0, 3, 1, 1, Some(0), None), (0, 4, 1, 1, Some(1), None)],
        swapped![(0, 1, 1, 1, Some(1), None), (0, 2, 1, 1, Some(0), None), (0, 3, 1, 1, Some(1), None), (0, 4, 1, 1, Some(1), None)],
        Some((0, 4)),
    ),
];

fn map_from(alloc: Global, rows: &Rows) -> Result<SourceMap<'static>> {
    map_of(alloc, &rows.names, &rows.sources, &rows.contents, rows.rows)
}

/// The first difference of two maps, as a line and a column.
fn difference(a: &SourceMap<'_>, b: &SourceMap<'_>) -> Option<(u32, u32)> {
    a.first_difference(b).map(|at| (at.line, at.column))
}

#[test]
fn maps_differ_first_where_their_traces_do(rt: HostRuntime) -> Result<()> {
    for (first, second, wanted) in CASES {
        let (a, b) = (map_from(rt.alloc(), first)?, map_from(rt.alloc(), second)?);
        same(&rt, "difference", difference(&a, &b), *wanted);
        same(&rt, "the other way round", difference(&b, &a), *wanted);
        same(&rt, "itself", (difference(&a, &a), difference(&b, &b)), (None, None));
        let (a, b) = (a.into_owned(rt.alloc())?, b.into_owned(rt.alloc())?);
        let (a, b) = (OwnedSourceMap::from(a), OwnedSourceMap::from(b));
        same(&rt, "owned", a.first_difference(&b).map(|at| (at.line, at.column)), *wanted);
    }
    Ok(())
}

/// What tests/reference/differences.py prints.
const PAIRS: u32 = 20000;
const DIFFERENT: u32 = 7092;
const CHECKSUM: u64 = 3469690288;

/// Its random numbers.
fn below(seed: &mut u64, limit: u64) -> u64 {
    *seed = (*seed % 2147483648 * 1103515245 + 12345) % 2147483648;
    (*seed >> 16) % limit.max(1)
}

fn id(seed: &mut u64) -> Option<u32> {
    match below(seed, 8) as u32 {
        0 => None,
        1 => Some(2),
        number => Some(number % 2),
    }
}

fn content(seed: &mut u64) -> Option<&'static str> {
    [None, Some("x"), Some("y")][below(seed, 3) as usize]
}

fn row(seed: &mut u64) -> Row {
    const COLUMNS: [u32; 7] = [0, 1, 2, 3, 4, MAX - 1, MAX];
    let line = below(seed, 4) as u32;
    let col = COLUMNS[below(seed, 7) as usize];
    let src_line = below(seed, 2) as u32;
    let source_id = id(seed);
    (line, col, src_line, 0, source_id, id(seed))
}

fn swapped_id(id: Option<u32>) -> Option<u32> {
    id.map(|id| if id < 2 { 1 - id } else { id })
}

/// A map of these rows, sorted by their generated positions.
fn sorted_map(alloc: Global, rows: &Vec<Row>, lists: &Lists) -> Result<SourceMap<'static>> {
    let mut map = map_of(alloc, &lists.0, &lists.1, &lists.2, rows.as_slice())?;
    map.sort(alloc)?;
    Ok(map)
}

/// Names, sources and contents.
type Lists = ([&'static str; 2], [&'static str; 2], [Option<&'static str>; 2]);

/// The rows of a sorted map, of which some are dropped, doubled, moved to the next column, or point to another line.
fn edited(alloc: Global, seed: &mut u64, map: &SourceMap<'_>) -> Result<Vec<Row>> {
    let mut rows = Vec::new(alloc);
    for token in map.get_tokens() {
        let kind = below(seed, 24);
        let col = token.get_dst_col();
        let row = (
            token.get_dst_line(),
            if kind == 2 && col < MAX { col + 1 } else { col },
            if kind == 3 { token.get_src_line() ^ 1 } else { token.get_src_line() },
            0,
            token.get_source_id(),
            token.get_name_id(),
        );
        let times = if kind == 0 { 0 } else if kind == 1 { 2 } else { 1 };
        for _ in 0..times {
            rows.push(row)?;
        }
    }
    Ok(rows)
}

/// A map, and one that may say the same with its lists in another order, or is edited.
fn pair(alloc: Global, seed: &mut u64) -> Result<(SourceMap<'static>, SourceMap<'static>)> {
    let mut rows = Vec::new(alloc);
    for _ in 0..below(seed, 9) {
        rows.push(row(seed))?;
    }
    let first = content(seed);
    let mut lists: Lists = (["p", "q"], ["a", "b"], [first, content(seed)]);
    let a = sorted_map(alloc, &rows, &lists)?;
    let mut after = edited(alloc, seed, &a)?;
    if below(seed, 2) == 1 {
        lists = (lists.0, [lists.1[1], lists.1[0]], [lists.2[1], lists.2[0]]);
        for row in after.iter_mut() {
            row.4 = swapped_id(row.4);
        }
    }
    if below(seed, 2) == 1 {
        lists.0 = [lists.0[1], lists.0[0]];
        for row in after.iter_mut() {
            row.5 = swapped_id(row.5);
        }
    }
    if below(seed, 8) == 0 {
        lists.2 = [content(seed), lists.2[1]];
    }
    let b = sorted_map(alloc, &after, &lists)?;
    Ok((a, b))
}

#[test]
fn random_pairs_differ_as_tried(rt: HostRuntime) -> Result<()> {
    let (mut seed, mut different, mut checksum) = (1u64, 0u32, 0u64);
    for _ in 0..PAIRS {
        let (a, b) = pair(rt.alloc(), &mut seed)?;
        let found = difference(&a, &b);
        different += u32::from(found.is_some());
        let (line, column) = found.unwrap_or((99, 99));
        for number in [line, column] {
            checksum = (checksum * 31 + u64::from(number)) % 4294967296;
        }
    }
    same(&rt, "different", different, DIFFERENT);
    same(&rt, "checksum", checksum, CHECKSUM);
    Ok(())
}

#[test]
fn simplified_maps_do_not_differ(rt: HostRuntime) -> Result<()> {
    let (mut seed, mut count) = (1u64, 0u32);
    for _ in 0..2000 {
        let (a, mut b) = pair(rt.alloc(), &mut seed)?;
        let wanted = difference(&a, &b);
        // It fails only where a token would move past the last column.
        if b.simplify(rt.alloc()).is_ok() {
            same(&rt, "simplified", difference(&a, &b), wanted);
            count += 1;
        }
    }
    assert!(rt; count > 1900, "{count}");
    Ok(())
}
