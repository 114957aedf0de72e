//! The pieces of a range. The rows are worked by hand from the rule; random ranges are compared with tests/reference/pieces.py.
use crate::helpers::same;
use crate::rows::{Row, map_of};
use oxc_sourcemap::{OwnedSourceMap, Piece, Pieces, Result, SourceMap, Token};
use std::alloc::Global;
use std::process::Abort;

const MAX: u32 = 4294967295;

/// Rows of tokens at these generated positions, each with its number as its source line.
macro_rules! at {
    ($($n:literal: $line:expr, $col:expr;)*) => { &[$(($line, $col, $n, 0, Some(0), None),)*] };
}

/// No token; one; several at one column; several before one in the next column; two lines with an empty one between; the greatest
/// positions.
const MAPS: &[&[Row]] = &[
    &[],
    at![0: 0, 3;],
    at![0: 0, 2; 1: 0, 5; 2: 0, 5; 3: 0, 5; 4: 0, 9;],
    at![0: 0, 1; 1: 0, 1; 2: 0, 2;],
    at![0: 0, 4; 1: 2, 0; 2: 2, 7;],
    at![0: 0, MAX; 1: 1, MAX; 2: 1, MAX; 3: 2, 0; 4: MAX, 0; 5: MAX, MAX;],
];

/// A position: a line and a column.
type At = (u32, u32);

/// The number of a map, a range, where it is cut, and the index of the token of each piece.
type Case = (usize, At, At, &'static [At], &'static [Option<usize>]);

const CASES: &[Case] = &[
    (0, (0, 0), (7, 3), &[], &[None]),
    (1, (0, 0), (0, 3), &[], &[None]),
    (1, (0, 0), (0, 4), &[(0, 3)], &[None, Some(0)]),
    (1, (0, 3), (0, 4), &[], &[Some(0)]),
    // It begins and ends in mid-piece.
    (1, (0, 5), (0, 6), &[], &[Some(0)]),
    (1, (0, 5), (1, 6), &[(1, 0)], &[Some(0), None]),
    (1, (1, 0), (9, 9), &[], &[None]),
    (2, (0, 0), (0, 12), &[(0, 2), (0, 5), (0, 6), (0, 9)], &[None, Some(0), Some(1), Some(3), Some(4)]),
    // The range begins at several tokens, after them, and ends at them.
    (2, (0, 5), (0, 8), &[(0, 6)], &[Some(1), Some(3)]),
    (2, (0, 6), (0, 8), &[], &[Some(3)]),
    (2, (0, 5), (0, 6), &[], &[Some(1)]),
    (2, (0, 4), (0, 5), &[], &[Some(0)]),
    (2, (0, 10), (1, 0), &[], &[Some(4)]),
    // The last of several has no piece.
    (3, (0, 0), (0, 4), &[(0, 1), (0, 2)], &[None, Some(0), Some(2)]),
    // A line without tokens, a token at column 0, and the lines after the last token.
    (4, (0, 0), (5, 1), &[(0, 4), (1, 0), (2, 0), (2, 7), (3, 0)], &[None, Some(0), None, Some(1), Some(2), None]),
    (4, (0, 9), (2, 0), &[(1, 0)], &[Some(0), None]),
    (4, (1, 0), (2, 1), &[(2, 0)], &[None, Some(1)]),
    (4, (1, MAX), (2, 0), &[], &[None]),
    (4, (2, 7), (2, MAX), &[], &[Some(2)]),
    (5, (0, MAX), (1, 0), &[], &[Some(0)]),
    (5, (0, MAX - 1), (1, 1), &[(0, MAX), (1, 0)], &[None, Some(0), None]),
    // Of two tokens in the last column the second has no piece.
    (5, (1, 0), (3, 0), &[(1, MAX), (2, 0)], &[None, Some(1), Some(3)]),
    (5, (MAX - 1, MAX), (MAX, MAX), &[(MAX, 0)], &[None, Some(4)]),
    (5, (MAX, MAX - 1), (MAX, MAX), &[], &[Some(4)]),
];

/// Asserts that these are the pieces of a range, cut there, with these tokens, and that the iterator tells how many are left.
fn are(rt: &impl Abort, map: &SourceMap<'_>, mut pieces: Pieces<'_>, case: &Case) {
    let (_, start, end, cuts, found) = *case;
    let mut left = found.len();
    let mut from = start;
    let ends = cuts.iter().copied().chain(std::iter::once(end));
    for (wanted, until) in found.iter().zip(ends) {
        same(rt, "left", (pieces.len(), pieces.size_hint()), (left, (left, Some(left))));
        let token = wanted.and_then(|i| map.get_token(i as u32));
        let piece = Piece { line: from.0, col: from.1, end_line: until.0, end_col: until.1, token, index: *wanted };
        same(rt, "piece", pieces.next(), Some(piece));
        left = left.saturating_sub(1);
        from = until;
    }
    same(rt, "past", (pieces.len(), pieces.next(), pieces.next()), (0, None, None));
}

#[test]
fn ranges_are_cut_at_tokens(rt: HostRuntime) -> Result<()> {
    for case in CASES {
        let map = map_of(rt.alloc(), &[], &[], &[], MAPS[case.0])?;
        let ((line, col), (end_line, end_col)) = (case.1, case.2);
        are(&rt, &map, map.pieces(line, col, end_line, end_col), case);
        let owned = OwnedSourceMap::from(map.into_owned(rt.alloc())?);
        are(&rt, &owned, owned.pieces(line, col, end_line, end_col), case);
    }
    Ok(())
}

#[test]
fn empty_and_backward_ranges_have_no_pieces(rt: HostRuntime) -> Result<()> {
    for rows in MAPS {
        let map = map_of(rt.alloc(), &[], &[], &[], *rows)?;
        for ((line, col), (end_line, end_col)) in
            [((0, 0), (0, 0)), ((0, 5), (0, 5)), ((0, 5), (0, 4)), ((1, 0), (0, MAX)), ((MAX, MAX), (MAX, MAX)), ((MAX, MAX), (0, 0))]
        {
            let mut pieces = map.pieces(line, col, end_line, end_col);
            same(&rt, "none", (pieces.len(), pieces.next()), (0, None));
        }
    }
    Ok(())
}

/// What tests/reference/pieces.py prints.
const RANGES: u32 = 20000;
const PIECES: u32 = 27799;
const WITH_TOKEN: u32 = 15724;
const CHECKSUM: u64 = 2515902455;

/// Its random numbers.
fn below(seed: &mut u64, limit: u64) -> u64 {
    *seed = (*seed % 2147483648 * 1103515245 + 12345) % 2147483648;
    (*seed >> 16) % limit.max(1)
}

fn position(seed: &mut u64) -> At {
    const COLUMNS: [u32; 7] = [0, 1, 2, 3, 4, MAX - 1, MAX];
    let line = below(seed, 4) as u32;
    (line, COLUMNS[below(seed, 7) as usize])
}

/// A map with some tokens at random positions, sorted; the index of each is its source line.
fn random_map(alloc: Global, seed: &mut u64) -> Result<SourceMap<'static>> {
    let mut positions = Vec::new(alloc);
    for _ in 0..below(seed, 9) {
        positions.push(position(seed))?;
    }
    positions.sort()?;
    let mut tokens = Vec::new(alloc);
    for (i, (line, col)) in positions.iter().enumerate() {
        tokens.push(Token::new(*line, *col, i as u32, 0, Some(0), None))?;
    }
    let none = Vec::new(alloc);
    let tokens = tokens.into_boxed_slice();
    Ok(SourceMap::new(None, none, None, Vec::new(alloc), Vec::new(alloc), tokens, None))
}

#[test]
fn random_ranges_are_cut(rt: HostRuntime) -> Result<()> {
    let (mut seed, mut count, mut with_token, mut checksum) = (1u64, 0u32, 0u32, 0u64);
    for _ in 0..RANGES {
        let map = random_map(rt.alloc(), &mut seed)?;
        let (start, end) = (position(&mut seed), position(&mut seed));
        for piece in map.pieces(start.0, start.1, end.0, end.1) {
            count += 1;
            with_token += u32::from(piece.token.is_some());
            let found = piece.token.map_or(99, |token| token.get_src_line());
            for number in [piece.line, piece.col, piece.end_line, piece.end_col, found] {
                checksum = (checksum * 31 + u64::from(number)) % 4294967296;
            }
        }
    }
    same(&rt, "pieces", (count, with_token), (PIECES, WITH_TOKEN));
    same(&rt, "checksum", checksum, CHECKSUM);
    Ok(())
}
