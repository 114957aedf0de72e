//! Reverse lookups: from original positions to generated ones. The rows are answers of a plain implementation of the rules; the
//! first map is worked by hand.
use crate::helpers::same;
use crate::rows::{Row, map_of, tokens_of};
use oxc_sourcemap::{OwnedSourceMap, Result, SourceIndex, SourceMap, Token};
use std::alloc::Global;
use std::process::Abort;

/// Maps whose tokens have places and source ids at random, also out of range.
const MAPS: &[&[Row]] = &[
    &[(0, 0, 0, 4, Some(1), None), (0, 3, 0, 9, Some(1), None), (0, 4, 0, 4, None, None), (0, 5, 0, 4, Some(0), None), (0, 6, 0, 4, Some(1), None), (0, 8, 0, 9, Some(1), None)],
    &[(1, 0, 4294967295, 5, Some(1), None), (1, 2, 0, 5, Some(4294967294), Some(0)), (1, 2, 0, 4, None, None), (2, 4, 2, 3, Some(1), Some(0)), (0, 3, 0, 4, Some(0), None), (0, 2, 4294967295, 3, Some(7), Some(0)), (1, 2, 0, 3, Some(1), Some(0))],
    &[(0, 3, 1, 1, None, None), (0, 4, 1, 4294967295, Some(0), Some(0)), (1, 3, 4294967295, 4294967295, Some(1), Some(0)), (0, 3, 4294967295, 0, Some(1), Some(0)), (2, 5, 4294967295, 0, Some(0), None), (2, 0, 2, 5, Some(1), Some(0)), (2, 5, 2, 0, Some(7), Some(0)), (1, 4, 1, 3, Some(7), None), (1, 2, 0, 2, Some(0), Some(0)), (2, 5, 4294967295, 1, Some(1), None), (0, 4, 4294967295, 4, Some(0), None), (1, 0, 2, 1, Some(1), Some(0))],
    &[(1, 4, 2, 2, Some(0), None), (1, 4, 4294967295, 0, None, Some(0)), (1, 5, 0, 3, Some(0), None), (0, 1, 1, 4294967295, None, None), (2, 0, 4294967295, 3, None, None), (0, 1, 1, 1, Some(1), None), (0, 0, 2, 3, Some(1), Some(0)), (1, 0, 0, 2, Some(0), Some(0)), (2, 3, 1, 4294967295, None, Some(0)), (0, 2, 0, 2, Some(7), Some(0)), (0, 0, 1, 4294967295, Some(1), None), (2, 4, 0, 5, Some(1), None)],
    &[],
];

/// The number of a map, a source id, a line and a column; then indices of tokens: those at the place, the ones found for it and
/// from it, all at the place of either, and those of the line.
type Lookup = (
    (usize, u32, u32, u32),
    &'static [usize],
    Option<usize>,
    Option<usize>,
    &'static [usize],
    &'static [usize],
    &'static [usize],
);

const LOOKUPS: &[Lookup] = &[
    ((0, 1, 0, 4), &[0, 4], Some(0), Some(4), &[0, 4], &[0, 4], &[0, 4, 1, 5]),
    ((0, 1, 0, 8), &[], Some(4), Some(1), &[0, 4], &[1, 5], &[0, 4, 1, 5]),
    ((0, 1, 0, 5), &[], Some(4), Some(1), &[0, 4], &[1, 5], &[0, 4, 1, 5]),
    ((0, 1, 0, 3), &[], None, Some(0), &[], &[0, 4], &[0, 4, 1, 5]),
    ((0, 1, 0, 10), &[], Some(5), None, &[1, 5], &[], &[0, 4, 1, 5]),
    ((0, 0, 0, 4), &[3], Some(3), Some(3), &[3], &[3], &[3]),
    ((0, 4294967295, 0, 4), &[], None, None, &[], &[], &[]),
    ((0, 2, 0, 4), &[], None, None, &[], &[], &[]),
    ((0, 1, 1, 0), &[], None, None, &[], &[], &[]),
    ((1, 1, 4294967295, 5), &[0], Some(0), Some(0), &[0], &[0], &[0]),
    ((1, 0, 0, 3), &[], None, Some(4), &[], &[4], &[4]),
    ((1, 1, 2, 3), &[3], Some(3), Some(3), &[3], &[3], &[3]),
    ((1, 7, 4294967295, 4), &[], Some(5), None, &[5], &[], &[5]),
    ((1, 1, 0, 2), &[], None, Some(6), &[], &[6], &[6]),
    ((1, 4294967294, 0, 6), &[], Some(1), None, &[1], &[], &[1]),
    ((2, 1, 4294967295, 4294967295), &[2], Some(2), Some(2), &[2], &[2], &[3, 9, 2]),
    ((2, 0, 4294967295, 0), &[4], Some(4), Some(4), &[4], &[4], &[4, 10]),
    ((2, 0, 0, 2), &[8], Some(8), Some(8), &[8], &[8], &[8]),
    ((2, 0, 4294967295, 1), &[], Some(4), Some(10), &[4], &[10], &[4, 10]),
    ((2, 1, 2, 2), &[], Some(11), Some(5), &[11], &[5], &[11, 5]),
    ((2, 0, 4294967295, 0), &[4], Some(4), Some(4), &[4], &[4], &[4, 10]),
    ((3, 7, 1, 4294967295), &[], None, None, &[], &[], &[]),
    ((3, 7, 0, 2), &[9], Some(9), Some(9), &[9], &[9], &[9]),
    ((3, 7, 4294967295, 3), &[], None, None, &[], &[], &[]),
    ((3, 7, 1, 4294967295), &[], None, None, &[], &[], &[]),
    ((3, 1, 2, 3), &[6], Some(6), Some(6), &[6], &[6], &[6]),
    ((3, 1, 1, 1), &[5], Some(5), Some(5), &[5], &[5], &[5, 10]),
    ((4, 0, 0, 0), &[], None, None, &[], &[], &[]),
];

/// Asserts that these are the tokens with these indices, in this order.
fn are(
    rt: &impl Abort,
    what: &str,
    found: impl ExactSizeIterator<Item = Token>,
    tokens: &[Token],
    wanted: &[usize],
) {
    same(rt, what, found.len(), wanted.len());
    for (token, i) in found.zip(wanted.iter()) {
        same(rt, what, token, tokens[*i]);
    }
}

fn finds(rt: &impl Abort, tokens: &[Token], index: &SourceIndex<'_>, lookup: &Lookup) {
    let ((_, source, line, col), at, found_for, found_from, all_for, all_from, on_line) = *lookup;
    let token = |i: Option<usize>| i.map(|i| tokens[i]);
    are(rt, "at", index.generated_at(source, line, col), tokens, at);
    same(rt, "for", index.generated_for(source, line, col), token(found_for));
    same(rt, "from", index.generated_from(source, line, col), token(found_from));
    are(rt, "all for", index.all_generated_for(source, line, col), tokens, all_for);
    are(rt, "all from", index.all_generated_from(source, line, col), tokens, all_from);
    are(rt, "line", index.pointing_to(source, line), tokens, on_line);
}

#[test]
fn reverse_lookups(rt: HostRuntime) -> Result<()> {
    let alloc = rt.alloc();
    for lookup in LOOKUPS {
        let rows = MAPS[lookup.0.0];
        let tokens = tokens_of(alloc, rows)?;
        let map = map_of(alloc, &[], &[], &[], rows)?;
        finds(&rt, tokens.as_slice(), &SourceIndex::new(alloc, &map)?, lookup);
        let owned = OwnedSourceMap::from(map.into_owned(alloc)?);
        finds(&rt, tokens.as_slice(), &SourceIndex::new(alloc, &owned)?, lookup);
    }
    Ok(())
}

/// Source ids, lines and columns that differ in high bits alone.
const NUMBERS: [u32; 6] = [0, 1, 65536, 2147483648, 2147483649, 4294967294];

/// A token for each place of these.
fn token_at(place: [usize; 3]) -> Token {
    let [source, line, col] = place;
    Token::new(7, (source * 36 + line * 6 + col) as u32, NUMBERS[line], NUMBERS[col], Some(NUMBERS[source]), None)
}

fn is_found_alone(rt: &impl Abort, index: &SourceIndex<'_>, place: [usize; 3]) {
    let wanted = token_at(place);
    let [source, line, col] = place.map(|i| NUMBERS[i]);
    are(rt, "at", index.generated_at(source, line, col), &[wanted], &[0]);
    same(rt, "for", index.generated_for(source, line, col), Some(wanted));
    same(rt, "from", index.generated_from(source, line, col), Some(wanted));
    let above = (place[2] < 5).then(|| token_at([place[0], place[1], place[2] + 1]));
    let next = if above.is_some_and(|token| token.get_src_col() == col + 1) { above } else { Some(wanted) };
    same(rt, "for the next", index.generated_for(source, line, col + 1), next);
    same(rt, "from the next", index.generated_from(source, line, col + 1), above);
}

#[test]
fn places_differ_in_high_bits(rt: HostRuntime) -> Result<()> {
    let alloc = rt.alloc();
    let mut parts = SourceMap::empty(alloc)?.into_parts();
    let mut tokens = Vec::new(alloc);
    for i in 0..216 {
        // In no order of places.
        let at = i * 125 % 216;
        tokens.push(token_at([at / 36, at / 6 % 6, at % 6]))?;
    }
    parts.tokens = tokens.into_boxed_slice();
    let map = SourceMap::from_parts(parts);
    let index = SourceIndex::new(alloc, &map)?;
    for at in 0..216 {
        is_found_alone(&rt, &index, [at / 36, at / 6 % 6, at % 6]);
        same(&rt, "line", index.pointing_to(NUMBERS[at / 36], NUMBERS[at / 6 % 6]).len(), 6);
    }
    Ok(())
}
