//! Maps that are sorted: rows worked out by hand.
use crate::helpers::{has_text, same};
use crate::refusals::fixtures::{are_parts, chunked_parts};
use crate::rows::map_of;
use oxc_sourcemap::{OwnedSourceMap, Result, SourceMap, Token, TokenChunk};
use std::alloc::Global;

/// JSON texts of maps, and of the same, sorted.
#[rattlefmt::skip]
const ROWS: &[(&str, &str)] = &[
    // Columns go back; tokens at one column stay in their order.
    (r#"{"version":3,"names":[],"sources":["a.js"],"mappings":"GAAA,HACA,GACA"}"#,
     r#"{"version":3,"names":[],"sources":["a.js"],"mappings":"AACA,GADA,AAEA"}"#),
    // On two lines, and an unmapped token.
    (r#"{"version":3,"names":["x"],"sources":["a.js"],"mappings":"I,DAAAA;E,D"}"#,
     r#"{"version":3,"names":["x"],"sources":["a.js"],"mappings":"GAAAA,C;C,C"}"#),
    // A sorted map.
    (r#"{"version":3,"names":[],"sources":["a.js"],"mappings":"AACA,AADA,GAEA;A"}"#,
     r#"{"version":3,"names":[],"sources":["a.js"],"mappings":"AACA,AADA,GAEA;A"}"#),
];

#[test]
fn a_map_is_sorted(rt: HostRuntime) -> Result<()> {
    for (text, wanted) in ROWS {
        let mut map = SourceMap::from_json_string(rt.alloc(), text)?;
        map.sort(rt.alloc())?;
        has_text(&rt, rt.alloc(), "sorted", &Ok(map), Ok(wanted));
        let mut map = OwnedSourceMap::from_json_string(rt.alloc(), text)?;
        map.sort(rt.alloc())?;
        has_text(&rt, rt.alloc(), "owned", &Ok(map.into_inner()), Ok(wanted));
    }
    Ok(())
}

/// Chunks stay if the tokens do, and are dropped else; lines that go back are sorted too.
#[test]
fn chunks_that_would_not_fit_are_dropped(rt: HostRuntime) -> Result<()> {
    let alloc = rt.alloc();
    for (lines, is_kept) in [([0, 1], true), ([1, 0], false)] {
        let rows = [(lines[0], 5, 0, 0, Some(0), None), (lines[1], 2, 1, 0, Some(0), None)];
        let mut parts = map_of(alloc, &[], &["a.js"], &[], &rows)?.into_parts();
        parts.token_chunks = Some(vec![in alloc; TokenChunk::new(0, 2, 0, 0, 0, 0, 0, 0)]?);
        let mut map = SourceMap::from_parts(parts);
        map.sort(alloc)?;
        same(&rt, "sorted", map.is_sorted(), true);
        same(&rt, "first", map.get_token(0).map(|token| token.get_dst_line()), Some(0));
        same(&rt, "chunks", map.into_parts().token_chunks.is_some(), is_kept);
    }
    Ok(())
}

/// Lines and columns, some of which differ in high bits alone.
const NUMBERS: [u32; 6] = [0, 1, 65536, 2147483648, 2147483649, 4294967295];

/// Tokens at these lines and columns, many at each, in no order. No two are equal, and their original positions go down.
fn many_tokens(alloc: Global) -> Result<Vec<Token>> {
    let ids = [None, Some(1), Some(0), Some(4294967294)];
    let mut tokens = Vec::new(alloc);
    let mut seed = 1u64;
    for i in 0..600u32 {
        seed = (seed * 1103515245 + 12345) % 2147483648;
        let chosen = (seed >> 8) as usize;
        let (line, col) = (NUMBERS[chosen % 6], NUMBERS[chosen / 6 % 6]);
        let (src_line, src_col) = (600 - i, 4294967295 - i);
        tokens.push(Token::new(line, col, src_line, src_col, ids[chosen / 36 % 4], Some(i)))?;
    }
    Ok(tokens)
}

/// The same by the rule: for each line and column, in order, the tokens that stand there.
fn many_by_position(alloc: Global, tokens: &[Token]) -> Result<Vec<Token>> {
    let mut sorted = Vec::new(alloc);
    for line in NUMBERS {
        for col in NUMBERS {
            for token in tokens {
                if (token.get_dst_line(), token.get_dst_col()) == (line, col) {
                    sorted.push(*token)?;
                }
            }
        }
    }
    Ok(sorted)
}

/// All fields but tokens and chunks stay.
#[test]
fn a_large_map_is_sorted(rt: HostRuntime) -> Result<()> {
    let alloc = rt.alloc();
    let tokens = many_tokens(alloc)?;
    let mut wanted = chunked_parts(alloc)?;
    wanted.tokens = many_by_position(alloc, tokens.as_slice())?.into_boxed_slice();
    wanted.token_chunks = None;
    same(&rt, "tokens", wanted.tokens.len(), 600);
    let mut parts = chunked_parts(alloc)?;
    parts.tokens = tokens.into_boxed_slice();
    let mut map = SourceMap::from_parts(parts);
    map.sort(alloc)?;
    are_parts(&rt, &map.into_parts(), &wanted);
    Ok(())
}
