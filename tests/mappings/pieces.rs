//! Pieces of the `mappings` text, each written from the header of its chunk.
use crate::helpers::same;
use crate::rows::{Row, tokens_of};
use oxc_sourcemap::{Error, Result, Token, TokenChunk, encode_chunk};
use std::alloc::Global;
use std::process::Abort;

/// Tokens; and chunks of them, each with its piece or the error of writing it.
type Pieces = (
    &'static [Row],
    &'static [([u32; 8], Result<&'static str>)],
);

/// Three tokens in line order, and four of which the last one lies above the one before it.
#[rattlefmt::skip]
const PIECES: &[Pieces] = &[
    (&[(1, 1, 1, 1, Some(0), Some(0)), (3, 1, 1, 1, Some(1), Some(2)), (3, 2, 2, 2, Some(2), Some(3))],
     &[([2, 3, 3, 1, 1, 1, 2, 1], Ok(",CCCCC")),
       ([2, 3, 0, 0, 0, 0, 0, 0], Ok(";;;EEEEG")),
       ([2, 3, 4, 0, 0, 0, 0, 0], Err(Error::LineOrder(2))),
       ([2, 4, 0, 0, 0, 0, 0, 0], Err(Error::BadChunks(0)))]),
    (&[(0, 5, 9, 9, Some(2), Some(4)), (2, 1, 0, 0, None, None), (2, 3, 4, 4, Some(1), Some(2)), (1, 0, 0, 0, None, None)],
     &[([0, 3, 0, 0, 0, 0, 0, 0], Ok("KESSI;;C,EDLLF")),
       ([1, 3, 2, 9, 0, 9, 9, 9], Ok(",R,ERILP")),
       ([0, 0, 7, 7, 7, 7, 7, 7], Ok("")),
       ([4, 4, 0, 0, 0, 0, 0, 0], Ok("")),
       ([0, 1, 1, 0, 0, 0, 0, 0], Err(Error::LineOrder(0))),
       ([1, 4, 0, 0, 0, 0, 0, 0], Err(Error::LineOrder(3))),
       ([2, 1, 0, 0, 0, 0, 0, 0], Err(Error::BadChunks(0))),
       ([5, 5, 0, 0, 0, 0, 0, 0], Err(Error::BadChunks(0)))]),
];

/// Asserts what a chunk is written as, or why it is not. Nothing is added to the text then.
pub fn a_piece_is_written(
    rt: &impl Abort,
    alloc: Global,
    tokens: &[Token],
    chunk: &TokenChunk,
    want: Result<&str>,
) -> Result<()> {
    let mut out = String::from_str(alloc, "kept;")?;
    let written = encode_chunk(tokens, chunk, &mut out);
    same(rt, "error", written.err(), want.err());
    let added = out.as_str().strip_prefix("kept;");
    same(rt, "piece", added, Some(want.unwrap_or("")));
    Ok(())
}

#[test]
fn pieces_are_written_from_their_headers(rt: HostRuntime) -> Result<()> {
    for (rows, pieces) in PIECES {
        let tokens = tokens_of(rt.alloc(), rows)?;
        for (numbers, want) in *pieces {
            let [start, end, line, col, src_line, src_col, name, source] = *numbers;
            let chunk = TokenChunk::new(start, end, line, col, src_line, src_col, name, source);
            a_piece_is_written(&rt, rt.alloc(), tokens.as_slice(), &chunk, *want)?;
        }
    }
    Ok(())
}
