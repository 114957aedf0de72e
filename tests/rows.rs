//! Rows of numbers that stand for tokens and chunks, and the maps that are made of them.
use oxc_sourcemap::{Result, SourceMap, Token, TokenChunk};
use std::alloc::Global;
use std::borrow::CowStr;

/// Generated line and column, source line and column, source id and name id.
pub type Row = (u32, u32, u32, u32, Option<u32>, Option<u32>);

/// The tokens of these rows.
pub fn tokens_of(alloc: Global, rows: &[Row]) -> Result<Vec<Token>> {
    let mut tokens = Vec::new(alloc);
    for (dst_line, dst_col, src_line, src_col, source_id, name_id) in rows {
        tokens.push(Token::new(
            *dst_line, *dst_col, *src_line, *src_col, *source_id, *name_id,
        ))?;
    }
    Ok(tokens)
}

/// Chunks, their numbers in the order of `TokenChunk::new`.
pub fn chunks_of(alloc: Global, rows: &Option<&[[u32; 8]]>) -> Result<Option<Vec<TokenChunk>>> {
    let Some(rows) = rows else {
        return Ok(None);
    };
    let mut chunks = Vec::new(alloc);
    for [
        start,
        end,
        dst_line,
        dst_col,
        src_line,
        src_col,
        name_id,
        source_id,
    ] in *rows {
        chunks.push(TokenChunk::new(
            *start, *end, *dst_line, *dst_col, *src_line, *src_col, *name_id, *source_id,
        ))?;
    }
    Ok(Some(chunks))
}

/// Texts, borrowed.
fn lent(alloc: Global, texts: &[&'static str]) -> Result<Vec<CowStr<'static>>> {
    let mut all = Vec::new(alloc);
    for text in texts {
        all.push(CowStr::Borrowed(*text))?;
    }
    Ok(all)
}

/// Contents, borrowed.
fn lent_contents(
    alloc: Global,
    contents: &[Option<&'static str>],
) -> Result<Vec<Option<CowStr<'static>>>> {
    let mut all = Vec::new(alloc);
    for content in contents {
        match content {
            Some(text) => all.push(Some(CowStr::Borrowed(*text)))?,
            None => all.push(None)?,
        }
    }
    Ok(all)
}

/// A map of these names, sources, contents and tokens, without chunks.
pub fn map_of(
    alloc: Global,
    names: &[&'static str],
    sources: &[&'static str],
    contents: &[Option<&'static str>],
    rows: &[Row],
) -> Result<SourceMap<'static>> {
    let names = lent(alloc, names)?;
    let sources = lent(alloc, sources)?;
    let contents = lent_contents(alloc, contents)?;
    let tokens = tokens_of(alloc, rows)?.into_boxed_slice();
    Ok(SourceMap::new(None, names, None, sources, contents, tokens, None))
}
