//! Requests about a map.
use crate::cut;
use crate::fault::Fault;
use oxc_sourcemap::{Result as MapResult, SourceIndex, SourceMap, Token};
use std::alloc::Global;

/// The numbers of a line after its first word, `-` for none.
pub(crate) fn numbers_of(alloc: Global, line: &str) -> Result<Vec<Option<u32>>, Fault> {
    let mut numbers = Vec::new(alloc);
    let (_, words) = cut(line);
    for word in words.split(' ') {
        let number = match word {
            "-" | "" => None,
            _ => Some(word.parse::<u32>().map_err(|_| Fault::Request)?),
        };
        numbers.push(number)?;
    }
    Ok(numbers)
}

fn tokens_of(alloc: Global, numbers: &[Option<u32>]) -> Result<Vec<Token>, Fault> {
    let mut tokens = Vec::new(alloc);
    let mut rest = numbers;
    while let [Some(dst_line), Some(dst_col), Some(src_line), Some(src_col), source_id, name_id, others @ ..] = rest {
        tokens.push(Token::new(*dst_line, *dst_col, *src_line, *src_col, *source_id, *name_id))?;
        rest = others;
    }
    Ok(tokens)
}

/// The map of these tokens, with no names and no sources.
pub(crate) fn map_of_tokens(alloc: Global, words: &str) -> Result<SourceMap<'static>, Fault> {
    let line = format!(in alloc; "tokens {words}")?;
    let numbers = numbers_of(alloc, line.as_str())?;
    let tokens = tokens_of(alloc, numbers.as_slice())?.into_boxed_slice();
    Ok(SourceMap::new(None, Vec::new(alloc), None, Vec::new(alloc), Vec::new(alloc), tokens, None))
}

fn write_id(id: Option<u32>, out: &mut String) -> Result<(), Fault> {
    match id {
        Some(id) => write!(out, ":{id}")?,
        None => write!(out, ":-")?,
    }
    Ok(())
}

fn write_token(token: Token, out: &mut String) -> Result<(), Fault> {
    let (line, col) = (token.get_dst_line(), token.get_dst_col());
    let (src_line, src_col) = (token.get_src_line(), token.get_src_col());
    write!(out, "{line}:{col}:{src_line}:{src_col}")?;
    write_id(token.get_source_id(), out)?;
    write_id(token.get_name_id(), out)?;
    write!(out, " ")?;
    Ok(())
}

fn write_tokens(tokens: impl Iterator<Item = Token>, out: &mut String) -> Result<(), Fault> {
    for token in tokens {
        write_token(token, out)?;
    }
    Ok(())
}

/// A reverse lookup.
fn look_back(index: &SourceIndex<'_>, kind: &str, source: u32, line: u32, col: u32, out: &mut String) -> Result<(), Fault> {
    match kind {
        "at" => write_tokens(index.generated_at(source, line, col), out),
        "for" => write_tokens(index.generated_for(source, line, col).into_iter(), out),
        "from" => write_tokens(index.generated_from(source, line, col).into_iter(), out),
        "all_for" => write_tokens(index.all_generated_for(source, line, col), out),
        "all_from" => write_tokens(index.all_generated_from(source, line, col), out),
        _ => Err(Fault::Request),
    }
}

/// A lookup in the map's own table: the token, and its index.
fn look_up(map: &SourceMap<'_>, table: &[&[Token]], kind: &str, line: u32, col: u32, out: &mut String) -> Result<(), Fault> {
    let (token, index) = match kind {
        "find" => (map.lookup_token(table, line, col), map.lookup_token_index(table, line, col)),
        "near" => (map.lookup_token_approx(table, line, col), map.lookup_token_index_approx(table, line, col)),
        "after" => (map.lookup_token_after(table, line, col), map.lookup_token_index_after(table, line, col)),
        _ => return Err(Fault::Request),
    };
    write_tokens(token.into_iter(), out)?;
    if let Some(index) = index {
        write!(out, "{index}")?;
    }
    Ok(())
}

fn sort(alloc: Global, map: &SourceMap<'_>, out: &mut String) -> Result<(), Fault> {
    let mut copy = map.clone(alloc)?;
    copy.sort(alloc)?;
    write_tokens(copy.get_tokens(), out)
}

fn answer(
    rt: &HostRuntime,
    map: &SourceMap<'_>,
    index: &SourceIndex<'_>,
    table: &MapResult<Vec<&[Token]>>,
    request: &str,
) -> Result<(), Fault> {
    let (kind, _) = cut(request);
    let numbers = numbers_of(rt.alloc(), request)?;
    let mut out = String::new(rt.alloc());
    match (numbers.as_slice(), table) {
        ([Some(source), Some(line), Some(col)], _) => look_back(index, kind, *source, *line, *col, &mut out)?,
        ([Some(source), Some(line)], _) if kind == "line" => write_tokens(index.pointing_to(*source, *line), &mut out)?,
        ([Some(line), Some(col)], Ok(table)) => look_up(map, table.as_slice(), kind, *line, *col, &mut out)?,
        ([Some(_), Some(_)], Err(error)) => write!(out, "{error}")?,
        _ => sort(rt.alloc(), map, &mut out)?,
    }
    println!(rt; "{out}")?;
    Ok(())
}

/// Answers requests about a map.
pub(crate) fn answer_map(rt: &HostRuntime, map: &SourceMap<'_>, requests: &[&str]) -> Result<(), Fault> {
    let index = SourceIndex::new(rt.alloc(), map)?;
    let table = map.generate_lookup_table(rt.alloc());
    for request in requests {
        answer(rt, map, &index, &table, *request)?;
    }
    Ok(())
}
