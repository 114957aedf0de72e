//! Compiled maps: the map that was compiled is in the bytes, and bytes that were damaged are refused or answer something.
use crate::helpers::same;
use oxc_sourcemap::{CompiledError, CompiledMap, SourceMapParts, Token, compile};
use std::alloc::{AllocError, Global};
use std::borrow::CowStr;
use std::process::Abort;

/// So many tokens, on lines of 90 tokens that lie apart.
fn many_tokens(alloc: Global, count: u32) -> std::result::Result<Vec<Token>, AllocError> {
    let mut tokens = Vec::new(alloc);
    for i in 0..count {
        let source_id = if i % 7 == 0 { None } else { Some(i * i % 1001) };
        let name_id = if i % 5 == 0 { Some(i % 3) } else { None };
        tokens.push(Token::new(i / 90 * 40, i % 90 / 2 * 1000, i * 77777 % 100003, i % 13, source_id, name_id))?;
    }
    Ok(tokens)
}

/// A map of so many tokens and sources, with absent, empty and missing contents.
fn many_parts(alloc: Global, tokens: u32, sources: u32) -> std::result::Result<SourceMapParts<'static>, std::test::Fail> {
    let mut parts = SourceMapParts::empty(alloc)?;
    parts.tokens = many_tokens(alloc, tokens)?.into_boxed_slice();
    for i in 0..sources {
        parts.sources.push(CowStr::Borrowed(if i % 2 == 0 { "a.js" } else { "" }))?;
    }
    for text in [None, Some(""), Some("text")] {
        parts.source_contents.push(text.map(CowStr::Borrowed))?;
    }
    for name in ["x", "", "zz"] {
        parts.names.push(CowStr::Borrowed(name))?;
    }
    parts.debug_id = Some(CowStr::Borrowed(""));
    parts.ignore_list = Some(vec![in alloc; 4294967295, 2]?);
    Ok(parts)
}

/// Of tokens in order, that which a lookup is to find.
fn wanted(tokens: &[Token], line: u32, col: u32) -> Option<Token> {
    let mut found: Option<Token> = None;
    for token in tokens {
        if token.get_dst_line() == line && token.get_dst_col() <= col && found.is_none_or(|it| it.get_dst_col() < col) {
            found = Some(*token);
        }
    }
    found
}

/// Tokens are in one block up to 16384, and in many from there on.
#[test]
fn tokens_are_in_their_blocks(rt: HostRuntime) -> std::result::Result<(), std::test::Fail> {
    for count in [64, 65, 1000, 16384, 16385, 17000] {
        let parts = many_parts(rt.alloc(), count, 5)?;
        let bytes = compile(rt.alloc(), &parts, 77, &[9; 32])?;
        let map = CompiledMap::open(&bytes)?;
        let tokens = parts.tokens.as_slice();
        for (i, token) in tokens.iter().enumerate().step_by(tokens.len() / 64) {
            same(&rt, "token", map.get_token(i), Some(*token));
            let (line, col) = (token.get_dst_line(), token.get_dst_col() + i as u32 % 3);
            same(&rt, "found", map.lookup_token(line, col), wanted(tokens, line, col));
        }
        same(&rt, "past the last", map.get_token(tokens.len()), None);
        let back = map.decompile(rt.alloc())?.expect(&rt, "a map whose texts are UTF-8");
        same(&rt, "tokens", back.tokens.as_slice(), tokens);
    }
    Ok(())
}

#[test]
fn a_map_is_in_its_bytes(rt: HostRuntime) -> std::result::Result<(), std::test::Fail> {
    let parts = many_parts(rt.alloc(), 1000, 1001)?;
    let bytes = compile(rt.alloc(), &parts, 77, &[9; 32])?;
    let map = CompiledMap::open(&bytes)?;
    same(&rt, "on another line", map.lookup_token(1, 0), None);
    same(&rt, "length", map.text_length(), 77);
    same(&rt, "stamp", map.stamp()[31], 9);
    same(&rt, "empty source", map.get_source(1), Some(""));
    same(&rt, "absent content", map.get_source_content(0), None);
    same(&rt, "empty content", map.get_source_content(1), Some(""));
    same(&rt, "content that is not listed", map.get_source_content(3), None);
    same(&rt, "name", map.get_name(2), Some("zz"));
    same(&rt, "file", map.get_file(), None);
    same(&rt, "debug id", map.get_debug_id(), Some(""));
    same(&rt, "ignored", (map.is_ignored(2), map.is_ignored(0), map.ignored_count()), (true, false, Some(2)));
    let back = map.decompile(rt.alloc())?.expect(&rt, "a map whose texts are UTF-8");
    same(&rt, "tokens", &back.tokens, &parts.tokens);
    same(&rt, "names", &back.names, &parts.names);
    same(&rt, "sources", &back.sources, &parts.sources);
    same(&rt, "contents", back.source_contents.len(), 1001);
    same(&rt, "ignore list", &back.ignore_list, &parts.ignore_list);
    Ok(())
}

/// Whatever the bytes are, each call answers.
fn asked(map: &CompiledMap<'_>, alloc: Global) -> std::result::Result<usize, AllocError> {
    let mut found = map.token_count().min(1);
    for (line, col) in [(0, 0), (0, 3000), (40, 44000), (80, 4294967295), (4294967295, 0)] {
        found += usize::from(map.lookup_token(line, col).is_some());
        found += usize::from(map.lookup_token_approx(line, col).is_some());
        found += usize::from(map.lookup_token_after(line, col).is_some());
    }
    for id in [0, 1, 1000, 4294967295] {
        found += usize::from(map.get_token(id as usize).is_some());
        found += usize::from(map.get_source(id).is_some()) + usize::from(map.get_source_content(id).is_some());
        found += usize::from(map.get_name(id).is_some()) + usize::from(map.is_ignored(id));
    }
    found += usize::from(map.get_file().is_some()) + usize::from(map.get_source_root().is_some());
    Ok(found + usize::from(map.get_debug_id().is_some()) + usize::from(map.decompile(alloc)?.is_some()))
}

#[test]
fn damaged_bytes_are_refused_or_answer(rt: HostRuntime) -> std::result::Result<(), std::test::Fail> {
    let mut bytes = compile(rt.alloc(), &many_parts(rt.alloc(), 130, 5)?, 77, &[9; 32])?;
    let mut opened = 0;
    for at in (0..104).chain((104..bytes.len()).step_by(7)) {
        for change in [1, 128] {
            bytes[at] ^= change;
            if let Ok(map) = CompiledMap::open(&bytes) {
                opened += 1;
                asked(&map, rt.alloc())?;
            }
            bytes[at] ^= change;
        }
    }
    assert!(rt; opened > 200, "{opened} were opened");
    for end in [0, 7, 8, 103, 104, bytes.len() - 1] {
        let is_cut = CompiledMap::open(&bytes[..end]).is_err();
        assert!(rt; is_cut, "{end} bytes");
    }
    bytes[4] = 2;
    same(&rt, "a later version", CompiledMap::open(&bytes).err(), Some(CompiledError::Version(2)));
    Ok(())
}
