//! Building maps call by call.
use crate::helpers::{is_text, is_written_as, same};
use oxc_sourcemap::{
    Error, OwnedSourceMap, Result, SourceMap, SourceMapBuilder, SourceViewToken, Token, TokenChunk,
};
use std::alloc::Global;
use std::process::Abort;

/// Names in the order in which they are added, and the id of each.
const NAMES: &[(&str, u32)] = &[("foo", 0), ("bar", 1), ("foo", 0), ("bar", 1)];

/// Whether a source is set and not added, its path and content, and its id.
const SOURCES: &[(bool, &str, &str, u32)] = &[
    (false, "a.js", "A", 0),
    (false, "a.js", "B", 0),
    (true, "b.js", "B", 1),
    (false, "b.js", "C", 2),
    (false, "b.js", "D", 2),
    (false, "a.js", "E", 0),
];

/// The JSON text of the map that was built.
fn text_of(alloc: Global, builder: SourceMapBuilder<'static>) -> Result<String> {
    builder.into_sourcemap()?.to_json_string(alloc)
}

/// The same, of the map as an owned one.
fn owned_text_of(alloc: Global, builder: SourceMapBuilder<'static>) -> Result<String> {
    builder.into_owned_sourcemap()?.to_json_string(alloc)
}

fn names_have_one_id_each(rt: &impl Abort, builder: &mut SourceMapBuilder<'_>) {
    for (name, id) in NAMES {
        same(rt, name, builder.add_name(name), Ok(*id));
    }
}

fn copied_names_have_one_id_each(rt: &impl Abort, builder: &mut SourceMapBuilder<'static>) {
    for (name, id) in NAMES {
        same(rt, name, builder.add_name_copied(name), Ok(*id));
    }
}

fn names_are_kept_once(rt: &impl Abort, map: &SourceMap<'_>) {
    same(rt, "number of names", map.get_names().len(), 2);
    same(rt, "name", map.get_name(1), Some("bar"));
}

#[test]
fn names_are_added(rt: HostRuntime) -> Result<()> {
    let mut builder = SourceMapBuilder::empty(rt.alloc());
    names_have_one_id_each(&rt, &mut builder);
    names_are_kept_once(&rt, &builder.into_sourcemap()?);
    let mut builder = SourceMapBuilder::empty(rt.alloc());
    copied_names_have_one_id_each(&rt, &mut builder);
    names_are_kept_once(&rt, &builder.into_sourcemap()?);
    Ok(())
}

fn sources_are_added_by_their_path_or_set(rt: &impl Abort, builder: &mut SourceMapBuilder<'_>) {
    for (is_set, path, content, id) in SOURCES {
        let given = if *is_set {
            builder.set_source_and_content(path, content)
        } else {
            builder.add_source_and_content(path, content)
        };
        same(rt, content, given, Ok(*id));
    }
}

#[test]
fn sources_are_added(rt: HostRuntime) {
    let mut builder = SourceMapBuilder::empty(rt.alloc());
    sources_are_added_by_their_path_or_set(&rt, &mut builder);
    is_read_back(
        &rt,
        rt.alloc(),
        &owned_text_of(rt.alloc(), builder),
        r#"{"version":3,"names":[],"sources":["a.js","b.js","b.js"],"sourcesContent":["A","B","C"],"mappings":""}"#,
    );
}

/// Adds sources without contents, of which one is added again with a content, and two tokens at once.
fn add_bare_sources(builder: &mut SourceMapBuilder<'static>) -> Result<()> {
    let first = builder.add_source("a.js")?;
    let second = builder.add_source_copied("b.js")?;
    let again = builder.add_source_and_content("a.js", "A")?;
    let _third = builder.add_source_and_content("c.js", "C")?;
    let _once_more = builder.add_source("c.js")?;
    builder.add_tokens(&[
        Token::new(0, 0, 0, 0, Some(second), None),
        Token::new(0, 2, 0, 0, Some(again), None),
        Token::new(0, 4, 0, 0, Some(first), None),
    ])
}

#[test]
fn sources_without_contents_and_lists_of_tokens_are_added(rt: HostRuntime) -> Result<()> {
    let mut builder = SourceMapBuilder::empty(rt.alloc());
    add_bare_sources(&mut builder)?;
    same(&rt, "tokens", builder.get_tokens().len(), 3);
    is_read_back(
        &rt,
        rt.alloc(),
        &text_of(rt.alloc(), builder),
        r#"{"version":3,"names":[],"sources":["a.js","b.js","c.js"],"sourcesContent":[null,null,"C"],"mappings":"ACAA,EDAA,EAAA"}"#,
    );
    Ok(())
}

/// Adds unmapped tokens at the columns 0 and 1, and one chunk that ends at this index.
fn add_columns(alloc: Global, builder: &mut SourceMapBuilder<'_>, chunk_end: u32) -> Result<()> {
    builder.add_token(0, 0, 0, 0, None, None)?;
    builder.add_token(0, 1, 0, 0, None, None)?;
    let chunk = TokenChunk::new(0, chunk_end, 0, 0, 0, 0, 0, 0);
    builder.set_token_chunks(vec![in alloc; chunk]?);
    Ok(())
}

fn map_with_columns(alloc: Global, chunk_end: u32) -> Result<SourceMap<'static>> {
    let mut builder = SourceMapBuilder::empty(alloc);
    add_columns(alloc, &mut builder, chunk_end)?;
    builder.into_sourcemap()
}

fn a_token_without_a_chunk_is_not_written(rt: &impl Abort, alloc: Global, map: &SourceMap<'_>) {
    let second = Token::new(0, 1, 0, 0, None, None);
    same(rt, "second", map.get_token(1), Some(second));
    is_written_as(rt, alloc, map, Err(Error::BadChunks(1)));
}

#[test]
fn chunks_are_looked_at_when_the_map_is_written(rt: HostRuntime) -> Result<()> {
    a_token_without_a_chunk_is_not_written(&rt, rt.alloc(), &map_with_columns(rt.alloc(), 1)?);
    is_written_as(
        &rt,
        rt.alloc(),
        &map_with_columns(rt.alloc(), 2)?,
        Ok("A,C"),
    );
    Ok(())
}

/// What a JSON text is written as, once it is read.
fn rewritten(alloc: Global, text: &str) -> Result<String> {
    SourceMap::from_json_string(alloc, text)?.to_json_string(alloc)
}

/// Asserts the JSON text of what was built, and that it is read back as a map with that text.
fn is_read_back(rt: &impl Abort, alloc: Global, text: &Result<String>, wanted: &str) {
    is_text(rt, "text", text, Ok(wanted));
    is_text(rt, "read back", &rewritten(alloc, wanted), Ok(wanted));
}

/// The example of docs/CALLING.md.
fn bundle_map(alloc: Global) -> Result<String> {
    let mut builder = SourceMapBuilder::empty(alloc);
    builder.set_file("file");
    let source = builder.add_source_and_content("baz.js", "")?;
    let name = builder.add_name("x")?;
    builder.add_token(0, 0, 0, 0, Some(source), Some(name))?;
    builder.into_sourcemap()?.to_json_string(alloc)
}

/// The same without a token, of a source that is set.
fn build_texts(builder: &mut SourceMapBuilder<'_>) -> Result<()> {
    builder.set_file("file");
    let _source = builder.set_source_and_content("baz.js", "")?;
    let _name = builder.add_name("x")?;
    Ok(())
}

/// Adds a word of a text: the builder keeps copies.
fn add_word(builder: &mut SourceMapBuilder<'static>, word: &str) -> Result<()> {
    builder.set_file_copied(word)?;
    let _name = builder.add_name_copied(word)?;
    let _again = builder.add_name("x")?;
    let source = builder.add_source_and_content_copied(word, "")?;
    builder.add_token(0, source, 0, 0, Some(source), None)
}

/// Adds the words of a text that is gone then.
fn add_words(alloc: Global, builder: &mut SourceMapBuilder<'static>) -> Result<()> {
    let text = String::from_str(alloc, "file baz.js x")?;
    for word in text.as_str().split(' ') {
        add_word(builder, word)?;
    }
    let _other = builder.set_source_and_content_copied("baz.js", "B")?;
    Ok(())
}

#[test]
fn strings_are_copied(rt: HostRuntime) -> Result<()> {
    let mut builder = SourceMapBuilder::empty(rt.alloc());
    add_words(rt.alloc(), &mut builder)?;
    is_read_back(
        &rt,
        rt.alloc(),
        &text_of(rt.alloc(), builder),
        r#"{"version":3,"file":"x","names":["file","x","baz.js"],"sources":["file","baz.js","x","baz.js"],"sourcesContent":["","","","B"],"mappings":"AAAA,CCAA,CCAA"}"#,
    );
    Ok(())
}

#[test]
fn a_bundle_is_built_and_written(rt: HostRuntime) -> Result<()> {
    is_read_back(
        &rt,
        rt.alloc(),
        &bundle_map(rt.alloc()),
        r#"{"version":3,"file":"file","names":["x"],"sources":["baz.js"],"sourcesContent":[""],"mappings":"AAAAA"}"#,
    );
    Ok(())
}

#[test]
fn a_map_without_tokens_is_built_and_written(rt: HostRuntime) -> Result<()> {
    let mut builder = SourceMapBuilder::empty(rt.alloc());
    build_texts(&mut builder)?;
    is_read_back(
        &rt,
        rt.alloc(),
        &text_of(rt.alloc(), builder),
        r#"{"version":3,"file":"file","names":["x"],"sources":["baz.js"],"sourcesContent":[""],"mappings":""}"#,
    );
    Ok(())
}

#[test]
fn a_builder_without_anything_gives_an_empty_map(rt: HostRuntime) -> Result<()> {
    let map = SourceMapBuilder::empty(rt.alloc()).into_owned_sourcemap()?;
    let parts = map.into_parts();
    assert!(rt; parts.token_chunks.is_none() && parts.file.is_none());
    assert!(rt; parts.tokens.is_empty());
    Ok(())
}

/// Adds two tokens, of which the first has a name.
fn build_two_tokens(builder: &mut SourceMapBuilder<'_>) -> Result<()> {
    let name = builder.add_name("n")?;
    let source = builder.add_source_and_content("s.js", "src")?;
    builder.add_token(0, 0, 0, 0, Some(source), Some(name))?;
    builder.add_token(0, 4, 1, 5, Some(source), None)
}

fn both_tokens_are_found(rt: &impl Abort, alloc: Global, map: &SourceMap<'_>) -> Result<()> {
    let first = Token::new(0, 0, 0, 0, Some(0), Some(0));
    same(rt, "first", map.get_token(0), Some(first));
    let table = map.generate_lookup_table(alloc)?;
    for (col, origin) in [
        (3, (Some("s.js"), 0, 0, Some("n"))),
        (4, (Some("s.js"), 1, 5, None)),
    ] {
        let Some(view) = map.lookup_source_view_token(table.as_slice(), 0, col) else {
            return Ok(assert!(rt; false, "a view"));
        };
        same(rt, "view", view.to_tuple(), origin);
        same(rt, "content", view.get_source_content(), Some("src"));
    }
    Ok(())
}

#[test]
fn what_is_built_is_read_back_and_looked_up(rt: HostRuntime) -> Result<()> {
    let mut builder = SourceMapBuilder::empty(rt.alloc());
    build_two_tokens(&mut builder)?;
    let text = owned_text_of(rt.alloc(), builder)?;
    let map = SourceMap::from_json_string(rt.alloc(), text.as_str())?;
    both_tokens_are_found(&rt, rt.alloc(), &map)
}

/// Adds a file, a name, a source and its content, a token and a chunk.
fn build_all(alloc: Global, builder: &mut SourceMapBuilder<'_>) -> Result<()> {
    builder.set_file("f.js");
    let name = builder.add_name("n")?;
    let source = builder.add_source_and_content("s.js", "src")?;
    builder.add_token(0, 0, 0, 0, Some(source), Some(name))?;
    builder.set_token_chunks(vec![in alloc; TokenChunk::new(0, 1, 0, 0, 0, 0, 0, 0)]?);
    Ok(())
}

fn all_is_there(rt: &impl Abort, map: &OwnedSourceMap) {
    let texts = [
        map.get_file(),
        map.get_name(0),
        map.get_source(0),
        map.get_source_content(0),
    ];
    let wanted = [Some("f.js"), Some("n"), Some("s.js"), Some("src")];
    same(rt, "texts", texts, wanted);
    same(rt, "number of tokens", map.get_tokens().len(), 1);
    assert!(rt; map.is_sound());
}

#[test]
fn an_owned_map_has_what_was_built(rt: HostRuntime) -> Result<()> {
    let mut builder = SourceMapBuilder::empty(rt.alloc());
    build_all(rt.alloc(), &mut builder)?;
    all_is_there(&rt, &builder.into_owned_sourcemap()?);
    Ok(())
}
