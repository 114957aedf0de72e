//! Maps that are built call by call.

use std::borrow::Cow;
use std::collections::HashMap;

use oxc_sourcemap_sys as sys;

use crate::error::{Error, Result};
use crate::raw::expected;
use crate::token::{Token, TokenChunk};
use crate::{OwnedSourceMap, SourceMap, SourceMapParts};

/// Builds a map call by call. It borrows the texts that it is given; the map that it makes has copies.
///
/// Add tokens in the order of their generated positions; ids are not compared with what was added.
///
/// ```
/// use oxc_sourcemap::{Bias, SourceMapBuilder};
/// let mut builder = SourceMapBuilder::default();
/// builder.set_file("out.js");
/// let source = builder.add_source_and_content("a.ts", "let hi;");
/// let name = builder.add_name("hi");
/// assert_eq!(builder.add_name("hi"), name);
/// builder.add_token(0, 3, 0, 4, Some(source), Some(name));
/// let map = builder.into_sourcemap();
/// assert_eq!(map.trace(0, 5, Bias::Before)?.original().unwrap().name, Some("hi"));
/// # Ok::<(), oxc_sourcemap::Error>(())
/// ```
#[derive(Debug, Default)]
pub struct SourceMapBuilder<'a> {
    file: Option<&'a str>,
    names: Vec<&'a str>,
    name_ids: HashMap<&'a str, u32>,
    sources: Vec<&'a str>,
    source_ids: HashMap<&'a str, u32>,
    source_contents: Vec<Option<&'a str>>,
    tokens: Vec<Token>,
    token_chunks: Option<Vec<TokenChunk>>,
}

/// The id of the next entry of a list.
#[track_caller]
fn next_id(list: &[&str]) -> u32 {
    let id = u32::try_from(list.len()).ok().filter(|id| *id != sys::SMAP_NO_ID);
    expected(id.ok_or(Error::TooLarge))
}

impl<'a> SourceMapBuilder<'a> {
    /// Adds a name, or finds the equal one that was added before, and returns its id.
    pub fn add_name(&mut self, name: &'a str) -> u32 {
        *self.name_ids.entry(name).or_insert_with(|| {
            let id = next_id(&self.names);
            self.names.push(name);
            id
        })
    }

    /// Adds a source with its content, or finds the one of this path that this call or [`add_source`](Self::add_source) added
    /// before, whose content stays, and returns its id.
    pub fn add_source_and_content(&mut self, source: &'a str, source_content: &'a str) -> u32 {
        self.add_once(source, Some(source_content))
    }

    /// The same for a source whose content is not known.
    pub fn add_source(&mut self, source: &'a str) -> u32 {
        self.add_once(source, None)
    }

    fn add_once(&mut self, source: &'a str, content: Option<&'a str>) -> u32 {
        *self.source_ids.entry(source).or_insert_with(|| {
            let id = next_id(&self.sources);
            self.sources.push(source);
            self.source_contents.push(content);
            id
        })
    }

    /// Adds a source with its content, even if there is one of this path, and returns its id.
    pub fn set_source_and_content(&mut self, source: &'a str, source_content: &'a str) -> u32 {
        let id = next_id(&self.sources);
        self.sources.push(source);
        self.source_contents.push(Some(source_content));
        id
    }

    /// Adds a token.
    pub fn add_token(
        &mut self,
        dst_line: u32,
        dst_col: u32,
        src_line: u32,
        src_col: u32,
        src_id: Option<u32>,
        name_id: Option<u32>,
    ) {
        self.tokens.push(Token::new(dst_line, dst_col, src_line, src_col, src_id, name_id));
    }

    /// Adds tokens.
    pub fn add_tokens(&mut self, tokens: &[Token]) {
        self.tokens.extend_from_slice(tokens);
    }

    /// Sets the name of the generated file.
    pub fn set_file(&mut self, file: &'a str) {
        self.file = Some(file);
    }

    /// Sets the chunks that the map keeps.
    pub fn set_token_chunks(&mut self, token_chunks: Vec<TokenChunk>) {
        self.token_chunks = Some(token_chunks);
    }

    /// The map that was built.
    #[track_caller]
    pub fn into_sourcemap(self) -> SourceMap<'a> {
        expected(self.try_into_sourcemap())
    }

    /// The same. Fails with `TooLarge` if there are more than 4294967295 tokens, or with `OutOfMemory`.
    pub fn try_into_sourcemap(self) -> Result<SourceMap<'a>> {
        SourceMap::try_from_parts(SourceMapParts {
            file: self.file.map(Cow::Borrowed),
            names: self.names.into_iter().map(Cow::Borrowed).collect(),
            source_root: None,
            sources: self.sources.into_iter().map(Cow::Borrowed).collect(),
            source_contents: self.source_contents.into_iter().map(|content| content.map(Cow::Borrowed)).collect(),
            tokens: self.tokens.into_boxed_slice(),
            token_chunks: self.token_chunks,
            ignore_list: None,
            debug_id: None,
        })
    }

    /// The map that was built, without a lifetime.
    #[track_caller]
    pub fn into_owned_sourcemap(self) -> OwnedSourceMap {
        self.into_sourcemap().into_owned_sourcemap()
    }
}
