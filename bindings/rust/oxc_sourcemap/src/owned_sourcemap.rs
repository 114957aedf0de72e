//! A map without a lifetime.

use std::ops::{Deref, DerefMut};

use crate::error::Result;
use crate::token::{SourceViewToken, Token};
use crate::{JSONSourceMap, SourceMap, SourceMapParts};

/// A map without a lifetime, for structs that keep one. It has all calls of [`SourceMap`].
///
/// ```
/// use oxc_sourcemap::{OwnedSourceMap, SourceMap};
/// struct Module {
///     map: Option<OwnedSourceMap>,
/// }
/// let map = OwnedSourceMap::from_json_string(r#"{"version":3,"file":"a.js","sources":[],"mappings":""}"#)?;
/// let module = Module { map: Some(map) };
/// assert_eq!(module.map.as_ref().unwrap().get_file(), Some("a.js"));
/// # Ok::<(), oxc_sourcemap::Error>(())
/// ```
#[derive(Debug, Clone, Default)]
pub struct OwnedSourceMap {
    inner: SourceMap<'static>,
}

impl OwnedSourceMap {
    /// This map, without its lifetime.
    #[inline]
    pub fn new(inner: SourceMap<'static>) -> Self {
        OwnedSourceMap { inner }
    }

    /// The map.
    #[inline]
    pub fn as_source_map(&self) -> &SourceMap<'static> {
        &self.inner
    }

    /// The map, to be changed.
    #[inline]
    pub fn as_source_map_mut(&mut self) -> &mut SourceMap<'static> {
        &mut self.inner
    }

    /// The map, by value.
    #[inline]
    pub fn into_inner(self) -> SourceMap<'static> {
        self.inner
    }

    /// See [`SourceMap::from_json`].
    pub fn from_json(value: JSONSourceMap) -> Result<Self> {
        SourceMap::from_json(value).map(Self::new)
    }

    /// See [`SourceMap::from_json_string`].
    pub fn from_json_string(value: &str) -> Result<Self> {
        SourceMap::from_json_string(value).map(SourceMap::into_owned_sourcemap)
    }

    /// See [`SourceMap::to_json`].
    #[track_caller]
    pub fn to_json(&self) -> JSONSourceMap {
        self.inner.to_json()
    }

    /// See [`SourceMap::to_json_string`].
    #[track_caller]
    pub fn to_json_string(&self) -> String {
        self.inner.to_json_string()
    }

    /// See [`SourceMap::to_data_url`].
    #[track_caller]
    pub fn to_data_url(&self) -> String {
        self.inner.to_data_url()
    }

    /// See [`SourceMap::compose`].
    #[track_caller]
    pub fn compose(self, input: Self) -> Self {
        Self::new(self.inner.compose(input.inner))
    }

    /// See [`SourceMap::get_file`].
    pub fn get_file(&self) -> Option<&str> {
        self.inner.get_file()
    }

    /// See [`SourceMap::set_file`].
    pub fn set_file(&mut self, file: &str) {
        self.inner.set_file(file);
    }

    /// See [`SourceMap::get_source_root`].
    pub fn get_source_root(&self) -> Option<&str> {
        self.inner.get_source_root()
    }

    /// See [`SourceMap::get_ignore_list`].
    pub fn get_ignore_list(&self) -> Option<&[u32]> {
        self.inner.get_ignore_list()
    }

    /// See [`SourceMap::set_ignore_list`].
    pub fn set_ignore_list(&mut self, list: Vec<u32>) {
        self.inner.set_ignore_list(list);
    }

    /// See [`SourceMap::get_debug_id`].
    pub fn get_debug_id(&self) -> Option<&str> {
        self.inner.get_debug_id()
    }

    /// See [`SourceMap::set_debug_id`].
    pub fn set_debug_id(&mut self, debug_id: &str) {
        self.inner.set_debug_id(debug_id);
    }

    /// See [`SourceMap::get_names`].
    pub fn get_names(&self) -> impl ExactSizeIterator<Item = &str> {
        self.inner.get_names()
    }

    /// See [`SourceMap::get_sources`].
    pub fn get_sources(&self) -> impl ExactSizeIterator<Item = &str> {
        self.inner.get_sources()
    }

    /// See [`SourceMap::set_sources`].
    pub fn set_sources<S: AsRef<str>, I: IntoIterator<Item = S>>(&mut self, sources: I) {
        self.inner.set_sources(sources);
    }

    /// See [`SourceMap::get_source_contents`].
    pub fn get_source_contents(&self) -> impl ExactSizeIterator<Item = Option<&str>> {
        self.inner.get_source_contents()
    }

    /// See [`SourceMap::set_source_contents`].
    pub fn set_source_contents(&mut self, contents: Vec<Option<&str>>) {
        self.inner.set_source_contents(contents);
    }

    /// See [`SourceMap::get_name`].
    pub fn get_name(&self, id: u32) -> Option<&str> {
        self.inner.get_name(id)
    }

    /// See [`SourceMap::get_source`].
    pub fn get_source(&self, id: u32) -> Option<&str> {
        self.inner.get_source(id)
    }

    /// See [`SourceMap::get_source_content`].
    pub fn get_source_content(&self, id: u32) -> Option<&str> {
        self.inner.get_source_content(id)
    }

    /// See [`SourceMap::get_source_and_content`].
    pub fn get_source_and_content(&self, id: u32) -> Option<(&str, &str)> {
        self.inner.get_source_and_content(id)
    }

    /// See [`SourceMap::get_token`].
    pub fn get_token(&self, index: u32) -> Option<Token> {
        self.inner.get_token(index)
    }

    /// See [`SourceMap::get_tokens`].
    pub fn get_tokens(&self) -> impl ExactSizeIterator<Item = Token> {
        self.inner.get_tokens()
    }

    /// See [`SourceMap::get_source_view_token`].
    pub fn get_source_view_token(&self, index: u32) -> Option<SourceViewToken<'_, 'static>> {
        self.inner.get_source_view_token(index)
    }

    /// See [`SourceMap::get_source_view_tokens`].
    pub fn get_source_view_tokens(&self) -> impl ExactSizeIterator<Item = SourceViewToken<'_, 'static>> {
        self.inner.get_source_view_tokens()
    }

    /// See [`SourceMap::generate_lookup_table`].
    #[track_caller]
    pub fn generate_lookup_table(&self) -> Vec<&[Token]> {
        self.inner.generate_lookup_table()
    }

    /// See [`SourceMap::lookup_token`].
    pub fn lookup_token(&self, lookup_table: &[&[Token]], line: u32, col: u32) -> Option<Token> {
        self.inner.lookup_token(lookup_table, line, col)
    }

    /// See [`SourceMap::lookup_source_view_token`].
    pub fn lookup_source_view_token(
        &self,
        lookup_table: &[&[Token]],
        line: u32,
        col: u32,
    ) -> Option<SourceViewToken<'_, 'static>> {
        self.inner.lookup_source_view_token(lookup_table, line, col)
    }

    /// See [`SourceMap::lookup_token_approx`].
    pub fn lookup_token_approx(&self, lookup_table: &[&[Token]], line: u32, col: u32) -> Option<Token> {
        self.inner.lookup_token_approx(lookup_table, line, col)
    }

    /// See [`SourceMap::lookup_source_view_token_approx`].
    pub fn lookup_source_view_token_approx(
        &self,
        lookup_table: &[&[Token]],
        line: u32,
        col: u32,
    ) -> Option<SourceViewToken<'_, 'static>> {
        self.inner.lookup_source_view_token_approx(lookup_table, line, col)
    }

    /// See [`SourceMap::into_parts`].
    pub fn into_parts(self) -> SourceMapParts<'static> {
        self.inner.into_parts()
    }

    /// See [`SourceMap::from_parts`].
    #[track_caller]
    pub fn from_parts(parts: SourceMapParts<'static>) -> Self {
        Self::new(SourceMap::from_parts(parts))
    }
}

impl From<SourceMap<'static>> for OwnedSourceMap {
    #[inline]
    fn from(inner: SourceMap<'static>) -> Self {
        Self::new(inner)
    }
}

impl From<OwnedSourceMap> for SourceMap<'static> {
    #[inline]
    fn from(owned: OwnedSourceMap) -> Self {
        owned.inner
    }
}

impl Deref for OwnedSourceMap {
    type Target = SourceMap<'static>;

    #[inline]
    fn deref(&self) -> &Self::Target {
        &self.inner
    }
}

impl DerefMut for OwnedSourceMap {
    #[inline]
    fn deref_mut(&mut self) -> &mut Self::Target {
        &mut self.inner
    }
}

impl SourceMap<'_> {
    /// This map, without its lifetime.
    #[inline]
    pub fn into_owned_sourcemap(self) -> OwnedSourceMap {
        OwnedSourceMap::new(self.into_owned())
    }
}
