//! Maps: what they hold, and how they are read, written and changed.

use std::borrow::Cow;
use std::fmt;
use std::marker::PhantomData;
use std::sync::OnceLock;

use oxc_sourcemap_sys as sys;

use crate::error::{Error, Fault, Result};
use crate::raw::{self, Owned, Told, done, expected, lent, lent_if, listed, made, made_text};
use crate::token::{SourceViewToken, Token, TokenChunk};

/// A source map.
///
/// It is a handle of the library, which owns all texts; what the calls return is borrowed from the map. So `'a`, the lifetime of what a map
/// is made of, means less here than in the crate that this one replaces: nothing is borrowed for it.
///
/// Any number of threads may read one map.
///
/// ```
/// use oxc_sourcemap::SourceMap;
/// let map = SourceMap::from_json_string(
///     r#"{"version":3,"names":["hi"],"sources":["a.ts"],"mappings":"AAAA,GAASA"}"#,
/// )?;
/// let table = map.generate_lookup_table();
/// let token = map.lookup_source_view_token(&table, 0, 5).unwrap();
/// assert_eq!(token.to_tuple(), (Some("a.ts"), 0, 9, Some("hi")));
/// # Ok::<(), oxc_sourcemap::Error>(())
/// ```
///
/// # Panics
///
/// Calls that may fail, but return no `Result` in the crate that this one replaces, panic with the message of the error; each has a variant
/// that returns it, such as [`try_to_json_string`](Self::try_to_json_string). Calls that need memory, and have no `Result` to report its
/// lack, end the process then, as Rust's own collections do.
pub struct SourceMap<'a> {
    pub(crate) map: Owned<sys::smap_map>,
    /// The tokens, once a call has listed them.
    tokens: OnceLock<Box<[Token]>>,
    /// The same for the ignore list.
    ignore_list: OnceLock<Option<Box<[u32]>>>,
    token_chunks: Option<Vec<TokenChunk>>,
    texts: PhantomData<&'a str>,
}

/// The contents of a map, as lists of Rust. See [`SourceMap::into_parts`].
#[derive(Debug, Clone, Default)]
#[allow(missing_docs)]
pub struct SourceMapParts<'a> {
    pub file: Option<Cow<'a, str>>,
    pub names: Vec<Cow<'a, str>>,
    pub source_root: Option<Cow<'a, str>>,
    pub sources: Vec<Cow<'a, str>>,
    pub source_contents: Vec<Option<Cow<'a, str>>>,
    pub tokens: Box<[Token]>,
    pub token_chunks: Option<Vec<TokenChunk>>,
    pub ignore_list: Option<Vec<u32>>,
    pub debug_id: Option<Cow<'a, str>>,
}

/// The lengths of the lists of a map, the number of its generated lines, and the bytes of its texts, tokens and indices (plus some
/// 50 for each text).
#[derive(Clone, Copy, Debug, PartialEq, Eq)]
#[non_exhaustive]
#[allow(missing_docs)]
pub struct Counts {
    pub tokens: usize,
    pub names: usize,
    pub sources: usize,
    pub source_contents: usize,
    pub ignore_list: usize,
    pub lines: usize,
    pub bytes: usize,
}

pub(crate) fn raw_tokens(tokens: &[Token]) -> *const sys::smap_token {
    tokens.as_ptr().cast()
}

fn raw_contents(contents: &[Option<Cow<'_, str>>]) -> Vec<sys::smap_text> {
    raw::texts(contents.iter().map(Option::as_deref))
}

/// A map of whole lists, whose ids are in range.
fn map_of_lists(tokens: &[Token], parts: &SourceMapParts<'_>) -> Result<Owned<sys::smap_map>, Told> {
    let names = raw::texts(parts.names.iter().map(|name| Some(&**name)));
    let sources = raw::texts(parts.sources.iter().map(|source| Some(&**source)));
    let contents = raw_contents(&parts.source_contents);
    // SAFETY: pointers and lengths are those of live slices, the texts are borrowed from `parts`, and the outputs are ours.
    made(|out, fault| unsafe {
        sys::smap_from_tokens(
            raw_tokens(tokens),
            tokens.len(),
            names.as_ptr(),
            names.len(),
            sources.as_ptr(),
            sources.len(),
            contents.as_ptr(),
            contents.len(),
            std::ptr::null(),
            0,
            out,
            fault,
        )
    })
}

/// A map of tokens alone, whose ids may be any.
fn map_of_tokens(tokens: &[Token]) -> Result<Owned<sys::smap_map>, Told> {
    // SAFETY: the outputs are ours.
    let mut builder = made(|out, fault| unsafe { sys::smap_builder_new(out, fault) })?;
    // SAFETY: the builder is live and used by nobody else, pointer and length are those of a live slice, the fault is ours.
    done(|fault| unsafe { sys::smap_builder_add_tokens(builder.get_mut(), raw_tokens(tokens), tokens.len(), fault) })?;
    // SAFETY: the same.
    made(|out, fault| unsafe { sys::smap_builder_finish(builder.get_mut(), out, fault) })
}

/// A map of whole lists, whose ids may be out of range: it is the join of its tokens with its lists.
fn map_of_loose_lists(parts: &SourceMapParts<'_>) -> Result<Owned<sys::smap_map>, Told> {
    let (tokens, lists) = (map_of_tokens(&parts.tokens)?, map_of_lists(&[], parts)?);
    let (maps, positions) = ([tokens.get(), lists.get()], [sys::smap_position::default(); 2]);
    // SAFETY: the maps are live, pointers and lengths are those of live arrays, and the outputs are ours.
    let mut map =
        made(|out, fault| unsafe { sys::smap_join_all(maps.as_ptr(), 2, positions.as_ptr(), 2, out, fault) })?;
    // A join has a content for each source; here there may be fewer or more.
    let contents = raw_contents(&parts.source_contents);
    // SAFETY: the map is live and used by nobody else, the texts are borrowed from `parts`, and the fault is ours.
    done(|fault| unsafe { sys::smap_set_source_contents(map.get_mut(), contents.as_ptr(), contents.len(), fault) })?;
    Ok(map)
}

impl<'a> SourceMap<'a> {
    pub(crate) fn of(map: Owned<sys::smap_map>) -> SourceMap<'a> {
        SourceMap { map, tokens: OnceLock::new(), ignore_list: OnceLock::new(), token_chunks: None, texts: PhantomData }
    }

    /// A map of these lists, without an ignore list and a debug id. Nothing is checked.
    pub fn new(
        file: Option<Cow<'a, str>>,
        names: Vec<Cow<'a, str>>,
        source_root: Option<Cow<'a, str>>,
        sources: Vec<Cow<'a, str>>,
        source_contents: Vec<Option<Cow<'a, str>>>,
        tokens: Box<[Token]>,
        token_chunks: Option<Vec<TokenChunk>>,
    ) -> Self {
        SourceMap::from_parts(SourceMapParts {
            file,
            names,
            source_root,
            sources,
            source_contents,
            tokens,
            token_chunks,
            ignore_list: None,
            debug_id: None,
        })
    }

    /// A map of these parts, which are copied. Nothing is checked.
    #[track_caller]
    pub fn from_parts(parts: SourceMapParts<'a>) -> Self {
        expected(SourceMap::try_from_parts(parts))
    }

    /// The same. Fails with `TooLarge` if a list has more than 4294967295 entries, or with `OutOfMemory`.
    pub fn try_from_parts(parts: SourceMapParts<'a>) -> Result<Self> {
        let mut map = SourceMap::try_of_lists(&parts)?;
        map.token_chunks = parts.token_chunks;
        Ok(map)
    }

    /// The same for parts that stay, without their chunks.
    pub(crate) fn try_of_lists(parts: &SourceMapParts<'_>) -> Result<Self> {
        let map = match map_of_lists(&parts.tokens, parts) {
            Err(told) if matches!(told.0.code, sys::SMAP_BAD_SOURCE_REFERENCE | sys::SMAP_BAD_NAME_REFERENCE) => {
                map_of_loose_lists(parts)?
            }
            map => map?,
        };
        let mut map = SourceMap::of(map);
        if let Some(file) = &parts.file {
            map.try_set_file(file)?;
        }
        if let Some(root) = &parts.source_root {
            map.try_set_source_root(root)?;
        }
        if let Some(id) = &parts.debug_id {
            map.try_set_debug_id(id)?;
        }
        if let Some(list) = &parts.ignore_list {
            map.try_set_ignore_list(list)?;
        }
        Ok(map)
    }

    /// All that the map holds. The texts are copied.
    #[track_caller]
    pub fn into_parts(mut self) -> SourceMapParts<'a> {
        let owned = |text: &str| Cow::Owned(text.to_owned());
        let tokens = std::mem::take(&mut self.tokens).into_inner();
        SourceMapParts {
            file: self.get_file().map(owned),
            names: self.get_names().map(owned).collect(),
            source_root: self.get_source_root().map(owned),
            sources: self.get_sources().map(owned).collect(),
            source_contents: self.get_source_contents().map(|content| content.map(owned)).collect(),
            tokens: tokens.unwrap_or_else(|| expected(self.copied_tokens())),
            token_chunks: self.token_chunks.take(),
            ignore_list: self.get_ignore_list().map(<[u32]>::to_vec),
            debug_id: self.get_debug_id().map(owned),
        }
    }

    /// The same map for any lifetime. Nothing is copied, since maps own their texts.
    pub fn into_owned(self) -> SourceMap<'static> {
        SourceMap {
            map: self.map,
            tokens: self.tokens,
            ignore_list: self.ignore_list,
            token_chunks: self.token_chunks,
            texts: PhantomData,
        }
    }

    // ---- reading and writing ----

    /// Reads a map from its JSON text. An indexed map is read as the join of its sections.
    ///
    /// Fails with the first fault of the text; [`read`](Self::read) also reports where it is.
    ///
    /// ```
    /// use oxc_sourcemap::{Error, JsonFault, SourceMap};
    /// let error = SourceMap::from_json_string(r#"{"version":2}"#).unwrap_err();
    /// assert_eq!(error, Error::BadJson(JsonFault::Version(2)));
    /// assert_eq!(error.to_string(), "JSON parsing error: unsupported source map version: 2");
    /// ```
    pub fn from_json_string(value: &'a str) -> Result<SourceMap<'a>> {
        Ok(SourceMap::read(value.as_bytes())?)
    }

    /// The same for bytes, with the place of a fault. Fails also with `NotUtf8`.
    ///
    /// ```
    /// use oxc_sourcemap::{Error, Field, SourceMap, Spot};
    /// let fault = SourceMap::read(br#"{"version":3,"sources":["a.ts",7],"mappings":""}"#).unwrap_err();
    /// assert_eq!(fault.place().unwrap().spot, Spot::Entry { field: Field::Sources, entry: 1 });
    /// assert_eq!(SourceMap::read(b"{\"\xff").unwrap_err().error(), Error::NotUtf8(2));
    /// ```
    pub fn read(json: &[u8]) -> Result<SourceMap<'static>, Fault> {
        // SAFETY: pointer and length are those of a live slice, and the outputs are ours.
        let map =
            made(|out, fault| unsafe { sys::smap_from_json_string(json.as_ptr().cast(), json.len(), out, fault) })?;
        Ok(SourceMap::of(map))
    }

    /// Writes the JSON text.
    ///
    /// # Panics
    ///
    /// Where [`try_to_json_string`](Self::try_to_json_string) fails.
    #[track_caller]
    pub fn to_json_string(&self) -> String {
        expected(self.try_to_json_string())
    }

    /// Writes the JSON text. Fails with `LineOrder` if tokens go back in lines, with `TooLarge` if there are more than 4294967295,
    /// or with `OutOfMemory`.
    ///
    /// ```
    /// use oxc_sourcemap::{Error, SourceMap, Token};
    /// let tokens = [Token::new(1, 0, 0, 0, None, None), Token::new(0, 0, 0, 0, None, None)];
    /// let map = SourceMap::new(None, vec![], None, vec![], vec![], Box::new(tokens), None);
    /// assert_eq!(map.try_to_json_string(), Err(Error::LineOrder(1)));
    /// ```
    pub fn try_to_json_string(&self) -> Result<String> {
        // SAFETY: the map is live, and the outputs are ours.
        Ok(made_text(|out, fault| unsafe { sys::smap_to_json_string(self.map.get(), out, fault) })?)
    }

    /// Writes the JSON text as a data URL.
    ///
    /// # Panics
    ///
    /// Where [`try_to_data_url`](Self::try_to_data_url) fails.
    #[track_caller]
    pub fn to_data_url(&self) -> String {
        expected(self.try_to_data_url())
    }

    /// Writes the JSON text as a data URL. Fails as [`try_to_json_string`](Self::try_to_json_string) does.
    pub fn try_to_data_url(&self) -> Result<String> {
        // SAFETY: the map is live, and the outputs are ours.
        Ok(made_text(|out, fault| unsafe { sys::smap_to_data_url(self.map.get(), out, fault) })?)
    }

    /// Writes the mappings alone. Fails as [`try_to_json_string`](Self::try_to_json_string) does.
    pub fn get_mappings(&self) -> Result<String> {
        // SAFETY: the map is live, and the outputs are ours.
        Ok(made_text(|out, fault| unsafe { sys::smap_get_mappings(self.map.get(), out, fault) })?)
    }

    /// Writes the JSON text, if it has at most `limit` bytes. A map that others send may have four gigabytes of lines, in a
    /// text of some hundred bytes. Fails as [`try_to_json_string`](Self::try_to_json_string) does, and then with `TooLarge` for a
    /// longer text; a map with too many lines fails before anything is written.
    ///
    /// ```
    /// use oxc_sourcemap::{Error, SourceMap};
    /// let text = r#"{"version":3,"names":[],"sources":["a.js"],"mappings":"AAAA"}"#;
    /// let map = SourceMap::from_json_string(text)?;
    /// assert_eq!(map.to_json_string_within(61)?, text);
    /// assert_eq!(map.to_json_string_within(60), Err(Error::TooLarge));
    /// # Ok::<(), oxc_sourcemap::Error>(())
    /// ```
    pub fn to_json_string_within(&self, limit: usize) -> Result<String> {
        // SAFETY: the map is live, and the outputs are ours.
        Ok(made_text(|out, fault| unsafe { sys::smap_to_json_string_within(self.map.get(), limit, out, fault) })?)
    }

    /// Writes the JSON text as a data URL, if that has at most `limit` bytes. Fails as
    /// [`to_json_string_within`](Self::to_json_string_within) does.
    pub fn to_data_url_within(&self, limit: usize) -> Result<String> {
        // SAFETY: the map is live, and the outputs are ours.
        Ok(made_text(|out, fault| unsafe { sys::smap_to_data_url_within(self.map.get(), limit, out, fault) })?)
    }

    /// Writes the mappings alone, if they have at most `limit` bytes. Fails as
    /// [`to_json_string_within`](Self::to_json_string_within) does.
    pub fn get_mappings_within(&self, limit: usize) -> Result<String> {
        // SAFETY: the map is live, and the outputs are ours.
        Ok(made_text(|out, fault| unsafe { sys::smap_get_mappings_within(self.map.get(), limit, out, fault) })?)
    }

    // ---- what a map holds ----

    /// The lengths of the lists of this map, of its lines and of its memory.
    ///
    /// ```
    /// use oxc_sourcemap::SourceMap;
    /// let map = SourceMap::from_json_string(r#"{"version":3,"sources":["a.ts"],"mappings":"AAAA;;A,C"}"#)?;
    /// let counts = map.counts();
    /// assert_eq!((counts.tokens, counts.names, counts.sources, counts.lines), (3, 0, 1, 3));
    /// # Ok::<(), oxc_sourcemap::Error>(())
    /// ```
    pub fn counts(&self) -> Counts {
        let mut counts = sys::smap_counts::default();
        // SAFETY: the map is live, and the output is ours.
        unsafe { sys::smap_get_counts(self.map.get(), &mut counts) };
        Counts {
            tokens: counts.tokens,
            names: counts.names,
            sources: counts.sources,
            source_contents: counts.source_contents,
            ignore_list: counts.ignore_list,
            lines: counts.lines,
            bytes: counts.bytes,
        }
    }

    /// Whether the tokens are sorted by generated line and column.
    pub fn is_sorted(&self) -> bool {
        let mut is = 0;
        // SAFETY: the map is live, and the output is ours.
        unsafe { sys::smap_is_sorted(self.map.get(), &mut is) };
        is == 1
    }

    /// Whether the tokens are sorted and all ids are in range.
    pub fn is_sound(&self) -> bool {
        let mut is = 0;
        // SAFETY: the map is live, and the output is ours.
        unsafe { sys::smap_is_sound(self.map.get(), &mut is) };
        is == 1
    }

    /// The name of the generated file.
    pub fn get_file(&self) -> Option<&str> {
        // SAFETY: the map is live; the text is borrowed from `self`, which is not changed meanwhile.
        unsafe { lent_if(|out| sys::smap_get_file(self.map.get(), out)) }
    }

    /// What stands before all sources.
    pub fn get_source_root(&self) -> Option<&str> {
        // SAFETY: as in `get_file`.
        unsafe { lent_if(|out| sys::smap_get_source_root(self.map.get(), out)) }
    }

    /// The debug id.
    pub fn get_debug_id(&self) -> Option<&str> {
        // SAFETY: as in `get_file`.
        unsafe { lent_if(|out| sys::smap_get_debug_id(self.map.get(), out)) }
    }

    /// The ids of the sources that debuggers may skip. They are copied out of the map when they are first asked for.
    pub fn get_ignore_list(&self) -> Option<&[u32]> {
        self.ignore_list.get_or_init(|| expected(self.copied_ignore_list())).as_deref()
    }

    fn copied_ignore_list(&self) -> Result<Option<Box<[u32]>>> {
        // SAFETY: the map is live, and there is room for as many entries as is said.
        match listed(|at, len, count| unsafe { sys::smap_get_ignore_list(self.map.get(), at, len, count) }) {
            Ok(list) => Ok(Some(list.into_boxed_slice())),
            Err(told) if told.0.code == sys::SMAP_NO_ENTRY => Ok(None),
            Err(told) => Err(told.into()),
        }
    }

    /// The texts of a list; those without an address are none.
    fn listed_texts(&self, call: impl FnMut(*mut sys::smap_text, usize, *mut usize) -> u32) -> Vec<Option<&str>> {
        let texts = expected(listed(call).map_err(Error::from));
        // SAFETY: the texts are borrowed from `self`, which is not changed meanwhile.
        texts.into_iter().map(|text| (!text.at.is_null()).then(|| unsafe { lent(text) })).collect()
    }

    /// The names, in order of their ids.
    pub fn get_names(&self) -> impl ExactSizeIterator<Item = &str> {
        // SAFETY: the map is live, and there is room for as many entries as is said.
        let names = self.listed_texts(|at, len, count| unsafe { sys::smap_get_names(self.map.get(), at, len, count) });
        names.into_iter().map(Option::unwrap_or_default)
    }

    /// The sources, in order of their ids, without the source root.
    pub fn get_sources(&self) -> impl ExactSizeIterator<Item = &str> {
        // SAFETY: the map is live, and there is room for as many entries as is said.
        let sources =
            self.listed_texts(|at, len, count| unsafe { sys::smap_get_sources(self.map.get(), at, len, count) });
        sources.into_iter().map(Option::unwrap_or_default)
    }

    /// The contents of the sources, in order of their ids; none where it is not known. There may be fewer than sources, or more.
    pub fn get_source_contents(&self) -> impl ExactSizeIterator<Item = Option<&str>> {
        // SAFETY: the map is live, and there is room for as many entries as is said.
        let contents = self
            .listed_texts(|at, len, count| unsafe { sys::smap_get_source_contents(self.map.get(), at, len, count) });
        contents.into_iter()
    }

    /// The name with this id.
    pub fn get_name(&self, id: u32) -> Option<&str> {
        // SAFETY: as in `get_file`.
        unsafe { lent_if(|out| sys::smap_get_name(self.map.get(), id, out)) }
    }

    /// The source with this id, without the source root.
    pub fn get_source(&self, id: u32) -> Option<&str> {
        // SAFETY: as in `get_file`.
        unsafe { lent_if(|out| sys::smap_get_source(self.map.get(), id, out)) }
    }

    /// The content of the source with this id, if it is known.
    pub fn get_source_content(&self, id: u32) -> Option<&str> {
        // SAFETY: as in `get_file`.
        unsafe { lent_if(|out| sys::smap_get_source_content(self.map.get(), id, out)) }
    }

    /// The source with this id and its content, if both are known.
    pub fn get_source_and_content(&self, id: u32) -> Option<(&str, &str)> {
        Some((self.get_source(id)?, self.get_source_content(id)?))
    }

    /// The token at an index.
    pub fn get_token(&self, index: u32) -> Option<Token> {
        if let Some(tokens) = self.tokens.get() {
            return tokens.get(index as usize).copied();
        }
        let mut token = sys::smap_token::default();
        // SAFETY: the map is live, and the output is ours.
        let code = unsafe { sys::smap_get_token(self.map.get(), index, &mut token) };
        (code == sys::SMAP_OK).then(|| Token::of(token))
    }

    /// The token at an index, beside this map.
    pub fn get_source_view_token(&self, index: u32) -> Option<SourceViewToken<'_, 'a>> {
        self.get_token(index).map(|token| SourceViewToken::new(token, self))
    }

    /// The tokens, as one list. They are copied out of the map when they are first asked for.
    pub fn tokens(&self) -> &[Token] {
        self.tokens.get_or_init(|| expected(self.copied_tokens()))
    }

    /// The list of tokens, if a call has listed them before.
    pub(crate) fn own_tokens(&self) -> Option<&[Token]> {
        self.tokens.get().map(|tokens| &**tokens)
    }

    fn copied_tokens(&self) -> Result<Box<[Token]>> {
        // SAFETY: the map is live, there is room for as many entries as is said, and tokens have the layout of the library's.
        let tokens = listed(|at: *mut Token, len, count| unsafe {
            sys::smap_get_tokens(self.map.get(), at.cast(), len, count)
        })?;
        Ok(tokens.into_boxed_slice())
    }

    /// The tokens, in order.
    pub fn get_tokens(&self) -> impl ExactSizeIterator<Item = Token> {
        self.tokens().iter().copied()
    }

    /// The tokens, in order, beside this map.
    pub fn get_source_view_tokens(&self) -> impl ExactSizeIterator<Item = SourceViewToken<'_, 'a>> {
        self.tokens().iter().map(|&token| SourceViewToken::new(token, self))
    }

    // ---- changing ----

    /// Sets the name of the generated file.
    pub fn set_file(&mut self, file: &str) {
        expected(self.try_set_file(file))
    }

    fn try_set_file(&mut self, file: &str) -> Result<()> {
        // SAFETY: the map is live and used by nobody else, pointer and length are those of a live text, and the fault is ours.
        done(|fault| unsafe { sys::smap_set_file(self.map.get_mut(), file.as_ptr().cast(), file.len(), fault) })?;
        Ok(())
    }

    /// Sets what stands before all sources.
    pub fn set_source_root(&mut self, root: &str) {
        expected(self.try_set_source_root(root))
    }

    fn try_set_source_root(&mut self, root: &str) -> Result<()> {
        // SAFETY: as in `try_set_file`.
        done(|fault| unsafe {
            sys::smap_set_source_root(self.map.get_mut(), root.as_ptr().cast(), root.len(), fault)
        })?;
        Ok(())
    }

    /// Sets the debug id.
    pub fn set_debug_id(&mut self, debug_id: &str) {
        expected(self.try_set_debug_id(debug_id))
    }

    fn try_set_debug_id(&mut self, id: &str) -> Result<()> {
        // SAFETY: as in `try_set_file`.
        done(|fault| unsafe { sys::smap_set_debug_id(self.map.get_mut(), id.as_ptr().cast(), id.len(), fault) })?;
        Ok(())
    }

    /// Sets the ids of the sources that debuggers may skip. They are not compared with the sources.
    pub fn set_ignore_list(&mut self, ignore_list: Vec<u32>) {
        expected(self.try_set_ignore_list(&ignore_list))
    }

    fn try_set_ignore_list(&mut self, list: &[u32]) -> Result<()> {
        self.ignore_list.take();
        // SAFETY: as in `try_set_file`.
        done(|fault| unsafe { sys::smap_set_ignore_list(self.map.get_mut(), list.as_ptr(), list.len(), fault) })?;
        Ok(())
    }

    /// Sets all sources.
    pub fn set_sources<S: AsRef<str>, I: IntoIterator<Item = S>>(&mut self, sources: I) {
        let sources: Vec<S> = sources.into_iter().collect();
        let texts = raw::texts(sources.iter().map(|source| Some(source.as_ref())));
        // SAFETY: the map is live and used by nobody else, the texts are borrowed from `sources`, and the fault is ours.
        let set =
            done(|fault| unsafe { sys::smap_set_sources(self.map.get_mut(), texts.as_ptr(), texts.len(), fault) });
        expected(set.map_err(Error::from))
    }

    /// Sets the contents of all sources.
    pub fn set_source_contents(&mut self, source_contents: Vec<Option<&str>>) {
        let texts = raw::texts(source_contents.into_iter());
        // SAFETY: the map is live and used by nobody else, the texts are borrowed by the caller, and the fault is ours.
        let set = done(|fault| unsafe {
            sys::smap_set_source_contents(self.map.get_mut(), texts.as_ptr(), texts.len(), fault)
        });
        expected(set.map_err(Error::from))
    }

    /// After a change of more than a text.
    fn forget_lent(&mut self) {
        self.tokens.take();
        self.ignore_list.take();
        self.token_chunks = None;
    }

    /// Puts the source root before each source, and removes it from the map. Fails with `OutOfMemory`; the map is then unchanged.
    ///
    /// ```
    /// use oxc_sourcemap::SourceMap;
    /// let text = r#"{"version":3,"sourceRoot":"src","sources":["a.ts","/b.ts"],"mappings":""}"#;
    /// let mut map = SourceMap::from_json_string(text)?;
    /// map.apply_source_root()?;
    /// assert_eq!(map.get_sources().collect::<Vec<_>>(), ["src/a.ts", "/b.ts"]);
    /// assert_eq!(map.get_source_root(), None);
    /// # Ok::<(), oxc_sourcemap::Error>(())
    /// ```
    pub fn apply_source_root(&mut self) -> Result<()> {
        // SAFETY: the map is live and used by nobody else, and the fault is ours.
        Ok(done(|fault| unsafe { sys::smap_apply_source_root(self.map.get_mut(), fault) })?)
    }

    /// Sorts the tokens by generated position; those at one position keep their order. Fails with `OutOfMemory`; the map is then unchanged.
    ///
    /// ```
    /// use oxc_sourcemap::SourceMap;
    /// let mut map = SourceMap::from_json_string(r#"{"version":3,"sources":[],"mappings":"G,D"}"#)?;
    /// assert!(!map.is_sorted());
    /// map.sort()?;
    /// assert_eq!(map.get_mappings()?, "E,C");
    /// # Ok::<(), oxc_sourcemap::Error>(())
    /// ```
    pub fn sort(&mut self) -> Result<()> {
        // SAFETY: the map is live and used by nobody else, and the fault is ours.
        done(|fault| unsafe { sys::smap_sort(self.map.get_mut(), fault) })?;
        self.forget_lent();
        Ok(())
    }

    /// Drops tokens, names and sources that no lookup needs (`smap_simplify` in oxc_sourcemap.h). Fails with `Unsorted`, `TooLarge` or
    /// `OutOfMemory`; the map is then unchanged.
    ///
    /// ```
    /// use oxc_sourcemap::SourceMap;
    /// let text = r#"{"version":3,"names":["idle"],"sources":["a.ts","b.ts"],"mappings":"AAAA,CAAA,C,C"}"#;
    /// let mut map = SourceMap::from_json_string(text)?;
    /// map.simplify()?;
    /// assert_eq!(map.to_json_string(), r#"{"version":3,"names":[],"sources":["a.ts"],"mappings":"AAAA,E"}"#);
    /// # Ok::<(), oxc_sourcemap::Error>(())
    /// ```
    pub fn simplify(&mut self) -> Result<()> {
        // SAFETY: the map is live and used by nobody else, and the fault is ours.
        done(|fault| unsafe { sys::smap_simplify(self.map.get_mut(), fault) })?;
        self.forget_lent();
        Ok(())
    }

    /// A map that is equal to this one. Fails with `OutOfMemory`.
    pub fn try_clone(&self) -> Result<SourceMap<'a>> {
        // SAFETY: the map is live, and the outputs are ours.
        let mut map = SourceMap::of(made(|out, fault| unsafe { sys::smap_clone(self.map.get(), out, fault) })?);
        map.token_chunks = self.token_chunks.clone();
        Ok(map)
    }
}

impl Clone for SourceMap<'_> {
    #[track_caller]
    fn clone(&self) -> Self {
        expected(self.try_clone())
    }
}

impl Default for SourceMap<'_> {
    fn default() -> Self {
        SourceMap::from_parts(SourceMapParts::default())
    }
}

impl fmt::Debug for SourceMap<'_> {
    fn fmt(&self, f: &mut fmt::Formatter<'_>) -> fmt::Result {
        f.debug_struct("SourceMap")
            .field("file", &self.get_file())
            .field("names", &self.get_names().collect::<Vec<_>>())
            .field("source_root", &self.get_source_root())
            .field("sources", &self.get_sources().collect::<Vec<_>>())
            .field("source_contents", &self.get_source_contents().collect::<Vec<_>>())
            .field("tokens", &self.tokens())
            .field("token_chunks", &self.token_chunks)
            .field("ignore_list", &self.get_ignore_list())
            .field("debug_id", &self.get_debug_id())
            .finish()
    }
}

impl<'a> From<SourceMapParts<'a>> for SourceMap<'a> {
    #[track_caller]
    fn from(parts: SourceMapParts<'a>) -> Self {
        SourceMap::from_parts(parts)
    }
}
