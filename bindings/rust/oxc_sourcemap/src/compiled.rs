//! Compiled maps: bytes that are made once, opened in constant time, and searched in place.

use std::fmt;
use std::marker::PhantomData;
use std::mem::MaybeUninit;

use oxc_sourcemap_sys as sys;

use crate::error::{Error, Result};
use crate::lookup::{Bias, Traced};
use crate::raw::{Owned, done, lent_bytes, made, no_text};
use crate::token::{Position, Token, id};
use crate::{SourceMap, SourceMapParts};

/// Compiles the map of these parts, as [`SourceMap::compile`] does. Without their contents, and with contents apart, by the same ids:
///
/// ```
/// use oxc_sourcemap::{CompiledMap, SourceMapParts, compile};
/// let mut parts = SourceMapParts { sources: vec!["a.ts".into()], ..SourceMapParts::default() };
/// parts.source_contents = vec![Some("let a".into())];
/// let apart = SourceMapParts {
///     sources: parts.sources.clone(),
///     source_contents: std::mem::take(&mut parts.source_contents),
///     ..SourceMapParts::default()
/// };
/// let (bytes, apart) = (compile(&parts, 0, &[0; 32])?, compile(&apart, 0, &[0; 32])?);
/// assert_eq!(CompiledMap::open(&bytes)?.get_source_content(0), None);
/// assert_eq!(CompiledMap::open(&apart)?.get_source_content(0), Some("let a"));
/// # Ok::<(), oxc_sourcemap::Error>(())
/// ```
///
/// ```
/// use oxc_sourcemap::{CompiledMap, SourceMapParts, compile};
/// let parts = SourceMapParts { sources: vec!["a.ts".into()], ..SourceMapParts::default() };
/// let bytes = compile(&parts, 0, &[0; 32])?;
/// assert_eq!(CompiledMap::open(&bytes)?.get_source(0), Some("a.ts"));
/// # Ok::<(), oxc_sourcemap::Error>(())
/// ```
pub fn compile(parts: &SourceMapParts<'_>, text_length: u64, stamp: &[u8; 32]) -> Result<Vec<u8>> {
    SourceMap::try_of_lists(parts)?.compile(text_length, stamp)
}

impl SourceMap<'_> {
    /// Compiles this map: makes the bytes that [`CompiledMap::open`] opens. They represent the map, with one content per source, known
    /// or not, and no others. `text_length` is the number of bytes of the map's text, 0 if there is none. It stores the stamp unchanged,
    /// e.g. the SHA-256 of that text.
    ///
    /// Fails with `Unsorted`, `TooLarge` or `OutOfMemory`.
    ///
    /// ```
    /// use oxc_sourcemap::{CompiledMap, Error, SourceMap};
    /// let map = SourceMap::from_json_string(r#"{"version":3,"sources":["a.ts"],"mappings":"AAAA"}"#)?;
    /// let bytes = map.compile(50, &[7; 32])?;
    /// assert_eq!(CompiledMap::open(&bytes)?.text_length(), 50);
    /// let back = SourceMap::from_json_string(r#"{"version":3,"sources":[],"mappings":"G,D"}"#)?;
    /// assert_eq!(back.compile(0, &[0; 32]), Err(Error::Unsorted));
    /// # Ok::<(), oxc_sourcemap::Error>(())
    /// ```
    pub fn compile(&self, text_length: u64, stamp: &[u8; 32]) -> Result<Vec<u8>> {
        // SAFETY: the map is live, the stamp has 32 bytes, and the outputs are ours.
        let string =
            made(|out, fault| unsafe { sys::smap_compile(self.map.get(), text_length, stamp.as_ptr(), out, fault) })?;
        let (mut text, mut bytes) = (no_text(), Vec::new());
        // SAFETY: the handle is live, and the output is ours.
        done(|_| unsafe { sys::smap_get_text(string.get(), &mut text) })?;
        bytes.try_reserve_exact(text.len).map_err(|_| Error::OutOfMemory)?;
        // SAFETY: these bytes are borrowed from the handle, which lives until they are copied.
        bytes.extend_from_slice(unsafe { lent_bytes(text) });
        Ok(bytes)
    }
}

/// A compiled map, searched in its bytes. What it returns is borrowed from the bytes.
///
/// Any bytes may be opened. If [`SourceMap::compile`] did not make them, a lookup finds some token of the line, or none, and a text
/// that is not UTF-8 counts as none.
///
/// ```
/// use oxc_sourcemap::{Bias, CompiledMap, SourceMap};
/// let text = r#"{"version":3,"names":["hi"],"sources":["a.ts"],"mappings":"AAAA,GAASA"}"#;
/// let bytes = SourceMap::from_json_string(text)?.compile(text.len() as u64, &[0; 32])?;
///
/// let map = CompiledMap::open(&bytes)?;
/// let original = map.trace(0, 5, Bias::Before).original().unwrap();
/// assert_eq!((original.source, original.line(), original.column(), original.name), ("a.ts", 0, 9, Some("hi")));
/// # Ok::<(), oxc_sourcemap::Error>(())
/// ```
pub struct CompiledMap<'a> {
    map: Owned<sys::smap_compiled>,
    bytes: PhantomData<&'a [u8]>,
}

impl<'a> CompiledMap<'a> {
    /// Opens bytes, in constant time: only the header is read. Fails with [`Error::Compiled`] or `OutOfMemory`.
    ///
    /// ```
    /// use oxc_sourcemap::{CompiledError, CompiledMap, Error};
    /// assert_eq!(CompiledMap::open(b"{}").unwrap_err(), Error::Compiled(CompiledError::NotCompiled));
    /// ```
    pub fn open(bytes: &'a [u8]) -> Result<CompiledMap<'a>> {
        // SAFETY: the bytes are borrowed for as long as the handle lives, so nobody moves or changes them, and the outputs are ours.
        let map =
            made(|out, fault| unsafe { sys::smap_open_compiled(bytes.as_ptr().cast(), bytes.len(), out, fault) })?;
        Ok(CompiledMap { map, bytes: PhantomData })
    }

    // ---- lookups ----

    /// What the library finds for a generated position. It cannot fail: neither the handle nor the bias is at fault.
    fn asked(&self, line: u32, column: u32, bias: Bias) -> Option<sys::smap_original> {
        let mut out = MaybeUninit::uninit();
        // SAFETY: the map is live, and the output is ours.
        let code = unsafe { sys::smap_compiled_trace(self.map.get(), line, column, bias.raw(), out.as_mut_ptr()) };
        // SAFETY: a call that is not refused writes the answer.
        (code == sys::SMAP_OK).then(|| unsafe { out.assume_init() })
    }

    fn token_for(&self, line: u32, column: u32, bias: Bias) -> Option<Token> {
        self.asked(line, column, bias).filter(|it| it.kind != sys::SMAP_NOTHING).map(|it| Token::of(it.token))
    }

    /// The token that answers for a generated position: on its line the last at or before its column; of several at the column itself
    /// the first.
    pub fn lookup_token(&self, line: u32, col: u32) -> Option<Token> {
        self.token_for(line, col, Bias::Before)
    }

    /// The same, but a column before the first token of its line finds that one.
    pub fn lookup_token_approx(&self, line: u32, col: u32) -> Option<Token> {
        self.token_for(line, col, Bias::Clamped)
    }

    /// The first token on its line at or after a column; the last of several at the column itself.
    pub fn lookup_token_after(&self, line: u32, col: u32) -> Option<Token> {
        self.token_for(line, col, Bias::After)
    }

    /// Traces a generated position. A token whose source is not UTF-8 is [`Traced::Unmapped`].
    ///
    /// ```
    /// use oxc_sourcemap::{Bias, CompiledMap, SourceMap, Traced};
    /// let map = SourceMap::from_json_string(r#"{"version":3,"sources":["a.ts"],"mappings":"GAAA,E"}"#)?;
    /// let bytes = map.compile(0, &[0; 32])?;
    /// let compiled = CompiledMap::open(&bytes)?;
    /// assert_eq!(compiled.trace(0, 4, Bias::Before), map.trace(0, 4, Bias::Before)?);
    /// assert_eq!(compiled.trace(0, 0, Bias::Before), Traced::Nothing);
    /// # Ok::<(), oxc_sourcemap::Error>(())
    /// ```
    pub fn trace(&self, line: u32, column: u32, bias: Bias) -> Traced<'a> {
        // SAFETY: the texts are borrowed from the bytes.
        self.asked(line, column, bias).map_or(Traced::Nothing, |raw| unsafe { traced(&raw) })
    }

    /// The same for many positions, in any order. Fails with `OutOfMemory`.
    ///
    /// ```
    /// use oxc_sourcemap::{Bias, CompiledMap, SourceMap};
    /// let map = SourceMap::from_json_string(r#"{"version":3,"sources":["a.ts"],"mappings":"AAAA;EACA"}"#)?;
    /// let (bytes, positions) = (map.compile(0, &[0; 32])?, [(1, 4).into(), (0, 0).into()]);
    /// let traced = CompiledMap::open(&bytes)?.trace_all(&positions, Bias::Before)?;
    /// assert_eq!(traced, map.trace_all(&positions, Bias::Before)?);
    /// # Ok::<(), oxc_sourcemap::Error>(())
    /// ```
    pub fn trace_all(&self, positions: &[Position], bias: Bias) -> Result<Vec<Traced<'a>>> {
        let (len, mut out) = (positions.len(), Vec::<sys::smap_original>::new());
        out.try_reserve_exact(len).map_err(|_| Error::OutOfMemory)?;
        let mut all = Vec::new();
        all.try_reserve_exact(len).map_err(|_| Error::OutOfMemory)?;
        // SAFETY: the map is live, pointers and lengths are those of live lists, and positions have the layout of the library's.
        done(|_| unsafe {
            let at = positions.as_ptr().cast();
            sys::smap_compiled_trace_all(self.map.get(), at, len, bias.raw(), out.as_mut_ptr(), len)
        })?;
        // SAFETY: a call that is not refused writes as many answers as there are positions.
        unsafe { out.set_len(len) };
        // SAFETY: the call wrote these answers, whose texts are borrowed from the bytes.
        all.extend(out.iter().map(|raw| unsafe { traced(raw) }));
        Ok(all)
    }

    /// For each of many positions, in any order, the index of the token that answers for it.
    ///
    /// ```
    /// use oxc_sourcemap::{Bias, CompiledMap, SourceMap};
    /// let map = SourceMap::from_json_string(r#"{"version":3,"sources":["a.ts"],"mappings":"AAAA;EACA"}"#)?;
    /// let bytes = map.compile(0, &[0; 32])?;
    /// let found = CompiledMap::open(&bytes)?.find_all(&[(1, 4).into(), (1, 1).into()], Bias::Before)?;
    /// assert_eq!(found, [Some(1), None]);
    /// # Ok::<(), oxc_sourcemap::Error>(())
    /// ```
    pub fn find_all(&self, positions: &[Position], bias: Bias) -> Result<Vec<Option<u32>>> {
        let mut out = vec![0; positions.len()];
        self.find_all_into(positions, bias, &mut out)?;
        Ok(out.into_iter().map(id).collect())
    }

    /// The same into a list that is there, where `u32::MAX` stands for none. Fails with `Lengths` if that has not as many entries as
    /// there are positions.
    pub fn find_all_into(&self, positions: &[Position], bias: Bias, out: &mut [u32]) -> Result<()> {
        // SAFETY: the map is live, pointers and lengths are those of live lists, and positions have the layout of the library's.
        done(|_| unsafe {
            let at = positions.as_ptr().cast();
            sys::smap_compiled_find_all(self.map.get(), at, positions.len(), bias.raw(), out.as_mut_ptr(), out.len())
        })?;
        Ok(())
    }

    // ---- what a map holds ----

    /// The token at an index.
    pub fn get_token(&self, index: u32) -> Option<Token> {
        let mut token = sys::smap_token::default();
        // SAFETY: the map is live, and the output is ours.
        let code = unsafe { sys::smap_compiled_get_token(self.map.get(), index, &mut token) };
        (code == sys::SMAP_OK).then(|| Token::of(token))
    }

    fn counts(&self) -> sys::smap_compiled_counts {
        let mut counts = sys::smap_compiled_counts::default();
        // SAFETY: the map is live, and the output is ours.
        unsafe { sys::smap_compiled_get_counts(self.map.get(), &mut counts) };
        counts
    }

    /// How many tokens there are.
    pub fn token_count(&self) -> usize {
        self.counts().tokens as usize
    }

    /// How many sources there are.
    pub fn source_count(&self) -> usize {
        self.counts().sources as usize
    }

    /// How many names there are.
    pub fn name_count(&self) -> usize {
        self.counts().names as usize
    }

    /// How many entries the ignore list has, if there is one.
    pub fn ignored_count(&self) -> Option<usize> {
        let counts = self.counts();
        (counts.has_ignore_list == 1).then_some(counts.ignored as usize)
    }

    /// The number of bytes of the text that the map was read from, which `compile` was given.
    pub fn text_length(&self) -> u64 {
        self.counts().text_length
    }

    /// A text of this kind, if there is one and it is UTF-8.
    fn text(&self, kind: u32, id: u32) -> Option<&'a str> {
        let mut text = no_text();
        // SAFETY: the map is live, and the output is ours.
        let code = unsafe { sys::smap_compiled_get_text(self.map.get(), kind, id, &mut text) };
        // SAFETY: the text is borrowed from the bytes.
        if code == sys::SMAP_OK { unsafe { checked(text) } } else { None }
    }

    /// The name with this id.
    pub fn get_name(&self, id: u32) -> Option<&'a str> {
        self.text(sys::SMAP_TEXT_NAME, id)
    }

    /// The source with this id, without the source root.
    pub fn get_source(&self, id: u32) -> Option<&'a str> {
        self.text(sys::SMAP_TEXT_SOURCE, id)
    }

    /// The content of the source with this id, if it is known.
    pub fn get_source_content(&self, id: u32) -> Option<&'a str> {
        self.text(sys::SMAP_TEXT_SOURCE_CONTENT, id)
    }

    /// All names, by their ids; None for one that is not UTF-8.
    pub fn get_names(&self) -> impl ExactSizeIterator<Item = Option<&'a str>> + '_ {
        (0..self.counts().names as u32).map(|id| self.get_name(id))
    }

    /// All sources, by their ids; None for one that is not UTF-8.
    pub fn get_sources(&self) -> impl ExactSizeIterator<Item = Option<&'a str>> + '_ {
        (0..self.counts().sources as u32).map(|id| self.get_source(id))
    }

    /// The contents of all sources, by their ids; None for one that is not known, or not UTF-8.
    ///
    /// ```
    /// use oxc_sourcemap::{CompiledMap, SourceMap};
    /// let text = r#"{"version":3,"names":[],"sources":["a","b"],"sourcesContent":["x",null],"mappings":"AAAA"}"#;
    /// let bytes = SourceMap::from_json_string(text)?.compile(0, &[0; 32])?;
    /// let map = CompiledMap::open(&bytes)?;
    /// assert!(map.get_sources().eq([Some("a"), Some("b")]));
    /// assert!(map.get_source_contents().eq([Some("x"), None]));
    /// # Ok::<(), oxc_sourcemap::Error>(())
    /// ```
    pub fn get_source_contents(&self) -> impl ExactSizeIterator<Item = Option<&'a str>> + '_ {
        (0..self.counts().sources as u32).map(|id| self.get_source_content(id))
    }

    /// The name of the generated file.
    pub fn get_file(&self) -> Option<&'a str> {
        self.text(sys::SMAP_TEXT_FILE, 0)
    }

    /// What stands before all sources.
    pub fn get_source_root(&self) -> Option<&'a str> {
        self.text(sys::SMAP_TEXT_SOURCE_ROOT, 0)
    }

    /// The debug id.
    pub fn get_debug_id(&self) -> Option<&'a str> {
        self.text(sys::SMAP_TEXT_DEBUG_ID, 0)
    }

    /// The bytes that were given as the stamp.
    pub fn stamp(&self) -> [u8; 32] {
        let mut stamp = no_text();
        // SAFETY: the map is live, and the output is ours.
        unsafe { sys::smap_compiled_get_stamp(self.map.get(), &mut stamp) };
        // SAFETY: the stamp is borrowed from the bytes.
        unsafe { lent_bytes(stamp) }.try_into().unwrap_or_default()
    }

    /// Whether the ignore list has the id of a source.
    pub fn is_ignored(&self, id: u32) -> bool {
        let mut is = 0;
        // SAFETY: the map is live, and the output is ours.
        unsafe { sys::smap_compiled_is_ignored(self.map.get(), id, &mut is) };
        is == 1
    }

    /// The map that was compiled. None if a text is not UTF-8, or, only in bytes that [`SourceMap::compile`] did not make, the tokens of
    /// a line or the bytes of a text begin before those of the one in front, or the last ones end before they begin. A map of such bytes
    /// may be unsorted. Fails with `OutOfMemory`.
    ///
    /// ```
    /// use oxc_sourcemap::{CompiledMap, SourceMap};
    /// let text = r#"{"version":3,"names":[],"sources":["a.ts"],"mappings":"AAAA"}"#;
    /// let bytes = SourceMap::from_json_string(text)?.compile(0, &[0; 32])?;
    /// assert_eq!(CompiledMap::open(&bytes)?.decompile()?.unwrap().to_json_string(), text);
    /// # Ok::<(), oxc_sourcemap::Error>(())
    /// ```
    pub fn decompile(&self) -> Result<Option<SourceMap<'static>>> {
        // SAFETY: the map is live, and the outputs are ours.
        match made(|out, fault| unsafe { sys::smap_decompile(self.map.get(), out, fault) }) {
            Ok(map) => Ok(Some(SourceMap::of(map))),
            Err(told) if told.0.code == sys::SMAP_NO_ENTRY => Ok(None),
            Err(told) => Err(told.into()),
        }
    }
}

impl fmt::Debug for CompiledMap<'_> {
    fn fmt(&self, f: &mut fmt::Formatter<'_>) -> fmt::Result {
        f.debug_struct("CompiledMap")
            .field("file", &self.get_file())
            .field("tokens", &self.token_count())
            .field("sources", &self.source_count())
            .field("names", &self.name_count())
            .finish_non_exhaustive()
    }
}

/// A text of a compiled map, which may be any bytes; none if they are not UTF-8.
///
/// # Safety
///
/// A call returned it, and the bytes of the map stay unchanged for this long.
unsafe fn checked<'t>(text: sys::smap_text) -> Option<&'t str> {
    // SAFETY: as the caller states.
    std::str::from_utf8(unsafe { lent_bytes(text) }).ok()
}

/// What a lookup in a compiled map wrote.
///
/// # Safety
///
/// As for `checked`, of its texts.
unsafe fn traced<'t>(raw: &sys::smap_original) -> Traced<'t> {
    // SAFETY: as the caller states.
    Traced::with(raw, |text| unsafe { checked(text) })
}

#[cfg(unix)]
mod file {
    use std::ffi::CString;
    use std::fmt;
    use std::os::unix::ffi::OsStrExt;
    use std::path::Path;

    use oxc_sourcemap_sys as sys;

    use super::CompiledMap;
    use crate::error::{Error, Result};
    use crate::raw::{Owned, lent_bytes, made, no_text};

    /// A compiled map in a file, which the system maps into memory: processes that open one file share it.
    ///
    /// ```
    /// use oxc_sourcemap::{CompiledFile, SourceMap};
    /// let path = std::env::temp_dir().join(format!("{}.map.smc", std::process::id()));
    /// let map = SourceMap::from_json_string(r#"{"version":3,"sources":["a.ts"],"mappings":"AAAA"}"#)?;
    /// std::fs::write(&path, map.compile(0, &[0; 32])?).unwrap();
    /// // SAFETY: nobody changes the file.
    /// let file = unsafe { CompiledFile::open(&path) }?;
    /// assert_eq!(file.map().get_source(0), Some("a.ts"));
    /// # std::fs::remove_file(&path).unwrap();
    /// # Ok::<(), oxc_sourcemap::Error>(())
    /// ```
    pub struct CompiledFile {
        // (fields are dropped in this order; the lifetime is that of the file, and no call lets it be borrowed for longer)
        map: CompiledMap<'static>,
        _file: Owned<sys::smap_file>,
    }

    impl CompiledFile {
        /// Opens a file. Fails with [`Error::NoFile`] if it cannot be read, else as [`CompiledMap::open`] does.
        ///
        /// # Safety
        ///
        /// As long as this lives, nobody changes or cuts the file: a new one may be renamed over it.
        pub unsafe fn open(path: impl AsRef<Path>) -> Result<CompiledFile> {
            // (as the system says of a path that it cannot have)
            let path = CString::new(path.as_ref().as_os_str().as_bytes()).map_err(|_| Error::NoFile(NOT_VALID))?;
            let mut bytes = no_text();
            // SAFETY: the path ends with a zero byte, and the outputs are ours.
            let file = made(|out, fault| unsafe { sys::smap_map_file(path.as_ptr(), out, &mut bytes, fault) })?;
            // SAFETY: these bytes stay where they are until the file is freed, and the caller states that nobody changes them.
            let map = CompiledMap::open(unsafe { lent_bytes(bytes) })?;
            Ok(CompiledFile { map, _file: file })
        }

        /// The map in the file.
        pub fn map(&self) -> &CompiledMap<'_> {
            &self.map
        }
    }

    impl fmt::Debug for CompiledFile {
        fn fmt(&self, f: &mut fmt::Formatter<'_>) -> fmt::Result {
            f.debug_tuple("CompiledFile").field(&self.map).finish()
        }
    }

    /// EINVAL.
    const NOT_VALID: i32 = 22;
}

#[cfg(unix)]
pub use file::CompiledFile;
