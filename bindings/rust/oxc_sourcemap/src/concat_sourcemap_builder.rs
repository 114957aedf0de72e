//! Joins of maps, map by map.

use std::fmt;
use std::marker::PhantomData;

use oxc_sourcemap_sys as sys;

use crate::error::{Error, Result};
use crate::raw::{Owned, done, expected, made};
use crate::token::Position;
use crate::{OwnedSourceMap, SourceMap};

/// Joins maps, each at the line of the joined code where its code begins.
///
/// The texts of a map are copied when it is added. The joined map has no file, source root or debug id.
///
/// ```
/// use oxc_sourcemap::{ConcatSourceMapBuilder, SourceMap};
/// let map = SourceMap::from_json_string(r#"{"version":3,"sources":["a.ts"],"mappings":"AAAA"}"#)?;
/// let mut builder = ConcatSourceMapBuilder::default();
/// builder.add_sourcemap(&map, 0);
/// builder.add_sourcemap(&map, 2);
/// assert_eq!(builder.into_sourcemap().get_mappings()?, "AAAA;;ACAA");
/// # Ok::<(), oxc_sourcemap::Error>(())
/// ```
///
/// # Panics
///
/// Where a line or an id of the joined map would be above its limit; [`try_add_sourcemap`](Self::try_add_sourcemap) fails with
/// `TooLarge` instead.
pub struct ConcatSourceMapBuilder<'a> {
    join: Owned<sys::smap_join>,
    maps: PhantomData<&'a str>,
}

impl<'a> ConcatSourceMapBuilder<'a> {
    /// A builder with nothing in it. The library takes room as it needs it: the numbers are not used.
    pub fn with_capacity(_names_len: usize, _sources_len: usize, _tokens_len: usize, _token_chunks_len: usize) -> Self {
        // SAFETY: the outputs are ours.
        let join = made(|out, fault| unsafe { sys::smap_join_new(out, fault) });
        ConcatSourceMapBuilder { join: expected(join.map_err(Error::from)), maps: PhantomData }
    }

    /// A builder to which these maps were added.
    #[track_caller]
    pub fn from_sourcemaps(sourcemap_and_line_offsets: &[(&'a SourceMap<'_>, u32)]) -> Self {
        let mut builder = Self::default();
        for &(sourcemap, line_offset) in sourcemap_and_line_offsets {
            builder.add_sourcemap(sourcemap, line_offset);
        }
        builder
    }

    /// The same for maps that are not needed any more. Each is freed as soon as it was added.
    #[track_caller]
    pub fn from_owned_sourcemaps(sourcemap_and_line_offsets: Vec<(SourceMap<'a>, u32)>) -> Self {
        let mut builder = Self::default();
        for (sourcemap, line_offset) in sourcemap_and_line_offsets {
            builder.add_sourcemap_owned(sourcemap, line_offset);
        }
        builder
    }

    /// Adds a map whose code begins at this line.
    #[track_caller]
    pub fn add_sourcemap(&mut self, sourcemap: &'a SourceMap<'_>, line_offset: u32) {
        expected(self.try_add_sourcemap(sourcemap, Position::new(line_offset, 0)))
    }

    /// The same for a map that is not needed any more.
    #[track_caller]
    pub fn add_sourcemap_owned(&mut self, sourcemap: SourceMap<'a>, line_offset: u32) {
        expected(self.try_add_sourcemap(&sourcemap, Position::new(line_offset, 0)))
    }

    /// Adds a map whose code begins at this position; the columns of its first line are shifted, too. Fails with `TooLarge` or
    /// `OutOfMemory`; the builder is then unchanged.
    ///
    /// ```
    /// use oxc_sourcemap::{ConcatSourceMapBuilder, Error, Position, SourceMap};
    /// let map = SourceMap::from_json_string(r#"{"version":3,"sources":["a.ts"],"mappings":"AAAA;EAAA"}"#)?;
    /// let mut builder = ConcatSourceMapBuilder::default();
    /// builder.try_add_sourcemap(&map, Position::new(1, 4))?;
    /// assert_eq!(builder.try_add_sourcemap(&map, Position::new(u32::MAX, 0)), Err(Error::TooLarge));
    /// assert_eq!(builder.into_sourcemap().get_mappings()?, ";IAAA;EAAA");
    /// # Ok::<(), oxc_sourcemap::Error>(())
    /// ```
    pub fn try_add_sourcemap(&mut self, sourcemap: &SourceMap<'_>, begin: Position) -> Result<()> {
        // SAFETY: the join is live and used by nobody else, the map is live, and the fault is ours.
        done(|fault| unsafe {
            sys::smap_join_add(self.join.get_mut(), sourcemap.map.get(), begin.line, begin.column, fault)
        })?;
        Ok(())
    }

    /// The joined map.
    #[track_caller]
    pub fn into_sourcemap(self) -> SourceMap<'a> {
        expected(self.try_into_sourcemap())
    }

    /// The same. Fails with `OutOfMemory`.
    pub fn try_into_sourcemap(mut self) -> Result<SourceMap<'a>> {
        // SAFETY: the join is live and used by nobody else, and the outputs are ours.
        let map = made(|out, fault| unsafe { sys::smap_join_finish(self.join.get_mut(), out, fault) })?;
        Ok(SourceMap::of(map))
    }

    /// The joined map, without a lifetime.
    #[track_caller]
    pub fn into_owned_sourcemap(self) -> OwnedSourceMap {
        self.into_sourcemap().into_owned_sourcemap()
    }
}

impl Default for ConcatSourceMapBuilder<'_> {
    fn default() -> Self {
        Self::with_capacity(0, 0, 0, 0)
    }
}

impl fmt::Debug for ConcatSourceMapBuilder<'_> {
    fn fmt(&self, f: &mut fmt::Formatter<'_>) -> fmt::Result {
        f.debug_struct("ConcatSourceMapBuilder").finish_non_exhaustive()
    }
}
