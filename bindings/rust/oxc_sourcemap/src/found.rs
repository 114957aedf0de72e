//! Maps as they are found.

use std::fmt;

use oxc_sourcemap_sys as sys;

use crate::SourceMap;
use crate::error::{Fault, Result, words};
use crate::raw::{Owned, listed, made};

/// What was mended in a map. Its text is the message.
#[derive(Clone, Copy, PartialEq, Eq)]
pub struct Mend(sys::smap_mend);

/// The kinds of what is mended.
#[derive(Clone, Copy, Debug, PartialEq, Eq, Hash)]
#[non_exhaustive]
pub enum MendKind {
    /// The text begins with a byte order mark.
    ByteOrderMark,
    /// The first line begins with `)]}'`.
    JsonPrefix,
    /// The text is a data URL.
    DataUrl,
    /// The version is 3.0 or a text.
    Version,
    /// There are no sources.
    NoSources,
    /// The source of this index is null.
    NullSource(usize),
    /// The contents of sources are no list.
    NoContents,
    /// The content of this index is neither a text nor null.
    BadContent(usize),
    /// The names are null.
    NullNames,
    /// The ignore list is no list.
    NoIgnoreList,
    /// The entry of this index of the ignore list is no id of a source.
    BadIgnoredId(usize),
    /// `x_google_ignoreList` is no list.
    NoGoogleIgnoreList,
    /// The entry of this index of it is no id of a source.
    BadGoogleIgnoredId(usize),
    /// So many tokens have a source id that is out of range.
    SourceIds(usize),
    /// So many tokens have a name id that is out of range.
    NameIds(usize),
    /// The tokens are not sorted.
    Unsorted,
    /// So many tokens of a section are behind the beginning of the next one.
    Cut(usize),
    /// Another kind, which this crate does not know.
    Unknown(u32),
}

impl Mend {
    /// What was mended.
    pub fn kind(&self) -> MendKind {
        let number = self.0.number as usize;
        match self.0.kind {
            sys::SMAP_MEND_BYTE_ORDER_MARK => MendKind::ByteOrderMark,
            sys::SMAP_MEND_JSON_PREFIX => MendKind::JsonPrefix,
            sys::SMAP_MEND_DATA_URL => MendKind::DataUrl,
            sys::SMAP_MEND_VERSION => MendKind::Version,
            sys::SMAP_MEND_NO_SOURCES => MendKind::NoSources,
            sys::SMAP_MEND_NULL_SOURCE => MendKind::NullSource(number),
            sys::SMAP_MEND_NO_CONTENTS => MendKind::NoContents,
            sys::SMAP_MEND_BAD_CONTENT => MendKind::BadContent(number),
            sys::SMAP_MEND_NULL_NAMES => MendKind::NullNames,
            sys::SMAP_MEND_NO_IGNORE_LIST => MendKind::NoIgnoreList,
            sys::SMAP_MEND_BAD_IGNORED_ID => MendKind::BadIgnoredId(number),
            sys::SMAP_MEND_NO_GOOGLE_IGNORE_LIST => MendKind::NoGoogleIgnoreList,
            sys::SMAP_MEND_BAD_GOOGLE_IGNORED_ID => MendKind::BadGoogleIgnoredId(number),
            sys::SMAP_MEND_SOURCE_IDS => MendKind::SourceIds(number),
            sys::SMAP_MEND_NAME_IDS => MendKind::NameIds(number),
            sys::SMAP_MEND_UNSORTED => MendKind::Unsorted,
            sys::SMAP_MEND_CUT => MendKind::Cut(number),
            kind => MendKind::Unknown(kind),
        }
    }

    /// The number of the section, in an indexed map.
    pub fn section(&self) -> Option<usize> {
        (self.0.section != sys::SMAP_NOT_TOLD).then_some(self.0.section as usize)
    }
}

impl fmt::Debug for Mend {
    fn fmt(&self, f: &mut fmt::Formatter<'_>) -> fmt::Result {
        f.debug_struct("Mend").field("kind", &self.kind()).field("section", &self.section()).finish()
    }
}

impl fmt::Display for Mend {
    fn fmt(&self, f: &mut fmt::Formatter<'_>) -> fmt::Result {
        // SAFETY: the mend and the buffer are live, and the buffer has this length.
        let said = words(|at, len| unsafe { sys::smap_mend_message(&self.0, at, len) });
        match said {
            Some(said) => f.write_str(&said),
            None => write!(f, "{:?}", self.kind()),
        }
    }
}

impl SourceMap<'_> {
    /// Reads a map as it is found, and reports what was mended, in the order in which the parts were checked. The map is sorted and sound.
    ///
    /// What [`read`](Self::read) reads as a sorted map is read as this map, and nothing is mended. Fails with the first fault that
    /// is not mended, and its place in the text: of a text that is not JSON counted in the whole text, but of a data URL in the text that
    /// it has. Fails also with [`Error::NotUtf8`](crate::Error::NotUtf8). That has no place, and neither has a join of the sections of an
    /// indexed map that passes a limit.
    ///
    /// ```
    /// use oxc_sourcemap::{MendKind, SourceMap};
    /// let text = ")]}'\n{\"version\":\"3\",\"sources\":[\"a.ts\",null],\"mappings\":\"AAAA\"}";
    /// let (map, mends) = SourceMap::read_found(text.as_bytes())?;
    /// let kinds: Vec<_> = mends.iter().map(|mend| mend.kind()).collect();
    /// assert_eq!(kinds, [MendKind::JsonPrefix, MendKind::Version, MendKind::NullSource(1)]);
    /// assert_eq!(map.get_source(1), Some(""));
    /// # Ok::<(), oxc_sourcemap::Fault>(())
    /// ```
    pub fn read_found(text: &[u8]) -> Result<(SourceMap<'static>, Vec<Mend>), Fault> {
        let mut mends = std::ptr::null_mut();
        // SAFETY: pointer and length are those of a live slice, and the outputs are ours.
        let map = made(|out, fault| unsafe {
            sys::smap_read_found(text.as_ptr().cast(), text.len(), out, &mut mends, fault)
        })?;
        let mends = Owned::of(mends)?;
        // SAFETY: the mends are live, and there is room for as many entries as is said.
        let list = listed(|at, len, count| unsafe { sys::smap_get_mends(mends.get(), at, len, count) })?;
        Ok((SourceMap::of(map), list.into_iter().map(Mend).collect()))
    }
}

#[cfg(test)]
mod tests {
    use super::*;

    #[test]
    fn an_unknown_kind_keeps_its_number() {
        let mend = Mend(sys::smap_mend { kind: 77, section: 0, number: 5 });
        assert_eq!((mend.kind(), mend.section()), (MendKind::Unknown(77), Some(0)));
        assert_eq!(mend.to_string(), "Unknown(77)");
    }
}
