//! Tokens, chunks of them, and positions.

use oxc_sourcemap_sys as sys;

use crate::SourceMap;

/// A generated position and what it points to. Lines and columns count from 0, columns in UTF-16 code units.
///
/// A token without a source is unmapped.
#[derive(Clone, Copy, Debug, PartialEq, Eq, Hash)]
#[repr(C)]
pub struct Token {
    dst_line: u32,
    dst_col: u32,
    src_line: u32,
    src_col: u32,
    source_id: u32,
    name_id: u32,
}

// Lists of tokens are passed to the library, and written by it, as lists of its own tokens.
const _: () = {
    use std::mem::{align_of, offset_of, size_of};
    assert!(size_of::<Token>() == size_of::<sys::smap_token>() && align_of::<Token>() == align_of::<sys::smap_token>());
    assert!(offset_of!(Token, dst_line) == offset_of!(sys::smap_token, dst_line));
    assert!(offset_of!(Token, dst_col) == offset_of!(sys::smap_token, dst_col));
    assert!(offset_of!(Token, src_line) == offset_of!(sys::smap_token, src_line));
    assert!(offset_of!(Token, src_col) == offset_of!(sys::smap_token, src_col));
    assert!(offset_of!(Token, source_id) == offset_of!(sys::smap_token, source_id));
    assert!(offset_of!(Token, name_id) == offset_of!(sys::smap_token, name_id));
    assert!(size_of::<Position>() == size_of::<sys::smap_position>());
    assert!(offset_of!(Position, line) == offset_of!(sys::smap_position, line));
    assert!(offset_of!(Position, column) == offset_of!(sys::smap_position, column));
};

impl Token {
    /// A token. Nothing is checked; an id of `u32::MAX` counts as none.
    pub fn new(
        dst_line: u32,
        dst_col: u32,
        src_line: u32,
        src_col: u32,
        source_id: Option<u32>,
        name_id: Option<u32>,
    ) -> Self {
        let id = |id: Option<u32>| id.unwrap_or(sys::SMAP_NO_ID);
        Token { dst_line, dst_col, src_line, src_col, source_id: id(source_id), name_id: id(name_id) }
    }

    pub(crate) fn of(token: sys::smap_token) -> Token {
        Token {
            dst_line: token.dst_line,
            dst_col: token.dst_col,
            src_line: token.src_line,
            src_col: token.src_col,
            source_id: token.source_id,
            name_id: token.name_id,
        }
    }

    /// The generated line.
    #[inline]
    pub fn get_dst_line(&self) -> u32 {
        self.dst_line
    }

    /// The generated column.
    #[inline]
    pub fn get_dst_col(&self) -> u32 {
        self.dst_col
    }

    /// The line in the source.
    #[inline]
    pub fn get_src_line(&self) -> u32 {
        self.src_line
    }

    /// The column in the source.
    #[inline]
    pub fn get_src_col(&self) -> u32 {
        self.src_col
    }

    /// The index of the name, if there is one.
    #[inline]
    pub fn get_name_id(&self) -> Option<u32> {
        id(self.name_id)
    }

    /// The index of the source; none if the token is unmapped.
    #[inline]
    pub fn get_source_id(&self) -> Option<u32> {
        id(self.source_id)
    }
}

pub(crate) fn id(id: u32) -> Option<u32> {
    (id != sys::SMAP_NO_ID).then_some(id)
}

/// A part of the tokens of a map, from `start` up to but not including `end`, and what is before it.
///
/// Maps keep the chunks that they are given, and return them. Nothing here reads them: the text of a map is that of its tokens.
#[derive(Clone, Debug, Default, PartialEq, Eq)]
#[allow(missing_docs)]
pub struct TokenChunk {
    pub start: u32,
    pub end: u32,
    pub prev_dst_line: u32,
    pub prev_dst_col: u32,
    pub prev_src_line: u32,
    pub prev_src_col: u32,
    pub prev_name_id: u32,
    pub prev_source_id: u32,
}

impl TokenChunk {
    /// A chunk. Nothing is checked.
    #[allow(clippy::too_many_arguments)]
    pub fn new(
        start: u32,
        end: u32,
        prev_dst_line: u32,
        prev_dst_col: u32,
        prev_src_line: u32,
        prev_src_col: u32,
        prev_name_id: u32,
        prev_source_id: u32,
    ) -> Self {
        TokenChunk {
            start,
            end,
            prev_dst_line,
            prev_dst_col,
            prev_src_line,
            prev_src_col,
            prev_name_id,
            prev_source_id,
        }
    }
}

/// A line and a column of a code. Both count from 0, columns in UTF-16 code units.
#[derive(Clone, Copy, Debug, Default, PartialEq, Eq, PartialOrd, Ord, Hash)]
#[repr(C)]
#[allow(missing_docs)]
pub struct Position {
    pub line: u32,
    pub column: u32,
}

impl Position {
    /// The position at this line and column.
    pub fn new(line: u32, column: u32) -> Self {
        Position { line, column }
    }

    pub(crate) fn of(position: sys::smap_position) -> Position {
        Position { line: position.line, column: position.column }
    }

    pub(crate) fn raw(self) -> sys::smap_position {
        sys::smap_position { line: self.line, column: self.column }
    }
}

impl From<(u32, u32)> for Position {
    fn from((line, column): (u32, u32)) -> Position {
        Position { line, column }
    }
}

/// A token beside its map, which knows its texts.
#[derive(Clone, Copy, Debug)]
pub struct SourceViewToken<'sm, 'data> {
    token: Token,
    sourcemap: &'sm SourceMap<'data>,
}

impl<'sm, 'data> SourceViewToken<'sm, 'data> {
    /// A token beside a map. It need not be one of the map's.
    pub fn new(token: Token, sourcemap: &'sm SourceMap<'data>) -> Self {
        SourceViewToken { token, sourcemap }
    }

    /// The generated line.
    pub fn get_dst_line(&self) -> u32 {
        self.token.dst_line
    }

    /// The generated column.
    pub fn get_dst_col(&self) -> u32 {
        self.token.dst_col
    }

    /// The line in the source.
    pub fn get_src_line(&self) -> u32 {
        self.token.src_line
    }

    /// The column in the source.
    pub fn get_src_col(&self) -> u32 {
        self.token.src_col
    }

    /// The index of the name, if there is one.
    pub fn get_name_id(&self) -> Option<u32> {
        self.token.get_name_id()
    }

    /// The index of the source; none if the token is unmapped.
    pub fn get_source_id(&self) -> Option<u32> {
        self.token.get_source_id()
    }

    /// The name; none also if its id is out of range.
    pub fn get_name(&self) -> Option<&'sm str> {
        self.sourcemap.get_name(self.get_name_id()?)
    }

    /// The source; none also if its id is out of range.
    pub fn get_source(&self) -> Option<&'sm str> {
        self.sourcemap.get_source(self.get_source_id()?)
    }

    /// The content of the source, if it is known.
    pub fn get_source_content(&self) -> Option<&'sm str> {
        self.sourcemap.get_source_content(self.get_source_id()?)
    }

    /// The source and its content, if both are known.
    pub fn get_source_and_content(&self) -> Option<(&'sm str, &'sm str)> {
        self.sourcemap.get_source_and_content(self.get_source_id()?)
    }

    /// The source, the line and the column in it, and the name.
    #[allow(clippy::wrong_self_convention)]
    pub fn to_tuple(&self) -> (Option<&'sm str>, u32, u32, Option<&'sm str>) {
        (self.get_source(), self.get_src_line(), self.get_src_col(), self.get_name())
    }
}
