//! Lookups: by tables, of generated positions, of ranges, and of original positions.

use oxc_sourcemap_sys as sys;

use crate::SourceMap;
use crate::error::{Error, Result};
use crate::raw::{done, expected, lent, listed};
use crate::token::{Position, SourceViewToken, Token, id};

/// Which token answers for a generated position.
#[derive(Clone, Copy, Debug, Default, PartialEq, Eq, Hash)]
pub enum Bias {
    /// The last one on its line at or before its column; the first of several at the column itself.
    #[default]
    Before,
    /// The same, or else the first one on its line.
    Clamped,
    /// The first one on its line at or after its column; the last of several at the column itself.
    After,
}

impl Bias {
    pub(crate) fn raw(self) -> u32 {
        match self {
            Bias::Before => sys::SMAP_BEFORE,
            Bias::Clamped => sys::SMAP_CLAMPED,
            Bias::After => sys::SMAP_AFTER,
        }
    }
}

/// Which tokens answer for an original position.
#[derive(Clone, Copy, Debug, Default, PartialEq, Eq, Hash)]
pub enum Direction {
    /// Those at this line and column of the source.
    #[default]
    At,
    /// Those at the last column with tokens at or before this one on the line.
    For,
    /// Those at the first column with tokens at or after this one on the line.
    From,
    /// Those on this line; the column is not read.
    OnLine,
}

impl Direction {
    fn raw(self) -> u32 {
        match self {
            Direction::At => sys::SMAP_AT,
            Direction::For => sys::SMAP_FOR,
            Direction::From => sys::SMAP_FROM,
            Direction::OnLine => sys::SMAP_ON_LINE,
        }
    }
}

/// What tracing a generated position finds.
#[derive(Clone, Copy, Debug, PartialEq, Eq)]
pub enum Traced<'m> {
    /// There is no token.
    Nothing,
    /// There is one, which has no source.
    Unmapped(Found),
    /// There is one, which has a source.
    Mapped(Original<'m>),
}

/// A token of a map, and its index.
#[derive(Clone, Copy, Debug, PartialEq, Eq)]
#[allow(missing_docs)]
pub struct Found {
    pub index: u32,
    pub token: Token,
}

/// An original position: the token that points to it, its index, and its texts.
#[derive(Clone, Copy, Debug, PartialEq, Eq)]
#[allow(missing_docs)]
pub struct Original<'m> {
    pub index: u32,
    pub token: Token,
    pub source: &'m str,
    pub name: Option<&'m str>,
}

impl Original<'_> {
    /// The line in the source.
    pub fn line(&self) -> u32 {
        self.token.get_src_line()
    }

    /// The column in the source.
    pub fn column(&self) -> u32 {
        self.token.get_src_col()
    }
}

impl<'m> Traced<'m> {
    /// The original position, if there is one.
    pub fn original(self) -> Option<Original<'m>> {
        match self {
            Traced::Mapped(original) => Some(original),
            Traced::Nothing | Traced::Unmapped(_) => None,
        }
    }

    /// # Safety
    ///
    /// A lookup wrote this, and its map is not changed or freed for this long.
    unsafe fn of(raw: &sys::smap_original) -> Traced<'m> {
        // SAFETY: as the caller states.
        Traced::with(raw, |text| Some(unsafe { lent(text) }))
    }

    /// What a lookup wrote. Of its texts only those count that are given; without its source a token is unmapped.
    pub(crate) fn with(raw: &sys::smap_original, text: impl Fn(sys::smap_text) -> Option<&'m str>) -> Traced<'m> {
        let (index, token) = (raw.index, Token::of(raw.token));
        let source = match raw.kind {
            sys::SMAP_NOTHING => return Traced::Nothing,
            sys::SMAP_UNMAPPED => None,
            _ => text(raw.source),
        };
        match source {
            Some(source) => {
                let name = if raw.kind == sys::SMAP_NAMED { text(raw.name) } else { None };
                Traced::Mapped(Original { index, token, source, name })
            }
            None => Traced::Unmapped(Found { index, token }),
        }
    }
}

/// A piece of a range of generated code, from a position up to but not including another, and the index of the token that is found
/// at each of its positions.
#[derive(Clone, Copy, Debug, PartialEq, Eq)]
#[allow(missing_docs)]
pub struct Piece {
    pub begin: Position,
    pub end: Position,
    pub index: Option<u32>,
}

/// The token that a table has. Only for tables of other maps: the library searches those of the map itself.
fn token_on(line: &[Token], col: u32, bias: Bias) -> Option<Token> {
    let at = line.partition_point(|token| token.get_dst_col() < col);
    let exact = line.get(at).filter(|token| token.get_dst_col() == col);
    let found = exact.or_else(|| line.get(at.checked_sub(1)?));
    let first = line.first().filter(|_| bias == Bias::Clamped);
    found.or(first).copied()
}

impl<'a> SourceMap<'a> {
    // ---- by tables ----

    /// The tokens of each line, up to the last token's, for the lookups that take a table.
    ///
    /// # Panics
    ///
    /// Where [`try_generate_lookup_table`](Self::try_generate_lookup_table) fails.
    #[track_caller]
    pub fn generate_lookup_table(&self) -> Vec<&[Token]> {
        expected(self.try_generate_lookup_table())
    }

    /// The same. Fails with `LineOrder` if the tokens go back in lines, or with `OutOfMemory`.
    pub fn try_generate_lookup_table(&self) -> Result<Vec<&[Token]>> {
        self.find_all_into(&[], Bias::Before, &mut [])?;
        let (mut rest, mut table) = (self.tokens(), Vec::new());
        let lines = rest.last().map_or(0, |token| token.get_dst_line() as usize + 1);
        table.try_reserve_exact(lines).map_err(|_| Error::OutOfMemory)?;
        for line in 0..lines {
            let len = rest.iter().take_while(|token| token.get_dst_line() as usize == line).count();
            let (tokens, others) = rest.split_at(len);
            table.push(tokens);
            rest = others;
        }
        Ok(table)
    }

    /// Whether these are all tokens of a line of this map, in the map's own list.
    fn is_own_line(&self, tokens: &[Token], line: u32) -> bool {
        let (Some(own), Some(first)) = (self.own_tokens(), tokens.first()) else {
            return false;
        };
        let (begin, all) = (tokens.as_ptr_range().start, own.as_ptr_range());
        if !all.contains(&begin) || tokens.as_ptr_range().end > all.end || first.get_dst_line() != line {
            return false;
        }
        // SAFETY: both pointers are into the list of the map.
        let start = unsafe { begin.offset_from(all.start) } as usize;
        let is_here = |index: usize| own.get(index).is_some_and(|token| token.get_dst_line() == line);
        !is_here(start.wrapping_sub(1)) && is_here(start + tokens.len() - 1) && !is_here(start + tokens.len())
    }

    fn in_table(&self, table: &[&[Token]], line: u32, col: u32, bias: Bias) -> Option<Token> {
        let tokens = *table.get(line as usize)?;
        let mut index = [sys::SMAP_NO_ID];
        if self.is_own_line(tokens, line) && self.find_all_into(&[Position::new(line, col)], bias, &mut index).is_ok() {
            return self.get_token(id(index[0])?);
        }
        token_on(tokens, col, bias)
    }

    /// The token of a table that answers for a generated position: on its line the last at or before its column; of several at the
    /// column itself the first.
    ///
    /// The call reads the table, of this map or of another one.
    #[inline]
    pub fn lookup_token(&self, lookup_table: &[&[Token]], line: u32, col: u32) -> Option<Token> {
        self.in_table(lookup_table, line, col, Bias::Before)
    }

    /// The same, beside this map.
    pub fn lookup_source_view_token(
        &self,
        lookup_table: &[&[Token]],
        line: u32,
        col: u32,
    ) -> Option<SourceViewToken<'_, 'a>> {
        self.lookup_token(lookup_table, line, col).map(|token| SourceViewToken::new(token, self))
    }

    /// As [`lookup_token`](Self::lookup_token), but a column before the first token of its line finds that one.
    pub fn lookup_token_approx(&self, lookup_table: &[&[Token]], line: u32, col: u32) -> Option<Token> {
        self.in_table(lookup_table, line, col, Bias::Clamped)
    }

    /// The same, beside this map.
    pub fn lookup_source_view_token_approx(
        &self,
        lookup_table: &[&[Token]],
        line: u32,
        col: u32,
    ) -> Option<SourceViewToken<'_, 'a>> {
        self.lookup_token_approx(lookup_table, line, col).map(|token| SourceViewToken::new(token, self))
    }

    // ---- of generated positions ----

    /// Traces a generated position.
    ///
    /// Fails with `LineOrder` if the tokens go back in lines, as can happen after a join. For other maps that are not
    /// [sorted](Self::is_sorted), it succeeds with some answer.
    ///
    /// ```
    /// use oxc_sourcemap::{Bias, SourceMap, Traced};
    /// let text = r#"{"version":3,"names":["hi"],"sources":["a.ts"],"mappings":"GAASA,E"}"#;
    /// let map = SourceMap::from_json_string(text)?;
    /// let original = map.trace(0, 4, Bias::Before)?.original().unwrap();
    /// assert_eq!((original.source, original.line(), original.column()), ("a.ts", 0, 9));
    /// assert_eq!((original.name, original.index, original.token.get_dst_col()), (Some("hi"), 0, 3));
    /// assert!(matches!(map.trace(0, 9, Bias::Before)?, Traced::Unmapped(found) if found.index == 1));
    /// assert_eq!(map.trace(0, 0, Bias::Before)?, Traced::Nothing);
    /// assert_eq!(map.trace(0, 0, Bias::Clamped)?.original(), Some(original));
    /// assert_eq!(map.trace(0, 2, Bias::After)?.original(), Some(original));
    /// # Ok::<(), oxc_sourcemap::Error>(())
    /// ```
    pub fn trace(&self, line: u32, column: u32, bias: Bias) -> Result<Traced<'_>> {
        let mut out = std::mem::MaybeUninit::<sys::smap_original>::uninit();
        // SAFETY: the map is live, and the outputs are ours.
        done(|fault| unsafe { sys::smap_trace(self.map.get(), line, column, bias.raw(), out.as_mut_ptr(), fault) })?;
        // SAFETY: a call that is not refused writes the answer, whose texts are borrowed from `self`.
        Ok(unsafe { Traced::of(&out.assume_init()) })
    }

    /// The same for many positions, in any order.
    ///
    /// ```
    /// use oxc_sourcemap::{Bias, SourceMap};
    /// let map = SourceMap::from_json_string(r#"{"version":3,"sources":["a.ts"],"mappings":"AAAA;EACA"}"#)?;
    /// let traced = map.trace_all(&[(1, 4).into(), (0, 0).into()], Bias::Before)?;
    /// let lines: Vec<_> = traced.iter().map(|it| it.original().map(|it| it.line())).collect();
    /// assert_eq!(lines, [Some(1), Some(0)]);
    /// # Ok::<(), oxc_sourcemap::Error>(())
    /// ```
    pub fn trace_all(&self, positions: &[Position], bias: Bias) -> Result<Vec<Traced<'_>>> {
        let (len, mut out) = (positions.len(), Vec::<sys::smap_original>::new());
        out.try_reserve_exact(len).map_err(|_| Error::OutOfMemory)?;
        // SAFETY: the map is live, pointers and lengths are those of live lists, and positions have the layout of the library's.
        done(|fault| unsafe {
            let at = positions.as_ptr().cast();
            sys::smap_trace_all(self.map.get(), at, len, bias.raw(), out.as_mut_ptr(), len, fault)
        })?;
        // SAFETY: a call that is not refused writes as many answers as there are positions.
        unsafe { out.set_len(len) };
        // SAFETY: the call wrote these answers, whose texts are borrowed from `self`.
        Ok(out.iter().map(|raw| unsafe { Traced::of(raw) }).collect())
    }

    /// For each of many positions, in any order, the index of the token that answers for it.
    ///
    /// ```
    /// use oxc_sourcemap::{Bias, SourceMap};
    /// let map = SourceMap::from_json_string(r#"{"version":3,"sources":["a.ts"],"mappings":"AAAA;EACA"}"#)?;
    /// assert_eq!(map.find_all(&[(1, 4).into(), (1, 1).into()], Bias::Before)?, [Some(1), None]);
    /// # Ok::<(), oxc_sourcemap::Error>(())
    /// ```
    pub fn find_all(&self, positions: &[Position], bias: Bias) -> Result<Vec<Option<u32>>> {
        let mut out = vec![0; positions.len()];
        self.find_all_into(positions, bias, &mut out)?;
        Ok(out.into_iter().map(id).collect())
    }

    /// The same into a given list, where `u32::MAX` stands for none. Fails with `Lengths` if the list has not as many entries as there are
    /// positions, then as [`trace`](Self::trace) does, even without positions.
    pub fn find_all_into(&self, positions: &[Position], bias: Bias, out: &mut [u32]) -> Result<()> {
        // SAFETY: the map is live, pointers and lengths are those of live lists, and positions have the layout of the library's.
        done(|fault| unsafe {
            let at = positions.as_ptr().cast();
            sys::smap_find_all(self.map.get(), at, positions.len(), bias.raw(), out.as_mut_ptr(), out.len(), fault)
        })?;
        Ok(())
    }

    /// The pieces of a range of generated code, in order: each reaches as far as one token answers, by [`Bias::Before`]. A range
    /// that ends at or before its beginning has none.
    ///
    /// ```
    /// use oxc_sourcemap::{Position, SourceMap};
    /// let map = SourceMap::from_json_string(r#"{"version":3,"sources":["a.ts"],"mappings":"EAAA,IAAC"}"#)?;
    /// let pieces: Vec<_> = map.pieces(Position::new(0, 1), Position::new(0, 9))
    ///     .iter()
    ///     .map(|piece| (piece.begin.column, piece.end.column, piece.index))
    ///     .collect();
    /// assert_eq!(pieces, [(1, 2, None), (2, 6, Some(0)), (6, 9, Some(1))]);
    /// # Ok::<(), oxc_sourcemap::Error>(())
    /// ```
    pub fn pieces(&self, begin: Position, end: Position) -> Vec<Piece> {
        // SAFETY: the map is live, and there is room for as many entries as is said.
        let pieces = listed(|at: *mut sys::smap_piece, len, count| unsafe {
            sys::smap_pieces(self.map.get(), begin.raw(), end.raw(), at, len, count)
        });
        let piece = |piece: sys::smap_piece| Piece {
            begin: Position::of(piece.begin),
            end: Position::of(piece.end),
            index: id(piece.index),
        };
        expected(pieces.map_err(Error::from)).into_iter().map(piece).collect()
    }

    /// The first generated position that this map and another trace differently, by texts and not by ids.
    ///
    /// ```
    /// use oxc_sourcemap::{Position, SourceMap};
    /// let map = SourceMap::from_json_string(r#"{"version":3,"sources":["a.ts"],"mappings":"AAAA,IAAC"}"#)?;
    /// let other = SourceMap::from_json_string(r#"{"version":3,"sources":["a.ts"],"mappings":"AAAA,GAAC"}"#)?;
    /// assert_eq!(map.first_difference(&other), Some(Position::new(0, 3)));
    /// assert_eq!(map.first_difference(&map.clone()), None);
    /// # Ok::<(), oxc_sourcemap::Error>(())
    /// ```
    pub fn first_difference(&self, other: &SourceMap<'_>) -> Option<Position> {
        let mut out = sys::smap_position::default();
        // SAFETY: both maps are live, and the output is ours.
        let code = unsafe { sys::smap_first_difference(self.map.get(), other.map.get(), &mut out) };
        (code == sys::SMAP_OK).then(|| Position::of(out))
    }

    // ---- of original positions ----

    /// Makes the index by original positions, if there is none. It takes 4 bytes a token. [`sort`](Self::sort) and
    /// [`simplify`](Self::simplify) drop it. Fails with `TooLarge` or `OutOfMemory`.
    pub fn index_sources(&mut self) -> Result<()> {
        // SAFETY: the map is live and used by nobody else, and the fault is ours.
        Ok(done(|fault| unsafe { sys::smap_index_sources(self.map.get_mut(), fault) })?)
    }

    /// The first token in the order of the map that answers for an original position. Fails with `NoIndex` if
    /// [`index_sources`](Self::index_sources) was not called.
    ///
    /// ```
    /// use oxc_sourcemap::{Direction, SourceMap};
    /// let mut map = SourceMap::from_json_string(r#"{"version":3,"sources":["a.ts"],"mappings":"AAAI;EAAA,IAAI"}"#)?;
    /// map.index_sources()?;
    /// let found = map.generated(0, 0, 6, Direction::For)?.unwrap();
    /// assert_eq!((found.index, found.token.get_dst_line()), (0, 0));
    /// assert_eq!(map.all_generated(0, 0, 6, Direction::For)?, [0, 1]);
    /// assert_eq!(map.generated(0, 1, 0, Direction::For)?, None);
    /// # Ok::<(), oxc_sourcemap::Error>(())
    /// ```
    pub fn generated(&self, source_id: u32, line: u32, column: u32, direction: Direction) -> Result<Option<Found>> {
        let (mut index, mut token) = (0, sys::smap_token::default());
        // SAFETY: the map is live, and the outputs are ours.
        let found = done(|_| unsafe {
            sys::smap_generated(self.map.get(), source_id, line, column, direction.raw(), &mut index, &mut token)
        });
        match found {
            Ok(()) => Ok(Some(Found { index, token: Token::of(token) })),
            Err(told) if told.0.code == sys::SMAP_NO_ENTRY => Ok(None),
            Err(told) => Err(told.into()),
        }
    }

    /// The indices of all tokens that answer, in the order of the map. Fails as [`generated`](Self::generated) does.
    pub fn all_generated(&self, source_id: u32, line: u32, column: u32, direction: Direction) -> Result<Vec<u32>> {
        // SAFETY: the map is live, and there is room for as many entries as is said.
        Ok(listed(|at, len, count| unsafe {
            sys::smap_all_generated(self.map.get(), source_id, line, column, direction.raw(), at, len, count)
        })?)
    }
}

#[cfg(test)]
mod tests {
    use super::*;

    // A table of the map is the library's, and one of another map is read as it is.
    #[test]
    fn only_whole_lines_of_the_list_of_a_map_are_its_own() {
        let token = |line, col| Token::new(line, col, 0, 0, None, None);
        let tokens = [token(0, 1), token(2, 0), token(2, 4), token(3, 0)];
        let map = SourceMap::new(None, vec![], None, vec![], vec![], Box::new(tokens), None);
        let other = map.clone();
        let (table, others) = (map.generate_lookup_table(), other.generate_lookup_table());
        let own = |line: u32| map.is_own_line(table[line as usize], line);
        assert_eq!([own(0), own(1), own(2), own(3)], [true, false, true, true]);
        assert!(!map.is_own_line(others[2], 2) && !map.is_own_line(table[2], 3));
        assert!(!map.is_own_line(&map.tokens()[1..2], 2) && !map.is_own_line(&map.tokens()[2..3], 2));
        assert!(!map.is_own_line(&map.tokens()[1..4], 2) && !map.is_own_line(&tokens[1..3], 2));
    }

    #[test]
    fn a_line_is_searched_as_the_library_does() {
        let columns = [2, 2, 5, 7, 7, 7];
        let tokens: Vec<_> = (0..6).map(|i| Token::new(0, columns[i as usize], i, 0, Some(0), None)).collect();
        let map = SourceMap::new(None, vec![], None, vec!["a".into()], vec![], tokens.clone().into(), None);
        for bias in [Bias::Before, Bias::Clamped] {
            for col in 0..9 {
                let index = map.find_all(&[Position::new(0, col)], bias).unwrap()[0];
                assert_eq!(token_on(&tokens, col, bias), index.map(|it| tokens[it as usize]), "{col}");
            }
        }
    }
}
