//! Scopes: the functions of sources, the frames of calls that were inlined, and the values of variables.

use std::fmt;

use oxc_sourcemap_sys as sys;

use crate::error::{Error, Result};
use crate::raw::{Owned, Told, expected, listed, made};
use crate::token::{Position, id};

/// The scopes of a map, its member `scopes`: for each source a tree of its functions and blocks, and for the generated code a tree of
/// ranges, each with the scope that it is the code of. Names and kinds are ids of names of the map. Lines and columns count from 0,
/// columns in UTF-16 code units.
///
/// ```
/// use oxc_sourcemap::{Scopes, SourceMap};
/// let json = r#"{"version":3,"sources":["a.js"],"names":["f","g"],"mappings":"AAAA",
///     "scopes":"BFAAA,BFCAC,CCA,CFA,EGAA,ECKC,IAFC,FK,FU"}"#;
/// let (map, scopes) = (SourceMap::from_json_string(json)?, Scopes::read(json.as_bytes())?);
///
/// // Column 12 is code of g, which was inlined into f where that calls it.
/// let frames = scopes.frames_at(0, 12)?.frames;
/// let names: Vec<_> = frames.iter().map(|frame| map.get_name(frame.name.unwrap()).unwrap()).collect();
/// assert_eq!(names, ["g", "f"]);
/// let call = frames[1].call_site.unwrap();
/// assert_eq!((call.source, call.line, call.column), (0, 5, 2));
/// # Ok::<(), oxc_sourcemap::Error>(())
/// ```
pub struct Scopes {
    scopes: Owned<sys::smap_scopes>,
}

/// A scope of a source: a function, a block, a class or the like.
#[derive(Clone, Copy, Debug, PartialEq, Eq, Hash)]
#[non_exhaustive]
pub struct OriginalScope {
    /// The id of the source.
    pub source: u32,
    /// Where it begins.
    pub start: Position,
    /// The first position after it.
    pub end: Position,
    /// The id of its name.
    pub name: Option<u32>,
    /// The id of the name that is its kind, as `function`.
    pub kind: Option<u32>,
    /// Whether a call of it makes a frame, as of a function.
    pub is_stack_frame: bool,
    /// The index of the innermost scope around it.
    pub parent: Option<u32>,
}

/// A range of the generated code.
#[derive(Clone, Copy, Debug, PartialEq, Eq, Hash)]
#[non_exhaustive]
pub struct GeneratedRange {
    /// Where it begins.
    pub start: Position,
    /// The first position after it.
    pub end: Position,
    /// The index of the scope that it is the code of.
    pub definition: Option<u32>,
    /// Whether a call of it makes a frame.
    pub is_stack_frame: bool,
    /// Whether it has no frame in the source, as a helper.
    pub is_hidden: bool,
    /// Where it was called, if a function was inlined here.
    pub call_site: Option<CallSite>,
    /// The index of the innermost range around it.
    pub parent: Option<u32>,
}

/// Where in a source a function was called.
#[derive(Clone, Copy, Debug, PartialEq, Eq, Hash)]
#[allow(missing_docs)]
pub struct CallSite {
    pub source: u32,
    pub line: u32,
    pub column: u32,
}

/// A frame of a stack trace in the source.
#[derive(Clone, Copy, Debug, PartialEq, Eq, Hash)]
#[non_exhaustive]
pub struct ScopeFrame {
    /// The id of the name of its function.
    pub name: Option<u32>,
    /// The index of the scope that is the function.
    pub scope: Option<u32>,
    /// Where the frame is: the call of a function that was inlined. None for the first frame, which is at the position of
    /// [`SourceMap::trace`](crate::SourceMap::trace).
    pub call_site: Option<CallSite>,
}

/// The frames of the source that a frame of a stack trace stands for.
#[derive(Clone, Debug, Default, PartialEq, Eq, Hash)]
#[non_exhaustive]
pub struct Frames {
    /// From the inside out.
    pub frames: Vec<ScopeFrame>,
    /// Whether the source has no such frame, as where a helper was made. A trace leaves it out.
    pub is_hidden: bool,
}

/// A scope that a position of the generated code is in.
#[derive(Clone, Copy, Debug, PartialEq, Eq, Hash)]
#[non_exhaustive]
pub struct ScopeChainEntry {
    /// The index of the scope.
    pub scope: u32,
    /// The index of the innermost range there that is the code of it, which has the values of its variables.
    pub range: Option<u32>,
}

impl Scopes {
    /// Reads the scopes of a map by its JSON text, of which nothing else is checked. A map without the member, or with null, has the
    /// scopes of no source.
    ///
    /// Fails with `NotUtf8`, `BadJson`, [`Error::ScopesIndexed`], [`Error::ScopesNotText`], [`Error::BadScopes`] or `OutOfMemory`.
    ///
    /// ```
    /// use oxc_sourcemap::{Error, Scopes};
    /// assert_eq!(Scopes::read(br#"{"scopes":"A,BCCDA,CAG","names":["block"]}"#)?.source_count(), 2);
    /// assert_eq!(Scopes::read(b"{}")?.source_count(), 0);
    /// assert_eq!(Scopes::read(br#"{"scopes":7}"#).unwrap_err(), Error::ScopesNotText);
    /// # Ok::<(), Error>(())
    /// ```
    ///
    /// [`Error::ScopesIndexed`]: crate::Error::ScopesIndexed
    /// [`Error::ScopesNotText`]: crate::Error::ScopesNotText
    /// [`Error::BadScopes`]: crate::Error::BadScopes
    pub fn read(json: &[u8]) -> Result<Scopes> {
        // SAFETY: pointer and length are those of a live text, and the outputs are ours.
        let scopes = made(|out, fault| unsafe { sys::smap_read_scopes(json.as_ptr().cast(), json.len(), out, fault) })?;
        Ok(Scopes { scopes })
    }

    /// Reads the member alone, of a map with so many names.
    ///
    /// Fails with [`Error::BadScopes`](crate::Error::BadScopes) or `OutOfMemory`.
    ///
    /// ```
    /// use oxc_sourcemap::{Error, Scopes, ScopesFaultKind};
    /// assert_eq!(Scopes::decode("BBAAC,CAA", 2)?.get_scope(0).unwrap().name, Some(1));
    /// let Error::BadScopes(fault) = Scopes::decode("A,BBAAC,CAA", 1).unwrap_err() else { unreachable!() };
    /// assert_eq!((fault.kind, fault.byte), (ScopesFaultKind::BadIndex, 2));
    /// # Ok::<(), Error>(())
    /// ```
    pub fn decode(text: &str, names: usize) -> Result<Scopes> {
        // SAFETY: pointer and length are those of a live text, and the outputs are ours.
        let scopes =
            made(|out, fault| unsafe { sys::smap_decode_scopes(text.as_ptr().cast(), text.len(), names, out, fault) })?;
        Ok(Scopes { scopes })
    }

    fn counts(&self) -> sys::smap_scopes_counts {
        let mut counts = sys::smap_scopes_counts::default();
        // SAFETY: the scopes are live, and the output is ours.
        unsafe { sys::smap_scopes_get_counts(self.scopes.get(), &mut counts) };
        counts
    }

    /// How many sources have a tree of scopes, or none.
    pub fn source_count(&self) -> usize {
        self.counts().sources as usize
    }

    /// How many scopes there are, of all sources.
    pub fn scope_count(&self) -> usize {
        self.counts().scopes as usize
    }

    /// How many ranges there are.
    pub fn range_count(&self) -> usize {
        self.counts().ranges as usize
    }

    /// A scope by its index, in the order of their starts, those of one source after those of another.
    pub fn get_scope(&self, index: u32) -> Option<OriginalScope> {
        let mut scope = sys::smap_scope::default();
        // SAFETY: the scopes are live, and the output is ours.
        let code = unsafe { sys::smap_get_scope(self.scopes.get(), index, &mut scope) };
        (code == sys::SMAP_OK).then(|| OriginalScope {
            source: scope.source,
            start: Position::of(scope.start),
            end: Position::of(scope.end),
            name: id(scope.name),
            kind: id(scope.kind),
            is_stack_frame: scope.is_stack_frame == 1,
            parent: id(scope.parent),
        })
    }

    /// A range by its index, in the order of their starts.
    pub fn get_range(&self, index: u32) -> Option<GeneratedRange> {
        let mut range = sys::smap_range::default();
        // SAFETY: the scopes are live, and the output is ours.
        let code = unsafe { sys::smap_get_range(self.scopes.get(), index, &mut range) };
        (code == sys::SMAP_OK).then(|| GeneratedRange {
            start: Position::of(range.start),
            end: Position::of(range.end),
            definition: id(range.definition),
            is_stack_frame: range.is_stack_frame == 1,
            is_hidden: range.is_hidden == 1,
            call_site: CallSite::of(range.call),
            parent: id(range.parent),
        })
    }

    /// All scopes, by their indices.
    ///
    /// ```
    /// use oxc_sourcemap::Scopes;
    /// let scopes = Scopes::decode("BFAAA,BAAC,CBA,CJA", 1)?;
    /// assert!(scopes.get_scopes().map(|scope| scope.parent).eq([None, Some(0)]));
    /// # Ok::<(), oxc_sourcemap::Error>(())
    /// ```
    pub fn get_scopes(&self) -> impl ExactSizeIterator<Item = OriginalScope> + '_ {
        (0..self.counts().scopes as u32).map(|index| self.get_scope(index).expect("there are so many"))
    }

    /// All ranges, by their indices.
    pub fn get_ranges(&self) -> impl ExactSizeIterator<Item = GeneratedRange> + '_ {
        (0..self.counts().ranges as u32).map(|index| self.get_range(index).expect("there are so many"))
    }

    /// The index of the innermost scope at a position of a source.
    ///
    /// ```
    /// use oxc_sourcemap::Scopes;
    /// let scopes = Scopes::decode("BFAAA,BABA,CBA,CBA", 1)?;
    /// assert_eq!((scopes.scope_at(0, 1, 4), scopes.function_at(0, 1, 4)), (Some(1), Some(0)));
    /// assert_eq!(scopes.scope_at(0, 3, 0), None);
    /// # Ok::<(), oxc_sourcemap::Error>(())
    /// ```
    pub fn scope_at(&self, source: u32, line: u32, column: u32) -> Option<u32> {
        let mut index = 0;
        // SAFETY: the scopes are live, and the output is ours.
        let code = unsafe { sys::smap_scope_at(self.scopes.get(), source, line, column, &mut index) };
        (code == sys::SMAP_OK).then_some(index)
    }

    /// The index of the innermost scope there that is a function.
    pub fn function_at(&self, source: u32, line: u32, column: u32) -> Option<u32> {
        let mut index = 0;
        // SAFETY: the scopes are live, and the output is ours.
        let code = unsafe { sys::smap_function_at(self.scopes.get(), source, line, column, &mut index) };
        (code == sys::SMAP_OK).then_some(index)
    }

    /// The index of the innermost range at a position of the generated code.
    pub fn range_at(&self, line: u32, column: u32) -> Option<u32> {
        let mut index = 0;
        // SAFETY: the scopes are live, and the output is ours.
        let code = unsafe { sys::smap_range_at(self.scopes.get(), line, column, &mut index) };
        (code == sys::SMAP_OK).then_some(index)
    }

    /// The frames of the source that a frame of a stack trace at this position of the generated code stands for: none, and so no frame
    /// 0, where no range contains the position. Fails with `OutOfMemory`.
    ///
    /// ```
    /// use oxc_sourcemap::Scopes;
    /// // a helper, from 3:2 to 5:7
    /// let scopes = Scopes::decode("ENDC,FCH", 0)?;
    /// assert!(scopes.frames_at(4, 0)?.is_hidden);
    /// assert!(scopes.frames_at(6, 0)?.frames.is_empty());
    /// # Ok::<(), oxc_sourcemap::Error>(())
    /// ```
    pub fn frames_at(&self, line: u32, column: u32) -> Result<Frames> {
        let mut is_hidden = 0;
        let frames = listed(|out, len, count| {
            // SAFETY: the scopes are live, there is room for so many frames, and the outputs are ours.
            unsafe { sys::smap_frames_at(self.scopes.get(), line, column, out, len, count, &mut is_hidden) }
        })?;
        Ok(Frames { frames: frames.into_iter().map(ScopeFrame::of).collect(), is_hidden: is_hidden == 1 })
    }

    /// The variables of a scope, by its index, as ids of names.
    pub fn get_variables(&self, scope: u32) -> Option<Vec<u32>> {
        self.get_scope(scope)?;
        let variables = listed(|out, len, count| {
            // SAFETY: the scopes are live, there is room for so many ids, and the outputs are ours.
            unsafe { sys::smap_get_variables(self.scopes.get(), scope, out, len, count) }
        });
        Some(expected(variables.map_err(Error::from)))
    }

    /// The value of a variable, by its place in [`get_variables`](Scopes::get_variables), in a range of the code of its scope, at a
    /// position in that range: the id of the name that is the expression for it. None if it has no value there, or there is no such
    /// variable or range.
    pub fn value_at(&self, range: u32, variable: u32, line: u32, column: u32) -> Option<u32> {
        let mut name = 0;
        // SAFETY: the scopes are live, and the output is ours.
        let code = unsafe { sys::smap_value_at(self.scopes.get(), range, variable, line, column, &mut name) };
        if code == sys::SMAP_OK { id(name) } else { None }
    }

    /// The scopes that a position of the generated code is in, from the inside out: the scope whose code the innermost range is, and
    /// those around it. The list is empty where no range contains the position (there [`scope_chain`](Scopes::scope_chain) is None, as
    /// there is no frame), or that range has no scope. Fails with `OutOfMemory`.
    ///
    /// ```
    /// use oxc_sourcemap::Scopes;
    /// // a function f with a variable a, whose value in its code is x
    /// let names = ["f", "a", "x"];
    /// let scopes = Scopes::decode("BFAAA,DC,CJA,EGAA,GD,FU", names.len())?;
    /// for entry in scopes.scope_chain_at(0, 4)? {
    ///     let variable = scopes.get_variables(entry.scope).unwrap()[0];
    ///     let value = scopes.value_at(entry.range.unwrap(), 0, 0, 4).unwrap();
    ///     assert_eq!((names[variable as usize], names[value as usize]), ("a", "x"));
    /// }
    /// # Ok::<(), oxc_sourcemap::Error>(())
    /// ```
    pub fn scope_chain_at(&self, line: u32, column: u32) -> Result<Vec<ScopeChainEntry>> {
        chain(listed(|out, len, count| {
            // SAFETY: the scopes are live, there is room for so many entries, and the outputs are ours.
            unsafe { sys::smap_scope_chain_at(self.scopes.get(), line, column, out, len, count) }
        }))
    }

    /// The scopes that a frame of the source is in, by its index in [`frames_at`](Scopes::frames_at): of frame 0 those of
    /// [`scope_chain_at`](Scopes::scope_chain_at), of an inlined call those at its place, with the ranges around the inlined body. None
    /// past the last frame, so for frame 0 too where no range contains the position. Fails with `OutOfMemory`.
    ///
    /// ```
    /// use oxc_sourcemap::Scopes;
    /// // a function f with a variable a, inlined into itself at columns 10 to 20: there a is y, and where that was called x
    /// let names = ["f", "a", "x", "y"];
    /// let scopes = Scopes::decode("BFAAA,DC,CJA,EGAA,GD,ECKA,GE,IABB,FK,FU", names.len())?;
    /// let mut values = Vec::new();
    /// for frame in 0..scopes.frames_at(0, 15)?.frames.len() as u32 {
    ///     let entry = scopes.scope_chain(frame, 0, 15)?.unwrap()[0];
    ///     values.push(names[scopes.value_at(entry.range.unwrap(), 0, 0, 15).unwrap() as usize]);
    /// }
    /// assert_eq!(values, ["y", "x"]);
    /// // no range contains this position, so that there is no frame 0
    /// assert_eq!((scopes.scope_chain(0, 9, 0)?, scopes.scope_chain_at(9, 0)?), (None, vec![]));
    /// # Ok::<(), oxc_sourcemap::Error>(())
    /// ```
    pub fn scope_chain(&self, frame: u32, line: u32, column: u32) -> Result<Option<Vec<ScopeChainEntry>>> {
        let entries = listed(|out, len, count| {
            // SAFETY: the scopes are live, there is room for so many entries, and the outputs are ours.
            unsafe { sys::smap_scope_chain(self.scopes.get(), frame, line, column, out, len, count) }
        });
        match entries {
            Err(told) if told.0.code == sys::SMAP_NO_ENTRY => Ok(None),
            entries => chain(entries).map(Some),
        }
    }
}

/// The entries that a call listed.
fn chain(listed: Result<Vec<sys::smap_chain_entry>, Told>) -> Result<Vec<ScopeChainEntry>> {
    let entries = listed?.into_iter();
    Ok(entries.map(|entry| ScopeChainEntry { scope: entry.scope, range: id(entry.range) }).collect())
}

impl CallSite {
    fn of(call: sys::smap_call) -> Option<CallSite> {
        id(call.source).map(|source| CallSite { source, line: call.line, column: call.column })
    }
}

impl ScopeFrame {
    fn of(frame: sys::smap_frame) -> ScopeFrame {
        ScopeFrame { name: id(frame.name), scope: id(frame.scope), call_site: CallSite::of(frame.call) }
    }
}

impl fmt::Debug for Scopes {
    fn fmt(&self, f: &mut fmt::Formatter<'_>) -> fmt::Result {
        f.debug_struct("Scopes")
            .field("sources", &self.source_count())
            .field("scopes", &self.scope_count())
            .field("ranges", &self.range_count())
            .finish_non_exhaustive()
    }
}
