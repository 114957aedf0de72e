//! Maps of maps: compositions, remappings, joins and plans.

use oxc_sourcemap_sys as sys;

use crate::SourceMap;
use crate::error::{Fault, Result};
use crate::raw::{expected, made, texts};
use crate::token::Position;

impl SourceMap<'_> {
    /// Composes this map, from generated to intermediate code, with `input`, from intermediate to original code.
    ///
    /// Generated positions, file and debug id are those of this map; original positions, source root, sources, contents and ignore
    /// list those of `input`. A name of `input` comes before one of this map. A position before the first token of its line
    /// in `input` traces to that token.
    ///
    /// ```
    /// use oxc_sourcemap::SourceMap;
    /// let minified = SourceMap::from_json_string(r#"{"version":3,"sources":["a.js"],"mappings":"AACA"}"#)?;
    /// let compiled = SourceMap::from_json_string(r#"{"version":3,"sources":["a.ts"],"mappings":";AAEA"}"#)?;
    /// assert_eq!(minified.compose(compiled).to_json().mappings, "AAEA");
    /// # Ok::<(), oxc_sourcemap::Error>(())
    /// ```
    ///
    /// # Panics
    ///
    /// Where [`try_compose`](Self::try_compose) fails.
    #[track_caller]
    pub fn compose<'input>(self, input: SourceMap<'input>) -> SourceMap<'input> {
        expected(self.try_compose(&input))
    }

    /// The same, of maps that stay. Fails with `SeveralSources` if this map has more than one, with `LineOrder` if tokens of `input`
    /// go back in lines, with `TooLarge`, or with `OutOfMemory`.
    pub fn try_compose(&self, input: &SourceMap<'_>) -> Result<SourceMap<'static>> {
        // SAFETY: both maps are live, and the outputs are ours.
        let map = made(|out, fault| unsafe { sys::smap_compose(self.map.get(), input.map.get(), out, fault) })?;
        Ok(SourceMap::of(map))
    }

    /// Traces this map through the maps of its sources: each input is a path, byte for byte as this map has it, and the map of that source;
    /// of equal paths the first counts. Sources without an input stay. All source roots are dropped, unless `apply_source_root`
    /// was called before.
    ///
    /// Fails with `InputLineOrder`, `TooLarge` or `OutOfMemory`.
    ///
    /// ```
    /// use oxc_sourcemap::SourceMap;
    /// let bundle = SourceMap::from_json_string(r#"{"version":3,"sources":["a.js","b.js"],"mappings":"AAAA;ACCA"}"#)?;
    /// let compiled = SourceMap::from_json_string(r#"{"version":3,"sources":["b.ts"],"mappings":";AAEA"}"#)?;
    /// let map = bundle.remap([("b.js", &compiled)])?;
    /// assert_eq!(map.get_sources().collect::<Vec<_>>(), ["a.js", "b.ts"]);
    /// # Ok::<(), oxc_sourcemap::Error>(())
    /// ```
    pub fn remap<'i>(
        &self,
        inputs: impl IntoIterator<Item = (&'i str, &'i SourceMap<'i>)>,
    ) -> Result<SourceMap<'static>> {
        let (paths, maps): (Vec<_>, Vec<_>) = inputs.into_iter().map(|(path, map)| (path, map.map.get())).unzip();
        let paths = texts(paths.into_iter().map(Some));
        // SAFETY: the maps and the texts are borrowed from the caller, pointers and lengths are those of live lists, and the
        // outputs are ours.
        let map = made(|out, fault| unsafe {
            let (at, len) = (paths.as_ptr(), paths.len());
            sys::smap_remap(self.map.get(), at, len, maps.as_ptr(), maps.len(), out, fault)
        })?;
        Ok(SourceMap::of(map))
    }

    /// Joins maps, each at the position of the joined code where its code begins. Source roots are dropped, unless
    /// [`apply_source_root`](Self::apply_source_root) was called before.
    ///
    /// Fails with `TooLarge` or `OutOfMemory`.
    ///
    /// ```
    /// use oxc_sourcemap::{Bias, Position, SourceMap};
    /// let map = SourceMap::from_json_string(r#"{"version":3,"sources":["a.ts"],"mappings":"AAAA"}"#)?;
    /// let joined = SourceMap::join([(&map, Position::new(0, 0)), (&map, Position::new(7, 2))])?;
    /// assert_eq!(joined.trace(7, 2, Bias::Before)?.original().unwrap().token.get_source_id(), Some(1));
    /// # Ok::<(), oxc_sourcemap::Error>(())
    /// ```
    pub fn join<'i>(maps: impl IntoIterator<Item = (&'i SourceMap<'i>, Position)>) -> Result<SourceMap<'static>> {
        let (maps, positions): (Vec<_>, Vec<_>) =
            maps.into_iter().map(|(map, position)| (map.map.get(), position.raw())).unzip();
        // SAFETY: the maps are borrowed from the caller, pointers and lengths are those of live lists, and the outputs are ours.
        let map = made(|out, fault| unsafe {
            sys::smap_join_all(maps.as_ptr(), maps.len(), positions.as_ptr(), positions.len(), out, fault)
        })?;
        Ok(SourceMap::of(map))
    }

    /// Evaluates a plan: words over JSON texts. `@K` reads text K (from 0), `sort @K` reads it and sorts its tokens, `rewrite P`
    /// writes and reads again, `root P` puts the source root before the sources, `simplify P` drops what lookups do not need,
    /// `join N` joins N times `P LINE`, `joinat N` joins N times `P LINE COLUMN`, `compose P P` composes, `remap P N` remaps by N
    /// times `PATH P`.
    ///
    /// Fails with `Words`, `NoText` or `TooDeep`, or with the first error of a step, of which `Unsorted` is one.
    ///
    /// ```
    /// use oxc_sourcemap::{Error, SourceMap};
    /// let text = r#"{"version":3,"sources":["a.ts"],"mappings":"AAAA"}"#;
    /// let map = SourceMap::evaluate(&["join", "2", "@0", "0", "@0", "5"], &[text])?;
    /// assert_eq!(map.get_mappings().unwrap(), "AAAA;;;;;ACAA");
    /// let fault = SourceMap::evaluate(&["compose", "@0", "@1"], &[text, "{"]).unwrap_err();
    /// assert_eq!(fault.place().unwrap().text, Some(1));
    /// # Ok::<(), oxc_sourcemap::Fault>(())
    /// ```
    pub fn evaluate(words: &[impl AsRef<str>], json: &[impl AsRef<str>]) -> Result<SourceMap<'static>, Fault> {
        let words = texts(words.iter().map(|word| Some(word.as_ref())));
        let json = texts(json.iter().map(|text| Some(text.as_ref())));
        // SAFETY: the texts are borrowed from the caller, pointers and lengths are those of live lists, and the outputs are ours.
        let map = made(|out, fault| unsafe {
            sys::smap_evaluate(words.as_ptr(), words.len(), json.as_ptr(), json.len(), out, fault)
        })?;
        Ok(SourceMap::of(map))
    }
}
