//! A code and its map, drawn.

use oxc_sourcemap_sys as sys;

use crate::SourceMap;
use crate::error::Result;
use crate::raw::{expected, made_text};

/// Draws a code beside its map.
///
/// ```
/// use oxc_sourcemap::{SourceMap, SourcemapVisualizer};
/// let text = r#"{"version":3,"sources":["a.ts"],"sourcesContent":["hi;\n"],"mappings":"AAAA"}"#;
/// let map = SourceMap::from_json_string(text)?;
/// let visualizer = SourcemapVisualizer::new("hi", &map);
/// assert_eq!(visualizer.get_text(), "- a.ts\n(0:0) \"hi;\\n\" --> (0:0) \"hi\"\n");
/// # Ok::<(), oxc_sourcemap::Error>(())
/// ```
#[derive(Debug)]
pub struct SourcemapVisualizer<'a, 'sm> {
    code: &'a str,
    sourcemap: &'a SourceMap<'sm>,
}

impl<'a, 'sm> SourcemapVisualizer<'a, 'sm> {
    /// A code and its map.
    pub fn new(code: &'a str, sourcemap: &'a SourceMap<'sm>) -> Self {
        SourcemapVisualizer { code, sourcemap }
    }

    /// A link to a page that shows both.
    ///
    /// # Panics
    ///
    /// Where [`try_get_url`](Self::try_get_url) fails.
    #[track_caller]
    pub fn get_url(&self) -> String {
        expected(self.try_get_url())
    }

    /// The same. Fails as [`SourceMap::try_to_json_string`] does.
    pub fn try_get_url(&self) -> Result<String> {
        let (at, len) = (self.code.as_ptr().cast(), self.code.len());
        // SAFETY: the map is live, pointer and length are those of a live text, and the outputs are ours.
        Ok(made_text(|out, fault| unsafe { sys::smap_visualizer_url(self.sourcemap.map.get(), at, len, out, fault) })?)
    }

    /// The pieces of the code beside those of its sources, token by token.
    pub fn get_text(&self) -> String {
        expected(self.try_get_text())
    }

    /// The same. Fails with `OutOfMemory`.
    pub fn try_get_text(&self) -> Result<String> {
        let (at, len) = (self.code.as_ptr().cast(), self.code.len());
        // SAFETY: the map is live, pointer and length are those of a live text, and the outputs are ours.
        Ok(made_text(|out, fault| unsafe { sys::smap_visualize(self.sourcemap.map.get(), at, len, out, fault) })?)
    }
}
