//! The fields of a JSON map.

use std::borrow::Cow;

use crate::error::{Error, JsonFault, Result};
use crate::raw::expected;
use crate::texts::decode_mappings;
use crate::{SourceMap, SourceMapParts};

/// The fields of a JSON map, with its mappings as a text.
#[derive(Clone, Debug, PartialEq, Eq)]
pub struct JSONSourceMap {
    /// The version, which is 3.
    pub version: u32,
    /// The name of the generated file.
    pub file: Option<String>,
    /// The tokens, as a text.
    pub mappings: String,
    /// What stands before all sources.
    pub source_root: Option<String>,
    /// The sources that the mappings point to.
    pub sources: Vec<String>,
    /// Their contents, where they are known.
    pub sources_content: Option<Vec<Option<String>>>,
    /// The names that the mappings point to.
    pub names: Vec<String>,
    /// The debug id.
    pub debug_id: Option<String>,
    /// The ids of the sources that debuggers may skip.
    pub ignore_list: Option<Vec<u32>>,
}

fn owned<'a>(text: String) -> Cow<'a, str> {
    Cow::Owned(text)
}

impl<'a> SourceMap<'a> {
    /// The map of these fields.
    ///
    /// Fails with `BadJson(Version)` if the version is not 3, then with `BadSourceReference` for the first entry of the ignore list
    /// that is out of range, then with the first fault of the mappings.
    ///
    /// ```
    /// use oxc_sourcemap::{Error, JSONSourceMap, SourceMap};
    /// let json = SourceMap::from_json_string(r#"{"version":3,"sources":["a.ts"],"mappings":"AAAA"}"#)?.to_json();
    /// assert_eq!(SourceMap::from_json(json.clone())?.get_source(0), Some("a.ts"));
    /// let bad = JSONSourceMap { ignore_list: Some(vec![3]), ..json };
    /// assert_eq!(SourceMap::from_json(bad).unwrap_err(), Error::BadSourceReference(3));
    /// # Ok::<(), oxc_sourcemap::Error>(())
    /// ```
    pub fn from_json(value: JSONSourceMap) -> Result<SourceMap<'static>> {
        if value.version != 3 {
            return Err(Error::BadJson(JsonFault::Version(value.version)));
        }
        let bad_id = value.ignore_list.iter().flatten().find(|id| **id as usize >= value.sources.len());
        if let Some(id) = bad_id {
            return Err(Error::BadSourceReference(*id));
        }
        let tokens = decode_mappings(&value.mappings, value.names.len(), value.sources.len())?;
        SourceMap::try_from_parts(SourceMapParts {
            file: value.file.map(owned),
            names: value.names.into_iter().map(owned).collect(),
            source_root: value.source_root.map(owned),
            sources: value.sources.into_iter().map(owned).collect(),
            source_contents: value.sources_content.into_iter().flatten().map(|content| content.map(owned)).collect(),
            tokens,
            token_chunks: None,
            ignore_list: value.ignore_list,
            debug_id: value.debug_id.map(owned),
        })
    }

    /// The fields of this map, which are copied.
    ///
    /// # Panics
    ///
    /// Where [`try_to_json`](Self::try_to_json) fails.
    #[track_caller]
    pub fn to_json(&self) -> JSONSourceMap {
        expected(self.try_to_json())
    }

    /// The same. Fails as [`try_to_json_string`](Self::try_to_json_string) does.
    pub fn try_to_json(&self) -> Result<JSONSourceMap> {
        let mappings = self.get_mappings()?;
        let contents: Vec<_> = self.get_source_contents().map(|content| content.map(str::to_owned)).collect();
        Ok(JSONSourceMap {
            version: 3,
            file: self.get_file().map(str::to_owned),
            mappings,
            source_root: self.get_source_root().map(str::to_owned),
            sources: self.get_sources().map(str::to_owned).collect(),
            sources_content: contents.iter().any(Option::is_some).then_some(contents),
            names: self.get_names().map(str::to_owned).collect(),
            debug_id: self.get_debug_id().map(str::to_owned),
            ignore_list: self.get_ignore_list().map(<[u32]>::to_vec),
        })
    }
}
