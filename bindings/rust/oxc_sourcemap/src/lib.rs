//! Source maps of version 3 (ECMA-426), by the proved library `oxc_sourcemap`.
//!
//! This crate has the names and signatures of the crate `oxc_sourcemap` 9.0.0, which it can replace (see README.md), and besides them
//! the other calls of the library. Reading, writing, lookups, joins and compositions are the library's, which is proved to
//! meet its contracts; the code here holds handles and converts, and is tested. `docs/DIFFERENCES.md` of the repository lists where the two
//! crates differ.
//!
//! ```
//! use oxc_sourcemap::{ConcatSourceMapBuilder, SourceMap, SourceMapBuilder};
//!
//! let mut builder = SourceMapBuilder::default();
//! let source = builder.add_source_and_content("a.ts", "let hi;");
//! let name = builder.add_name("hi");
//! builder.add_token(0, 3, 0, 4, Some(source), Some(name));
//! let module = builder.into_sourcemap();
//!
//! let bundle = ConcatSourceMapBuilder::from_sourcemaps(&[(&module, 0), (&module, 5)]).into_sourcemap();
//! let table = bundle.generate_lookup_table();
//! assert_eq!(bundle.lookup_source_view_token(&table, 5, 3).unwrap().get_name(), Some("hi"));
//! assert_eq!(bundle.to_json().mappings, "GAAIA;;;;;GCAAC");
//! ```
//!
//! Lines, columns, ids and indices count from 0; columns are in UTF-16 code units.
#![deny(missing_docs, unsafe_op_in_unsafe_fn)]
#![warn(clippy::undocumented_unsafe_blocks)]

mod compiled;
mod concat_sourcemap_builder;
mod error;
mod found;
mod json;
#[cfg(doctest)]
mod lifetimes;
#[cfg(doctest)]
#[doc = include_str!("../README.md")]
mod readme {}
mod lookup;
mod maps;
mod owned_sourcemap;
mod raw;
pub mod resolver;
mod scopes;
mod sourcemap;
mod sourcemap_builder;
mod sourcemap_visualizer;
mod texts;
mod token;

#[cfg(unix)]
pub use compiled::CompiledFile;
pub use compiled::{CompiledMap, compile};
pub use concat_sourcemap_builder::ConcatSourceMapBuilder;
pub use error::{CompiledError, Error, Fault, Field, JsonFault, Place, Result, ScopesFault, ScopesFaultKind, Spot};
pub use found::{Mend, MendKind};
pub use json::JSONSourceMap;
pub use lookup::{Bias, Direction, Found, Original, Piece, Traced};
pub use owned_sourcemap::OwnedSourceMap;
pub use scopes::{CallSite, Frames, GeneratedRange, OriginalScope, ScopeChainEntry, ScopeFrame, Scopes};
pub use sourcemap::{Counts, SourceMap, SourceMapParts};
pub use sourcemap_builder::SourceMapBuilder;
pub use sourcemap_visualizer::SourcemapVisualizer;
pub use texts::{
    Language, decode_data_url, decode_mappings, encode_mappings, encode_mappings_within, library_version,
    source_mapping_url,
};
pub use token::{Position, SourceViewToken, Token, TokenChunk};
