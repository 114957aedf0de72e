//! The public behaviour of the crate. Expected values are those that the crate `oxc_sourcemap` 9.0.0 states in its tests, rows of
//! docs/FORMAT.md worked by hand, or answers of tests/reference/peer.py, which shares no code with the library.

mod builders;
mod compiled;
mod compositions;
mod drawing;
mod examples;
mod faults;
mod found;
mod joins;
mod lookups;
mod maps;
mod reading;
mod scopes;
mod threads;
mod writing;

use oxc_sourcemap::{SourceMap, SourceMapParts, Token};

/// The numbers of a token: generated line and column, source line and column, source id, name id.
type Row = (u32, u32, u32, u32, Option<u32>, Option<u32>);

fn token((dst_line, dst_col, src_line, src_col, source, name): Row) -> Token {
    Token::new(dst_line, dst_col, src_line, src_col, source, name)
}

fn tokens(rows: &[Row]) -> Box<[Token]> {
    rows.iter().copied().map(token).collect()
}

/// A map of these names, sources and tokens.
fn map_of(names: &[&'static str], sources: &[&'static str], rows: &[Row]) -> SourceMap<'static> {
    SourceMap::from_parts(SourceMapParts {
        names: names.iter().map(|name| (*name).into()).collect(),
        sources: sources.iter().map(|source| (*source).into()).collect(),
        tokens: tokens(rows),
        ..SourceMapParts::default()
    })
}

fn read(json: &str) -> SourceMap<'_> {
    SourceMap::from_json_string(json).unwrap()
}

/// The JSON text of a map with these members beside its version.
fn json(members: &str) -> String {
    format!(r#"{{"version":3,{members}}}"#)
}
