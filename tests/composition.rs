//! Composition of maps, plain and owned.
use crate::helpers::{has_text, has_tokens_of, same};
use crate::rows::{Row, map_of};
use oxc_sourcemap::{Error, OwnedSourceMap, Result, SourceMap};
use std::alloc::Global;
use std::process::Abort;

/// A map from generated to intermediate code, a map from there to other intermediate code, and one from there to original code.
const FIRST: &str = r#"{"version":3,"names":["p"],"sources":["m"],"mappings":"AAACA"}"#;
const SECOND: &str = r#"{"version":3,"names":["q"],"sources":["n"],"mappings":"AAAE,KAAFA"}"#;
const THIRD: &str = r#"{"version":3,"names":["r"],"sources":["o1","o2"],"mappings":"ACOO"}"#;

/// The JSON texts of two maps, and of what they compose to, or why they do not.
type Composition = (&'static str, &'static str, Result<&'static str>);

#[rattlefmt::skip]
const COMPOSITIONS: &[Composition] = &[
    // A position in front of all tokens of its line.
    (r#"{"version":3,"sources":["m"],"mappings":"AAAE"}"#,
     r#"{"version":3,"sources":["o"],"mappings":"KAEC"}"#,
     Ok(r#"{"version":3,"names":[],"sources":["o"],"mappings":"AAEC"}"#)),
    (r#"{"version":3,"sources":["m","n"],"mappings":""}"#,
     r#"{"version":3,"sources":[],"mappings":""}"#,
     Err(Error::SeveralSources(2))),
    // The name of the second map, and that of the first one where the second one has none.
    (r#"{"version":3,"names":["x"],"sources":["m"],"mappings":"AAAAA,GAASA"}"#,
     r#"{"version":3,"names":["y"],"sources":["o"],"mappings":"AAIIA,QACC"}"#,
     Ok(r#"{"version":3,"names":["y","x"],"sources":["o"],"mappings":"AAIIA,GACCC"}"#)),
    (FIRST,
     SECOND,
     Ok(r#"{"version":3,"names":["q","p"],"sources":["n"],"mappings":"AAAEC"}"#)),
    // A name that is there already, and one that is added once.
    (r#"{"version":3,"names":["x","y"],"sources":["m"],"mappings":"AAAAA,GAASC,GAAAD"}"#,
     r#"{"version":3,"names":["y"],"sources":["o"],"mappings":"AAII"}"#,
     Ok(r#"{"version":3,"names":["y","x"],"sources":["o"],"mappings":"AAIIC,GAAAD,GAAAC"}"#)),
    // An unmapped token, one that leads to an unmapped token, and a mapped one.
    (r#"{"version":3,"names":["x"],"sources":["m"],"mappings":"A,EAAAA,EAAMA"}"#,
     r#"{"version":3,"sources":["o"],"mappings":"A,KAGC"}"#,
     Ok(r#"{"version":3,"names":["x"],"sources":["o"],"mappings":"A,E,EAGCA"}"#)),
    // Lines that have no tokens.
    (r#"{"version":3,"sources":["m"],"mappings":"AACA,IAQA;;AATA"}"#,
     r#"{"version":3,"sources":["o"],"mappings":";AAGC"}"#,
     Ok(r#"{"version":3,"names":[],"sources":["o"],"mappings":"AAGC,I;;A"}"#)),
    // The file and the debug id of the first map, and the ignore list of the second one.
    (r#"{"version":3,"file":"out.js","names":["p"],"sources":["m"],"mappings":"AAACA","debugId":"first"}"#,
     r#"{"version":3,"file":"m.js","names":["q"],"sources":["n"],"ignoreList":[],"mappings":"AAAE,KAAFA","debugId":"second"}"#,
     Ok(r#"{"version":3,"file":"out.js","names":["q","p"],"sources":["n"],"ignoreList":[],"mappings":"AAAEC","debugId":"first"}"#)),
];

fn composed(alloc: Global, first: &str, second: &str) -> Result<SourceMap<'static>> {
    let input = SourceMap::from_json_string(alloc, second)?;
    SourceMap::from_json_string(alloc, first)?.compose(alloc, input)
}

fn owned_composed(alloc: Global, first: &str, second: &str) -> Result<SourceMap<'static>> {
    let input = OwnedSourceMap::from_json_string(alloc, second)?;
    let map = OwnedSourceMap::from_json_string(alloc, first)?;
    Ok(map.compose(alloc, input)?.into_inner())
}

fn is_composed(
    rt: &impl Abort,
    alloc: Global,
    way: &str,
    composed: &Result<SourceMap<'_>>,
    wanted: Result<&str>,
) -> Result<()> {
    has_text(rt, alloc, way, composed, wanted);
    match (composed, wanted) {
        (Ok(map), Ok(text)) => has_tokens_of(rt, alloc, map, text),
        _ => Ok(()),
    }
}

#[test]
fn maps_are_composed(rt: HostRuntime) -> Result<()> {
    for (first, second, wanted) in COMPOSITIONS {
        let plain = composed(rt.alloc(), first, second);
        is_composed(&rt, rt.alloc(), "plain", &plain, *wanted)?;
        let owned = owned_composed(rt.alloc(), first, second);
        is_composed(&rt, rt.alloc(), "owned", &owned, *wanted)?;
    }
    Ok(())
}

/// Composes the first two of three maps first.
fn grouped_left(alloc: Global) -> Result<SourceMap<'static>> {
    let last = SourceMap::from_json_string(alloc, THIRD)?;
    composed(alloc, FIRST, SECOND)?.compose(alloc, last)
}

/// Composes the last two first.
fn grouped_right(alloc: Global) -> Result<SourceMap<'static>> {
    let last_two = composed(alloc, SECOND, THIRD)?;
    SourceMap::from_json_string(alloc, FIRST)?.compose(alloc, last_two)
}

#[rattlefmt::skip]
#[test]
fn three_maps_are_composed_in_either_order(rt: HostRuntime) -> Result<()> {
    is_composed(&rt, rt.alloc(), "left", &grouped_left(rt.alloc()),
        Ok(r#"{"version":3,"names":["r","p"],"sources":["o1","o2"],"mappings":"ACOOC"}"#))?;
    is_composed(&rt, rt.alloc(), "right", &grouped_right(rt.alloc()),
        Ok(r#"{"version":3,"names":["r","q","p"],"sources":["o1","o2"],"mappings":"ACOOE"}"#))
}

/// A map of a token whose name is not there, which no JSON text gives.
fn map_with_a_false_name(alloc: Global) -> Result<SourceMap<'static>> {
    let rows: &[Row] = &[(0, 0, 0, 1, Some(0), Some(5))];
    map_of(alloc, &["p"], &["m"], &[], rows)
}

#[test]
fn a_name_that_is_not_there_is_left_out(rt: HostRuntime) -> Result<()> {
    let input = SourceMap::from_json_string(rt.alloc(), THIRD)?;
    let plain = map_with_a_false_name(rt.alloc())?.compose(rt.alloc(), input);
    is_composed(&rt, rt.alloc(), "plain", &plain, Ok(THIRD))?;
    let input = OwnedSourceMap::from_json_string(rt.alloc(), THIRD)?;
    let map = OwnedSourceMap::new(map_with_a_false_name(rt.alloc())?);
    let owned = Ok(map.compose(rt.alloc(), input)?.into_inner());
    is_composed(&rt, rt.alloc(), "owned", &owned, Ok(THIRD))
}

#[test]
fn lines_that_go_back_are_not_composed(rt: HostRuntime) -> Result<()> {
    let rows = [(1, 0, 0, 0, None, None), (0, 0, 0, 0, None, None)];
    let input = map_of(rt.alloc(), &[], &[], &[], rows.as_slice())?;
    let composed = SourceMap::empty(rt.alloc())?.compose(rt.alloc(), input);
    same(&rt, "plain", composed.err(), Some(Error::LineOrder(1)));
    let input = map_of(rt.alloc(), &[], &[], &[], rows.as_slice())?;
    let composed = OwnedSourceMap::empty(rt.alloc())?.compose(
        rt.alloc(),
        OwnedSourceMap::new(input),
    );
    same(&rt, "owned", composed.err(), Some(Error::LineOrder(1)));
    Ok(())
}

/// Columns that go back.
const BACK: &str = r#"{"version":3,"sources":["o"],"mappings":"GACC,DACC"}"#;

#[test]
fn columns_that_go_back_lead_to_some_token_or_none(rt: HostRuntime) -> Result<()> {
    let map = composed(rt.alloc(), FIRST, BACK)?;
    let token = map.get_token(0).expect(&rt, "a token");
    assert!(rt; token.get_dst_line() == 0 && token.get_dst_col() == 0);
    let (line, col) = (token.get_src_line(), token.get_src_col());
    assert!(rt; (line == 0 || line == 1 || line == 2) && col == line);
    Ok(())
}
